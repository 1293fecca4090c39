//! Judges a record file and prints a table.
//!
//!     cargo run --offline --release -p pull --example judge -- FILE [TABLE]
//!
//! `-` is the standard input; without a FILE it judges document 01's example.
//! TABLE is a file with a lab's own cutoffs; without it the built-in ones hold.
//! It ends with status 0 on an answer, 1 on a refusal, 2 where a file cannot
//! be read.

mod table;

use std::process::ExitCode;
use table::{answer, bytes, cutoffs, failed};

fn main() -> ExitCode {
    let names: Vec<String> = std::env::args().skip(1).collect();
    let (name, table) = (names.first().map(String::as_str), names.get(1).map(String::as_str));
    let cutoffs = match cutoffs(table) {
        Ok(Ok(cutoffs)) => cutoffs,
        Ok(Err(refusal)) => return answer(Err(refusal)),
        Err(error) => return failed(table, error),
    };
    match bytes(name) {
        Ok(file) => answer(pull::kenward_roger_with(&cutoffs, &file)),
        Err(error) => failed(name, error),
    }
}
