//! Tests from an archive, later and without the specimens.
//!
//!     cargo run --offline --release -p pull --example archive_test -- ARCHIVE TESTS [TABLE]
//!
//! ARCHIVE is a file that `archive` wrote, TESTS one with β, a contrast and
//! hypothesis values (the kinds 8 to 10): the series' own, as `archive` writes
//! them, or another question. TABLE is a file with a lab's own cutoffs: that of the
//! archive, for the direct call's answer. It prints the table that `judge` prints. It ends
//! with status 0 on an answer, 1 on a refusal, 2 where a file cannot be read.

mod table;

use std::process::ExitCode;
use table::{answer, bytes, cutoffs, failed};

fn main() -> ExitCode {
    let names: Vec<String> = std::env::args().skip(1).collect();
    let [archive, tests, table @ ..] = names.as_slice() else {
        eprintln!("archive_test ARCHIVE TESTS [TABLE]");
        return ExitCode::from(2);
    };
    let table = table.first().map(String::as_str);
    let cutoffs = match cutoffs(table) {
        Ok(Ok(cutoffs)) => cutoffs,
        Ok(Err(refusal)) => return answer(Err(refusal)),
        Err(error) => return failed(table, error),
    };
    let mut files = Vec::new();
    for name in [archive, tests] {
        match bytes(Some(name)) {
            Ok(file) => files.push(file),
            Err(error) => return failed(Some(name), error),
        }
    }
    answer(pull::archive_test_with(&cutoffs, &files[0], &files[1]))
}
