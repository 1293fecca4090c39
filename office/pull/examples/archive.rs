//! Archives a series, and tests from the archive.
//!
//!     cargo run --offline --release -p pull --example archive -- FILE [ARCHIVE [TESTS [TABLE]]]
//!
//! It prints the adjusted matrices in response units, then the table of the test
//! from the archive with the series' own β and contrast, which is the one that
//! `judge` prints for the series. ARCHIVE is where the archive is written, and
//! TESTS where the series' β, contrast and hypothesis values are: what
//! `archive_test` asks for later. TABLE is a file with a lab's own cutoffs, for the
//! archive and for the test; without it the built-in ones hold. `-` is the standard input; without a FILE it
//! takes document 01's example. It ends with status 0 on an answer, 1 on a
//! refusal, 2 where a file cannot be read or written.

mod table;

use std::process::ExitCode;
use table::{answer, bytes, cutoffs, failed, number};

fn main() -> ExitCode {
    let names: Vec<String> = std::env::args().skip(1).collect();
    let name = names.first().map(String::as_str);
    let table = names.get(3).map(String::as_str);
    let cutoffs = match cutoffs(table) {
        Ok(Ok(cutoffs)) => cutoffs,
        Ok(Err(refusal)) => return answer(Err(refusal)),
        Err(error) => return failed(table, error),
    };
    let series = match bytes(name) {
        Ok(file) => file,
        Err(error) => return failed(name, error),
    };
    let archive = match pull::archive_with(&cutoffs, &series) {
        Ok(archive) => archive,
        Err(refusal) => return answer(Err(refusal)),
    };
    let tests = pull::test_records(&series);
    // Both files are kept before anything is tested: a series that only a test
    // refuses is archived too.
    for (to, file) in names.iter().skip(1).zip([&archive, &tests]) {
        if let Err(error) = std::fs::write(to, file) {
            return failed(Some(to), error);
        }
    }
    println!("{}", matrices(&archive));
    answer(pull::archive_test_with(&cutoffs, &archive, &tests))
}

/// The kinds 11 to 14, one cell to a line.
fn matrices(archive: &[u8]) -> String {
    let mut out = format!("{:<8} {:>3} {:>6} {:>16}\n", "matrix", "row", "column", "value");
    for record in archive.chunks(16) {
        let name = match record[0] {
            11 => "Φ".to_string(),
            12 => "Φ_A".to_string(),
            // The count numbers it; it is below 4, so its lowest byte tells it.
            13 => format!("P {}", record[4]),
            14 => "W".to_string(),
            _ => continue,
        };
        let bits = u64::from_le_bytes(record[8..].try_into().expect("eight bytes"));
        let value = number(Some(f64::from_bits(bits)));
        out += &format!("{name:<8} {:>3} {:>6} {value:>16}\n", record[1], record[2]);
    }
    out
}
