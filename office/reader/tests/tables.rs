//! The stored calls with tables: each line's number is the reader's.

use reader::archive::read_both;
use reader::cutoffs::Cutoffs;
use reader::table_vectors::{self, TableCall, TableInput};
use reader::tries::Call;
use reader::Refusal;

/// What the reader alone refuses a case with.
fn refusal(input: &TableInput) -> Option<Refusal> {
    if let Err(number) = Cutoffs::read(&input.table) {
        return Some(number);
    }
    match input.call {
        TableCall::Satterthwaite => Call::Satterthwaite.verdict(&input.file).err(),
        TableCall::ArchiveTest => read_both(&input.file, &input.tests).err(),
        _ => Call::KenwardRoger.verdict(&input.file).err(),
    }
}

#[test]
fn numbers_of_the_reader() {
    let cases = table_vectors::load();
    let mut refused = 0;
    for case in &cases {
        let number = case.outcome.number;
        match refusal(&case.input) {
            Some(expected) => {
                assert_eq!(number, expected, "line {}", case.line);
                refused += 1;
            }
            None => {
                let late = [4, 9, 10, 11].contains(&number);
                let accepted = case.input.call.written(number).is_some();
                assert!(accepted || late, "line {}: {number}", case.line);
            }
        }
    }
    println!("{} cases, {refused} refused by the reader", cases.len());
}
