//! The four C functions that take a table, by the name of the call.

// No test uses all of it.
#![allow(dead_code)]

use reader::table_vectors::{TableCall, TableInput, TableOutcome};

pub const UNTOUCHED: u8 = 0xa5;

/// The call on lent bytes: the number that it returns.
pub fn fill(input: &TableInput, lent: &mut [u8]) -> u32 {
    fill_parts(input.call, &input.table, &input.file, &input.tests, lent)
}

/// The same with its parts one by one; `tests` is for the archive's test alone.
pub fn fill_parts(
    call: TableCall,
    table: &[u8],
    file: &[u8],
    tests: &[u8],
    lent: &mut [u8],
) -> u32 {
    match call {
        TableCall::KenwardRoger => pull::kenward_roger_with_fill(table, file, lent),
        TableCall::Satterthwaite => pull::satterthwaite_with_fill(table, file, lent),
        TableCall::Archive => pull::archive_with_fill(table, file, lent),
        TableCall::ArchiveTest => pull::archive_test_with_fill(table, file, tests, lent),
    }
}

/// The same call without a table.
pub fn fill_without(input: &TableInput, lent: &mut [u8]) -> u32 {
    match input.call {
        TableCall::KenwardRoger => pull::kenward_roger_fill(&input.file, lent),
        TableCall::Satterthwaite => pull::satterthwaite_fill(&input.file, lent),
        TableCall::Archive => pull::archive_fill(&input.file, lent),
        TableCall::ArchiveTest => pull::archive_test_fill(&input.file, &input.tests, lent),
    }
}

/// What a call does: its number and what it has written. Lent bytes that it must not
/// write, all of them at a refusal, are looked at.
pub fn outcome(input: &TableInput) -> TableOutcome {
    looked_at(input, fill)
}

pub fn outcome_without(input: &TableInput) -> TableOutcome {
    looked_at(input, fill_without)
}

fn looked_at(input: &TableInput, fill: fn(&TableInput, &mut [u8]) -> u32) -> TableOutcome {
    // Canaries on both sides: a call is lent no more than the stated bytes.
    let stated = input.call.lent();
    let mut memory = vec![UNTOUCHED; stated + 64];
    let number = fill(input, &mut memory[32..32 + stated]);
    let written = input.call.written(number).unwrap_or(0);
    let end = 32 + written.min(stated);
    let kept = memory[..32].iter().chain(&memory[end..]).all(|&b| b == UNTOUCHED);
    assert!(kept, "bytes that were to be kept: returned {number} on {}", input.text());
    TableOutcome::of(input.call, number, &memory[32..32 + stated])
}
