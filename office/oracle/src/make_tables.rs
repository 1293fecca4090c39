//! The calls with a table by the oracle, and their cases in the list of calls.

use crate::archive::{archive_test_with_fill, archive_with, archive_with_fill};
use crate::calls::{kenward_roger_with_fill, satterthwaite_with_fill};
use crate::known_tables;
use crate::make_archive::Tally;
use crate::random::{kr_case, satt_case, KR_FAMILIES, MORE_KR_FAMILIES, SATT_FAMILIES, SHUFFLED};
use crate::reader::archive::test_records;
use crate::reader::archive_tries::{random_pair, random_tests, varied};
use crate::reader::cutoffs::Cutoffs;
use crate::reader::table_tries::{damaged_table, random_table};
use crate::reader::table_vectors::{line, TableCall, TableInput, TableOutcome, TABLE_CALLS};
use ::reader::random::Random;

/// Most random files stay below so many bytes, so that the list stays short.
const FILE: usize = 1000;

/// One random case in so many is of any size up to the list's limit.
const ANY_SIZE_ONE_IN: usize = 20;
const LONGEST: usize = 7200;

/// One random case in so many has a damaged table.
const DAMAGED_ONE_IN: usize = 8;

/// In so many tries a table is looked for that changes the answer, and in so many
/// others files for which there is one.
const TRIES: usize = 40;
const FILE_TRIES: usize = 12;

/// The built-in table.
pub fn built_in() -> Vec<u8> {
    Cutoffs::BUILT_IN.to_table()
}

/// A call with a table, by the oracle, on lent bytes.
pub fn fill(input: &TableInput, lent: &mut [u8]) -> u32 {
    let (table, file) = (&input.table, &input.file);
    match input.call {
        TableCall::KenwardRoger => kenward_roger_with_fill(table, file, lent),
        TableCall::Satterthwaite => satterthwaite_with_fill(table, file, lent),
        TableCall::Archive => archive_with_fill(table, file, lent),
        TableCall::ArchiveTest => archive_test_with_fill(table, file, &input.tests, lent),
    }
}

/// What comes of it.
pub fn outcome(input: &TableInput) -> TableOutcome {
    let mut lent = vec![0; input.call.lent()];
    let number = fill(input, &mut lent);
    TableOutcome::of(input.call, number, &lent)
}

/// Whether a table makes another answer of these files than the built-in one.
pub fn changes(input: &TableInput) -> bool {
    outcome(input) != outcome(&input.with_table(&built_in()))
}

/// The families of a call.
pub fn families(call: TableCall) -> Vec<&'static str> {
    let mut out = match call {
        TableCall::Satterthwaite => SATT_FAMILIES.to_vec(),
        _ => [&KR_FAMILIES[..], &MORE_KR_FAMILIES].concat(),
    };
    out.push(SHUFFLED);
    out
}

/// Random files of a call, with the built-in table.
pub fn random_files(r: &mut Random, call: TableCall, family: &str) -> TableInput {
    match call {
        TableCall::Satterthwaite => TableInput::of(call, &built_in(), &satt_case(r, family)),
        TableCall::ArchiveTest => {
            let (archive, tests) = random_archive(r, family);
            TableInput::test(&built_in(), &archive, &tests)
        }
        _ => TableInput::of(call, &built_in(), &kr_case(r, family)),
    }
}

/// The archive of a random series, made with another table still, beside its own
/// second file or another; or any archive. Now and then with damage.
fn random_archive(r: &mut Random, family: &str) -> (Vec<u8>, Vec<u8>) {
    let pair = if r.once_in(4) {
        random_pair(r)
    } else {
        let series = kr_case(r, family);
        let cutoffs = if r.once_in(2) { Cutoffs::BUILT_IN } else { random_table(r).1 };
        match archive_with(&cutoffs, &series) {
            Err(_) => random_pair(r),
            Ok(archive) => {
                let p = series.chunks(16).filter(|b| b[0] == crate::reader::BETA).count();
                let own = !r.once_in(4);
                let tests = if own { test_records(&series) } else { random_tests(r, p) };
                (archive, tests)
            }
        }
    };
    if r.once_in(6) {
        varied(r, pair)
    } else {
        pair
    }
}

/// Random files that are mostly short.
fn short_files(r: &mut Random, call: TableCall, family: &str) -> TableInput {
    let any_size = r.once_in(ANY_SIZE_ONE_IN);
    let most = if any_size { LONGEST } else { FILE };
    loop {
        let files = random_files(r, call, family);
        let written = outcome(&files).written.len();
        if files.file.len() + files.tests.len() + written / 2 <= most {
            return files;
        }
    }
}

/// A random case for the list: mostly short, mostly with a table that changes the
/// answer, now and then with a damaged table.
fn random_case(r: &mut Random, call: TableCall, family: &str) -> TableInput {
    let mut files = short_files(r, call, family);
    if r.once_in(DAMAGED_ONE_IN) {
        return files.with_table(&damaged_table(r).1);
    }
    if r.once_in(4) {
        return files.with_table(&random_table(r).1.to_table());
    }
    for _ in 0..FILE_TRIES {
        for _ in 0..TRIES {
            let case = files.with_table(&random_table(r).1.to_table());
            if changes(&case) {
                return case;
            }
        }
        files = short_files(r, call, family);
    }
    files.with_table(&random_table(r).1.to_table())
}

fn count(tally: &mut Tally, input: &TableInput, outcome: &TableOutcome) {
    let call = input.call.word();
    let accepted = input.call.written(outcome.number).is_some();
    let name = match accepted {
        false => format!("{call} refused {}", outcome.number),
        true if changes(input) => format!("{call} accepted, not as with the built-in table"),
        true => format!("{call} accepted, as with the built-in table"),
    };
    *tally.entry(name).or_default() += 1;
}

/// The cases with a table: so many random ones behind those made by hand, the calls in turn.
/// What they hold.
pub fn with_tables(seed: u64, cases: usize) -> (String, Tally) {
    let by_hand = known_tables::cases().into_iter().map(|(_, input, _)| input);
    let at_random = (0..cases).map(|i| {
        let mut random = Random::new(seed.wrapping_mul(1009).wrapping_add(i as u64));
        let call = TABLE_CALLS[i % 4];
        let families = families(call);
        random_case(&mut random, call, families[i / 4 % families.len()])
    });
    let (mut text, mut tally) = (String::new(), Tally::new());
    for input in by_hand.chain(at_random) {
        let outcome = outcome(&input);
        count(&mut tally, &input, &outcome);
        text += &line(&input, &outcome);
    }
    (text, tally)
}
