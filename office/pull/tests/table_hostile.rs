//! Random bytes as tables, with random and damaged files, through the four C functions
//! that take a table, between fenced pages and canary bytes.
//!
//! The number must be that of the independent reader: 1, then 14, then what the files
//! are refused with. A refusal must leave the lent bytes as they were, and an answer
//! must have the form of one.

mod fence;
mod form;
mod with_table;

use fence::Fenced;
use reader::archive::{read_archive, read_both, test_records};
use reader::archive_tries::ArchiveTries;
use reader::cutoffs::Cutoffs;
use reader::random::Random;
use reader::table_tries::any_table;
use reader::table_vectors::{TableCall, TableInput};
use reader::tries::{Call, Tries};
use reader::Refusal;
use std::collections::BTreeMap;
use with_table::{fill_parts, outcome};

const CALLS: u64 = 200_000;

/// What the reader says of the files: which entries are used, or the refusal.
fn verdict(input: &TableInput) -> Result<[bool; 7], Refusal> {
    let used = |coefficients: usize, contrast: bool| {
        let mut out = [false; 7];
        out[..coefficients].fill(true);
        out[6] = contrast;
        out
    };
    match input.call {
        TableCall::Satterthwaite => Call::Satterthwaite.verdict(&input.file).map(|_| [true; 7]),
        TableCall::ArchiveTest => read_both(&input.file, &input.tests)
            .map(|(archive, tests)| used(archive.coefficients(), tests.contrast.is_some())),
        _ => Call::KenwardRoger
            .verdict(&input.file)
            .map(|shape| used(shape.coefficients, shape.contrast)),
    }
}

/// What may still refuse files that the reader accepts.
fn later(call: TableCall) -> &'static [Refusal] {
    match call {
        TableCall::Satterthwaite => Call::Satterthwaite.later_refusals(),
        TableCall::ArchiveTest => &[10],
        _ => Call::KenwardRoger.later_refusals(),
    }
}

/// The makers of files.
struct Makers {
    kenward_roger: Tries,
    satterthwaite: Tries,
    archives: ArchiveTries,
}

impl Makers {
    fn new() -> Makers {
        Makers {
            kenward_roger: Tries::new(Call::KenwardRoger),
            satterthwaite: Tries::new(Call::Satterthwaite),
            archives: ArchiveTries::new(),
        }
    }

    fn input(&self, random: &mut Random, call: TableCall) -> TableInput {
        let table = any_table(random);
        match call {
            TableCall::Satterthwaite => {
                TableInput::of(call, &table, &self.satterthwaite.file(random))
            }
            TableCall::ArchiveTest => {
                let (archive, tests) = self.archives.pair(random);
                TableInput::test(&table, &archive, &tests)
            }
            _ => TableInput::of(call, &table, &self.kenward_roger.file(random)),
        }
    }
}

/// A lent piece of memory with these bytes in it.
fn lent(memory: &mut Fenced, bytes: &[u8], front: bool, canary: u8) -> &'static mut [u8] {
    let lent = memory.lend(bytes.len(), front, canary);
    lent.copy_from_slice(bytes);
    lent
}

/// What a call between the fences has done.
struct Called {
    number: u32,
    /// The bytes that were lent, afterwards, and what they held before.
    answer: &'static [u8],
    before: u8,
    /// Whether the files and the canaries are as they were.
    kept: bool,
}

/// One call between the fences, mostly with the stated bytes lent.
fn called(input: &TableInput, random: &mut Random, memory: &mut [Fenced; 4]) -> Called {
    let stated = input.call.lent();
    let length = if random.once_in(24) { random.below(2 * stated) } else { stated };
    let (canary, before) = (random.bits() as u8, random.bits() as u8);
    let ends = random.below(16);
    let table = lent(&mut memory[0], &input.table, ends & 1 == 0, canary);
    let file = lent(&mut memory[1], &input.file, ends & 2 == 0, canary);
    let tests = lent(&mut memory[2], &input.tests, ends & 4 == 0, canary);
    let answer = lent(&mut memory[3], &vec![before; length], ends & 8 == 0, canary);

    let number = fill_parts(input.call, table, file, tests, answer);

    let same = table == input.table && file == input.file && tests == input.tests;
    let kept = same && memory.iter().all(Fenced::whole);
    Called { number, answer, before, kept }
}

impl Called {
    /// What is wrong with it.
    fn check(&self, input: &TableInput) -> Result<(), String> {
        if !self.kept {
            return Err("a file or a canary byte was changed".to_string());
        }
        let (call, number) = (input.call, self.number);
        let stated = self.answer.len() == call.lent();
        let written = call.written(number).filter(|_| stated);
        let verdict = verdict(input);
        let expected = match (&Cutoffs::read(&input.table), &verdict) {
            _ if !stated => number == 1,
            (Err(refusal), _) | (_, Err(refusal)) => number == *refusal,
            (Ok(_), Ok(_)) => written.is_some() || later(call).contains(&number),
        };
        if !expected {
            return Err(format!("the reader says {:?}", verdict.err()));
        }
        let (answer, rest) = self.answer.split_at(written.unwrap_or(0));
        if rest.iter().any(|&b| b != self.before) {
            return Err("bytes that are not the answer's were written".to_string());
        }
        match (written, verdict) {
            (Some(_), Ok(_)) if call == TableCall::Archive => archive_holds(input, answer),
            (Some(_), Ok(used)) => form::check(answer, |i| used[i]),
            _ => Ok(()),
        }
    }
}

/// One call, looked at; the number that it returned.
fn one(input: &TableInput, random: &mut Random, memory: &mut [Fenced; 4]) -> Result<u32, String> {
    let called = called(input, random, memory);
    let text = |what: String| {
        let (number, length) = (called.number, called.answer.len());
        format!("{what}; returned {number}, {length} bytes lent, {}", input.text())
    };
    called.check(input).map(|()| called.number).map_err(text)
}

/// An archive reads and writes back, and with the same table tests as the series.
fn archive_holds(input: &TableInput, archive: &[u8]) -> Result<(), String> {
    if read_archive(archive).map(|a| a.to_bytes()).as_deref() != Ok(archive) {
        return Err("no archive".to_string());
    }
    let test = TableInput::test(&input.table, archive, &test_records(&input.file));
    let direct = TableInput { call: TableCall::KenwardRoger, ..input.clone() };
    if outcome(&test) != outcome(&direct) {
        return Err("the test from the archive is not the direct call's".to_string());
    }
    Ok(())
}

fn run(call: TableCall, numbers: &[u32]) {
    let makers = Makers::new();
    let mut memory = [Fenced::new(), Fenced::new(), Fenced::new(), Fenced::new()];
    let mut tally: BTreeMap<u32, u64> = BTreeMap::new();
    for seed in 0..CALLS {
        let mut random = Random::new(seed);
        let input = makers.input(&mut random, call);
        let number = one(&input, &mut random, &mut memory)
            .unwrap_or_else(|text| panic!("{call:?}, seed {seed}: {text}"));
        let accepted = call.written(number).is_some() && number != 1;
        *tally.entry(if accepted { 0 } else { number }).or_default() += 1;
    }
    println!("{call:?} with tables: {CALLS} calls, by number (0: accepted): {tally:?}");
    for number in numbers {
        let met = tally.get(number).copied().unwrap_or(0);
        assert!(met >= 20, "{number} was met {met} times: {tally:?}");
    }
}

#[test]
fn kenward_roger() {
    run(TableCall::KenwardRoger, &[0, 1, 2, 3, 4, 5, 6, 7, 8, 9, 10, 12, 13, 14]);
}

#[test]
fn satterthwaite() {
    run(TableCall::Satterthwaite, &[0, 1, 2, 4, 11, 12, 14]);
}

#[test]
fn archive() {
    run(TableCall::Archive, &[0, 1, 2, 3, 4, 5, 6, 7, 8, 9, 12, 13, 14]);
}

#[test]
fn archive_test() {
    run(TableCall::ArchiveTest, &[0, 1, 2, 4, 5, 8, 10, 12, 14]);
}
