//! Demand 3 through the C functions: a series that is inside keeps its
//! verdict, bit for bit, in every unit of document 01's shifts, and of all that
//! an inside mark covers; and the mark means something, since there are series
//! outside whose verdict changes.
//!
//! The series are the stored vectors, those with some of their values replaced
//! by random ones or with torn specimens, and random small files. The same again with
//! a table for each series, of every sort, which stays where the unit changes.

use reader::random::Random;
use reader::shift::Shift;
use reader::table_tries::random_table;
use reader::torn::{with_torn, Torn};
use reader::tries::{Call, Tries};
use reader::vectors::{self, hex};
use reader::{Record, BLOCK};

/// Shifts of inside series, at least, for each call.
const INSIDE: usize = 20_000;
/// Of these with torn specimens, at least; the Satterthwaite call has none.
const TORN: usize = 4_000;
/// The same with tables.
const INSIDE_WITH: usize = 10_000;
const TORN_WITH: usize = 1_500;
/// Shifts of each stored vector as it is.
const EACH: usize = 4;

struct Function {
    call: Call,
    vectors: &'static str,
    /// With a table first, which a call without one passes over.
    fill: fn(&[u8], &[u8], &mut [u8]) -> u32,
    answer_length: usize,
    /// Whether the tables are random ones.
    tables: bool,
}

/// What has been seen.
#[derive(Default)]
struct Seen {
    inside: usize,
    /// Inside series that are inside in the other unit too.
    both: usize,
    /// Inside series with torn specimens.
    torn: usize,
    outside: usize,
    outside_changed: usize,
    /// Inside series by the bytes of their file, in steps of 640.
    lengths: [usize; 16],
    /// The shortest file of a series outside that changed.
    example: Option<(Vec<u8>, Shift)>,
}

impl Function {
    /// The answer bytes, or the number of the refusal.
    fn answer(&self, table: &[u8], file: &[u8]) -> Result<Vec<u8>, u32> {
        let mut answer = vec![0; self.answer_length];
        match (self.fill)(table, file, &mut answer) {
            0 => Ok(answer),
            number => Err(number),
        }
    }

    /// One series in one other unit.
    fn shifted(&self, file: &[u8], random: &mut Random, seen: &mut Seen) {
        let table = if self.tables { random_table(random).1.to_table() } else { Vec::new() };
        let Ok(before) = self.answer(&table, file) else {
            return;
        };
        let shift =
            if random.once_in(2) { Shift::random(random) } else { Shift::borne(random, self.call) };
        let Some(other) = shift.apply(self.call, file) else {
            // A value that the other unit has no number for is out of range itself.
            let files = format!("{} with {}", hex(file), hex(&table));
            assert!(!inside(&before), "{shift:?} of {files}: no such file");
            return;
        };
        let after = self.answer(&table, &other);
        let same = after.as_deref().map(verdict) == Ok(verdict(&before));
        if inside(&before) {
            let files = format!("{} with {}", hex(file), hex(&table));
            assert!(same, "{shift:?} of {files}: {before:02x?}, then {after:02x?}");
            seen.inside += 1;
            seen.torn += usize::from(Torn::of(file).is_some());
            seen.both += usize::from(after.is_ok_and(|a| inside(&a)));
            seen.lengths[(file.len() / 640).min(15)] += 1;
        } else {
            seen.outside += 1;
            seen.outside_changed += usize::from(!same);
            let shorter = seen.example.as_ref().is_none_or(|(f, _)| file.len() < f.len());
            if !same && shorter {
                seen.example = Some((file.to_vec(), shift));
            }
        }
    }

    fn run(&self) {
        let mut random = Random::new(3);
        let mut seen = Seen::default();
        let stored = vectors::load(self.vectors);
        for case in &stored {
            for _ in 0..EACH {
                self.shifted(&case.file, &mut random, &mut seen);
            }
        }
        let tries = Tries::new(self.call);
        let (least, torn) = if self.tables { (INSIDE_WITH, TORN_WITH) } else { (INSIDE, TORN) };
        while seen.inside < least {
            let stored = &stored[random.below(stored.len())].file;
            let file = match random.below(8) {
                0..=3 => varied(&mut random, stored),
                4 if self.call == Call::KenwardRoger => with_torn(&mut random, stored),
                _ => tries.file(&mut random),
            };
            self.shifted(&file, &mut random, &mut seen);
        }
        println!(
            "{:?}{}: {} shifts of inside series, no verdict changed, {} inside in both units;",
            self.call,
            if self.tables { " with tables" } else { "" },
            seen.inside,
            seen.both
        );
        println!("  {} of them with torn specimens;", seen.torn);
        println!("  by the length of the file, in steps of 40 records: {:?};", seen.lengths);
        println!("  {} of series outside, {} verdicts changed", seen.outside, seen.outside_changed);
        let (file, shift) = seen.example.expect("a verdict of a series outside changes");
        println!("  the shortest of these: {shift:?} of {}", hex(&file));
        let changed = if self.tables { 10 } else { 20 };
        assert!(seen.outside_changed >= changed, "the mark means little");
        assert!(self.call == Call::Satterthwaite || seen.torn >= torn, "{} torn", seen.torn);
    }
}

/// The entries that are used: those with a rank.
fn used(answer: &[u8]) -> impl Iterator<Item = &[u8]> {
    answer.chunks(pull::ENTRY_BYTES).filter(|entry| entry[16] > 0)
}

/// Whether the run is inside: each of its tests.
fn inside(answer: &[u8]) -> bool {
    used(answer).all(|entry| entry[19] == 1)
}

/// The answer without the marks: F, df and rank of each entry.
fn verdict(answer: &[u8]) -> Vec<u8> {
    let mut out = answer.to_vec();
    out.chunks_mut(pull::ENTRY_BYTES).for_each(|entry| entry[19] = 0);
    out
}

/// A stored series with some of its values replaced: small ones, any digits,
/// now and then of another magnitude.
fn varied(random: &mut Random, file: &[u8]) -> Vec<u8> {
    let once_in = 2 + random.below(16);
    let mut out = file.to_vec();
    for chunk in out.chunks_exact_mut(16) {
        let mut record = Record::from_bytes(chunk);
        if record.kind == BLOCK || !random.once_in(once_in) {
            continue;
        }
        let old = f64::from_bits(record.bits);
        let new = match random.below(8) {
            0 => random.small(),
            1 => old * 2f64.powi(random.between(-300, 300) as i32),
            2 | 3 => random.positive(),
            _ => old * (1.0 + 0.1 * random.real()),
        };
        record.bits = new.to_bits();
        chunk.copy_from_slice(&record.to_bytes());
    }
    out
}

/// The Kenward–Roger call, by this function.
fn kenward_roger_by(fill: fn(&[u8], &[u8], &mut [u8]) -> u32, tables: bool) -> Function {
    let answer_length = pull::KENWARD_ROGER_BYTES;
    let (call, vectors) = (Call::KenwardRoger, vectors::KENWARD_ROGER);
    Function { call, vectors, fill, answer_length, tables }
}

fn satterthwaite_by(fill: fn(&[u8], &[u8], &mut [u8]) -> u32, tables: bool) -> Function {
    let answer_length = pull::ENTRY_BYTES;
    let (call, vectors) = (Call::Satterthwaite, vectors::SATTERTHWAITE);
    Function { call, vectors, fill, answer_length, tables }
}

#[test]
fn kenward_roger() {
    kenward_roger_by(|_, file, answer| pull::kenward_roger_fill(file, answer), false).run();
}

#[test]
fn satterthwaite() {
    satterthwaite_by(|_, file, answer| pull::satterthwaite_fill(file, answer), false).run();
}

#[test]
fn kenward_roger_with_tables() {
    kenward_roger_by(pull::kenward_roger_with_fill, true).run();
}

#[test]
fn satterthwaite_with_tables() {
    satterthwaite_by(pull::satterthwaite_with_fill, true).run();
}
