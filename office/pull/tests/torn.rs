//! Torn specimens through the C functions: a weight of zero, of either sign, says
//! that the specimen is absent (document 02, "Req 03").
//!
//! What is asked: the answer is that of the file without the torn specimens'
//! records, numbered anew, byte for byte, and so is the archive; nothing that a
//! torn row holds is seen, as long as it is finite; and the refusals stand in their
//! places. The file without them is made by `reader::torn::shortened`, record by
//! record.
//!
//! What each test counted: `-- --nocapture`.

mod lent;

use lent::{archived, direct, UNTOUCHED};
use pull::example::{block, record};
use pull::{archive_test_fill, test_records, Refusal};
use pull::{ARCHIVE_BYTES, KENWARD_ROGER_BYTES, SHORTEST_ARCHIVE};
use reader::random::Random;
use reader::torn::{shortened, with_torn, Torn};
use reader::tries::{Call, Tries};
use reader::vectors::{self, hex};

/// Random files.
const FILES: u64 = 200_000;

/// The test from an archive.
fn tested(archive: &[u8], tests: &[u8]) -> (u32, [u8; KENWARD_ROGER_BYTES]) {
    let mut answer = [UNTOUCHED; KENWARD_ROGER_BYTES];
    (archive_test_fill(archive, tests, &mut answer), answer)
}

/// What has been seen.
#[derive(Debug, Default)]
struct Seen {
    /// Of files that the reader accepts.
    answered: usize,
    refused: usize,
    /// With a column of Z whose only records were torn specimens'.
    column_lost: usize,
    archived: usize,
    /// Refused: torn specimens alone, and a torn row that is not finite.
    all: usize,
    not_finite: usize,
}

impl Seen {
    /// One file, if it has torn specimens. Where the reader refuses it both calls
    /// do, and write nothing.
    fn add_if_torn(&mut self, file: &[u8]) {
        let Some(torn) = Torn::of(file) else { return };
        match Call::KenwardRoger.verdict(file) {
            Ok(_) => self.add(file, &torn),
            Err(number) => {
                assert_eq!(direct(file), (number, [UNTOUCHED; KENWARD_ROGER_BYTES]));
                assert_eq!(archived(file), (number, vec![UNTOUCHED; ARCHIVE_BYTES]));
                self.all += usize::from(number == 3 && torn.all);
                self.not_finite += usize::from(number == 4 && torn.not_finite);
            }
        }
    }

    /// One file with torn specimens that the reader accepts: by the direct call,
    /// by the writer and by the test from the archive it is the file without
    /// them.
    fn add(&mut self, file: &[u8], torn: &Torn) {
        let short = shortened(file);
        assert_eq!(Torn::of(&short), None);
        let (number, answer) = direct(file);
        let later = Call::KenwardRoger.later_refusals();
        assert!(number == 0 || later.contains(&number), "refused {number}: {}", hex(file));
        assert_eq!((number, answer), direct(&short), "{}", hex(file));
        let (length, lent) = archived(file);
        assert_eq!((length, &lent), (archived(&short).0, &archived(&short).1), "{}", hex(file));
        if length as usize >= SHORTEST_ARCHIVE {
            let test = tested(&lent[..length as usize], &test_records(file));
            assert_eq!(test, (number, answer), "{}", hex(file));
            self.archived += 1;
        }
        self.answered += usize::from(number == 0);
        self.refused += usize::from(number != 0);
        self.column_lost += usize::from(torn.column_lost);
    }
}

/// The stored series with torn specimens, and every stored series after some of its
/// specimens were torn.
#[test]
fn stored_series() {
    let mut random = Random::new(5);
    let (mut stored, mut torn_here) = (Seen::default(), Seen::default());
    for name in [vectors::KENWARD_ROGER, vectors::ARCHIVE] {
        for case in vectors::load(name) {
            stored.add_if_torn(&case.file);
            for _ in 0..4 {
                torn_here.add_if_torn(&with_torn(&mut random, &case.file));
            }
        }
    }
    println!("stored: {stored:?}; torn here: {torn_here:?}");
    assert!(stored.answered > 100 && stored.column_lost > 20 && stored.archived > 100);
    assert!(torn_here.answered > 1000 && torn_here.archived > 1000);
}

/// Small random and damaged files.
#[test]
fn random_series() {
    let tries = Tries::new(Call::KenwardRoger);
    let mut seen = Seen::default();
    for seed in 0..FILES {
        seen.add_if_torn(&tries.file(&mut Random::new(seed)));
    }
    println!("{seen:?}");
    assert!(seen.answered > 2_000 && seen.all > 1_000 && seen.not_finite > 200);
}

/// No finite number in a torn row is seen.
#[test]
fn torn_rows_do_not_matter() {
    let expected = direct(&pull::example::records());
    assert_eq!(expected.0, 0);
    for value in [0.0, -0.0, 1.0, f64::MAX, -f64::MAX, f64::from_bits(1), 1e-300, f64::EPSILON] {
        for zero in [0.0, -0.0] {
            for place in 0..3 {
                assert_eq!(direct(&torn_at(place, value, zero)), expected, "{value} at {place}");
            }
        }
    }
    assert_eq!(direct(&pull::example::records_with_a_torn_pull()), expected);
}

/// Document 01's example with a third pull in this place, whose weight is `zero`
/// and whose cell of X is `value`.
fn torn_at(place: u8, value: f64, zero: f64) -> Vec<u8> {
    let mut out = Vec::new();
    let of = |row: u8, torn: f64, other: f64| if row == place { torn } else { other };
    (0..3).for_each(|row| out.extend(record(1, row, 0, 0, of(row, value, 1.0))));
    (0..3).for_each(|row| out.extend(record(5, row, 0, 0, of(row, zero, 1.0))));
    out.extend(&pull::example::records()[32..]);
    out
}

/// The example of two pulls with these weights, X and sigma2.
fn example(weights: &[f64], x: [f64; 2], sigma2: f64) -> Vec<u8> {
    let mut out = Vec::new();
    (0..2u8).for_each(|row| out.extend(record(1, row, 0, 0, x[row as usize])));
    (0u8..).zip(weights).for_each(|(row, &w)| out.extend(record(5, row, 0, 0, w)));
    out.extend(record(6, 0, 0, 0, 0.5));
    out.extend(record(7, 0, 0, 0, sigma2));
    out.extend(&pull::example::records()[64..]);
    out
}

/// The refusals in their places: 2 for what is missing, 3 for torn specimens
/// alone, 4 for a torn row too, 5, and 6 for a weight below zero alone.
#[test]
fn refusals() {
    let ones = [1.0, 1.0];
    let cases = [
        (example(&[0.0, 0.0], ones, 8.0), Refusal::Size),
        (example(&[-0.0, -0.0], ones, 8.0), Refusal::Size),
        (example(&[0.0, -0.0], [1.0, f64::NAN], 8.0), Refusal::Size),
        (example(&[0.0, 0.0], [f64::INFINITY, 1.0], 0.0), Refusal::Size),
        (example(&[0.0, 0.0], ones, 0.0), Refusal::Size),
        (example(&[0.0], ones, 8.0), Refusal::Records),
        (example(&[0.0, 1.0, 0.0], ones, 8.0), Refusal::Records),
        (example(&[0.0, 1.0], [f64::NAN, 1.0], 8.0), Refusal::NotFinite),
        (example(&[-0.0, 1.0], [f64::NEG_INFINITY, 1.0], 8.0), Refusal::NotFinite),
        (example(&[0.0, 1.0], [1.0, f64::NAN], 8.0), Refusal::NotFinite),
        (example(&[0.0, f64::NAN], ones, 8.0), Refusal::NotFinite),
        (example(&[0.0, f64::INFINITY], ones, 8.0), Refusal::NotFinite),
        (example(&[0.0, -1.0], ones, 0.0), Refusal::Sigma2),
        (example(&[0.0, -1.0], ones, 8.0), Refusal::Weight),
        (example(&[-f64::from_bits(1), 0.0], ones, 8.0), Refusal::Weight),
        (example(&[-1.0, 1.0], ones, 8.0), Refusal::Weight),
    ];
    for (file, refusal) in cases {
        assert_eq!(pull::kenward_roger(&file), Err(refusal), "{}", hex(&file));
        assert_eq!(pull::archive(&file), Err(refusal), "{}", hex(&file));
    }
    // The other call has no weights at all.
    let torn = example(&[0.0, 1.0], ones, 8.0);
    assert_eq!(pull::satterthwaite(&torn), Err(Refusal::Records));
}

/// One pull is left: F 1.8 with 1 degree of freedom, by either zero and in either
/// place, and by the archive.
#[test]
fn all_but_one() {
    let ones = [1.0, 1.0];
    let single = [&record(1, 0, 0, 0, 1.0)[..], &pull::example::records()[32..]].concat();
    let expected = pull::kenward_roger(&single).expect("it is accepted");
    let test = expected.coefficients[0];
    assert_eq!((test.f, test.df, test.rank, test.inside), (Some(1.8), Some(1.0), 1, true));
    for zero in [0.0, -0.0] {
        for weights in [[zero, 1.0], [1.0, zero]] {
            let file = example(&weights, ones, 8.0);
            assert_eq!(pull::kenward_roger(&file).as_ref(), Ok(&expected), "{weights:?}");
            assert_eq!(pull::archive(&file), pull::archive(&single), "{weights:?}");
            let archive = pull::archive(&file).expect("it is accepted");
            let run = pull::archive_test(&archive, &test_records(&file));
            assert_eq!(run.as_ref(), Ok(&expected));
        }
    }
}

/// A column of Z whose only record is a torn specimen's counts in 7, and is a
/// column of zeros.
#[test]
fn a_column_of_a_torn_specimen() {
    let file = |groups: u32, with_record: bool, left: Option<f64>| {
        let mut out = Vec::new();
        (0..2).for_each(|row| out.extend(record(1, row, 0, 0, 1.0)));
        out.extend(record(2, 0, 0, 0, 1.0));
        left.iter().for_each(|&zero| out.extend(record(2, 0, 1, 0, zero)));
        if with_record {
            out.extend(record(2, 1, 1, 0, 1.0));
        }
        out.extend(block(0, 1, groups));
        out.extend(record(4, 0, 0, 0, 0.5));
        out.extend(record(5, 0, 0, 0, 2.0));
        out.extend(record(5, 1, 0, 0, 0.0));
        out.extend(&pull::example::records()[32..]);
        out
    };
    let sent = direct(&file(2, true, None));
    assert_eq!(sent.0, 0);
    assert_eq!(direct(&file(1, true, None)).0, Refusal::Blocks.number());
    assert_eq!(direct(&file(3, true, None)).0, Refusal::Blocks.number());
    assert_eq!(direct(&file(2, false, None)).0, Refusal::Blocks.number());
    // The same with the column named by a zero of the specimen that is left.
    for zero in [0.0, -0.0] {
        assert_eq!(direct(&file(2, true, Some(zero))), sent);
        assert_eq!(direct(&file(2, false, Some(zero))), sent);
    }
    assert_eq!(direct(&shortened(&file(2, true, None))), sent);
}
