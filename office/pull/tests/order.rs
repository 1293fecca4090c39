//! The order of the records through the C functions, on files of any length: a
//! fall is refused with 12 wherever it stands, also behind more records than
//! there are cells.

use reader::archive::{read_archive, read_tests};
use reader::tries::Call;
use reader::{order, Record};

/// What a function returns for a file, and the reader's number for it.
type Outcome = (u32, Option<u32>);

/// A function's number; it writes nothing.
fn number(lent: usize, fill: impl Fn(&mut [u8]) -> u32) -> u32 {
    let mut answer = vec![7; lent];
    let number = fill(&mut answer);
    assert!(answer.iter().all(|&b| b == 7));
    number
}

fn kenward_roger(file: &[u8]) -> Outcome {
    let number = number(pull::KENWARD_ROGER_BYTES, |answer| pull::kenward_roger_fill(file, answer));
    (number, Call::KenwardRoger.verdict(file).err())
}

fn satterthwaite(file: &[u8]) -> Outcome {
    let number = number(pull::ENTRY_BYTES, |answer| pull::satterthwaite_fill(file, answer));
    (number, Call::Satterthwaite.verdict(file).err())
}

fn archive(file: &[u8]) -> Outcome {
    let number = number(pull::ARCHIVE_BYTES, |lent| pull::archive_fill(file, lent));
    (number, Call::KenwardRoger.verdict(file).err())
}

/// As an archive, and as the second file beside a good one.
fn archive_test(file: &[u8]) -> Outcome {
    let fill = |answer: &mut [u8]| pull::archive_test_fill(file, &[], answer);
    (number(pull::KENWARD_ROGER_BYTES, fill), read_archive(file).err())
}

fn second_file(file: &[u8]) -> Outcome {
    let archive = pull::archive(&pull::example::records()).expect("it is accepted");
    let fill = |answer: &mut [u8]| pull::archive_test_fill(&archive, file, answer);
    (number(pull::KENWARD_ROGER_BYTES, fill), read_tests(file, 1).err())
}

/// The number that each of the functions returns, which is the reader's too.
fn refused(file: &[u8]) -> u32 {
    let outcomes = [kenward_roger, satterthwaite, archive, archive_test, second_file]
        .map(|function: fn(&[u8]) -> Outcome| function(file));
    let number = outcomes[0].0;
    assert_eq!(outcomes, [(number, Some(number)); 5]);
    number
}

/// Document 01's example, then records of unknown kinds, `count` in all: every
/// one stands before the next.
fn rising(count: usize) -> Vec<[u8; 16]> {
    let example = pull::example::records();
    let mut out: Vec<Record> = example.chunks(16).map(Record::from_bytes).collect();
    out.extend(order::rising(count - out.len()));
    out.into_iter().map(Record::to_bytes).collect()
}

/// More records than any call has cells (835 at most), at and beside round
/// numbers.
const LENGTHS: [usize; 6] = [836, 1024, 1025, 4096, 4097, 20_000];

#[test]
fn long_files_that_rise() {
    for length in LENGTHS {
        assert_eq!(refused(&rising(length).concat()), 2, "{length} records");
    }
}

#[test]
fn the_last_pair_of_a_long_file() {
    for length in LENGTHS {
        let mut records = rising(length);
        records.swap(length - 2, length - 1);
        assert_eq!(refused(&records.concat()), 12, "{length} records");
        records[length - 2] = records[length - 1];
        assert_eq!(refused(&records.concat()), 12, "{length} records, the last twice");
    }
}

/// A length that is no multiple of 16 comes before the order.
#[test]
fn long_files_of_another_length() {
    for length in LENGTHS {
        let mut records = rising(length);
        records.swap(0, 1);
        let file = records.concat();
        assert_eq!(refused(&file), 12);
        for less in [1, 8, 15] {
            assert_eq!(
                refused(&file[..file.len() - less]),
                2,
                "{length} records less {less} bytes"
            );
        }
    }
}

/// Each pair of a long file, the records swapped or the first one twice.
#[test]
fn every_pair() {
    let records = rising(1100);
    for at in 0..records.len() - 1 {
        let mut swapped = records.clone();
        swapped.swap(at, at + 1);
        assert_eq!(refused(&swapped.concat()), 12, "pair {at} swapped");
        let mut twice = records.clone();
        twice.insert(at, records[at]);
        assert_eq!(refused(&twice.concat()), 12, "record {at} twice");
    }
}

/// A good series ahead does not hide a fall behind it, and a fall ahead is not
/// mended by what follows.
#[test]
fn whole_series_one_after_the_other() {
    let series = pull::example::records();
    assert_eq!(refused(&[&series[..], &series].concat()), 12);
    let many = series.repeat(500);
    assert_eq!(refused(&many), 12);
    assert_eq!(refused(&many[..many.len() - 1]), 2);
}

/// The count is in the order for the kinds whose count numbers a matrix, and for
/// no other kind, in every function and whichever kinds it reads.
#[test]
fn every_kind_by_its_count() {
    for kind in 0..=255 {
        let record = |row, count| pull::example::record(kind, row, 0, count, 1.0);
        let numbers = [13, 17, 31].contains(&kind);
        for (low, high) in [(0, 1), (1, 2), (255, 256), (0, u32::MAX)] {
            let rising = refused(&[record(0, low), record(0, high)].concat());
            assert_eq!(rising, if numbers { 2 } else { 12 }, "kind {kind}");
            assert_eq!(refused(&[record(0, high), record(0, low)].concat()), 12, "kind {kind}");
            // Before the row.
            let number = refused(&[record(1, low), record(0, high)].concat());
            assert_eq!(number, if numbers { 2 } else { 12 }, "kind {kind}");
            let number = refused(&[record(0, high), record(1, low)].concat());
            assert_eq!(number, if numbers { 12 } else { 2 }, "kind {kind}");
        }
    }
}
