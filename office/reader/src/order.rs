//! The order of a file's records: by kind, then by the number of the matrix,
//! then by row, then by column. It is read from the bytes as they stand, alike
//! for every call, so no call's table of kinds is asked.
//!
//! Beside it: ways to bring a file out of order, for the tests.

use crate::numbers;
use crate::random::Random;
use crate::{Record, BLOCK, JACOBIAN, RESIDUAL_P, RESPONSE_P};

/// Kind, number of the matrix, row, column.
pub type Key = (u8, u32, u8, u8);

/// Whether the count of this kind numbers a matrix: an archive's P, in
/// response and in residual units, and a Jacobian. A block's count is its
/// groups.
pub fn numbers_matrices(kind: u8) -> bool {
    matches!(kind, RESPONSE_P | RESIDUAL_P | JACOBIAN)
}

impl Record {
    /// Where the record stands: what has the smaller key stands before. Byte 3
    /// and the value are no part of it.
    pub fn key(&self) -> Key {
        let matrix = if numbers_matrices(self.kind) { self.count } else { 0 };
        (self.kind, matrix, self.row, self.column)
    }
}

/// Whether each record stands before the next one. Two of one key do not rise.
pub fn rises(records: &[Record]) -> bool {
    records.windows(2).all(|pair| pair[0].key() < pair[1].key())
}

/// So many records that rise, of kinds that no call has.
pub fn rising(count: usize) -> Vec<Record> {
    let record = |i: usize| Record {
        kind: 100 + (i / 65_536) as u8,
        row: (i / 256) as u8,
        column: i as u8,
        zero: 0,
        count: 0,
        bits: 0,
    };
    (0..count).map(record).collect()
}

/// The 16 bytes of each record, and the bytes behind the last whole one.
fn split(file: &[u8]) -> (Vec<[u8; 16]>, &[u8]) {
    let chunks = file.chunks_exact(16);
    let rest = chunks.remainder();
    (chunks.map(|bytes| bytes.try_into().expect("16 bytes")).collect(), rest)
}

fn joined(records: &[[u8; 16]], rest: &[u8]) -> Vec<u8> {
    [&records.concat(), rest].concat()
}

/// A file with its records in order. Those of one key keep their places among
/// each other, and bytes behind the last whole record stay at the end.
pub fn sorted(file: &[u8]) -> Vec<u8> {
    let (mut records, rest) = split(file);
    records.sort_by_key(|bytes| Record::from_bytes(bytes).key());
    joined(&records, rest)
}

/// The same without a record whose key an earlier one has.
pub fn sorted_once(file: &[u8]) -> Vec<u8> {
    let all = sorted(file);
    let (mut records, rest) = split(&all);
    records.dedup_by_key(|bytes| Record::from_bytes(bytes).key());
    joined(&records, rest)
}

/// A file with records moved from their places.
pub fn misplaced(r: &mut Random, file: &[u8]) -> Vec<u8> {
    let (mut records, rest) = split(file);
    if records.is_empty() {
        return file.to_vec();
    }
    let at = r.below(records.len());
    match r.below(6) {
        // Two neighbours, any two, all.
        0 => records.swap(at.saturating_sub(1), at),
        1 => records.swap(at, r.below(at + 1)),
        2 => r.shuffle(&mut records),
        3 => records.reverse(),
        // One to the front or to the end.
        4 => records[..=at].rotate_right(1),
        _ => records[at..].rotate_left(1),
    }
    joined(&records, rest)
}

/// A file with a record twice, beside itself or at the end: the same bytes, or
/// another byte 3, count or value.
pub fn doubled(r: &mut Random, file: &[u8]) -> Vec<u8> {
    let (mut records, rest) = split(file);
    if records.is_empty() {
        return file.to_vec();
    }
    let at = r.below(records.len());
    let mut again = records[at];
    if !r.once_in(3) {
        again[3 + r.below(13)] ^= 1 << r.below(8);
    }
    let to = if r.once_in(4) { records.len() } else { at + 1 };
    records.insert(to, again);
    joined(&records, rest)
}

/// A file with its first block again at the end, with another k and its number.
/// In order again it rises, and still names one block twice.
pub fn block_twice(r: &mut Random, file: &[u8]) -> Vec<u8> {
    let (mut records, rest) = split(file);
    if let Some(block) = records.iter().find(|bytes| bytes[0] == BLOCK) {
        let mut again = *block;
        again[2] ^= 1 + r.below(3) as u8;
        records.push(numbers::corrected(Record::from_bytes(&again)).to_bytes());
    }
    joined(&records, rest)
}

/// A file with records moved from their places, or with one twice.
pub fn disturbed(r: &mut Random, file: &[u8]) -> Vec<u8> {
    if r.once_in(3) {
        doubled(r, file)
    } else {
        misplaced(r, file)
    }
}

#[cfg(test)]
mod tests {
    use super::*;

    fn record(kind: u8, row: u8, column: u8, count: u32) -> Record {
        Record { kind, row, column, zero: 0, count, bits: 0 }
    }

    /// The first differing one of kind, matrix, row and column decides, as an
    /// unsigned number of its whole width.
    #[test]
    fn what_rises() {
        let r = record;
        for (a, b) in [
            (r(1, 9, 9, 9), r(2, 0, 0, 0)),
            (r(127, 0, 0, 0), r(128, 0, 0, 0)),
            (r(31, 9, 9, 0), r(31, 0, 0, 1)),
            (r(13, 9, 9, 0), r(13, 0, 0, 1)),
            (r(17, 9, 9, 3), r(17, 0, 0, 4)),
            (r(13, 0, 0, 1), r(13, 0, 1, 1)),
            (r(17, 0, 9, 1), r(17, 1, 0, 1)),
            (r(31, 0, 0, 255), r(31, 0, 0, 256)),
            (r(13, 0, 0, 0xffff), r(13, 0, 0, 0x1_0000)),
            (r(17, 0, 0, u32::MAX - 1), r(17, 0, 0, u32::MAX)),
            (r(13, 9, 9, u32::MAX), r(14, 0, 0, 0)),
            (r(31, 0, 0, u32::MAX - 1), r(31, 0, 0, u32::MAX)),
            (r(1, 0, 9, 0), r(1, 1, 0, 0)),
            (r(1, 127, 0, 0), r(1, 128, 0, 0)),
            (r(1, 0, 127, 0), r(1, 0, 128, 0)),
            (r(7, 0, 0, 9), r(7, 0, 1, 0)),
            (r(77, 5, 0, 9), r(77, 6, 0, 0)),
        ] {
            assert!(rises(&[a, b]) && !rises(&[b, a]), "{a:?}, {b:?}");
        }
    }

    /// Byte 3, the value and a count that numbers no matrix do not tell two
    /// records apart, and two that are alike do not rise.
    #[test]
    fn what_does_not() {
        for kind in [0, 1, 3, 9, 11, 12, 14, 15, 16, 18, 22, 30, 32, 77, 255] {
            let one = record(kind, 4, 5, 0);
            for other in [
                one,
                Record { zero: 1, ..one },
                Record { count: 1, ..one },
                Record { bits: 1, ..one },
            ] {
                assert!(!rises(&[one, other]) && !rises(&[other, one]), "{other:?}");
            }
        }
        assert!(rises(&[]) && rises(&[record(9, 9, 9, 9)]));
        assert!(rises(&rising(70_000)));
    }

    #[test]
    fn sorting_keeps_the_records_and_the_rest() {
        let mut random = Random::new(11);
        for _ in 0..200 {
            let length = random.below(400);
            let file: Vec<u8> = (0..length).map(|_| random.below(4) as u8).collect();
            let (mut before, rest) = split(&file);
            let (sorted, once) = (sorted(&file), sorted_once(&file));
            let (mut after, after_rest) = split(&sorted);
            assert_eq!(rest, after_rest);
            assert!(after.windows(2).all(|w| key(&w[0]) <= key(&w[1])));
            let records: Vec<Record> =
                split(&once).0.iter().map(|b| Record::from_bytes(b)).collect();
            assert!(rises(&records));
            before.sort();
            after.sort();
            assert_eq!(before, after);
        }
    }

    fn key(bytes: &[u8; 16]) -> Key {
        Record::from_bytes(bytes).key()
    }
}
