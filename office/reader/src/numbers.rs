//! The number in a block record: of its parameters, "k(k+1)/2", in "the first of
//! the eight value bytes"; "the other seven are zero" (document 02, "Req 04"). A
//! block whose "written number" is another is refused with 13, and one of whose
//! seven bytes is not zero with 2.
//!
//! Whole numbers are compared. No byte holds k(k+1)/2 from k = 23 on, so that such
//! a block is refused with 13 whatever is written.
//!
//! Beside it: block records as they are to be sent, what a file says of its
//! numbers, for the tests that count, and ways to write a wrong one.

use crate::random::Random;
use crate::{Record, BLOCK};

/// The largest k whose k(k+1)/2 a byte holds: it is 253.
pub const LARGEST_WRITABLE: u8 = 22;

/// The parameters of a block of k effects: "k(k+1)/2", a whole number.
pub fn parameter_count(k: u8) -> u32 {
    let k = u32::from(k);
    k * (k + 1) / 2
}

/// The value of a block record in which a number is written.
pub fn value_of(number: u8) -> u64 {
    u64::from_le_bytes([number, 0, 0, 0, 0, 0, 0, 0])
}

/// The number that is written in a block record.
pub fn written_number(block: &Record) -> u32 {
    block.bits.to_le_bytes()[0].into()
}

/// Whether the seven value bytes behind the number are zero.
pub fn others_are_zero(block: &Record) -> bool {
    block.bits.to_le_bytes()[1..] == [0; 7]
}

/// Whether the number that is written in a block record is that of its
/// parameters.
pub fn is_right(block: &Record) -> bool {
    written_number(block) == parameter_count(block.column)
}

/// The value of a block of k effects, where a byte holds its number.
pub fn right_value(k: u8) -> Option<u64> {
    u8::try_from(parameter_count(k)).ok().map(value_of)
}

/// The record of a block as it is to be sent. Of more than 22 effects there is
/// none.
pub fn block(row: u8, k: u8, m: u32) -> Record {
    let bits = right_value(k).expect("a byte holds the number");
    Record { kind: BLOCK, row, column: k, zero: 0, count: m, bits }
}

/// A record, of a block with its right value where there is one.
pub fn corrected(record: Record) -> Record {
    let right = right_value(record.column).filter(|_| record.kind == BLOCK);
    Record { bits: right.unwrap_or(record.bits), ..record }
}

/// A file's records, changed by `change`, and the bytes behind the last whole one.
fn with_records(file: &[u8], change: impl FnOnce(&mut [Record])) -> Vec<u8> {
    let chunks = file.chunks_exact(16);
    let rest = chunks.remainder();
    let mut records: Vec<Record> = chunks.map(Record::from_bytes).collect();
    change(&mut records);
    let mut out: Vec<u8> = records.into_iter().flat_map(Record::to_bytes).collect();
    out.extend(rest);
    out
}

/// A file with the right value in each of its blocks that has one.
pub fn with_numbers(file: &[u8]) -> Vec<u8> {
    with_records(file, |records| records.iter_mut().for_each(|r| *r = corrected(*r)))
}

/// What a file says of the numbers in its blocks, by its records as they stand: it
/// need not be accepted.
#[derive(Debug, Clone, Copy, PartialEq, Default)]
pub struct Numbers {
    pub blocks: usize,
    /// Blocks with a wrong number and nothing behind it.
    pub wrong: usize,
    /// Of these those with 0, as every block was before the request.
    pub zero: usize,
    /// Of the wrong ones those with k(k+1)/2 less a multiple of 256.
    pub wrapped: usize,
    /// Blocks with a byte behind the number that is not zero.
    pub behind: usize,
}

impl Numbers {
    /// `None` where the file has no blocks.
    pub fn of(file: &[u8]) -> Option<Numbers> {
        let mut out = Numbers::default();
        let records = file.chunks_exact(16).map(Record::from_bytes);
        for block in records.filter(|r| r.kind == BLOCK) {
            let zeros = others_are_zero(&block);
            let wrong = zeros && !is_right(&block);
            let number = written_number(&block);
            out.blocks += 1;
            out.behind += usize::from(!zeros);
            out.wrong += usize::from(wrong);
            out.zero += usize::from(wrong && number == 0);
            out.wrapped += usize::from(wrong && number == parameter_count(block.column) % 256);
        }
        (out.blocks > 0).then_some(out)
    }

    /// Whether every block has its right value.
    pub fn all_right(&self) -> bool {
        self.wrong == 0 && self.behind == 0
    }
}

/// A file with a wrong value in one of its blocks, now and then in all: mostly
/// another number, else a byte behind it.
pub fn misnumbered(r: &mut Random, file: &[u8]) -> Vec<u8> {
    with_records(file, |records| {
        let blocks: Vec<usize> = (0..records.len()).filter(|&i| records[i].kind == BLOCK).collect();
        if blocks.is_empty() {
            return;
        }
        let one = r.pick(&blocks);
        let each = r.once_in(6);
        for at in blocks.into_iter().filter(|&at| each || at == one) {
            records[at] = with_wrong_value(r, records[at]);
        }
    })
}

/// A block with a wrong value, now and then with another k besides.
fn with_wrong_value(r: &mut Random, block: Record) -> Record {
    let number = |number: u8| Record { bits: value_of(number), ..block };
    let right = lowest_byte(block.column);
    match r.below(16) {
        // As every block was before the request, but for k = 0, whose number is 0.
        0..=3 => number(u8::from(block.column == 0)),
        // Off by one, or by any.
        4 => number(right.wrapping_add(1)),
        5 => number(right.wrapping_sub(1)),
        6 | 7 => number(right.wrapping_add(1 + r.below(255) as u8)),
        // A k whose number no byte holds, with what a byte would keep of it.
        8..=10 => {
            let k = r.between(i64::from(LARGEST_WRITABLE) + 1, 255) as u8;
            Record { column: k, ..number(lowest_byte(k)) }
        }
        // A bit of the number turned, or of the whole value.
        11 => Record { bits: block.bits ^ 1 << r.below(8), ..block },
        12 => Record { bits: block.bits ^ 1 << r.below(64), ..block },
        // The number as an f64; 0 would be right, and is 1 here.
        13 => {
            let number = f64::from(parameter_count(block.column).max(1));
            Record { bits: number.to_bits(), ..block }
        }
        // The right number, and a byte behind it.
        _ => {
            let byte = 1 + r.below(255) as u64;
            Record { bits: value_of(right) | byte << (8 * (1 + r.below(7))), ..block }
        }
    }
}

/// The number of a block of k effects, from k = 23 on less a multiple of 256.
fn lowest_byte(k: u8) -> u8 {
    parameter_count(k).to_le_bytes()[0]
}

#[cfg(test)]
mod tests {
    use super::*;
    use crate::{order, read, read_satterthwaite, Refusal};
    use std::collections::BTreeMap;

    fn record(kind: u8, row: u8, column: u8, value: f64) -> Record {
        Record { kind, row, column, zero: 0, count: 0, bits: value.to_bits() }
    }

    /// Two specimens in one group, one coefficient, and the block given.
    fn series(block: Record) -> Vec<Record> {
        vec![
            record(crate::X, 0, 0, 1.0),
            record(crate::X, 1, 0, 1.0),
            record(crate::Z, 0, 0, 1.0),
            record(crate::Z, 1, 0, 1.0),
            block,
            record(crate::THETA, 0, 0, 0.5),
            record(crate::PHI, 0, 0, 0.5),
            record(crate::SIGMA, 0, 0, 8.0),
            record(crate::BETA, 0, 0, 6.0),
        ]
    }

    fn file(records: &[Record]) -> Vec<u8> {
        records.iter().flat_map(|r| r.to_bytes()).collect()
    }

    /// The reader's number for that series, 0 where it accepts.
    fn number(k: u8, bits: u64) -> Refusal {
        let block = Record { bits, ..record(BLOCK, 0, k, 0.0) };
        read(&file(&series(Record { count: 1, ..block }))).err().unwrap_or(0)
    }

    /// Every k with every byte: 13 but where the byte is 1 + 2 + .. + k. Of these
    /// k = 1 fits the series, k = 2 asks for other columns (7), and any other k is
    /// outside its limits (3).
    #[test]
    fn every_k_with_every_byte() {
        for k in 0..=255u8 {
            let sum: u32 = (0..=u32::from(k)).sum();
            for byte in 0..=255u8 {
                let expected = match k {
                    _ if u32::from(byte) != sum => 13,
                    1 => 0,
                    2 => 7,
                    _ => 3,
                };
                assert_eq!(number(k, byte.into()), expected, "k = {k}, {byte}");
            }
        }
    }

    /// Any of the other seven bytes, beside a right or a wrong number: 2.
    #[test]
    fn bytes_behind_the_number() {
        for k in [0, 1, 2, 3, 22, 23, 255] {
            for byte in [0, 1, 3, 6, 253, 255u64] {
                for place in 1..8 {
                    for other in 1..=255u64 {
                        assert_eq!(number(k, byte | other << (8 * place)), 2);
                    }
                }
            }
        }
    }

    /// After 2 and 12, before 3 and all that follows; whichever block it is.
    #[test]
    fn place_among_the_refusals() {
        let wrong = Record { bits: value_of(2), ..block(0, 1, 1) };
        let sent = |change: &dyn Fn(&mut Vec<Record>)| {
            let mut out = series(wrong);
            change(&mut out);
            read(&order::sorted(&file(&out))).err()
        };
        assert_eq!(sent(&|_| ()), Some(13));
        // 2: a field, a cell that is missing, one that is beyond, a block with two k's.
        assert_eq!(sent(&|rs| rs[0].zero = 1), Some(2));
        assert_eq!(sent(&|rs| rs.truncate(8)), Some(2));
        assert_eq!(sent(&|rs| rs.push(record(crate::BETA, 1, 0, 1.0))), Some(2));
        assert_eq!(sent(&|rs| rs.push(block(0, 2, 1))), Some(2));
        assert_eq!(sent(&|rs| rs[4].row = 1), Some(2));
        let falling = [&file(&series(wrong))[16..], &file(&series(wrong))[..16]].concat();
        assert_eq!(read(&falling).err(), Some(12));
        // 3: m = 0, no specimen left, four parameters.
        assert_eq!(sent(&|rs| rs[4].count = 0), Some(13));
        let weight = |row, value| record(crate::WEIGHTS, row, 0, value);
        let torn = |rs: &mut Vec<Record>| rs.extend([weight(0, 0.0), weight(1, -0.0)]);
        assert_eq!(sent(&torn), Some(13));
        assert_eq!(sent(&|rs| rs.push(block(1, 2, 1))), Some(13));
        // 4 to 7.
        assert_eq!(sent(&|rs| rs[0].bits = f64::NAN.to_bits()), Some(13));
        assert_eq!(sent(&|rs| rs[7].bits = 0), Some(13));
        assert_eq!(sent(&|rs| rs.extend([weight(0, 1.0), weight(1, -1.0)])), Some(13));
        assert_eq!(sent(&|rs| rs[4].count = 2), Some(13));
        // The second or the third alone is wrong.
        for row in 1..3u8 {
            let more = |rs: &mut Vec<Record>| {
                rs[4] = block(0, 1, 1);
                rs.extend((1..=row).map(|i| block(i, 1, 1)));
            };
            assert_eq!(sent(&more), Some(7));
            let last_wrong = |rs: &mut Vec<Record>| {
                more(rs);
                rs.last_mut().expect("a block").bits = 0;
            };
            assert_eq!(sent(&last_wrong), Some(13));
        }
        // The other call has no blocks.
        assert_eq!(read_satterthwaite(&file(&[wrong])).err(), Some(2));
    }

    #[test]
    fn blocks_as_they_are_sent() {
        for (k, number) in [(0, 0), (1, 1), (2, 3), (3, 6), (21, 231), (22, 253)] {
            let bytes = block(1, k, 0x0403_0201).to_bytes();
            assert_eq!(bytes, [3, 1, k, 0, 1, 2, 3, 4, number, 0, 0, 0, 0, 0, 0, 0]);
        }
        assert_eq!(right_value(LARGEST_WRITABLE), Some(253));
        assert!((LARGEST_WRITABLE + 1..=255).all(|k| right_value(k).is_none()));
    }

    /// Numbers written into a file from before the request, and no other byte.
    #[test]
    fn writing_the_numbers() {
        let right = [block(0, 1, 1), block(1, 2, 3), block(2, 22, 1)];
        let old = right.map(|r| Record { bits: 0, ..r });
        let around = |blocks: &[Record]| {
            let ends = [record(1, 3, 3, 1.5), record(9, 3, 0, f64::NAN)];
            [&file(&ends[..1])[..], &file(blocks), &file(&ends[1..]), &[3, 0, 1]].concat()
        };
        assert_eq!(with_numbers(&around(&old)), around(&right));
        assert_eq!(with_numbers(&around(&right)), around(&right));
        let large = Record { column: 23, bits: 20, ..right[0] };
        assert_eq!(with_numbers(&around(&[large])), around(&[large]));
        assert_eq!(with_numbers(&[]), [0u8; 0]);
    }

    #[test]
    fn what_a_file_says() {
        let of = |k: u8, bits: u64| {
            let block = Record { column: k, bits, ..block(0, 1, 1) };
            Numbers::of(&file(&[block])).expect("a block")
        };
        let all = |n: Numbers| [n.wrong, n.zero, n.wrapped, n.behind];
        assert_eq!(all(of(2, 3)), [0, 0, 0, 0]);
        assert_eq!(all(of(0, 0)), [0, 0, 0, 0]);
        assert_eq!(all(of(2, 0)), [1, 1, 0, 0]);
        assert_eq!(all(of(2, 2)), [1, 0, 0, 0]);
        assert_eq!(all(of(23, 20)), [1, 0, 1, 0]);
        assert_eq!(all(of(255, 128)), [1, 0, 1, 0]);
        assert_eq!(all(of(23, 276)), [0, 0, 0, 1]);
        assert_eq!(all(of(2, 3 | 1 << 63)), [0, 0, 0, 1]);
        assert!(of(22, 253).all_right() && !of(22, 0).all_right() && !of(1, 257).all_right());
        assert_eq!(Numbers::of(&file(&[record(1, 0, 0, 1.0)])), None);
    }

    /// Each manner is met, and no byte changes but of the blocks' k and value.
    #[test]
    fn wrong_numbers() {
        let mut random = Random::new(4);
        let mut met: BTreeMap<&str, usize> = BTreeMap::new();
        for k in [0, 1, 2, 22] {
            let good = file(&series(block(0, k, 1)));
            for _ in 0..400 {
                let bad = misnumbered(&mut random, &good);
                let pairs = good.iter().zip(&bad).enumerate().filter(|(_, (a, b))| a != b);
                assert!(pairs.clone().count() > 0, "k = {k}");
                assert!(pairs
                    .clone()
                    .all(|(i, _)| [2, 8, 9, 10, 11, 12, 13, 14, 15].contains(&(i % 16))
                        && i / 16 == 4));
                let numbers = Numbers::of(&bad).expect("a block");
                let refusal = read(&bad).err();
                assert_eq!(refusal, Some(if numbers.behind > 0 { 2 } else { 13 }));
                for (name, holds) in [
                    ("zero", numbers.zero > 0),
                    ("wrapped", numbers.wrapped > 0),
                    ("another", numbers.wrong > numbers.zero + numbers.wrapped),
                    ("behind", numbers.behind > 0),
                ] {
                    *met.entry(name).or_default() += usize::from(holds);
                }
            }
        }
        assert!(met.values().all(|&times| times > 100), "{met:?}");
        let none = file(&[record(1, 0, 0, 1.0)]);
        assert_eq!(misnumbered(&mut random, &none), none);
    }
}
