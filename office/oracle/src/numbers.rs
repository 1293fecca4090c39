//! Random files with a wrong number in a block (document 02, "Req 04"), alone or
//! beside another reason to be refused, and some with that reason alone.

use crate::random::{file, Random};
use crate::reader::numbers::{block, misnumbered, Numbers};
use crate::reader::torn::zero;
use crate::reader::{order, Record, BLOCK, CONTRAST, SIGMA, WEIGHTS};

/// One file in so many that have blocks.
const FAULTY_ONE_IN: usize = 9;

/// A file; of some that have blocks one with a fault.
pub fn with_faults(r: &mut Random, sent: Vec<u8>) -> Vec<u8> {
    if Numbers::of(&sent).is_none() || !r.once_in(FAULTY_ONE_IN) {
        return sent;
    }
    match r.below(8) {
        0 => another_fault(r, &sent),
        1..=3 => {
            let faulty = another_fault(r, &sent);
            misnumbered(r, &faulty)
        }
        _ => misnumbered(r, &sent),
    }
}

/// A file with blocks and right numbers, with a fault: of the order, of its form, of
/// a size, or of a value.
fn another_fault(r: &mut Random, sent: &[u8]) -> Vec<u8> {
    let mut records: Vec<Record> = sent.chunks_exact(16).map(Record::from_bytes).collect();
    match r.below(8) {
        0 => return order::misplaced(r, sent),
        1 => return order::sorted(&order::block_twice(r, sent)),
        2 => bad_form(r, &mut records),
        3..=5 => bad_size(r, &mut records),
        _ => bad_value(r, &mut records),
    }
    file(&records)
}

/// 2: a byte 3, a record less, or a block's row past its limit.
fn bad_form(r: &mut Random, records: &mut Vec<Record>) {
    let at = r.below(records.len());
    let key = records[at].key();
    match r.below(3) {
        0 => records[at].zero = 1 + r.below(255) as u8,
        1 => records.retain(|record| record.key() != key),
        _ => {
            let last = records.iter_mut().rfind(|record| record.kind == BLOCK);
            last.expect("it has blocks").row = 3 + r.below(200) as u8;
        }
    }
}

/// 3: a k that is outside its limits with its own number, m = 0, too many
/// parameters, no specimen left. 7: a group too many.
fn bad_size(r: &mut Random, records: &mut [Record]) {
    let blocks: Vec<usize> = (0..records.len()).filter(|&i| records[i].kind == BLOCK).collect();
    let Record { row, count, .. } = records[r.pick(&blocks)];
    let one = records.iter_mut().find(|record| (record.kind, record.row) == (BLOCK, row));
    let one = one.expect("it has blocks");
    match r.below(6) {
        0 => *one = block(row, 3, count),
        1 => *one = block(row, r.pick(&[0, 4, 21, 22]), count),
        2 => one.count = 0,
        3 => one.count = count.saturating_add(1),
        4 if blocks.len() > 1 => *one = block(row, 2, count),
        _ => {
            let weights = records.iter_mut().filter(|record| record.kind == WEIGHTS);
            weights.for_each(|weight| weight.bits = zero(r).to_bits());
        }
    }
}

/// 4: a value that is not finite. 5, 6 and 8: sigma2, a weight, the contrast.
fn bad_value(r: &mut Random, records: &mut [Record]) {
    let bad = r.pick(&[f64::NAN, f64::INFINITY, f64::NEG_INFINITY]);
    let (kind, value) = match r.below(4) {
        0 => (r.pick(&[1, 2, 4, 6, 8]), bad),
        1 => (SIGMA, r.pick(&[0.0, -0.0, -1.0])),
        2 => (WEIGHTS, -1.0),
        _ => (CONTRAST, 0.0),
    };
    let own = records.iter_mut().filter(|record| record.kind == kind);
    own.for_each(|record| record.bits = value.to_bits());
}

#[cfg(test)]
mod tests {
    use super::*;
    use crate::random::{kr_case, KR_FAMILIES, MORE_KR_FAMILIES, SHUFFLED};
    use crate::reader::numbers::with_numbers;
    use crate::reader::read;
    use std::collections::BTreeMap;

    /// Files of each family.
    const CASES: u64 = 300;

    /// The files of a family that have blocks, with what they say of them.
    fn block_files(family: &str) -> Vec<(Vec<u8>, Numbers)> {
        let files = (0..CASES).map(|seed| kr_case(&mut Random::new(seed), family));
        files.filter_map(|file| Numbers::of(&file).map(|numbers| (file, numbers))).collect()
    }

    fn number(file: &[u8]) -> u32 {
        read(file).err().unwrap_or(0)
    }

    /// Of every family some files have a wrong number, and most blocks are right.
    #[test]
    fn every_family_has_them() {
        for family in [&KR_FAMILIES[..], &MORE_KR_FAMILIES, &[SHUFFLED]].concat() {
            let files = block_files(family);
            let right = files.iter().filter(|(_, numbers)| numbers.all_right()).count();
            let refused = files.iter().filter(|(file, _)| number(file) == 13).count();
            println!("{family}: {} with blocks, {right} right, {refused} refused 13", files.len());
            // A file of `shuffled` was accepted before it was brought out of order.
            let (share, least) = match family {
                SHUFFLED => (1.0, 0),
                "damaged" | "damaged-any" => (0.6, 4),
                _ => (0.8, 4),
            };
            let enough = right as f64 >= share * files.len() as f64;
            assert!(enough && refused >= least, "{family}");
        }
    }

    /// Each manner of a wrong number, and beside it each other refusal: those that come
    /// before 13 are given in its place, and those that come after it are met where
    /// the numbers are written.
    #[test]
    fn every_manner_is_met() {
        let mut manners: BTreeMap<&str, usize> = BTreeMap::new();
        let (mut before, mut after) = (BTreeMap::new(), BTreeMap::new());
        for family in [&KR_FAMILIES[..], &MORE_KR_FAMILIES].concat() {
            for (file, numbers) in block_files(family) {
                let refusal = number(&file);
                if numbers.wrong > 0 && numbers.behind == 0 && refusal != 13 {
                    *before.entry(refusal).or_insert(0) += 1;
                }
                if refusal == 13 && numbers.wrapped == 0 {
                    *after.entry(number(&with_numbers(&file))).or_insert(0) += 1;
                }
                for (name, holds) in [
                    ("13: 0", refusal == 13 && numbers.zero > 0),
                    ("13: cut to a byte", refusal == 13 && numbers.wrapped > 0),
                    ("13: another", refusal == 13 && numbers.zero + numbers.wrapped == 0),
                    ("13: not of all blocks", refusal == 13 && numbers.wrong < numbers.blocks),
                    ("2: a byte behind", refusal == 2 && numbers.behind > 0),
                    ("3: the numbers are right", refusal == 3 && numbers.all_right()),
                ] {
                    *manners.entry(name).or_default() += usize::from(holds);
                }
            }
        }
        println!("{manners:?}; before 13 {before:?}; after it {after:?}");
        assert!(manners.values().all(|&times| times >= 10), "{manners:?}");
        assert!(before.keys().eq(&[2, 12]), "{before:?}");
        assert!([0, 3, 4, 5, 6, 7, 8].into_iter().all(|n| after.get(&n) > Some(&1)), "{after:?}");
    }
}
