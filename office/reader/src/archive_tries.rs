//! Archives and second files for trying the archive's test with: random ones
//! that are right, and damaged ones. Beside the forms that any record file can
//! be damaged in, an archive has its own: a digit, or the sign of a zero, in
//! which its two halves differ.

use crate::archive::{read_archive, Archive};
use crate::order::{disturbed, doubled, sorted, sorted_once};
use crate::random::Random;
use crate::vectors;
use crate::{Record, ARCHIVED_SIGMA, BETA, BETA_H, CONTRAST};
use listed_algebra::Matrix;

const ARCHIVE_KINDS: [u8; 8] = [11, 12, 13, 14, 15, 16, 17, 18];
const TEST_KINDS: [u8; 3] = [BETA, CONTRAST, BETA_H];

/// An archive, and the second file beside it.
pub type Pair = (Vec<u8>, Vec<u8>);

fn square(size: usize, mut cell: impl FnMut(usize, usize) -> f64) -> Matrix {
    let mut out = Matrix::zeros(size, size);
    for i in 0..size {
        for j in 0..size {
            out[(i, j)] = cell(i, j);
        }
    }
    out
}

/// A cell: small numbers mostly, zeros of either sign, any digits, now and then
/// far off.
fn cell(r: &mut Random) -> f64 {
    match r.below(16) {
        0 => 0.0,
        1 => -0.0,
        2..=7 => r.real(),
        8 => r.real() * 2f64.powi(r.between(-40, 40) as i32),
        _ => r.small(),
    }
}

/// An archive that is accepted, with so many coefficients and matrices P.
pub fn random_archive(r: &mut Random, p: usize, matrices: usize) -> Archive {
    let mut archive = Archive {
        phi: square(p, |i, j| if i == j { 4.0 + r.unit() } else { cell(r) / 4.0 }),
        phi_a: square(p, |i, j| if i == j { 5.0 + r.unit() } else { cell(r) / 4.0 }),
        p: (0..matrices).map(|_| square(p, |_, _| cell(r))).collect(),
        w: square(matrices, |i, j| if i == j { 1.0 + r.unit() } else { cell(r) / 4.0 }),
        sigma2: r.positive(),
    };
    if r.once_in(6) {
        archive.sigma2 = 2f64.powi(r.between(-900, 900) as i32);
    }
    if r.once_in(6) {
        // A cell anywhere, of any magnitude, or a whole matrix that is zero.
        let far = 2f64.powi(r.between(-1074, 1000) as i32) * r.real();
        let at = r.below(p * p);
        match r.below(6) {
            0 => archive.phi.cells[at] = far,
            1 => archive.phi_a.cells[at] = far,
            2 => archive.p[r.below(matrices)].cells[at] = far,
            3 => archive.phi = Matrix::zeros(p, p),
            4 => archive.phi_a = archive.phi_a.map(|_| -0.0),
            _ => archive.w = archive.w.map(|v| v * far),
        }
    }
    if read_archive(&archive.to_bytes()).is_err() {
        // Past the range in the one unit or the other.
        return random_archive(r, p, matrices);
    }
    archive
}

/// Sizes, mostly small.
fn sizes(r: &mut Random) -> (usize, usize) {
    if r.once_in(24) {
        (1 + r.below(6), 1 + r.below(4))
    } else {
        (1 + r.below(2), 1 + r.below(2))
    }
}

/// A second file that is accepted for p coefficients.
pub fn random_tests(r: &mut Random, p: usize) -> Vec<u8> {
    let mut out = Vec::new();
    let mut put = |kind: u8, row: usize, column: usize, value: f64| {
        let (row, column) = (row as u8, column as u8);
        out.extend(
            Record { kind, row, column, zero: 0, count: 0, bits: value.to_bits() }.to_bytes(),
        );
    };
    (0..p).for_each(|i| put(BETA, i, 0, cell(r)));
    let rows = if r.once_in(8) { 1 + r.below(6) } else { r.below(4) };
    for i in 0..rows {
        // The first row's first cell is not zero, so that the contrast is not.
        (0..p).for_each(|j| put(CONTRAST, i, j, if i + j == 0 { 1.5 } else { r.small() }));
    }
    if rows > 0 && r.once_in(3) {
        (0..p).for_each(|i| put(BETA_H, i, 0, cell(r)));
    }
    out
}

/// A value at an end of the range, a zero of either sign, not finite, or any.
fn odd_value(r: &mut Random) -> f64 {
    match r.below(5) {
        0 => r.pick(&[0.0, -0.0, -1.0, 1.0]),
        1 => r.pick(&[f64::INFINITY, f64::NEG_INFINITY, f64::NAN]),
        2 => r.pick(&[f64::MAX, f64::MIN_POSITIVE, f64::from_bits(1), -f64::from_bits(1)]),
        3 => f64::from_bits(r.bits()),
        _ => r.small(),
    }
}

fn set_value(record: &mut [u8], value: f64) {
    record[8..16].copy_from_slice(&value.to_bits().to_le_bytes());
}

/// One change that both files can bear; the records stay where they are.
fn change_any(r: &mut Random, file: &mut Vec<u8>, kinds: &[u8]) {
    if file.len() < 16 {
        file.push(r.bits() as u8);
        return;
    }
    let at = r.below(file.len() / 16) * 16;
    match r.below(13) {
        0 => file.truncate(r.below(file.len())),
        1 => file.extend((0..1 + r.below(33)).map(|_| r.bits() as u8)),
        2 => drop(file.drain(at..at + 16)),
        3 => *file = doubled(r, file),
        4 => file[at] = r.pick(kinds),
        5 => file[at] = r.bits() as u8,
        // A field at or beside its limits.
        6 | 7 => file[at + 1 + r.below(3)] = r.pick(&[0, 1, 2, 3, 4, 5, 6, 7, 255]),
        8 => file[at + 4 + r.below(4)] = r.pick(&[0, 1, 2, 3, 4, 128, 255]),
        9 | 10 => set_value(&mut file[at..at + 16], odd_value(r)),
        11 => {
            // A kind dropped wholly.
            let kind = file[at];
            *file = file.chunks(16).filter(|b| b[0] != kind).flatten().copied().collect();
        }
        _ => {
            let any = r.below(file.len());
            file[any] ^= 1 << r.below(8);
        }
    }
}

/// One change of an archive's own sort.
fn change_archive(r: &mut Random, file: &mut Vec<u8>) {
    let Ok(mut archive) = read_archive(file) else {
        return change_any(r, file, &ARCHIVE_KINDS);
    };
    let at = r.below(file.len() / 16) * 16;
    match r.below(5) {
        // The last digits of a value, and its sign.
        0 => file[at + 8] ^= 1 << r.below(8),
        1 => file[at + 15] ^= 0x80,
        // sigma2, with the response units that it had.
        2 => {
            let last = file.len() - 16;
            set_value(&mut file[last..], odd_value(r));
        }
        // One number in both units: the archive is as good as before.
        _ => {
            let value = odd_value(r);
            let cell = r.below(archive.phi.cells.len());
            match r.below(5) {
                0 => archive.phi.cells[cell] = value,
                1 => archive.phi_a.cells[cell] = value,
                2 => {
                    let number = r.below(archive.p.len());
                    archive.p[number].cells[cell] = value;
                }
                3 => {
                    let cell = r.below(archive.w.cells.len());
                    archive.w.cells[cell] = value;
                }
                _ => archive.sigma2 = value,
            }
            *file = archive.to_bytes();
        }
    }
}

/// A changed file as it is written: mostly in order again.
fn placed(r: &mut Random, file: Vec<u8>) -> Vec<u8> {
    match r.below(16) {
        0 => file,
        1 => disturbed(r, &file),
        2 => sorted_once(&file),
        _ => sorted(&file),
    }
}

/// The archive with one to `most` changes.
pub fn damaged_archive(r: &mut Random, archive: &[u8], most: usize) -> Vec<u8> {
    let mut out = archive.to_vec();
    for _ in 0..1 + r.below(most) {
        if r.once_in(2) {
            change_archive(r, &mut out);
        } else {
            change_any(r, &mut out, &ARCHIVE_KINDS);
        }
    }
    placed(r, out)
}

/// The second file with one change, or with a contrast of zeros.
pub fn damaged_tests(r: &mut Random, tests: &[u8]) -> Vec<u8> {
    let mut out = tests.to_vec();
    if r.once_in(16) {
        let zero = r.pick(&[0.0, -0.0]);
        let contrast = out.chunks_exact_mut(16).filter(|b| b[0] == CONTRAST);
        contrast.for_each(|record| set_value(record, zero));
        return out;
    }
    change_any(r, &mut out, &TEST_KINDS);
    placed(r, out)
}

/// Either file of a pair, or both, as they are or changed.
pub fn varied(r: &mut Random, (archive, tests): Pair) -> Pair {
    match r.below(8) {
        0 | 1 => (archive, tests),
        2 | 3 => (archive, damaged_tests(r, &tests)),
        4 => (damaged_archive(r, &archive, 3), damaged_tests(r, &tests)),
        _ => (damaged_archive(r, &archive, 2), tests),
    }
}

/// A pair that is accepted but for a zero pivot, of mostly small sizes.
pub fn random_pair(r: &mut Random) -> Pair {
    let (p, matrices) = sizes(r);
    let archive = random_archive(r, p, matrices).to_bytes();
    // Now and then for other coefficients than the archive's.
    let tests = if r.once_in(16) { 1 + r.below(6) } else { p };
    (archive, random_tests(r, tests))
}

/// Records of an archive's kinds with any small fields, mostly in order and
/// none twice.
fn random_records(r: &mut Random) -> Vec<u8> {
    let mut out = Vec::new();
    for _ in 0..r.below(14) {
        let kind = r.pick(&ARCHIVE_KINDS);
        let mut index = |n: usize| if r.once_in(4) { r.below(n) } else { 0 };
        let (row, column, count) = (index(3) as u8, index(3) as u8, index(5) as u32);
        let bits = if kind == ARCHIVED_SIGMA { 1f64 } else { r.small() }.to_bits();
        out.extend(Record { kind, row, column, zero: 0, count, bits }.to_bytes());
    }
    if r.once_in(8) {
        out
    } else {
        sorted_once(&out)
    }
}

/// Maker of pairs, over the stored ones too.
pub struct ArchiveTries {
    stored: Vec<Pair>,
}

/// Short stored archives only, and one long one in so many: many calls are to
/// be made.
const LONGEST: usize = 80 * 16;
const LONG_ONE_IN: usize = 8;

impl ArchiveTries {
    pub fn new() -> ArchiveTries {
        let all = vectors::load_archive_tests().into_iter().map(|case| (case.archive, case.tests));
        let kept = all.enumerate().filter(|(i, (a, _))| a.len() <= LONGEST || i % LONG_ONE_IN == 0);
        ArchiveTries { stored: kept.map(|(_, pair)| pair).collect() }
    }

    /// The next pair.
    pub fn pair(&self, r: &mut Random) -> Pair {
        match r.below(16) {
            0 => {
                let mut bytes = |n: usize| (0..r.below(n)).map(|_| 0).collect::<Vec<u8>>();
                let (mut archive, mut tests) = (bytes(300), bytes(100));
                archive.iter_mut().chain(tests.iter_mut()).for_each(|b| *b = r.bits() as u8);
                (archive, tests)
            }
            1 => (random_records(r), random_tests(r, 1)),
            2..=9 => {
                let pair = random_pair(r);
                varied(r, pair)
            }
            _ => {
                let pair = self.stored[r.below(self.stored.len())].clone();
                varied(r, pair)
            }
        }
    }
}

impl Default for ArchiveTries {
    fn default() -> ArchiveTries {
        ArchiveTries::new()
    }
}

#[cfg(test)]
mod tests {
    use super::*;
    use crate::archive::read_both;
    use std::collections::BTreeMap;

    /// Of 50,000 random pairs each refusal of the reader is met often, and as
    /// many are accepted.
    #[test]
    fn pairs_reach_each_refusal() {
        let mut met: BTreeMap<u32, usize> = BTreeMap::new();
        for seed in 0..50_000 {
            let mut r = Random::new(seed);
            let pair = random_pair(&mut r);
            let (archive, tests) = varied(&mut r, pair);
            *met.entry(read_both(&archive, &tests).err().unwrap_or(0)).or_default() += 1;
        }
        for (number, least) in
            [(0, 10_000), (2, 10_000), (12, 3_000), (4, 1_000), (5, 300), (8, 50)]
        {
            let count = met.get(&number).copied().unwrap_or(0);
            assert!(count >= least, "number {number} was met {count} times: {met:?}");
        }
        assert_eq!(met.len(), 6, "{met:?}");
    }
}
