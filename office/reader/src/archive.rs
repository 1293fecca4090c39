//! The archive of a series: Φ, Φ_A, each P and W after the adjustment, as
//! records of the kinds 11 to 18, and the second file that a test from it needs.
//!
//! An archive has Φ, Φ_A and P twice: in response units (kinds 11 to 13), which
//! is what the chemist keeps, and in residual units (15 to 17) with sigma2 (18),
//! from which the test makes the former again by steps that bear the mark. So an
//! archive whose two halves do not fit each other, bit for bit, is refused.
//!
//! Written from document 02 ("Req 02") alone: it shares nothing with the panel.

use crate::{
    all_zero, contrast, Cells, Field, Record, Refusal, ARCHIVED_SIGMA, BAD_RECORDS, BETA, BETA_H,
    COEFFICIENTS, CONTRAST, CONTRAST_ROWS, NOT_FINITE, PARAMETERS, RESIDUAL_P, RESIDUAL_PHI,
    RESIDUAL_PHI_A, RESPONSE_P, RESPONSE_PHI, RESPONSE_PHI_A, SIGMA2, W, ZERO_CONTRAST,
};
use listed_algebra::Matrix;
use Field::{Index, Unused};

/// The bytes that the writer is lent: the longest archive, p = 6 and N = 4.
pub const LENT: usize = 7184;

/// The shortest archive, p = 1 and N = 1: above every refusal's number.
pub const SHORTEST: usize = 128;

/// What an archive holds, in residual units. Its response units follow.
#[derive(Debug, Clone, PartialEq)]
pub struct Archive {
    pub phi: Matrix,
    pub phi_a: Matrix,
    /// P_0 to P_(N-1).
    pub p: Vec<Matrix>,
    /// N rows of N, in no unit.
    pub w: Matrix,
    pub sigma2: f64,
}

/// What the second file holds: the series' kinds 8 to 10.
#[derive(Debug, Clone, PartialEq)]
pub struct Tests {
    pub beta: Vec<f64>,
    pub contrast: Option<Matrix>,
    pub beta_h: Option<Vec<f64>>,
}

/// The records of an archive with so many coefficients and matrices P.
pub fn records(coefficients: usize, matrices: usize) -> usize {
    let square = coefficients * coefficients;
    4 * square + 2 * matrices * square + matrices * matrices + 1
}

impl Archive {
    pub fn coefficients(&self) -> usize {
        self.phi.rows
    }

    /// Φ, Φ_A and the Ps in response units: one rounding for each cell.
    pub fn response_phi(&self) -> Matrix {
        self.phi.map(|v| v * self.sigma2)
    }

    pub fn response_phi_a(&self) -> Matrix {
        self.phi_a.map(|v| v * self.sigma2)
    }

    pub fn response_p(&self) -> Vec<Matrix> {
        self.p.iter().map(|p| p.map(|v| v / self.sigma2)).collect()
    }

    /// The file: every cell, by kind, number, row and column.
    pub fn to_bytes(&self) -> Vec<u8> {
        let mut out = Vec::new();
        put(&mut out, RESPONSE_PHI, 0, &self.response_phi());
        put(&mut out, RESPONSE_PHI_A, 0, &self.response_phi_a());
        for (number, p) in self.response_p().iter().enumerate() {
            put(&mut out, RESPONSE_P, number, p);
        }
        put(&mut out, W, 0, &self.w);
        put(&mut out, RESIDUAL_PHI, 0, &self.phi);
        put(&mut out, RESIDUAL_PHI_A, 0, &self.phi_a);
        for (number, p) in self.p.iter().enumerate() {
            put(&mut out, RESIDUAL_P, number, p);
        }
        put(&mut out, ARCHIVED_SIGMA, 0, &Matrix { rows: 1, cols: 1, cells: vec![self.sigma2] });
        out
    }
}

fn put(out: &mut Vec<u8>, kind: u8, number: usize, m: &Matrix) {
    for i in 0..m.rows {
        for j in 0..m.cols {
            let (row, column, count) = (i as u8, j as u8, number as u32);
            let bits = m[(i, j)].to_bits();
            out.extend(Record { kind, row, column, zero: 0, count, bits }.to_bytes());
        }
    }
}

/// Row, column and count of an archive's kinds.
fn archive_fields(kind: u8) -> Option<(Field, Field, Field)> {
    let coefficient = Index(COEFFICIENTS);
    Some(match kind {
        RESPONSE_PHI | RESPONSE_PHI_A | RESIDUAL_PHI | RESIDUAL_PHI_A => {
            (coefficient, coefficient, Unused)
        }
        RESPONSE_P | RESIDUAL_P => (coefficient, coefficient, Index(PARAMETERS)),
        W => (Index(PARAMETERS), Index(PARAMETERS), Unused),
        ARCHIVED_SIGMA => (Unused, Unused, Unused),
        _ => return None,
    })
}

/// Row, column and count of the second file's kinds.
fn test_fields(kind: u8) -> Option<(Field, Field, Field)> {
    Some(match kind {
        BETA | BETA_H => (Index(COEFFICIENTS), Unused, Unused),
        CONTRAST => (Index(CONTRAST_ROWS), Index(COEFFICIENTS), Unused),
        _ => return None,
    })
}

fn same_bits(a: &Matrix, b: &Matrix) -> bool {
    a.cells.iter().zip(&b.cells).all(|(x, y)| x.to_bits() == y.to_bits())
}

/// Reads an archive. Its refusals, in this order: 2 for its length, 12, 2, 4, 5,
/// and 2 again for a record in response units that is not its residual one's.
pub fn read_archive(bytes: &[u8]) -> Result<Archive, Refusal> {
    let cells = Cells::read(bytes, archive_fields)?;
    // At least one coefficient and one P: an empty file misses their cells.
    let p = cells.rows(RESPONSE_PHI).max(cells.columns(RESPONSE_PHI)).max(1);
    let matrices = cells.rows(W).max(cells.columns(W)).max(1);
    let response_phi = cells.grid(RESPONSE_PHI, 0, p, p)?;
    let response_phi_a = cells.grid(RESPONSE_PHI_A, 0, p, p)?;
    let response_p = cells.grids(RESPONSE_P, matrices, p)?;
    let archive = Archive {
        w: cells.grid(W, 0, matrices, matrices)?,
        phi: cells.grid(RESIDUAL_PHI, 0, p, p)?,
        phi_a: cells.grid(RESIDUAL_PHI_A, 0, p, p)?,
        p: cells.grids(RESIDUAL_P, matrices, p)?,
        sigma2: cells.list(ARCHIVED_SIGMA, 1)?[0],
    };
    if !cells.values_finite() {
        return Err(NOT_FINITE);
    }
    if archive.sigma2 <= 0.0 {
        return Err(SIGMA2);
    }
    let fits = same_bits(&response_phi, &archive.response_phi())
        && same_bits(&response_phi_a, &archive.response_phi_a())
        && response_p.iter().zip(archive.response_p()).all(|(a, b)| same_bits(a, &b));
    if fits {
        Ok(archive)
    } else {
        Err(BAD_RECORDS)
    }
}

/// Reads the second file, for an archive of p coefficients. Its refusals, in
/// this order: 2 for its length, 12, 2, 4, 8.
pub fn read_tests(bytes: &[u8], p: usize) -> Result<Tests, Refusal> {
    let cells = Cells::read(bytes, test_fields)?;
    if cells.any(BETA_H) && !cells.any(CONTRAST) {
        return Err(BAD_RECORDS);
    }
    let tests = Tests {
        beta: cells.list(BETA, p)?,
        contrast: contrast(&cells, p)?,
        beta_h: cells.optional_list(BETA_H, p)?,
    };
    if !cells.values_finite() {
        return Err(NOT_FINITE);
    }
    if all_zero(&tests.contrast) {
        return Err(ZERO_CONTRAST);
    }
    Ok(tests)
}

/// Both files of a test: all of the archive is judged before the second file.
pub fn read_both(archive: &[u8], tests: &[u8]) -> Result<(Archive, Tests), Refusal> {
    let archive = read_archive(archive)?;
    let tests = read_tests(tests, archive.coefficients())?;
    Ok((archive, tests))
}

/// A series' records of the kinds 8 to 10: with these as the second file, the
/// test from its archive answers as the direct run.
pub fn test_records(series: &[u8]) -> Vec<u8> {
    let own = |record: &&[u8]| matches!(record[0], BETA | CONTRAST | BETA_H);
    series.chunks_exact(16).filter(own).flatten().copied().collect()
}

#[cfg(test)]
mod tests {
    use super::*;
    use crate::archive_tries::{random_archive, random_tests};
    use crate::order;
    use crate::random::Random;

    /// Φ 0.5, Φ_A 2, P -3, W 4, sigma2 8; β 6, contrast 1.
    fn small() -> Archive {
        let one = |v: f64| Matrix { rows: 1, cols: 1, cells: vec![v] };
        Archive { phi: one(0.5), phi_a: one(2.0), p: vec![one(-3.0)], w: one(4.0), sigma2: 8.0 }
    }

    fn record(kind: u8, row: u8, column: u8, count: u32, value: f64) -> Record {
        Record { kind, row, column, zero: 0, count, bits: value.to_bits() }
    }

    fn file(records: &[Record]) -> Vec<u8> {
        records.iter().flat_map(|r| r.to_bytes()).collect()
    }

    fn records_of(bytes: &[u8]) -> Vec<Record> {
        bytes.chunks(16).map(Record::from_bytes).collect()
    }

    #[test]
    fn the_layout() {
        let values = [(11, 4.0), (12, 16.0), (13, -0.375), (14, 4.0)];
        let residual = [(15, 0.5), (16, 2.0), (17, -3.0), (18, 8.0)];
        let all: Vec<Record> =
            values.iter().chain(&residual).map(|&(kind, v)| record(kind, 0, 0, 0, v)).collect();
        assert_eq!(small().to_bytes(), file(&all));
        assert_eq!(small().to_bytes().len(), SHORTEST);
        assert_eq!(16 * records(1, 1), SHORTEST);
        assert_eq!(16 * records(6, 4), LENT);
    }

    /// There and back, over every size: the same bits, the same bytes.
    #[test]
    fn there_and_back() {
        let mut random = Random::new(2);
        for p in 1..=6 {
            for matrices in 1..=4 {
                let archive = random_archive(&mut random, p, matrices);
                let bytes = archive.to_bytes();
                assert_eq!(bytes.len(), 16 * records(p, matrices));
                let rises = order::rises(&records_of(&bytes));
                assert!(rises, "p = {p}, N = {matrices}");
                let back = read_archive(&bytes).expect("it is accepted");
                assert_eq!(back.to_bytes(), bytes);
                let all = |a: &Archive| {
                    let mut out: Vec<f64> = a.phi.cells.clone();
                    out.extend(a.phi_a.cells.iter().chain(&a.w.cells).chain([&a.sigma2]));
                    a.p.iter().for_each(|p| out.extend(&p.cells));
                    out.iter().map(|v| v.to_bits()).collect::<Vec<_>>()
                };
                assert_eq!(all(&back), all(&archive));
                assert_eq!(back.coefficients(), p);
                let tests = random_tests(&mut random, p);
                assert!(read_both(&bytes, &tests).is_ok());
            }
        }
    }

    /// Each kind missing, alone too much, and each field that is not as it must
    /// be: 2.
    #[test]
    fn form() {
        let bytes = small().to_bytes();
        assert_eq!(read_archive(&[]), Err(2));
        assert_eq!(read_archive(&bytes[1..]), Err(2));
        let good = records_of(&bytes);
        for at in 0..good.len() {
            let mut less = good.clone();
            less.remove(at);
            assert_eq!(read_archive(&file(&less)), Err(2), "without record {at}");
            let changes: [fn(&mut Record); 6] = [
                |r| r.zero = 1,
                |r| r.row = 1,
                |r| r.column = 1,
                |r| r.count = 1,
                |r| r.row = 6,
                |r| r.count = 4,
            ];
            for change in changes {
                let mut other = good.clone();
                change(&mut other[at]);
                assert_eq!(read_archive(&file(&other)), Err(2), "record {at} changed");
            }
        }
        for kind in (0..=255).filter(|k| !(11..=18).contains(k)) {
            let mut more = good.clone();
            more.push(record(kind, 0, 0, 0, 1.0));
            assert_eq!(read_archive(&order::sorted(&file(&more))), Err(2), "kind {kind}");
        }
        // At and past the limits, each a record more in its place.
        for (kind, row, column, count) in [
            (11, 6, 0, 0),
            (12, 0, 6, 0),
            (13, 0, 0, 4),
            (14, 4, 0, 0),
            (14, 0, 4, 0),
            (15, 6, 0, 0),
            (16, 0, 6, 0),
            (17, 0, 0, 4),
            (11, 5, 0, 0),
            (13, 0, 0, 3),
            (14, 3, 0, 0),
            (17, 0, 0, 1),
        ] {
            let mut more = good.clone();
            more.push(record(kind, row, column, count, 1.0));
            assert_eq!(read_archive(&order::sorted(&file(&more))), Err(2));
        }
    }

    /// 12 before 2's other reasons, after the length; by the count too.
    #[test]
    fn rising() {
        let bytes = random_archive(&mut Random::new(4), 2, 2).to_bytes();
        let good = records_of(&bytes);
        for at in 0..good.len() - 1 {
            let mut falling = good.clone();
            falling.swap(at, at + 1);
            falling[0].zero = 7;
            let falling = file(&falling);
            assert_eq!(read_archive(&falling), Err(12), "pair {at}");
            assert_eq!(read_archive(&falling[..falling.len() - 1]), Err(2));
        }
        for kind in [13, 17] {
            // By row before count, which was the order of no kind but these.
            let mut other = good.clone();
            other.sort_by_key(|r| (r.kind, if r.kind == kind { 0 } else { r.count }, r.row));
            assert_eq!(read_archive(&file(&other)), Err(12));
        }
    }

    /// The values: 4, then 5, then 2 for what does not fit.
    #[test]
    fn values() {
        let good = records_of(&small().to_bytes());
        let with = |changes: &[(usize, f64)]| {
            let mut out = good.clone();
            changes.iter().for_each(|&(at, v)| out[at].bits = v.to_bits());
            read_archive(&file(&out)).err()
        };
        for at in 0..8 {
            for v in [f64::NAN, f64::INFINITY, f64::NEG_INFINITY] {
                assert_eq!(with(&[(at, v)]), Some(4));
                assert_eq!(with(&[(at, v), (7, if at == 7 { v } else { -1.0 })]), Some(4));
            }
        }
        for v in [0.0, -0.0, -8.0, -f64::from_bits(1)] {
            assert_eq!(with(&[(7, v), (0, 1.0)]), Some(5));
        }
        for at in [0, 1, 2, 4, 5, 6] {
            let next = f64::from_bits(good[at].bits ^ 1);
            assert_eq!(with(&[(at, next)]), Some(2), "the last digit of record {at}");
        }
        // W stands alone; another sigma2 moves all the others.
        assert_eq!(with(&[(3, -7.5)]), None);
        assert_eq!(with(&[(7, 4.0)]), Some(2));
        for (response, residual) in [(0, 4), (1, 5), (2, 6)] {
            assert_eq!(with(&[(response, 0.0), (residual, 0.0)]), None);
            assert_eq!(with(&[(response, -0.0), (residual, -0.0)]), None);
            assert_eq!(with(&[(response, -0.0), (residual, 0.0)]), Some(2));
            assert_eq!(with(&[(response, 0.0), (residual, -0.0)]), Some(2));
        }
        // Past the range, in both directions: infinite is 4, lost to zero stands.
        let large = with(&[(4, 1e308), (0, f64::INFINITY)]);
        assert_eq!(large, Some(4));
        assert_eq!(with(&[(4, 1e308), (0, f64::MAX)]), Some(2));
        let tiny = f64::from_bits(1);
        assert_eq!(with(&[(6, tiny), (2, 0.0)]), None);
        assert_eq!(with(&[(6, tiny), (2, tiny)]), Some(2));
    }

    /// The second file, with p = 2.
    #[test]
    fn second_file() {
        let beta = [record(8, 0, 0, 0, 6.0), record(8, 1, 0, 0, 3.0)];
        let row = [record(9, 0, 0, 0, 1.0), record(9, 0, 1, 0, 0.0)];
        let hypothesis = [record(10, 0, 0, 0, 1.0), record(10, 1, 0, 0, 2.0)];
        let number = |parts: &[&[Record]]| read_tests(&file(&parts.concat()), 2).err();
        assert_eq!(number(&[&beta]), None);
        assert_eq!(number(&[&beta, &row]), None);
        assert_eq!(number(&[&beta, &row, &hypothesis]), None);
        let more = [record(9, 1, 0, 0, 0.0), record(9, 1, 1, 0, 0.0)];
        assert_eq!(number(&[&beta, &row, &more]), None);
        for bad in [
            &[][..],
            &[&beta[..1]],
            &[&beta[1..]],
            &[&row],
            &[&beta, &hypothesis],
            &[&beta, &row[..1]],
            &[&beta, &row, &hypothesis[..1]],
            &[&beta, &[record(8, 2, 0, 0, 1.0)]],
            &[&beta, &row, &[record(9, 0, 2, 0, 1.0)]],
            &[&beta, &[record(11, 0, 0, 0, 1.0)]],
            &[&[record(7, 0, 0, 0, 1.0)], &beta],
            &[&beta[..1], &[Record { zero: 1, ..beta[1] }]],
            &[&beta[..1], &[Record { count: 1, ..beta[1] }]],
            &[&beta, &[record(9, 6, 0, 0, 1.0)]],
        ] {
            assert_eq!(number(bad), Some(2), "{bad:?}");
        }
        assert_eq!(number(&[&row, &beta]), Some(12));
        assert_eq!(number(&[&beta, &beta]), Some(12));
        let zeros = [record(9, 0, 0, 0, 0.0), record(9, 0, 1, 0, -0.0)];
        assert_eq!(number(&[&beta, &zeros]), Some(8));
        assert_eq!(number(&[&beta[..1], &[record(8, 1, 0, 0, f64::NAN)], &zeros]), Some(4));
        let whole = file(&[&beta[..], &row].concat());
        assert_eq!(read_tests(&whole[..whole.len() - 1], 2), Err(2));
        assert_eq!(read_tests(&whole, 1), Err(2));
        assert_eq!(read_tests(&whole, 3), Err(2));
    }

    /// All of the archive before the second file.
    #[test]
    fn the_archive_first() {
        let mut bytes = small().to_bytes();
        assert_eq!(read_both(&bytes, &[1]).err(), Some(2));
        bytes[8] ^= 1;
        // 2 of the last kind, where the second file would give 12 or 4.
        let falling = file(&[record(9, 0, 0, 0, 1.0), record(8, 0, 0, 0, f64::NAN)]);
        assert_eq!(read_both(&bytes, &falling).err(), Some(2));
        bytes[8] ^= 1;
        assert_eq!(read_both(&bytes, &falling).err(), Some(12));
        let infinite = file(&[record(8, 0, 0, 0, f64::INFINITY)]);
        assert_eq!(read_both(&bytes, &infinite).err(), Some(4));
    }

    #[test]
    fn records_of_a_series() {
        let all: Vec<Record> = (6..=11).map(|kind| record(kind, 0, 0, 0, 1.0)).collect();
        assert_eq!(test_records(&file(&all)), file(&all[2..5]));
    }
}
