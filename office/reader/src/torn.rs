//! Torn specimens: a weight of zero says that the film tore outside the glue,
//! so that the specimen is absent (document 02, "Req 03").
//!
//! The reader gives a series as it was sent. `Series::without_torn` is what a
//! run is given of it. `shortened` takes the torn specimens out of a file,
//! record by record, and knows nothing of the former, so that the tests can
//! hold the one to the other.
//!
//! Beside them: what a file says of torn specimens, for the tests that count,
//! and ways to tear specimens of a file.

use crate::random::Random;
use crate::{order, Record, Series, WEIGHTS, X, Z};
use listed_algebra::Matrix;
use std::collections::BTreeSet;

/// Whether a weight says that its specimen is torn: zero, of either sign.
pub fn is_torn(weight: f64) -> bool {
    weight == 0.0
}

impl Series {
    /// The series without its torn specimens: their rows of X and Z and their
    /// weights are dropped. All else stays as it was sent, Z's columns too, also
    /// one that has nothing but zeros left. Without weights nothing is torn.
    pub fn without_torn(self) -> Series {
        let weights = match &self.weights {
            Some(weights) if weights.iter().any(|&w| is_torn(w)) => weights,
            _ => return self,
        };
        let kept: Vec<usize> = (0..weights.len()).filter(|&i| !is_torn(weights[i])).collect();
        let rows = |m: &Matrix| Matrix::from_fn(kept.len(), m.cols, |i, j| m[(kept[i], j)]);
        let weights = kept.iter().map(|&i| weights[i]).collect();
        Series { x: rows(&self.x), z: rows(&self.z), weights: Some(weights), ..self }
    }
}

fn records(file: &[u8]) -> impl Iterator<Item = Record> + '_ {
    file.chunks_exact(16).map(Record::from_bytes)
}

fn value(record: &Record) -> f64 {
    f64::from_bits(record.bits)
}

/// Whether the row of a kind is a specimen.
fn of_specimen(kind: u8) -> bool {
    matches!(kind, X | Z | WEIGHTS)
}

/// What a file says of torn specimens, by its records as they stand: it need
/// not be accepted.
#[derive(Debug, Clone, PartialEq)]
pub struct Torn {
    /// The rows whose weight is zero.
    pub rows: BTreeSet<u8>,
    /// Whether every weight is zero.
    pub all: bool,
    /// Whether a torn row of X or Z has a value that is not finite.
    pub not_finite: bool,
    /// Whether a column of Z has records, and all of them in torn rows.
    pub column_lost: bool,
}

impl Torn {
    /// `None` where no weight of the file is zero.
    pub fn of(file: &[u8]) -> Option<Torn> {
        let weights = || records(file).filter(|r| r.kind == WEIGHTS);
        let rows: BTreeSet<u8> = weights().filter(|r| is_torn(value(r))).map(|r| r.row).collect();
        if rows.is_empty() {
            return None;
        }
        let torn = |r: &Record| matches!(r.kind, X | Z) && rows.contains(&r.row);
        let columns = |torn: bool| -> BTreeSet<u8> {
            let of_z = records(file).filter(|r| r.kind == Z);
            of_z.filter(|r| rows.contains(&r.row) == torn).map(|r| r.column).collect()
        };
        Some(Torn {
            all: weights().all(|r| is_torn(value(&r))),
            not_finite: records(file).any(|r| torn(&r) && !value(&r).is_finite()),
            column_lost: !columns(true).is_subset(&columns(false)),
            rows,
        })
    }
}

/// A file without the records of its torn specimens, the specimens behind them
/// moved up.
///
/// Z's columns are counted by what a file names, and they stay as they were sent:
/// where the last column is lost with the torn records, a zero keeps it. No
/// other column needs one, since an absent cell is zero.
pub fn shortened(file: &[u8]) -> Vec<u8> {
    let Some(torn) = Torn::of(file) else {
        return file.to_vec();
    };
    let last = |records: &[Record]| records.iter().filter(|r| r.kind == Z).map(|r| r.column).max();
    let all: Vec<Record> = records(file).collect();
    let mut out = Vec::new();
    for &record in &all {
        if !of_specimen(record.kind) {
            out.push(record);
        } else if !torn.rows.contains(&record.row) {
            let before = torn.rows.range(..record.row).count();
            out.push(Record { row: record.row - before as u8, ..record });
        }
    }
    if let Some(column) = last(&all).filter(|&column| last(&out) != Some(column)) {
        out.push(Record { kind: Z, row: 0, column, zero: 0, count: 0, bits: 0 });
    }
    let bytes: Vec<u8> = out.into_iter().flat_map(Record::to_bytes).collect();
    order::sorted(&bytes)
}

/// A zero of either sign.
pub fn zero(r: &mut Random) -> f64 {
    r.pick(&[0.0, -0.0])
}

/// A file with some of its weights, one, or all of them zero, of either sign. A
/// file that has none gets weights first, 1 for each row of X, which change
/// nothing.
pub fn with_torn(r: &mut Random, file: &[u8]) -> Vec<u8> {
    let whole = file.len() / 16 * 16;
    let mut all: Vec<Record> = records(file).collect();
    if !all.iter().any(|record| record.kind == WEIGHTS) {
        let rows: BTreeSet<u8> = all.iter().filter(|r| r.kind == X).map(|r| r.row).collect();
        let one =
            |row| Record { kind: WEIGHTS, row, column: 0, zero: 0, count: 0, bits: 1f64.to_bits() };
        // Behind the kinds that stand before it: a file that rises still does.
        let at = all.iter().position(|r| r.kind > WEIGHTS).unwrap_or(all.len());
        all.splice(at..at, rows.into_iter().map(one));
    }
    let places: Vec<usize> = (0..all.len()).filter(|&i| all[i].kind == WEIGHTS).collect();
    if !places.is_empty() {
        let one = r.pick(&places);
        let share = r.below(8);
        for &at in &places {
            // One alone, all, or each with the same chance.
            let tears = match share {
                0..=2 => at == one,
                3 => true,
                _ => r.once_in(2),
            };
            if tears {
                all[at].bits = zero(r).to_bits();
            }
        }
    }
    let mut out: Vec<u8> = all.into_iter().flat_map(Record::to_bytes).collect();
    out.extend(&file[whole..]);
    out
}

/// A file with torn specimens, one value of them another: not finite, below
/// zero, or at an end of the range.
pub fn spoiled(r: &mut Random, file: &[u8]) -> Vec<u8> {
    let mut out = file.to_vec();
    let Some(torn) = Torn::of(file) else {
        return out;
    };
    let own = |r: &Record| of_specimen(r.kind) && torn.rows.contains(&r.row);
    let places: Vec<usize> =
        records(file).enumerate().filter(|(_, record)| own(record)).map(|(at, _)| at).collect();
    let at = 16 * r.pick(&places);
    let values = [f64::NAN, f64::INFINITY, f64::NEG_INFINITY, -1.0, -f64::from_bits(1), f64::MAX];
    out[at + 8..at + 16].copy_from_slice(&r.pick(&values).to_bits().to_le_bytes());
    out
}

#[cfg(test)]
mod tests {
    use super::*;
    use crate::{numbers, read};

    fn record(kind: u8, row: u8, column: u8, value: f64) -> Record {
        Record { kind, row, column, zero: 0, count: 0, bits: value.to_bits() }
    }

    fn file(records: &[Record]) -> Vec<u8> {
        order::sorted(&records.iter().flat_map(|r| r.to_bytes()).collect::<Vec<_>>())
    }

    /// Three specimens of two coefficients, a block of two groups, the weights
    /// given: specimens 0 and 2 are in the first group, 1 in the second.
    fn three(weights: [f64; 3]) -> Vec<Record> {
        let mut out = vec![
            record(X, 0, 0, 1.0),
            record(X, 0, 1, 2.0),
            record(X, 1, 0, 3.0),
            record(X, 1, 1, 4.0),
            record(X, 2, 0, 5.0),
            record(X, 2, 1, 6.0),
            record(Z, 0, 0, 7.0),
            record(Z, 1, 1, 8.0),
            record(Z, 2, 0, 9.0),
            numbers::block(0, 1, 2),
            record(crate::THETA, 0, 0, 0.5),
        ];
        out.extend((0..3).map(|i| record(WEIGHTS, i, 0, weights[i as usize])));
        for i in 0..2 {
            out.extend((0..2).map(|j| record(crate::PHI, i, j, 1.0)));
            out.push(record(crate::BETA, i, 0, 1.0));
        }
        out.push(record(crate::SIGMA, 0, 0, 1.0));
        out
    }

    /// The rows of X, of Z and the weights of a file's series without its torn
    /// specimens.
    fn left(records: &[Record]) -> (Vec<f64>, Vec<f64>, Vec<f64>) {
        let sent = read(&file(records)).expect("it is accepted");
        let left = sent.clone().without_torn();
        assert_eq!(left.z.cols, sent.z.cols);
        assert_eq!((&left.blocks, &left.theta, &left.phi), (&sent.blocks, &sent.theta, &sent.phi));
        (left.x.cells, left.z.cells, left.weights.expect("it still has weights"))
    }

    #[test]
    fn rows_and_weights_are_dropped() {
        let some = |weights| left(&three(weights));
        let all = (
            vec![1.0, 2.0, 3.0, 4.0, 5.0, 6.0],
            vec![7.0, 0.0, 0.0, 8.0, 9.0, 0.0],
            vec![0.5, 2.0, 4.0],
        );
        assert_eq!(some([0.5, 2.0, 4.0]), all);
        let first = (vec![3.0, 4.0, 5.0, 6.0], vec![0.0, 8.0, 9.0, 0.0], vec![2.0, 4.0]);
        assert_eq!(some([0.0, 2.0, 4.0]), first);
        assert_eq!(some([-0.0, 2.0, 4.0]), first);
        let last = (vec![1.0, 2.0, 3.0, 4.0], vec![7.0, 0.0, 0.0, 8.0], vec![0.5, 2.0]);
        assert_eq!(some([0.5, 2.0, -0.0]), last);
        // The second group, and with it the last column, has zeros alone.
        let group = (vec![1.0, 2.0, 5.0, 6.0], vec![7.0, 0.0, 9.0, 0.0], vec![0.5, 4.0]);
        assert_eq!(some([0.5, 0.0, 4.0]), group);
        assert_eq!(some([0.0, 2.0, -0.0]), (vec![3.0, 4.0], vec![0.0, 8.0], vec![2.0]));
    }

    #[test]
    fn without_weights_nothing_is_torn() {
        let all = three([1.0; 3]);
        let bare: Vec<Record> = all.into_iter().filter(|r| r.kind != WEIGHTS).collect();
        let series = read(&file(&bare)).expect("it is accepted");
        assert_eq!(series.clone().without_torn(), series);
        assert_eq!(Torn::of(&file(&bare)), None);
        assert_eq!(shortened(&file(&bare)), file(&bare));
    }

    /// Of a row or of all, with or without another reason beside them.
    #[test]
    fn refusals() {
        let number = |records: &[Record]| read(&file(records)).err();
        let put = |weights, kind: u8, row: u8, value: f64| {
            let mut out = three(weights);
            let at = out.iter().position(|r| r.kind == kind && r.row == row).expect("it is there");
            out[at].bits = value.to_bits();
            number(&out)
        };
        assert_eq!(number(&three([1.0, 0.0, -0.0])), None);
        for all in [[0.0; 3], [-0.0; 3], [0.0, -0.0, 0.0]] {
            assert_eq!(number(&three(all)), Some(3));
            for value in [f64::NAN, f64::INFINITY, f64::NEG_INFINITY] {
                assert_eq!(put(all, X, 1, value), Some(3));
                assert_eq!(put(all, Z, 2, value), Some(3));
                assert_eq!(put(all, crate::SIGMA, 0, value), Some(3));
            }
            assert_eq!(put(all, crate::SIGMA, 0, 0.0), Some(3));
        }
        for row in 0..3 {
            // A weight that is no number is not zero, and 4 comes before 6.
            assert_eq!(put([0.0, 0.0, 0.0], WEIGHTS, row, f64::NAN), Some(4));
            assert_eq!(put([0.0, 0.0, 0.0], WEIGHTS, row, -1.0), Some(6));
            assert_eq!(put([0.0, 0.0, 0.0], WEIGHTS, row, -f64::from_bits(1)), Some(6));
            assert_eq!(put([0.0, 0.0, 0.0], WEIGHTS, row, f64::from_bits(1)), None);
            assert_eq!(put([1.0, 0.0, -0.0], X, row, f64::NAN), Some(4));
            assert_eq!(put([0.0, 1.0, 0.0], Z, row, f64::INFINITY), Some(4));
        }
        assert_eq!(put([0.0, -1.0, 1.0], crate::SIGMA, 0, 0.0), Some(5));
        // 2 and 12 before it: a weight missing beside zeros, and all reversed.
        let mut less = three([0.0; 3]);
        less.retain(|r| (r.kind, r.row) != (WEIGHTS, 1));
        assert_eq!(number(&less), Some(2));
        let mut falling = file(&three([0.0; 3]));
        falling.rotate_left(16);
        assert_eq!(read(&falling).err(), Some(12));
    }

    /// A column counts in 7 as it was sent.
    #[test]
    fn a_column_of_torn_records_counts() {
        let mut more = three([1.0, 0.0, 1.0]);
        more.push(record(Z, 1, 2, 1.0));
        assert_eq!(read(&file(&more)).err(), Some(7));
        let block = more.iter().position(|r| r.kind == crate::BLOCK).expect("a block");
        more[block].count = 3;
        let series = read(&file(&more)).expect("it is accepted").without_torn();
        assert_eq!(series.z.cells, [7.0, 0.0, 0.0, 9.0, 0.0, 0.0]);
    }

    /// The file without torn specimens is read as the series without them.
    #[test]
    fn the_shortened_file() {
        let kept = |weights: [f64; 3]| {
            let records = three(weights);
            let short = shortened(&file(&records));
            let series = read(&file(&records)).expect("it is accepted").without_torn();
            assert_eq!(read(&short), Ok(series), "{weights:?}");
            short.len() / 16
        };
        let all = three([1.0; 3]).len();
        assert_eq!(kept([1.0, 2.0, 3.0]), all);
        assert_eq!(kept([0.0, 2.0, 3.0]), all - 4);
        assert_eq!(kept([1.0, 2.0, -0.0]), all - 4);
        // A zero in the place of the last column's record.
        assert_eq!(kept([1.0, 0.0, 3.0]), all - 3);
        assert_eq!(kept([-0.0, 2.0, 0.0]), all - 8);
    }

    #[test]
    fn what_a_file_says() {
        let look = |records: &[Record]| Torn::of(&file(records)).expect("some are torn");
        let some = look(&three([1.0, 0.0, 1.0]));
        assert_eq!(some.rows, BTreeSet::from([1]));
        assert_eq!((some.all, some.not_finite, some.column_lost), (false, false, true));
        let first = look(&three([-0.0, 1.0, 1.0]));
        assert_eq!((first.rows, first.column_lost), (BTreeSet::from([0]), false));
        assert!(look(&three([0.0; 3])).all);
        let mut bad = three([1.0, 0.0, 1.0]);
        bad[2].bits = f64::NAN.to_bits();
        assert!(look(&bad).not_finite);
        bad[2].bits = 0;
        bad[0].bits = f64::NAN.to_bits();
        assert!(!look(&bad).not_finite);
    }

    /// Weights are put in where there are none, and some specimen is torn.
    #[test]
    fn tearing() {
        let mut random = Random::new(1);
        let bare: Vec<Record> = three([1.0; 3]).into_iter().filter(|r| r.kind != WEIGHTS).collect();
        let mut seen = [0; 4];
        for _ in 0..400 {
            let torn = with_torn(&mut random, &file(&bare));
            assert_eq!(torn.len(), file(&three([1.0; 3])).len());
            let rows = Torn::of(&torn).map_or(0, |torn| torn.rows.len());
            seen[rows] += 1;
            assert_eq!(read(&torn).err(), (rows == 3).then_some(3));
        }
        assert!(seen.iter().all(|&times| times > 10), "{seen:?}");
        assert_eq!(with_torn(&mut random, &[1, 2, 3]), [1, 2, 3]);
    }

    /// One value of a torn specimen, and no byte beside it.
    #[test]
    fn spoiling() {
        let mut random = Random::new(2);
        let good = file(&three([1.0, 0.0, -0.0]));
        let mut met = BTreeSet::new();
        for _ in 0..200 {
            let bad = spoiled(&mut random, &good);
            let pairs = || records(&good).zip(records(&bad)).filter(|(a, b)| a != b);
            assert!(pairs().all(|(a, b)| a.key() == b.key() && (1..=2).contains(&a.row)));
            assert_eq!(pairs().count(), 1);
            met.insert(read(&bad).err());
        }
        assert_eq!(met, BTreeSet::from([None, Some(4), Some(6)]));
        let whole = file(&three([1.0; 3]));
        assert_eq!(spoiled(&mut random, &whole), whole);
    }
}
