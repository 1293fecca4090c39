//! Random series with torn specimens: weights of zero beside rows of X and Z
//! that must not matter.
//!
//! Mostly torn specimens join those of a series, so that what is left of the file
//! is that series, with the Φ of its own rows and all that its family aims at.
//! Else some of the series' own specimens are torn. A part of the files has a
//! reason to be refused beside the zeros.

use crate::random::{fitted_phi, power, Random};
use crate::reader::torn::{is_torn, zero};
use crate::reader::Series;
use listed_algebra::Matrix;

/// One series in so many that has weights, and one in so many that has none and
/// gets them for it.
const WEIGHTED_ONE_IN: usize = 3;
const UNWEIGHTED_ONE_IN: usize = 8;

/// One in so many of the files with torn specimens has a reason to be refused.
const SPOILED_ONE_IN: usize = 6;

// Limits of document 01.
const SPECIMENS: usize = 24;
const RANDOM_COLUMNS: usize = 24;

/// Some series with torn specimens, as it is sent; `None` for the others.
pub fn torn(r: &mut Random, series: &Series) -> Option<Series> {
    let one_in = if series.weights.is_some() { WEIGHTED_ONE_IN } else { UNWEIGHTED_ONE_IN };
    if !r.once_in(one_in) {
        return None;
    }
    let series = weighted(series.clone());
    let (n, room) = (series.x.rows, SPECIMENS - series.x.rows);
    let mut sent = if room == 0 || (n > 1 && r.once_in(4)) {
        some_of_its_own(r, series)
    } else {
        with_others(r, series, room)
    };
    if r.once_in(SPOILED_ONE_IN) {
        spoil(r, &mut sent);
    }
    Some(sent)
}

/// The series with weights: 1 where it has none, which changes no bit of a run.
fn weighted(series: Series) -> Series {
    let weights = series.weights.unwrap_or_else(|| vec![1.0; series.x.rows]);
    Series { weights: Some(weights), ..series }
}

/// The specimens whose weight is zero.
fn torn_rows(series: &Series) -> Vec<usize> {
    let weights = series.weights.iter().flatten().enumerate();
    weights.filter(|(_, &w)| is_torn(w)).map(|(i, _)| i).collect()
}

/// Any finite number, often one that would be seen if it were used.
fn odd(r: &mut Random) -> f64 {
    let sign = r.pick(&[1.0, -1.0]);
    sign * match r.below(10) {
        0 => 0.0,
        1 => f64::MAX,
        2 => f64::from_bits(1 + r.bits() % (1 << 52)),
        3 => power(r.between(-1022, 1023)),
        // Any digits; the exponent's last bit is left out, so that it is finite.
        4 => f64::from_bits(r.bits() & !(1 << 63) & !(1 << 52)),
        5 => f64::MIN_POSITIVE,
        6 | 7 => r.small(),
        _ => r.real(),
    }
}

// ------------------------------------------------------ others beside its own

/// The series with torn specimens among its own; dropped again, they leave the
/// series.
fn with_others(r: &mut Random, series: Series, room: usize) -> Series {
    let n = series.x.rows;
    let (count, place) = match r.below(6) {
        0 => (1, Some(0)),
        1 => (1, Some(n)),
        2 => (1, None),
        // As many as the series has, where there is room.
        3 => (n.min(room), None),
        _ => (1 + r.below(room), None),
    };
    let mut rows: Vec<Option<usize>> = (0..n).map(Some).collect();
    for _ in 0..count {
        let at = place.unwrap_or_else(|| r.below(rows.len() + 1));
        rows.insert(at, None);
    }
    let grouped = if r.once_in(4) { with_group(r, series) } else { series };
    with_rows(r, grouped, &rows)
}

/// The series with its rows in these places, and a torn specimen in each other.
fn with_rows(r: &mut Random, series: Series, rows: &[Option<usize>]) -> Series {
    let mut put = |m: &Matrix, zeros: bool| {
        let mut out = Matrix::zeros(rows.len(), m.cols);
        for (i, row) in rows.iter().enumerate() {
            for j in 0..m.cols {
                out[(i, j)] = match row {
                    Some(own) => m[(*own, j)],
                    None if zeros && r.once_in(2) => 0.0,
                    None => odd(r),
                };
            }
        }
        out
    };
    let (x, z) = (put(&series.x, false), put(&series.z, true));
    let own = series.weights.as_ref().expect("it has weights");
    let weights = rows.iter().map(|row| row.map_or_else(|| zero(r), |i| own[i])).collect();
    Series { x, z, weights: Some(weights), ..series }
}

/// The series with a group more, in which none of its own specimens is: columns
/// of Z whose only records are those of torn specimens. Where there is no
/// room for it the series is as it was.
fn with_group(r: &mut Random, series: Series) -> Series {
    let Some(block) = series.blocks.len().checked_sub(1).map(|last| r.below(last + 1)) else {
        return series;
    };
    let k = series.blocks[block].k;
    if series.z.cols + k > RANDOM_COLUMNS {
        return series;
    }
    let before: usize = series.blocks[..block].iter().map(|b| b.m * b.k).sum();
    // Often the last, which a file names by what is there.
    let m = series.blocks[block].m;
    let group = if r.once_in(2) { m } else { r.below(m + 1) };
    let first = before + group * k;
    let z = Matrix::from_fn(series.z.rows, series.z.cols + k, |i, j| match j {
        j if j < first => series.z[(i, j)],
        j if j < first + k => 0.0,
        j => series.z[(i, j - k)],
    });
    let mut blocks = series.blocks.clone();
    blocks[block].m += 1;
    Series { z, blocks, ..series }
}

// ------------------------------------------------------ some of its own

/// The series with some of its own specimens torn, and a Φ of the others if its
/// own was that of its rows.
fn some_of_its_own(r: &mut Random, series: Series) -> Series {
    let n = series.x.rows;
    let chosen = chosen(r, &series);
    let fitted = fitted_phi(&series).is_some_and(|phi| phi == series.phi);
    let mut weights = series.weights.clone().expect("it has weights");
    (0..n).filter(|&i| chosen[i]).for_each(|i| weights[i] = zero(r));
    let mut sent = Series { weights: Some(weights), ..series };
    if fitted {
        sent.phi = fitted_phi(&sent.clone().without_torn()).unwrap_or(sent.phi);
    }
    // Their rows as they were, or other ones.
    if r.once_in(2) {
        for i in torn_rows(&sent) {
            (0..sent.x.cols).for_each(|j| sent.x[(i, j)] = odd(r));
            for j in 0..sent.z.cols {
                if r.once_in(2) {
                    sent.z[(i, j)] = odd(r);
                }
            }
        }
    }
    sent
}

/// Which specimens are torn: some, and not all.
fn chosen(r: &mut Random, series: &Series) -> Vec<bool> {
    let n = series.x.rows;
    let one = r.below(n);
    let out: Vec<bool> = match r.below(8) {
        0 => (0..n).map(|i| i == 0).collect(),
        1 => (0..n).map(|i| i + 1 == n).collect(),
        2 => (0..n).map(|i| i != one).collect(),
        3 | 4 => in_a_group(r, series),
        5 | 6 => (0..n).map(|_| r.once_in(2)).collect(),
        _ => Vec::new(),
    };
    if out.contains(&true) && out.contains(&false) {
        out
    } else {
        (0..n).map(|i| i == one).collect()
    }
}

/// The specimens of one group: those with a number in one of its columns.
fn in_a_group(r: &mut Random, series: &Series) -> Vec<bool> {
    let mut groups = Vec::new();
    let mut first = 0;
    for block in &series.blocks {
        groups.extend((0..block.m).map(|g| first + g * block.k..first + (g + 1) * block.k));
        first += block.m * block.k;
    }
    if groups.is_empty() {
        return Vec::new();
    }
    let columns = groups.swap_remove(r.below(groups.len()));
    let inside = |i: usize| columns.clone().any(|j| series.z[(i, j)] != 0.0);
    (0..series.x.rows).map(inside).collect()
}

// ------------------------------------------------------ refused all the same

/// Gives a file with torn specimens a reason to be refused.
fn spoil(r: &mut Random, sent: &mut Series) {
    let rows = torn_rows(sent);
    let torn = r.pick(&rows);
    // Another specimen than this one, torn or not: some are left, so there is one.
    let n = sent.x.rows;
    let other = (torn + 1 + r.below(n - 1)) % n;
    let bad = r.pick(&[f64::NAN, f64::INFINITY, f64::NEG_INFINITY]);
    let (x_column, z_column) = (r.below(sent.x.cols), r.below(sent.z.cols.max(1)));
    let weights = sent.weights.as_mut().expect("it has weights");
    match r.below(8) {
        // A torn row is looked at before it is dropped: 4.
        0 | 1 if sent.z.cols > 0 => sent.z[(torn, z_column)] = bad,
        0..=3 => sent.x[(torn, x_column)] = bad,
        // No specimen is left: 3, also beside what would be 4 or 5.
        4 => weights.iter_mut().for_each(|w| *w = zero(r)),
        5 => {
            weights.iter_mut().for_each(|w| *w = zero(r));
            match r.below(3) {
                0 => sent.sigma2 = r.pick(&[0.0, -0.0, -1.0]),
                _ => sent.x[(other, x_column)] = bad,
            }
        }
        // Beside zeros a weight below zero is 6, and one that is not finite 4.
        6 => weights[other] = if r.once_in(4) { -f64::from_bits(1) } else { -r.positive() },
        _ => weights[other] = bad,
    }
}

#[cfg(test)]
mod tests {
    use super::*;
    use crate::archive::archive_fill;
    use crate::calls::kenward_roger_fill;
    use crate::known_torn;
    use crate::random::{kr_case, random_series_of, KR_FAMILIES, MORE_KR_FAMILIES, SHUFFLED};
    use crate::reader::archive::LENT;
    use crate::reader::torn::{shortened, Torn};
    use crate::reader::{Record, WEIGHTS};
    use std::collections::BTreeMap;

    fn families() -> Vec<&'static str> {
        [&KR_FAMILIES[..], &MORE_KR_FAMILIES, &[SHUFFLED]].concat()
    }

    /// The torn files among so many of a family, with what they say of it.
    fn torn_files(family: &str, cases: u64) -> Vec<(Vec<u8>, Torn)> {
        let files = (0..cases).map(|seed| kr_case(&mut Random::new(seed), family));
        files.filter_map(|file| Torn::of(&file).map(|torn| (file, torn))).collect()
    }

    fn direct(file: &[u8]) -> (u32, [u8; 168]) {
        let mut answer = [7; 168];
        (kenward_roger_fill(file, &mut answer), answer)
    }

    fn archived(file: &[u8]) -> (u32, Vec<u8>) {
        let mut lent = vec![7; LENT];
        (archive_fill(file, &mut lent), lent)
    }

    /// Files of each family.
    const CASES: u64 = 300;

    /// Of every family a good part has torn specimens, and of these most are
    /// answered where the family's own are.
    #[test]
    fn every_family_has_them() {
        for family in families() {
            let files = torn_files(family, CASES);
            let answered = files.iter().filter(|(file, _)| direct(file).0 == 0).count();
            println!("{family}: {} torn, {answered} answered", files.len());
            let least = match family {
                SHUFFLED => 0,
                "damaged" | "damaged-any" | "late" => 3,
                _ => files.len() / 2,
            };
            assert!(files.len() >= 40 && answered >= least, "{family}");
        }
    }

    /// The first, the last, all but one, a whole group, half; +0 and -0; and what
    /// is refused all the same.
    #[test]
    fn every_manner_is_met() {
        let mut met: BTreeMap<&str, usize> = BTreeMap::new();
        for family in families() {
            for (file, torn) in torn_files(family, CASES) {
                let number = direct(&file).0;
                let weights: Vec<f64> = file
                    .chunks_exact(16)
                    .map(Record::from_bytes)
                    .filter(|r| r.kind == WEIGHTS)
                    .map(|r| f64::from_bits(r.bits))
                    .collect();
                let count = torn.rows.len();
                let last = weights.len() - 1;
                let bits = |zero: f64| weights.iter().any(|w| w.to_bits() == zero.to_bits());
                let manners = [
                    ("the first", number == 0 && torn.rows.contains(&0)),
                    ("the last", number == 0 && torn.rows.contains(&(last as u8))),
                    ("one", number == 0 && count == 1),
                    ("all but one", number == 0 && count == last && last > 1),
                    ("half", number == 0 && count > 1 && 2 * count == weights.len()),
                    ("a column lost", number == 0 && torn.column_lost),
                    ("both zeros", number == 0 && bits(0.0) && bits(-0.0)),
                    ("24 specimens", number == 0 && last == 23),
                    ("3: all", number == 3 && torn.all && !torn.not_finite),
                    ("3: all, not finite", number == 3 && torn.all && torn.not_finite),
                    ("4: a torn row", number == 4 && torn.not_finite),
                    ("6: beside zeros", number == 6),
                ];
                for (name, _) in manners.into_iter().filter(|(_, holds)| *holds) {
                    *met.entry(name).or_default() += 1;
                }
            }
        }
        println!("{met:?}");
        assert_eq!(met.len(), 12, "{met:?}");
        assert!(met.values().all(|&times| times >= 8), "{met:?}");
    }

    /// The file without the torn specimens' records, numbered anew, has the same
    /// answer and archive, byte for byte. It is made apart from the reader's
    /// shortening.
    #[test]
    fn the_file_without_them_answers_alike() {
        let by_hand = [known_torn::kenward_roger(), known_torn::archived()].concat();
        let mut files: Vec<Vec<u8>> = by_hand.into_iter().map(|(_, file, _)| file).collect();
        for family in families() {
            files.extend(torn_files(family, 200).into_iter().map(|(file, _)| file));
        }
        let (mut answered, mut lost) = (0, 0);
        for file in &files {
            let Some(torn) = Torn::of(file) else { continue };
            if crate::reader::read(file).is_err() {
                continue;
            }
            let short = shortened(file);
            assert!(short.len() < file.len() && Torn::of(&short).is_none());
            let (a, b) = (direct(file), direct(&short));
            assert_eq!((a.0, a.1), (b.0, b.1));
            assert_eq!(archived(file), archived(&short));
            answered += usize::from(a.0 == 0);
            lost += usize::from(torn.column_lost);
        }
        println!("{answered} answered, in {lost} a column of Z lost its records");
        assert!(answered > 300 && lost > 50);
    }

    /// Torn specimens that join a series leave it as it was.
    #[test]
    fn what_is_left_is_the_series() {
        for seed in 0..200 {
            let r = &mut Random::new(seed);
            let series = weighted(random_series_of(r, "small"));
            let n = series.x.rows;
            let rows: Vec<Option<usize>> =
                (0..n).flat_map(|i| [Some(i), None]).take(1 + r.below(2 * n)).collect();
            let own = rows.iter().flatten().count();
            let left = with_rows(r, series.clone(), &rows).without_torn();
            assert_eq!(left.x.cells, series.x.cells[..own * series.x.cols]);
            assert_eq!(left.z.cells, series.z.cells[..own * series.z.cols]);
            assert_eq!(left.weights, series.weights.map(|w| w[..own].to_vec()));
            assert_eq!((left.phi, left.theta), (series.phi, series.theta));
        }
    }
}
