//! Random series, by families. A family aims at branches of document 01; the
//! seed alone decides what comes out.

use crate::numbers::with_faults;
use crate::reader::cutoffs::Cutoffs;
use crate::reader::numbers::{self, parameter_count};
use crate::reader::{self, order, torn::is_torn, Block, Record, SattSeries, Series};
use crate::torn::torn;
use crate::{calls, marked};
use listed_algebra::{cholesky, inverse, product, Matrix, Plain};

pub use ::reader::random::Random;

/// 2^e, with 0 below and infinity above the range, subnormal ones included.
pub fn power(e: i64) -> f64 {
    match e {
        1024.. => f64::INFINITY,
        -1022..=1023 => f64::from_bits(((e + 1023) as u64) << 52),
        -1074..=-1023 => f64::from_bits(1 << (e + 1074)),
        _ => 0.0,
    }
}

fn matrix(rows: usize, cols: usize, mut cell: impl FnMut() -> f64) -> Matrix {
    let mut m = Matrix::zeros(rows, cols);
    for v in m.cells.iter_mut() {
        *v = cell();
    }
    m
}

// ------------------------------------------------------ Kenward–Roger

/// The families of the Kenward–Roger call.
pub const KR_FAMILIES: [&str; 11] = [
    "plain",
    "slopes",
    "small",
    "contrasts",
    "extreme",
    "singular",
    "negative",
    "near2",
    "roots",
    "late",
    "damaged",
];

/// Families for the live comparison alone, so that the stored vectors stay as
/// they are.
pub const MORE_KR_FAMILIES: [&str; 3] = ["sizes", "edge", "damaged-any"];

/// The family of either call whose files are good but for their order.
pub const SHUFFLED: &str = "shuffled";

/// The groups of a block: each specimen in one of m, by an indicator or with
/// effects of its own.
fn random_columns(r: &mut Random, n: usize, blocks: &[Block], small: bool) -> Matrix {
    let columns = blocks.iter().map(|b| b.m * b.k).sum();
    let mut z = Matrix::zeros(n, columns);
    let mut first = 0;
    for b in blocks {
        for i in 0..n {
            // Unbalanced: any specimen in any group.
            let group = first + r.below(b.m) * b.k;
            z[(i, group)] = 1.0;
            if b.k == 2 {
                z[(i, group + 1)] = if small { r.small() } else { r.real() };
            }
            // Now and then a design that is no grouping.
            if r.once_in(12) {
                z[(i, first + r.below(b.m * b.k))] = if small { r.small() } else { r.real() };
            }
        }
        first += b.m * b.k;
    }
    z
}

/// 0 to 3 blocks with at most 3 parameters and 24 columns, the last column
/// filled, so that the file has all of them.
fn random_blocks(r: &mut Random, slopes: bool) -> Vec<Block> {
    if slopes {
        return vec![Block { m: 1 + r.below(12), k: 2 }];
    }
    let count = r.below(4);
    (0..count).map(|_| Block { m: 1 + r.below(8), k: 1 }).collect()
}

fn random_series(r: &mut Random, n: usize, p: usize, slopes: bool, small: bool) -> Series {
    let blocks = random_blocks(r, slopes);
    series_of_blocks(r, n, p, blocks, small)
}

/// A random series of stated sizes, with as many contrast rows.
pub fn series_of_sizes(
    r: &mut Random,
    n: usize,
    p: usize,
    blocks: Vec<Block>,
    rows: usize,
) -> Series {
    let series = series_of_blocks(r, n, p, blocks, false);
    let contrast = (rows > 0).then(|| matrix(rows, p, || r.real()));
    let beta_h = series.beta_h.filter(|_| rows > 0);
    Series { contrast, beta_h, ..series }
}

fn series_of_blocks(r: &mut Random, n: usize, p: usize, blocks: Vec<Block>, small: bool) -> Series {
    let z = random_columns(r, n, &blocks, small);
    let thetas: u32 = blocks.iter().map(|b| parameter_count(b.k as u8)).sum();
    let zero_theta = r.once_in(6);
    let theta = (0..thetas)
        .map(|_| {
            if zero_theta && r.once_in(2) {
                0.0
            } else if small {
                r.small()
            } else {
                r.real()
            }
        })
        .collect();
    let mut x = matrix(n, p, || if small { r.small() } else { r.real() });
    // An intercept, mostly.
    if !r.once_in(4) {
        for i in 0..n {
            x[(i, 0)] = 1.0;
        }
    }
    let weights = if r.once_in(2) {
        Some((0..n).map(|_| if small { r.between(1, 4) as f64 } else { r.positive() }).collect())
    } else {
        None
    };
    let beta = (0..p).map(|_| if small { r.small() } else { r.real() }).collect();
    let sigma2 = if small { power(r.between(-3, 3)) } else { r.positive() };
    let contrast = random_contrast(r, p, small);
    let beta_h = if contrast.is_some() && r.once_in(3) {
        Some((0..p).map(|_| if small { r.small() } else { r.real() }).collect())
    } else {
        None
    };
    let phi = Matrix::identity(p);
    let series = Series { x, z, blocks, theta, weights, phi, sigma2, beta, contrast, beta_h };
    let phi = random_phi(r, &series, small);
    Series { phi, ..series }
}

/// 0 to 6 rows.
fn random_contrast(r: &mut Random, p: usize, small: bool) -> Option<Matrix> {
    let rows = r.below(7);
    if rows == 0 {
        return None;
    }
    Some(matrix(rows, p, || if small || r.once_in(2) { r.small() } else { r.real() }))
}

/// Mostly (XᵀΣ⁻¹X)⁻¹, as a fit would have it; else some symmetric matrix, and
/// now and then one that is not.
fn random_phi(r: &mut Random, series: &Series, small: bool) -> Matrix {
    let p = series.x.cols;
    if !r.once_in(4) {
        if let Some(phi) = fitted_phi(series) {
            return phi;
        }
    }
    let root = matrix(p, p, || if small { r.small() } else { r.real() });
    let phi = product(&Plain, &root.transposed(), &root).map(|v| v / 4.0);
    if r.once_in(4) {
        root
    } else {
        phi
    }
}

/// (Xᵀ Σ⁻¹ X)⁻¹ of the series' own Σ.
pub fn fitted_phi(series: &Series) -> Option<Matrix> {
    let sigma = marked::sigma(series);
    let li = inverse(&Plain, &cholesky(&Plain, &sigma)?)?;
    let lx = product(&Plain, &li, &series.x);
    let phi = inverse(&Plain, &product(&Plain, &lx.transposed(), &lx))?;
    if phi.cells.iter().all(|v| v.is_finite()) {
        Some(phi)
    } else {
        None
    }
}

/// Sizes: any, with the largest and smallest often enough.
fn sizes(r: &mut Random) -> (usize, usize) {
    let p = 1 + r.below(6);
    let n = match r.below(6) {
        0 => 1 + r.below(3),
        1 => 24,
        _ => (p + r.below(12)).min(24),
    };
    (n, p)
}

/// The file of one case of a family.
pub fn kr_case(r: &mut Random, family: &str) -> Vec<u8> {
    if family == "damaged" {
        let series = random_series_of(r, "small");
        let good = sent_file(r, &series);
        return damage(r, good, false);
    }
    if family == "damaged-any" {
        return damaged_any(r);
    }
    if family == SHUFFLED {
        let family = r.pick(&["small", "slopes", "contrasts", "plain"]);
        return out_of_order(r, |r| kr_case(r, family), |file| calls::kenward_roger(file).is_ok());
    }
    let series = random_series_of(r, family);
    sent_file(r, &series)
}

/// The file of a series, of some of them with torn specimens, and with a wrong
/// number in a block. These are drawn apart, so that every other file is what it
/// would be without them.
fn sent_file(r: &mut Random, series: &Series) -> Vec<u8> {
    let mut apart = r.apart();
    let whole = kr_file(r, series);
    let file = torn(&mut apart, series).map_or(whole, |sent| kr_file(&mut apart, &sent));
    with_faults(&mut apart, file)
}

/// A file of any size and sort, damaged once to three times.
fn damaged_any(r: &mut Random) -> Vec<u8> {
    let family = r.pick(&["sizes", "slopes", "contrasts", "extreme"]);
    let series = random_series_of(r, family);
    let mut bytes = sent_file(r, &series);
    for _ in 0..1 + r.below(3) {
        if bytes.len() >= 16 {
            bytes = damage(r, bytes, false);
        }
    }
    bytes
}

pub fn random_series_of(r: &mut Random, family: &str) -> Series {
    match family {
        "slopes" => {
            let (n, p) = sizes(r);
            random_series(r, n, p, true, false)
        }
        "small" => {
            let (n, p) = (1 + r.below(4), 1 + r.below(3));
            let slopes = r.once_in(3);
            random_series(r, n, p, slopes, true)
        }
        "contrasts" => hard_contrast(r),
        "extreme" => extreme(r),
        "singular" => singular(r),
        "negative" => negative(r),
        "near2" => {
            let roots = [0.0, 0.0, 0.01, -0.01, 0.005, -0.02].map(|t| Root::Df(2.0 + t));
            root_series(r, &roots)
        }
        "roots" => {
            let roots = [Root::A2, Root::D, Root::V(0), Root::V(1), Root::V(2), Root::Excess];
            root_series(r, &roots)
        }
        "late" => late(r),
        "sizes" => every_size(r),
        "edge" => edge(r),
        _ => {
            let (n, p) = sizes(r);
            random_series(r, n, p, false, false)
        }
    }
}

/// Redundant, zero, scaled and nearly dependent rows.
fn hard_contrast(r: &mut Random) -> Series {
    let (n, p) = (3 + r.below(8), 1 + r.below(6));
    let small = r.once_in(2);
    let series = random_series(r, n, p, false, small);
    let rows = 1 + r.below(6);
    let mut l = matrix(rows, p, || if small { r.small() } else { r.real() });
    for i in 0..rows {
        match r.below(6) {
            // A zero row.
            0 => (0..p).for_each(|j| l[(i, j)] = 0.0),
            // A multiple of an earlier row, or a sum of two.
            1 | 2 if i > 0 => {
                let (a, b) = (r.below(i), r.below(i));
                let k = r.pick(&[1.0, -1.0, 2.0, 3.0, 0.1, 1e-8]);
                let add = r.once_in(2);
                for j in 0..p {
                    l[(i, j)] = k * l[(a, j)] + if add { l[(b, j)] } else { 0.0 };
                }
            }
            // An earlier row with one cell moved by a little.
            3 if i > 0 => {
                let (a, c) = (r.below(i), r.below(p));
                (0..p).for_each(|j| l[(i, j)] = l[(a, j)]);
                l[(i, c)] += power(-r.between(40, 56));
            }
            // Another unit.
            4 => {
                let k = power(r.between(-60, 60));
                (0..p).for_each(|j| l[(i, j)] *= k);
            }
            _ => {}
        }
    }
    let beta_h = if r.once_in(3) { Some((0..p).map(|_| r.real()).collect()) } else { None };
    Series { contrast: Some(l), beta_h, ..series }
}

/// Any n, p and number of rows, each as often as any other.
fn every_size(r: &mut Random) -> Series {
    let (n, p) = (1 + r.below(24), 1 + r.below(6));
    let slopes = r.once_in(3);
    let small = r.once_in(4);
    let blocks = random_blocks(r, slopes);
    let rows = r.below(7);
    let mut s = series_of_sizes(r, n, p, blocks, rows);
    if small {
        // Small numbers in X: ties and cancellations at every size.
        s.x = s.x.map(|v| v.round());
    }
    s
}

/// Nearly singular: equal columns, rows or blocks but for a little, and
/// numbers at which a Cholesky, a rank or the smallest eigenvalue is decided.
fn edge(r: &mut Random) -> Series {
    let (n, p) = (2 + r.below(8), 1 + r.below(4));
    let slopes = r.once_in(3);
    let mut s = random_series(r, n, p, slopes, false);
    let little = power(-r.between(20, 56));
    match r.below(8) {
        // Two columns of X.
        0 => {
            let (a, b) = (r.below(p), r.below(p));
            for i in 0..n {
                s.x[(i, b)] = s.x[(i, a)] * (1.0 + if i == 0 { little } else { 0.0 });
            }
            if let Some(phi) = fitted_phi(&s) {
                s.phi = phi;
            }
        }
        // Two rows of Φ.
        1 => {
            let (a, b, c) = (r.below(p), r.below(p), r.below(p));
            (0..p).for_each(|j| s.phi[(b, j)] = s.phi[(a, j)]);
            s.phi[(b, c)] *= 1.0 + little;
        }
        // Σ = 1 + theta²: the 1 is lost at 2^26.5 or so.
        2 => {
            let k = power(r.between(22, 28));
            s.theta.iter_mut().for_each(|t| *t *= k);
        }
        // Small thetas: IE with a small eigenvalue.
        3 => {
            let k = power(-r.between(8, 40));
            s.theta.iter_mut().for_each(|t| *t *= k);
        }
        // The same block twice, but for a little: IE nearly singular.
        4 => {
            let m = 1 + r.below(4);
            s.blocks = vec![Block { m, k: 1 }, Block { m, k: 1 }];
            s.z = random_columns(r, n, &[Block { m, k: 1 }], false);
            s.z = Matrix::from_fn(n, 2 * m, |i, j| s.z[(i, j % m)]);
            s.z[(0, m)] += if r.once_in(2) { little } else { 0.0 };
            s.theta = vec![r.real(), r.real()];
        }
        // Weights far apart.
        5 => {
            let spread = r.between(1, 40);
            let weight = |r: &mut Random| power(r.between(-spread, spread)) * r.positive();
            s.weights = Some((0..n).map(|_| weight(r)).collect());
        }
        // β next to its hypothesis.
        6 => {
            s.contrast = s.contrast.or_else(|| Some(matrix(2, p, || 1.0 + r.below(3) as f64)));
            s.beta_h = Some(s.beta.iter().map(|b| b * (1.0 + little)).collect());
        }
        // Contrast rows that differ about as much as the rank's tolerance.
        _ => {
            let rows = 2 + r.below(3);
            let first: Vec<f64> = (0..p).map(|_| r.real()).collect();
            let mut l = Matrix::from_fn(rows, p, |_, j| first[j]);
            for i in 1..rows {
                l[(i, r.below(p))] += power(-r.between(46, 54));
            }
            s.contrast = Some(l);
        }
    }
    s
}

/// One or two of the inputs in another unit, as far as the end of the range.
fn extreme(r: &mut Random) -> Series {
    let (n, p) = (1 + r.below(8), 1 + r.below(4));
    let slopes = r.once_in(4);
    let mut s = random_series(r, n, p, slopes, false);
    for _ in 0..1 + r.below(2) {
        let e = r.pick(&[1, -1])
            * r.pick(&[100, 270, 390, 401, 530, 700, 790, 800, 802, 900, 1000, 1015, 1050]);
        let k = power(e + r.between(-3, 3));
        match r.below(9) {
            0 => s.beta.iter_mut().for_each(|v| *v *= k),
            1 => s.phi = s.phi.map(|v| v * k),
            2 => s.sigma2 = cap(s.sigma2 * k),
            3 => s.contrast = s.contrast.map(|l| l.map(|v| v * k)),
            4 => s.x = s.x.map(|v| v * k),
            5 => s.z = s.z.map(|v| v * k),
            6 => s.theta.iter_mut().for_each(|v| *v *= k),
            7 => s.weights = s.weights.map(|w| w.iter().map(|v| cap(v * k)).collect()),
            _ => {
                // One cell alone.
                let at = r.below(s.phi.cells.len());
                s.phi.cells[at] *= k;
            }
        }
    }
    s
}

/// Positive and finite, for what must be.
fn cap(x: f64) -> f64 {
    x.clamp(f64::from_bits(1), f64::MAX)
}

/// Zero columns, equal columns, a zero Φ, a large theta, theta 0.
fn singular(r: &mut Random) -> Series {
    let (n, p) = (1 + r.below(6), 1 + r.below(4));
    let slopes = r.once_in(3);
    let mut s = random_series(r, n, p, slopes, true);
    match r.below(9) {
        0 => s.phi = Matrix::zeros(p, p),
        1 => {
            let (i, j) = (r.below(p), r.below(p));
            for c in 0..p {
                s.phi[(i, c)] = s.phi[(j, c)];
            }
        }
        2 => s.theta.iter_mut().for_each(|t| *t = 0.0),
        3 => {
            let big = r.pick(&[1e7, 1e8, 1e9, 1e10, 1e12]);
            s.theta.iter_mut().for_each(|t| *t *= big);
        }
        4 => s.x = s.x.map(|_| 0.0),
        5 => {
            let c = r.below(p);
            (0..n).for_each(|i| s.x[(i, c)] = 0.0);
        }
        6 => s.z = s.z.map(|_| 0.0),
        7 => s.beta.iter_mut().for_each(|b| *b = 0.0),
        _ => {
            // Two tests at once on a Φ with a zero diagonal.
            let c = r.below(p);
            s.phi[(c, c)] = 0.0;
        }
    }
    s
}

/// Indefinite Φ: variances below zero, a2 below zero, df none.
fn negative(r: &mut Random) -> Series {
    let (n, p) = (2 + r.below(6), 1 + r.below(4));
    let slopes = r.once_in(3);
    let mut s = random_series(r, n, p, slopes, false);
    match r.below(3) {
        0 => s.phi = s.phi.map(|v| -v),
        1 => {
            let c = r.below(p);
            s.phi[(c, c)] = -s.phi[(c, c)];
        }
        _ => s.phi = matrix(p, p, || r.real()),
    }
    s
}

/// What a search brings to zero.
#[derive(Clone, Copy)]
enum Root {
    /// df to 2, or a little beside it.
    Df(f64),
    /// |a2|, |d|, V0, V1, V2 and qρ − 1 have thresholds of their own.
    A2,
    D,
    V(usize),
    Excess,
}

/// A test of several rows with one of its numbers at a threshold: some value
/// of one cell of Φ brings it there, found by halving.
fn root_series(r: &mut Random, roots: &[Root]) -> Series {
    let root = r.pick(roots);
    for _ in 0..30 {
        let (n, p) = (2 + r.below(5), 2 + r.below(2));
        let slopes = r.once_in(4);
        let mut s = random_series(r, n, p, slopes, false);
        let rows = 2 + r.below(p - 1);
        let mut l = matrix(rows, p, || r.real());
        for i in 0..rows {
            l[(i, i)] += 4.0;
        }
        s.contrast = Some(l);
        let hard = matches!(root, Root::A2 | Root::D | Root::Excess);
        if hard {
            // These change sign for a Φ that no fit would give.
            s.phi = matrix(p, p, || r.real());
        }
        let cell = if hard || r.once_in(2) { Some(r.below(p * p)) } else { None };
        if let Some(found) = halve(r, &s, root, cell) {
            return found;
        }
    }
    random_series_of(r, "plain")
}

/// The series with one cell of Φ, or all, times k.
fn moved(s: &Series, cell: Option<usize>, k: f64) -> Series {
    let mut out = s.clone();
    match cell {
        Some(at) => out.phi.cells[at] *= k,
        None => out.phi = out.phi.map(|v| v * k),
    }
    out
}

/// The number to be brought to zero, where the run is accepted.
fn distance(s: &Series, root: Root) -> Option<f64> {
    let cutoffs = &Cutoffs::BUILT_IN;
    let (entry, moments) = marked::kenward_roger_run(cutoffs, s).ok()?.contrast?;
    let parts = marked::parts(cutoffs, moments.a1, moments.a2, entry.rank.into());
    let value = match root {
        Root::Df(target) => parts.df - target,
        Root::A2 => moments.a2,
        Root::D => parts.d,
        Root::V(i) => parts.v[i],
        Root::Excess => parts.excess,
    };
    // A pole changes sign too, but is no root.
    if value.abs() < 5.0 {
        Some(value)
    } else {
        None
    }
}

fn halve(r: &mut Random, s: &Series, root: Root, cell: Option<usize>) -> Option<Series> {
    let tried: Vec<(f64, Option<f64>)> = (-20..=20)
        .map(|i| i as f64 / 6.0 + 0.01)
        .map(|k| (k, distance(&moved(s, cell, k), root)))
        .collect();
    let pair =
        tried.windows(2).find(|w| matches!((w[0].1, w[1].1), (Some(a), Some(b)) if a * b < 0.0))?;
    let (mut low, mut high, sign) = (pair[0].0, pair[1].0, pair[0].1?);
    // Short searches stop beside the threshold, long ones on it.
    let long = r.once_in(2);
    for _ in 0..if long { 70 } else { 10 + r.below(50) } {
        let middle = (low + high) / 2.0;
        let value = distance(&moved(s, cell, middle), root)?;
        if value * sign > 0.0 {
            low = middle;
        } else {
            high = middle;
        }
    }
    let k = if long { closest(s, root, cell, high) } else { r.pick(&[low, high]) };
    Some(moved(s, cell, k))
}

/// Of the numbers around k the one that comes closest: next to a root the
/// rounding decides.
fn closest(s: &Series, root: Root, cell: Option<usize>, k: f64) -> f64 {
    let bits = k.to_bits() as i64;
    let near = (-20..=20).map(|i| f64::from_bits((bits + i) as u64));
    let gap = |k: &f64| distance(&moved(s, cell, *k), root).map_or(f64::INFINITY, f64::abs);
    near.min_by(|a, b| gap(a).total_cmp(&gap(b))).unwrap_or(k)
}

/// Numbers that leave the finite range in the adjustment or in its scaling.
fn late(r: &mut Random) -> Series {
    let (n, p) = (1 + r.below(4), 1 + r.below(3));
    let slopes = r.once_in(4);
    let mut s = random_series(r, n, p, slopes, true);
    match r.below(6) {
        0 => s.phi = s.phi.map(|v| v * 1e200),
        1 => s.phi = s.phi.map(|v| v * 1e103),
        2 => s.sigma2 = power(r.between(1000, 1023)),
        3 => s.sigma2 = power(-r.between(1000, 1074)),
        4 => s.x = s.x.map(|v| v * 1e160),
        _ => {
            s.phi = s.phi.map(|v| v * 1e160);
            s.sigma2 = 1e150;
        }
    }
    s
}

// ------------------------------------------------------ files

fn record(kind: u8, row: usize, column: usize, count: usize, value: f64) -> Record {
    Record {
        kind,
        row: row as u8,
        column: column as u8,
        zero: 0,
        count: count as u32,
        bits: value.to_bits(),
    }
}

fn grid(out: &mut Vec<Record>, kind: u8, number: usize, m: &Matrix) {
    for i in 0..m.rows {
        for j in 0..m.cols {
            out.push(record(kind, i, j, number, m[(i, j)]));
        }
    }
}

fn list(out: &mut Vec<Record>, kind: u8, values: &[f64]) {
    for (i, &v) in values.iter().enumerate() {
        out.push(record(kind, i, 0, 0, v));
    }
}

/// The records of a series. Zero cells of Z may be left out, one of the last
/// column's never, since the columns are counted by what is there: that of the
/// first torn specimen, or the first cell.
pub fn kr_records(s: &Series, keep_zeros: bool) -> Vec<Record> {
    let mut out = Vec::new();
    grid(&mut out, reader::X, 0, &s.x);
    let counted = s.weights.iter().flatten().position(|&w| is_torn(w)).unwrap_or(0);
    for i in 0..s.z.rows {
        for j in 0..s.z.cols {
            let last = i == counted && j + 1 == s.z.cols;
            if keep_zeros || last || s.z[(i, j)] != 0.0 {
                out.push(record(reader::Z, i, j, 0, s.z[(i, j)]));
            }
        }
    }
    for (i, b) in s.blocks.iter().enumerate() {
        out.push(numbers::block(i as u8, b.k as u8, b.m as u32));
    }
    list(&mut out, reader::THETA, &s.theta);
    list(&mut out, reader::WEIGHTS, s.weights.as_deref().unwrap_or(&[]));
    grid(&mut out, reader::PHI, 0, &s.phi);
    list(&mut out, reader::SIGMA, &[s.sigma2]);
    list(&mut out, reader::BETA, &s.beta);
    if let Some(l) = &s.contrast {
        grid(&mut out, reader::CONTRAST, 0, l);
    }
    list(&mut out, reader::BETA_H, s.beta_h.as_deref().unwrap_or(&[]));
    out
}

pub fn satt_records(s: &SattSeries) -> Vec<Record> {
    let mut out = Vec::new();
    list(&mut out, reader::BETA, &s.beta);
    grid(&mut out, reader::CONTRAST, 0, &s.contrast);
    list(&mut out, reader::BETA_H, s.beta_h.as_deref().unwrap_or(&[]));
    grid(&mut out, reader::V, 0, &s.v);
    for (i, j) in s.jacobians.iter().enumerate() {
        grid(&mut out, reader::JACOBIAN, i, j);
    }
    grid(&mut out, reader::A, 0, &s.a);
    out
}

pub fn file(records: &[Record]) -> Vec<u8> {
    records.iter().flat_map(|r| r.to_bytes()).collect()
}

/// A file of records in their order. Most are shuffled before, so that the
/// order is the key's alone, and not the one in which they were put together.
fn ordered(r: &mut Random, mut records: Vec<Record>) -> Vec<u8> {
    if !r.once_in(4) {
        r.shuffle(&mut records);
    }
    order::sorted(&file(&records))
}

pub fn kr_file(r: &mut Random, s: &Series) -> Vec<u8> {
    let keep = r.once_in(3);
    let records = kr_records(s, keep);
    ordered(r, records)
}

/// A file that is accepted, with records moved from their places.
fn out_of_order(
    r: &mut Random,
    make: impl Fn(&mut Random) -> Vec<u8>,
    accepted: impl Fn(&[u8]) -> bool,
) -> Vec<u8> {
    loop {
        let good = make(r);
        let moved = order::misplaced(r, &good);
        // Some moves move nothing.
        if moved != good && accepted(&good) {
            return moved;
        }
    }
}

/// A damaged copy of a good file, mostly in order again.
fn damage(r: &mut Random, bytes: Vec<u8>, satt: bool) -> Vec<u8> {
    let mut damaged = damage_in_place(r, bytes, satt);
    // Beside the damage a wrong number; a file of the Satterthwaite call has no blocks.
    if !satt && r.once_in(8) {
        damaged = numbers::misnumbered(r, &damaged);
    }
    if r.once_in(8) {
        damaged
    } else {
        order::sorted(&damaged)
    }
}

/// Writes a block's number after its k has changed.
fn number_follows(block: &mut [u8]) {
    let numbered = numbers::with_numbers(block);
    block.copy_from_slice(&numbered);
}

/// A damaged copy of a good file, the records where they were.
fn damage_in_place(r: &mut Random, mut bytes: Vec<u8>, satt: bool) -> Vec<u8> {
    let count = bytes.len() / 16;
    let at = r.below(count) * 16;
    match r.below(14) {
        // Cut, or longer by some bytes.
        0 => bytes.truncate(r.below(bytes.len())),
        1 => bytes.extend(std::iter::repeat(0).take(1 + r.below(20))),
        // A record less, or one twice.
        2 | 3 => drop(bytes.drain(at..at + 16)),
        4 if !satt && r.once_in(2) => bytes = order::block_twice(r, &bytes),
        4 => bytes = order::doubled(r, &bytes),
        // Another kind, row, column, count; byte 3.
        5 => bytes[at] = r.below(40) as u8,
        6 => bytes[at + 1] = r.below(26) as u8,
        7 => {
            bytes[at + 2] = r.below(26) as u8;
            // A block's number stays what it was, or follows its k.
            if bytes[at] == reader::BLOCK && r.once_in(2) {
                number_follows(&mut bytes[at..at + 16]);
            }
        }
        8 => bytes[at + 3] = r.below(3) as u8,
        9 => bytes[at + 4 + r.below(4)] = r.below(4) as u8,
        // A value that is not finite, not positive, zero.
        10 => {
            let v = r.pick(&[f64::INFINITY, f64::NAN, f64::NEG_INFINITY, -1.0, 0.0, -0.0]);
            bytes[at + 8..at + 16].copy_from_slice(&v.to_bits().to_le_bytes());
        }
        11 => {
            // Aimed: sigma2, a weight, the contrast, a block, or theta.
            let kind = if satt { r.pick(&[30, 31, 32, 9]) } else { r.pick(&[7, 5, 9, 3, 4]) };
            let v = r.pick(&[-1.0, 0.0, -0.0, f64::INFINITY]);
            let (k, m) = (r.below(4) as u8, r.below(5) as u8);
            for b in bytes.chunks_exact_mut(16).filter(|b| b[0] == kind) {
                if kind == reader::BLOCK {
                    (b[2], b[4]) = (k, m);
                    number_follows(b);
                } else {
                    b[8..16].copy_from_slice(&v.to_bits().to_le_bytes());
                }
            }
        }
        12 => {
            // A kind that the file may have dropped wholly.
            let kind = if satt { r.pick(&[8, 9, 10, 30, 31, 32]) } else { 1 + r.below(10) as u8 };
            let kept = bytes.chunks(16).filter(|b| b[0] != kind).flatten().copied().collect();
            bytes = kept;
        }
        _ => {
            // Any byte.
            let any = r.below(bytes.len());
            bytes[any] ^= 1 << r.below(8);
        }
    }
    bytes
}

// ------------------------------------------------------ Satterthwaite

/// The families of the Satterthwaite call.
pub const SATT_FAMILIES: [&str; 8] =
    ["plain", "one-row", "equal", "low", "cap", "singular", "extreme", "damaged"];

/// RootᵀRoot plus a little on the diagonal.
fn covariance(r: &mut Random, n: usize, small: bool) -> Matrix {
    let root = matrix(n, n, || if small { r.small() } else { r.real() });
    let mut m = product(&Plain, &root.transposed(), &root);
    for i in 0..n {
        m[(i, i)] += 0.5;
    }
    m
}

fn random_satt(r: &mut Random, rows: usize, p: usize, small: bool) -> SattSeries {
    let parameters = 1 + r.below(4);
    let v = covariance(r, p, small);
    let jacobians = (0..parameters)
        .map(|_| {
            let root = matrix(p, p, || if small { r.small() } else { r.real() });
            root.with(&root.transposed(), |a, b| a + b)
        })
        .collect();
    let a = covariance(r, parameters, small).map(|v| v * 0.02);
    SattSeries {
        beta: (0..p).map(|_| if small { r.small() } else { r.real() }).collect(),
        contrast: matrix(rows, p, || if small { r.small() } else { r.real() }),
        beta_h: if r.once_in(3) { Some((0..p).map(|_| r.real()).collect()) } else { None },
        v,
        jacobians,
        a,
    }
}

/// The file of one case of a family.
pub fn satt_case(r: &mut Random, family: &str) -> Vec<u8> {
    let p = 1 + r.below(6);
    let small = r.once_in(3);
    let series = match family {
        "one-row" => {
            let mut s = random_satt(r, 1, p, small);
            match r.below(6) {
                0 => s.contrast = Matrix::zeros(1, p),
                1 => s.v = s.v.map(|v| -v),
                2 => s.a = s.a.map(|v| -v),
                3 => s.beta.iter_mut().for_each(|b| *b = 0.0),
                _ => {}
            }
            s
        }
        "equal" => equal_components(r, p),
        "low" => {
            let rows = 2 + r.below(p.max(2) - 1);
            let mut s = random_satt(r, rows.min(p), p, small);
            let k = power(r.between(2, 8));
            s.a = s.a.map(|v| v * k);
            s
        }
        "cap" => {
            let rows = 1 + r.below(p);
            let mut s = random_satt(r, rows, p, small);
            let k = power(-r.between(4, 16));
            s.a = s.a.map(|v| v * k);
            s
        }
        "singular" => singular_satt(r, p),
        "extreme" => extreme_satt(r, p),
        "damaged" => {
            let s = random_satt(r, 1 + p % 3, p, true);
            let good = ordered(r, satt_records(&s));
            return damage(r, good, true);
        }
        SHUFFLED => {
            let family = r.pick(&["plain", "one-row", "equal", "cap"]);
            return out_of_order(
                r,
                |r| satt_case(r, family),
                |file| calls::satterthwaite(file).is_ok(),
            );
        }
        _ => {
            let rows = 1 + r.below(p);
            let mut s = random_satt(r, rows, p, small);
            let k = power(-r.between(0, 8));
            // Now and then an A that is no covariance: r below zero.
            let sign = if r.once_in(8) { -1.0 } else { 1.0 };
            s.a = s.a.map(|v| v * k * sign);
            s
        }
    };
    let records = satt_records(&series);
    ordered(r, records)
}

/// Each component the same df: the Jacobian a multiple of v; sometimes moved
/// by a little, around the tolerance of 1e-8.
fn equal_components(r: &mut Random, p: usize) -> SattSeries {
    let rows = 1 + r.below(p);
    let mut s = random_satt(r, rows, p, true);
    s.contrast = Matrix::from_fn(rows, p, |i, j| if i == j { 1.0 } else { 0.0 });
    s.jacobians = vec![s.v.clone()];
    s.a = Matrix { rows: 1, cols: 1, cells: vec![power(-r.between(-2, 11))] };
    if r.once_in(2) {
        // Diagonal v: the components are its cells, and a cell of J that is
        // moved moves one df by as much.
        s.v = Matrix::from_fn(p, p, |i, j| if i == j { 1.0 + i as f64 } else { 0.0 });
        s.jacobians = vec![s.v.clone()];
        let at = r.below(rows);
        s.jacobians[0][(at, at)] *= 1.0 + r.pick(&[0.0, 1e-10, 1e-9, 1e-8, 1e-7, 0.1]);
    }
    s
}

/// V not positive definite: dependent rows, a zero v, an indefinite v.
fn singular_satt(r: &mut Random, p: usize) -> SattSeries {
    let rows = 1 + r.below(6);
    let mut s = random_satt(r, rows, p, true);
    match r.below(5) {
        0 => s.v = Matrix::zeros(p, p),
        1 => {
            let last = rows - 1;
            (0..p).for_each(|j| s.contrast[(last, j)] = s.contrast[(0, j)]);
        }
        2 => s.v = matrix(p, p, || r.small()),
        3 => (0..p).for_each(|j| s.contrast[(0, j)] = 0.0),
        // Equal diagonal and a negative cell beside it: sign(-0) = 1.
        _ => {
            let off = -r.pick(&[0.25, 0.5, 0.75]);
            s.v = Matrix::from_fn(p, p, |i, j| if i == j { 2.0 } else { off });
            let rows = rows.min(p);
            s.contrast = Matrix::from_fn(rows, p, |i, j| if i == j { 1.0 } else { 0.0 });
        }
    }
    s
}

fn extreme_satt(r: &mut Random, p: usize) -> SattSeries {
    let rows = 1 + r.below(p.min(3));
    let mut s = random_satt(r, rows, p, false);
    for _ in 0..1 + r.below(3) {
        let e = r.pick(&[1, -1])
            * r.pick(&[100, 200, 250, 270, 390, 401, 440, 530, 700, 799, 802, 900, 1020, 1060]);
        let k = power(e + r.between(-4, 4));
        match r.below(6) {
            0 => s.beta.iter_mut().for_each(|v| *v *= k),
            1 => s.v = s.v.map(|v| v * k),
            2 => s.contrast = s.contrast.map(|v| v * k),
            3 => s.jacobians.iter_mut().for_each(|j| *j = j.map(|v| v * k)),
            4 => s.a = s.a.map(|v| v * k),
            _ => {
                let at = r.below(s.contrast.cells.len());
                s.contrast.cells[at] *= k;
            }
        }
    }
    s
}
