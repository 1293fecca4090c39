//! A run written from document 01 and the project's decisions, with the mark.
//!
//! The mark is kept by the arithmetic and not by the numbers: every marked
//! step that is done leaves its trace in `Marking`, also where its result is
//! dropped afterwards. That is the reading of "the mark" word for word.
//!
//! The cutoffs go through as a parameter. Of the nine only the rotation factor is an
//! operand of a marked step, that of V's rotation test; there it counts as any other.

use crate::reader::archive::{Archive, Tests};
use crate::reader::cutoffs::Cutoffs;
use crate::reader::{Refusal, SattSeries, Series};
use crate::trace::{hit, hit_if};
use listed_algebra::{
    apply, cholesky, dot, eliminate, falling, inverse, jacobi, product, row_values, Arithmetic,
    Matrix, Plain,
};
use std::cell::Cell;

/// Arithmetic that looks at each operand and at each result.
pub struct Marking {
    inside: Cell<bool>,
}

impl Marking {
    pub fn new() -> Marking {
        Marking { inside: Cell::new(true) }
    }

    pub fn inside(&self) -> bool {
        self.inside.get()
    }

    fn need(&self, holds: bool) {
        if !holds {
            self.inside.set(false);
        }
    }

    /// A step of two operands.
    fn step(&self, a: f64, b: f64, result: f64) -> f64 {
        self.need(!hit_if(!(in_range(a) && in_range(b)), "mark: operand out of range"));
        self.need(!hit_if(!in_range(result), "mark: result out of range"));
        result
    }
}

impl Default for Marking {
    fn default() -> Marking {
        Marking::new()
    }
}

/// Zero, or finite with a binary exponent from -800 to 800.
pub fn in_range(x: f64) -> bool {
    let field = (x.to_bits() >> 52 & 0x7ff) as i64;
    // Field 0 is zero or a subnormal, whose exponent is below -1022; field
    // 2047 is not finite.
    x == 0.0 || (field != 0 && field != 2047 && (-800..=800).contains(&(field - 1023)))
}

impl Arithmetic for Marking {
    fn add(&self, a: f64, b: f64) -> f64 {
        self.step(a, b, a + b)
    }
    fn sub(&self, a: f64, b: f64) -> f64 {
        self.step(a, b, a - b)
    }
    fn mul(&self, a: f64, b: f64) -> f64 {
        let r = a * b;
        self.need(!hit_if(r == 0.0 && a != 0.0 && b != 0.0, "mark: zero product"));
        self.step(a, b, r)
    }
    fn div(&self, a: f64, b: f64) -> f64 {
        let r = a / b;
        self.need(!hit_if(r == 0.0 && a != 0.0, "mark: zero quotient"));
        self.step(a, b, r)
    }
    fn sqrt(&self, a: f64) -> f64 {
        let r = a.sqrt();
        self.step(a, a, r)
    }
}

/// One entry of an answer.
#[derive(Debug, Clone, Copy, PartialEq)]
pub struct Entry {
    pub f: Option<f64>,
    pub df: Option<f64>,
    pub rank: u8,
    pub inside: bool,
}

/// a1 and a2 of one Kenward–Roger test.
#[derive(Debug, Clone, Copy)]
pub struct Moments {
    pub a1: f64,
    pub a2: f64,
}

/// A refusal, noted by its reason.
fn refuse(number: Refusal, reason: &'static str) -> Refusal {
    hit(reason);
    number
}

/// NaN is none.
fn number(x: f64) -> Option<f64> {
    if x.is_nan() {
        None
    } else {
        Some(x)
    }
}

// ------------------------------------------------------ covariance adjustment

/// The output of the adjustment, in residual units.
pub struct Adjustment {
    pub phi_a: Matrix,
    pub p: Vec<Matrix>,
    pub w: Matrix,
    pub ie: Matrix,
    pub rotations: u32,
}

/// "cells(A, B) sums the products of like cells", row after row, from +0.
fn cells(a: &Matrix, b: &Matrix) -> f64 {
    assert_eq!((a.rows, a.cols), (b.rows, b.cols));
    dot(&Plain, &a.cells, &b.cells)
}

fn mul(a: &Matrix, b: &Matrix) -> Matrix {
    product(&Plain, a, b)
}

fn plus(a: &Matrix, b: &Matrix) -> Matrix {
    a.with(b, |x, y| x + y)
}

/// T of a block: theta fills the lower triangle by columns.
fn triangle(k: usize, theta: &[f64]) -> Matrix {
    let mut t = Matrix::zeros(k, k);
    for (&value, (i, j)) in theta.iter().zip(places(k)) {
        t[(i, j)] = value;
    }
    t
}

/// The places of a lower triangle, by columns.
fn places(k: usize) -> Vec<(usize, usize)> {
    (0..k).flat_map(|j| (j..k).map(move |i| (i, j))).collect()
}

/// `build_sigma_g` with sigma2 = 1: the Gs and their factors.
fn structure(series: &Series) -> Vec<(Matrix, f64)> {
    let n = series.x.rows;
    let mut out = Vec::new();
    let mut column = 0;
    let mut theta = series.theta.as_slice();
    for block in &series.blocks {
        let k = block.k;
        let places = places(k);
        let t = triangle(k, &theta[..places.len()]);
        theta = &theta[places.len()..];
        let factor = mul(&t, &t.transposed());
        for &(i, j) in &places {
            let mut e = Matrix::zeros(k, k);
            e[(i, j)] = 1.0;
            e[(j, i)] = 1.0;
            let mut g = Matrix::zeros(n, n);
            for group in 0..block.m {
                let first = column + group * k;
                let zg = Matrix::from_fn(n, k, |r, c| series.z[(r, first + c)]);
                g = plus(&g, &mul(&mul(&zg, &e), &zg.transposed()));
            }
            out.push((g, factor[(i, j)]));
        }
        column += block.m * k;
    }
    let mut residual = Matrix::zeros(n, n);
    for i in 0..n {
        residual[(i, i)] = series.weights.as_ref().map_or(1.0, |w| 1.0 / w[i]);
    }
    out.push((residual, 1.0));
    out
}

/// Σ = sum of factor × G.
fn weighted_sum(gs: &[(Matrix, f64)]) -> Matrix {
    let n = gs[0].0.rows;
    let mut sigma = Matrix::zeros(n, n);
    for (g, factor) in gs {
        sigma = plus(&sigma, &g.map(|v| factor * v));
    }
    sigma
}

/// Σ of a series.
pub fn sigma(series: &Series) -> Matrix {
    weighted_sum(&structure(series))
}

/// "packed at a·N − a(a+1)/2 + b, a the smaller index".
pub fn packed(r: usize, s: usize, n: usize) -> usize {
    let (a, b) = (r.min(s), r.max(s));
    a * n - a * (a + 1) / 2 + b
}

/// W: twice the inverse of IE, with the cutoffs' ridge on the diagonal where IE is
/// near singular. Also the rotations of IE's Jacobi.
fn weights_of(cutoffs: &Cutoffs, ie: &Matrix) -> Result<(Matrix, u32), Refusal> {
    let eigen = jacobi(&Plain, ie, cutoffs.rotation);
    let mut smallest = f64::INFINITY;
    for value in &eigen.values {
        if value.abs() < smallest {
            smallest = value.abs();
        }
    }
    let mut invertible = ie.clone();
    if hit_if(!(smallest > cutoffs.eigenvalue), "adjustment: 1e-8 joins the diagonal") {
        for i in 0..ie.rows {
            invertible[(i, i)] += cutoffs.ridge;
        }
    }
    let inverse = inverse(&Plain, &invertible).ok_or_else(|| refuse(10, "10: inverse of IE"))?;
    Ok((inverse.map(|v| 2.0 * v), eigen.rotations))
}

/// `vcov_adj16_with_pw`.
pub fn adjust(cutoffs: &Cutoffs, series: &Series) -> Result<Adjustment, Refusal> {
    let (phi, x) = (&series.phi, &series.x);
    let gs = structure(series);
    let count = gs.len();

    let sigma = weighted_sum(&gs);
    let l = cholesky(&Plain, &sigma).ok_or_else(|| refuse(9, "9: Cholesky"))?;
    let li = inverse(&Plain, &l).ok_or_else(|| refuse(10, "10: inverse of L"))?;
    let s = mul(&li.transposed(), &li);
    let sx = mul(&s, x);

    let h: Vec<Matrix> = gs.iter().map(|(g, _)| mul(g, &s)).collect();
    let o: Vec<Matrix> = h.iter().map(|h| mul(h, x)).collect();
    let p: Vec<Matrix> = o.iter().map(|o| mul(&o.transposed(), &sx).map(|v| -1.0 * v)).collect();
    let mut q = vec![Matrix::zeros(0, 0); count * (count + 1) / 2];
    for a in 0..count {
        for b in a..count {
            q[packed(a, b, count)] = mul(&mul(&o[a].transposed(), &s), &o[b]);
        }
    }

    let mut ie = Matrix::zeros(count, count);
    for a in 0..count {
        for b in a..count {
            // Sum over i, j of H_a[j,i] × H_b[i,j].
            let k = cells(&h[a].transposed(), &h[b]);
            let c = cells(phi, &q[packed(a, b, count)]);
            let d = cells(&mul(phi, &p[a]), &mul(&p[b], phi));
            let cell = (k - 2.0 * c) + d;
            ie[(a, b)] = cell;
            ie[(b, a)] = cell;
        }
    }
    let (w, rotations) = weights_of(cutoffs, &ie)?;

    let term = |a: usize, b: usize| {
        let ppp = mul(&mul(&p[a], phi), &p[b]);
        q[packed(a, b, count)].with(&ppp, |x, y| x - y).map(|v| v * w[(a, b)])
    };
    let mut u = Matrix::zeros(x.cols, x.cols);
    for a in 0..count {
        for b in a + 1..count {
            u = plus(&u, &term(a, b));
        }
    }
    u = plus(&u, &u.transposed());
    for a in 0..count {
        u = plus(&u, &term(a, a));
    }
    let phi_a = plus(phi, &mul(&mul(phi, &u), phi).map(|v| v * 2.0));
    Ok(Adjustment { phi_a, p, w, ie, rotations })
}

/// What the Kenward–Roger tests use, scaled by sigma2 (M).
pub struct Scaled {
    pub phi: Matrix,
    pub phi_a: Matrix,
    pub p: Vec<Matrix>,
    pub w: Matrix,
    pub inside: bool,
}

/// Of what an archive holds: in a run from a series, as much as one would.
pub fn scale(residual: &Archive) -> Scaled {
    let mark = Marking::new();
    let times = |m: &Matrix| m.map(|v| mark.mul(v, residual.sigma2));
    let phi = times(&residual.phi);
    let phi_a = times(&residual.phi_a);
    let p = residual.p.iter().map(|p| p.map(|v| mark.div(v, residual.sigma2))).collect();
    Scaled { phi, phi_a, p, w: residual.w.clone(), inside: mark.inside() }
}

fn finite<'a>(mut all: impl Iterator<Item = &'a Matrix>) -> bool {
    all.all(|m| m.cells.iter().all(|v| v.is_finite()))
}

// ------------------------------------------------------ Kenward–Roger test

/// `contrast_basis`. M: the division of each nonzero row by its largest
/// magnitude, and nothing after it.
fn contrast_basis(mark: &Marking, l: &Matrix) -> Matrix {
    let mut rows = l.clone();
    for i in 0..l.rows {
        let largest = l.row(i).iter().fold(0.0f64, |m, v| if v.abs() > m { v.abs() } else { m });
        if !hit_if(!(largest > 0.0), "basis: zero row") {
            for j in 0..l.cols {
                rows[(i, j)] = mark.div(l[(i, j)], largest);
            }
        }
    }
    if l.rows == 1 {
        return rows;
    }
    let values = row_values(&Plain, &rows);
    let tolerance = f64::EPSILON * l.rows.max(l.cols) as f64 * values.norms[0];
    let rank = values.norms.iter().filter(|&&v| v > tolerance).count();
    hit_if(rank < l.rows, "basis: rank below rows");
    hit_if(l.rows > l.cols, "basis: more rows than columns");
    hit_if(rank > 1, "basis: rank above 1");
    Matrix::from_fn(rank, l.cols, |i, j| values.units[(i, j)])
}

/// div: 0 for a denominator below the cutoff in magnitude.
fn div(cutoffs: &Cutoffs, a: f64, b: f64) -> f64 {
    if b.abs() < cutoffs.divisor {
        0.0
    } else {
        a / b
    }
}

fn zero_if_small(cutoffs: &Cutoffs, x: f64, branch: &'static str) -> f64 {
    if hit_if(x.abs() < cutoffs.leading, branch) {
        0.0
    } else {
        x
    }
}

/// The named numbers between the moments and df.
pub struct Parts {
    pub d: f64,
    /// V0, V1 and V2 before the small ones become 0.
    pub v: [f64; 3],
    /// qρ − 1.
    pub excess: f64,
    /// 4 + (q+2)/(qρ−1), before any test.
    pub df: f64,
}

/// From a1 and a2 to qρ − 1 (unmarked).
pub fn parts(cutoffs: &Cutoffs, a1: f64, a2: f64, q: f64) -> Parts {
    let b = (a1 + 6.0 * a2) / (2.0 * q);
    let g = if !hit_if(!(a2.abs() > cutoffs.moment), "test: |a2| small, g = 0") {
        ((q + 1.0) * a1 - (q + 4.0) * a2) / ((q + 2.0) * a2)
    } else {
        0.0
    };
    let d = 3.0 * q + 2.0 * (1.0 - g);
    let d_small = hit_if(!(d.abs() > cutoffs.moment), "test: |d| small, c1 = 0");
    let c1 = if d_small { 0.0 } else { g / d };
    let c2 = (q - g) / d;
    let c3 = ((q + 2.0) - g) / d;
    let v = [1.0 + c1 * b, 1.0 - c2 * b, 1.0 - c3 * b];
    let v0 = zero_if_small(cutoffs, v[0], "test: V0 small");
    let v2 = zero_if_small(cutoffs, v[2], "test: V2 small");
    hit_if(v[1].abs() < cutoffs.divisor, "test: V1 small");
    let h = div(cutoffs, 1.0 - a2 / q, v[1]);
    let rho = ((1.0 / q) * (h * h)) * div(cutoffs, v0, v2);
    let excess = q * rho - 1.0;
    Parts { d, v, excess, df: 4.0 + (q + 2.0) / excess }
}

/// df and scaling from the moments (unmarked). NaN is none in both.
pub fn df_and_scaling(cutoffs: &Cutoffs, a1: f64, a2: f64, rank: usize) -> (f64, f64) {
    let q = rank as f64;
    let parts = parts(cutoffs, a1, a2, q);
    let mut df = parts.df;
    if hit_if(!(parts.excess.abs() > cutoffs.excess), "test: |qρ-1| small or NaN") {
        df = f64::NAN;
    }
    if hit_if(df <= 0.0, "test: df not positive") {
        df = f64::NAN;
    }
    if hit_if(rank == 1 && a2.is_finite() && a2 > 0.0, "test: q = 1, df = 2/a2") {
        (2.0 / a2, 1.0)
    } else if hit_if((df - 2.0).abs() < cutoffs.near, "test: |df-2| < 1e-2") {
        (df, 1.0)
    } else if hit_if(df.is_nan(), "test: df none, F none") {
        (df, f64::NAN)
    } else {
        hit("test: general scaling");
        (df, (df * (1.0 - a2 / q)) / (df - 2.0))
    }
}

/// `kr_modcomp_test` of one contrast.
pub fn kr_test(
    cutoffs: &Cutoffs,
    scaled: &Scaled,
    l: &Matrix,
    beta: &[f64],
    beta_h: Option<&[f64]>,
) -> Result<(Entry, Moments), Refusal> {
    let mark = Marking::new();
    let l = contrast_basis(&mark, l);
    let rank = l.rows;
    let lt = l.transposed();
    let d: Vec<f64> =
        (0..beta.len()).map(|i| mark.sub(beta[i], beta_h.map_or(0.0, |h| h[i]))).collect();

    let a = product(&mark, &product(&mark, &l, &scaled.phi), &lt);
    let solved = eliminate(&mark, &a, &l).ok_or_else(|| refuse(10, "10: A of a test"))?;
    let theta = product(&mark, &lt, &solved);
    let theta_phi = product(&mark, &theta, &scaled.phi);
    let u: Vec<Matrix> = scaled
        .p
        .iter()
        .map(|p| product(&mark, &product(&mark, &theta_phi, p), &scaled.phi))
        .collect();

    let moments = moments(&u, &scaled.w);
    let (df, scaling) = df_and_scaling(cutoffs, moments.a1, moments.a2, rank);
    let wald = wald(&mark, scaled, &l, &d)?;
    let f = scaling * (wald / rank as f64);
    let inside = mark.inside() && scaled.inside;
    Ok((Entry { f: number(f), df: number(df), rank: rank as u8, inside }, moments))
}

fn trace(m: &Matrix) -> f64 {
    let mut sum = 0.0;
    for i in 0..m.rows {
        sum += m[(i, i)];
    }
    sum
}

/// a1 and a2, unmarked.
fn moments(u: &[Matrix], w: &Matrix) -> Moments {
    let (mut a1, mut a2) = (0.0, 0.0);
    for i in 0..u.len() {
        for j in i..u.len() {
            let ew = if i == j { 1.0 } else { 2.0 } * w[(i, j)];
            a1 += (ew * trace(&u[i])) * trace(&u[j]);
            a2 += ew * cells(&u[i], &u[j].transposed());
        }
    }
    Moments { a1, a2 }
}

/// Wald, M; NaN is none.
fn wald(mark: &Marking, scaled: &Scaled, l: &Matrix, d: &[f64]) -> Result<f64, Refusal> {
    let v = product(mark, &product(mark, l, &scaled.phi_a), &l.transposed());
    let ld = apply(mark, l, d);
    if l.rows == 1 {
        let v = v[(0, 0)];
        if hit_if(!(v.is_finite() && v > 0.0), "test: q = 1, v not positive, F none") {
            return Ok(f64::NAN);
        }
        let t = mark.div(ld[0], mark.sqrt(v));
        return Ok(mark.mul(t, t));
    }
    let column = Matrix { rows: ld.len(), cols: 1, cells: ld.clone() };
    let solved = eliminate(mark, &v, &column).ok_or_else(|| refuse(10, "10: Wald of a test"))?;
    Ok(dot(mark, &ld, &solved.cells))
}

/// The coefficients' entries, and the contrast's.
pub type Tested = (Vec<(Entry, Moments)>, Option<(Entry, Moments)>);

/// The whole run.
pub struct Run {
    pub adjustment: Adjustment,
    pub scaled: Scaled,
    pub coefficients: Vec<(Entry, Moments)>,
    pub contrast: Option<(Entry, Moments)>,
}

pub fn kenward_roger_run(cutoffs: &Cutoffs, series: &Series) -> Result<Run, Refusal> {
    let (adjustment, scaled) = adjusted(cutoffs, series)?;
    let (l, beta_h) = (series.contrast.as_ref(), series.beta_h.as_deref());
    let (coefficients, contrast) = tested(cutoffs, &scaled, &series.beta, l, beta_h)?;
    Ok(Run { adjustment, scaled, coefficients, contrast })
}

/// What an archive of an adjusted series holds.
pub fn residual(series: &Series, adjustment: &Adjustment) -> Archive {
    Archive {
        phi: series.phi.clone(),
        phi_a: adjustment.phi_a.clone(),
        p: adjustment.p.clone(),
        w: adjustment.w.clone(),
        sigma2: series.sigma2,
    }
}

/// The adjustment, scaled, and the late refusal 4 behind both.
pub fn adjusted(cutoffs: &Cutoffs, series: &Series) -> Result<(Adjustment, Scaled), Refusal> {
    let adjustment = adjust(cutoffs, series)?;
    let scaled = scale(&residual(series, &adjustment));
    let singles = [&adjustment.phi_a, &adjustment.w, &scaled.phi, &scaled.phi_a];
    if !finite(singles[..2].iter().copied().chain(&adjustment.p)) {
        return Err(refuse(4, "4: adjustment's output, unscaled"));
    }
    if !finite(singles[2..].iter().copied().chain(&scaled.p)) {
        return Err(refuse(4, "4: adjustment's output, scaled"));
    }
    Ok((adjustment, scaled))
}

/// The tests from an archive: it is scaled again, by marked steps.
pub fn archive_tests(
    cutoffs: &Cutoffs,
    archive: &Archive,
    tests: &Tests,
) -> Result<Tested, Refusal> {
    let scaled = scale(archive);
    tested(cutoffs, &scaled, &tests.beta, tests.contrast.as_ref(), tests.beta_h.as_deref())
}

/// Each coefficient alone, then the contrast.
fn tested(
    cutoffs: &Cutoffs,
    scaled: &Scaled,
    beta: &[f64],
    contrast: Option<&Matrix>,
    beta_h: Option<&[f64]>,
) -> Result<Tested, Refusal> {
    let p = beta.len();
    let mut coefficients = Vec::new();
    for i in 0..p {
        let unit = Matrix::from_fn(1, p, |_, j| if j == i { 1.0 } else { 0.0 });
        coefficients.push(kr_test(cutoffs, scaled, &unit, beta, None)?);
    }
    let contrast = contrast.map(|l| kr_test(cutoffs, scaled, l, beta, beta_h)).transpose()?;
    Ok((coefficients, contrast))
}

// ------------------------------------------------------ Satterthwaite test

/// `variance_df` from g = J/V on: r and 2/r, unmarked.
fn relative_df(g: &[f64], a: &Matrix) -> f64 {
    let mut r = 0.0;
    for j in 0..g.len() {
        for k in 0..g.len() {
            r += (g[j] * a[(j, k)]) * g[k];
        }
    }
    if !hit_if(!(r.is_finite() && r > 0.0), "satt: r not positive, none") {
        2.0 / r
    } else {
        f64::NAN
    }
}

/// `variance_df`: none unless V is finite and positive; g is marked.
pub fn variance_df(mark: &Marking, v: f64, gradient: &[f64], a: &Matrix) -> f64 {
    if hit_if(!(v.is_finite() && v > 0.0), "satt: one row, V not positive, none") {
        return f64::NAN;
    }
    let g: Vec<f64> = gradient.iter().map(|&j| mark.div(j, v)).collect();
    relative_df(&g, a)
}

/// `get_fstat_ddf` with tolerance 1e-8.
pub fn pooled_df(nu: &[f64]) -> f64 {
    if nu.len() == 1
        || hit_if(nu.iter().all(|v| (v - nu[0]).abs() < 1e-8), "satt: all within tolerance")
    {
        return nu[0];
    }
    if hit_if(nu.iter().any(|&v| v <= 2.0), "satt: some ν ≤ 2") {
        return 2.0;
    }
    hit("satt: 2E/(E-q)");
    let mut e = 0.0;
    for v in nu {
        e += v / (v - 2.0);
    }
    (2.0 * e) / (e - nu.len() as f64)
}

pub fn satterthwaite_test(cutoffs: &Cutoffs, series: &SattSeries) -> Result<Entry, Refusal> {
    let mark = Marking::new();
    let l = &series.contrast;
    let lt = l.transposed();
    let zeros = vec![0.0; series.beta.len()];
    let beta_h = series.beta_h.as_ref().unwrap_or(&zeros);
    let lb = apply(&mark, l, &series.beta);
    let lh = apply(&mark, l, beta_h);
    let lbd: Vec<f64> = lb.iter().zip(&lh).map(|(&a, &b)| mark.sub(a, b)).collect();
    let sandwich = |m: &Matrix| product(&mark, &product(&mark, l, m), &lt);
    let v = sandwich(&series.v);
    let jacobians: Vec<Matrix> = series.jacobians.iter().map(sandwich).collect();
    let (f, df) = if l.rows == 1 {
        one_row(&mark, lbd[0], v[(0, 0)], &jacobians, &series.a)
    } else {
        several_rows(cutoffs, &mark, &lbd, &v, &jacobians, &series.a)?
    };
    Ok(Entry { f: number(f), df: number(df), rank: l.rows as u8, inside: mark.inside() })
}

fn one_row(mark: &Marking, lbd: f64, v: f64, jacobians: &[Matrix], a: &Matrix) -> (f64, f64) {
    let t = mark.div(lbd, mark.sqrt(v));
    let f = mark.mul(t, t);
    let gradient: Vec<f64> = jacobians.iter().map(|j| j[(0, 0)]).collect();
    (f, variance_df(mark, v, &gradient, a))
}

fn several_rows(
    cutoffs: &Cutoffs,
    mark: &Marking,
    lbd: &[f64],
    v: &Matrix,
    jacobians: &[Matrix],
    a: &Matrix,
) -> Result<(f64, f64), Refusal> {
    let eigen = jacobi(mark, v, cutoffs.rotation);
    if eigen.values.iter().any(|d| !(d.is_finite() && *d > 0.0)) {
        return Err(refuse(11, "11: eigenvalue of V"));
    }
    let mut sum = 0.0;
    let mut nu = Vec::new();
    for index in falling(&eigen.values) {
        let value = eigen.values[index];
        let x = eigen.vectors.column(index);
        let xb = dot(mark, &x, lbd);
        sum = mark.add(sum, mark.div(mark.mul(xb, xb), value));
        let gradient: Vec<f64> =
            jacobians.iter().map(|j| dot(mark, &x, &apply(mark, j, &x))).collect();
        let df = variance_df(mark, value, &gradient, a);
        let above = hit_if(df > cutoffs.cap, "satt: capped at 3000");
        nu.push(if above { cutoffs.cap } else { df });
    }
    let f = mark.div(sum, lbd.len() as f64);
    let df = if hit_if(nu.iter().any(|d| d.is_nan()), "satt: several rows, some ν none") {
        f64::NAN
    } else {
        pooled_df(&nu)
    };
    Ok((f, df))
}
