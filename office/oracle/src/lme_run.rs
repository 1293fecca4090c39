//! The two tests by lme-rs's own functions, with a table of cutoffs in force.
//!
//! The answer is that of the copies of lme-rs's files that read the table. Where it
//! is the built-in one the files as they are run too, and must have the same bits:
//! so the copies are lme-rs's but for the table.

use crate::cutoffs::in_force;
use crate::reader::archive::{Archive, Tests};
use crate::reader::cutoffs::Cutoffs;
use crate::reader::{Refusal, SattSeries, Series};
use crate::{LmeError, LmeFit};
use listed_algebra::Matrix;
use ndarray::{Array1, Array2};
use polars::prelude::{BlockShape, DataFrame};

/// By the files as they are.
mod unchanged {
    use crate::{ddf, kenward_roger, kr_modcomp, kr_vcov_adj};
    include!("lme_steps.rs");
}

/// By their copies, which read the table in force. What only the built-in table has
/// is not called here.
#[allow(dead_code)]
mod alike {
    use crate::alike::{ddf, kenward_roger, kr_modcomp, kr_vcov_adj};
    include!("lme_steps.rs");
}

/// F and df (NaN: none) and the rank of one test, as lme-rs has them.
#[derive(Debug, Clone, Copy)]
pub struct Verdict {
    pub f: f64,
    pub df: f64,
    pub rank: u8,
}

/// The adjustment's output, in residual units and scaled by sigma2.
pub struct Adjusted {
    pub phi_a: Matrix,
    pub p: Vec<Matrix>,
    pub w: Matrix,
    pub scaled_phi: Matrix,
    pub scaled_phi_a: Matrix,
    pub scaled_p: Vec<Matrix>,
    /// IE, and the rotations of its Jacobi.
    pub ie: Matrix,
    pub rotations: u32,
}

/// The coefficients' verdicts, and the contrast's.
pub type Verdicts = (Vec<Verdict>, Option<Verdict>);

/// The run: the coefficients' verdicts, then the contrast's.
pub struct Run {
    pub adjusted: Adjusted,
    pub coefficients: Vec<Verdict>,
    pub contrast: Option<Verdict>,
}

/// Which refusal of document 01 an error of lme-rs is.
fn number(error: LmeError) -> Refusal {
    let known = [
        ("Contrast matrix must have positive rank", 8),
        ("Sigma Cholesky failed", 9),
        ("Cholesky factor inverse failed", 10),
        ("IE2 inverse failed", 10),
        ("IE2 ridge inverse failed", 10),
        ("KRmodcomp linear solve failed", 10),
        ("Satterthwaite contrast covariance must be positive definite", 11),
    ];
    let text = error.text();
    known
        .iter()
        .find(|(start, _)| text.starts_with(start))
        .unwrap_or_else(|| panic!("an error of lme-rs that no refusal covers: {text}"))
        .1
}

fn array(m: &Matrix) -> Array2<f64> {
    Array2::from_matrix(m.clone())
}

fn fit(series: &Series, sigma2: f64) -> LmeFit {
    LmeFit {
        theta: Some(series.theta.clone().into()),
        formula: Some(String::new()),
        sigma2: Some(sigma2),
        factors: Vec::new(),
        reml: None,
        family: None,
        coefficients: series.beta.clone().into(),
    }
}

fn frame(series: &Series) -> DataFrame {
    DataFrame {
        x: array(&series.x),
        z: array(&series.z),
        blocks: series.blocks.iter().map(|b| BlockShape { m: b.m, k: b.k }).collect(),
        weights: series.weights.clone().map(Array1::from),
        phi: array(&series.phi),
    }
}

fn matrices(list: &[Array2<f64>]) -> Vec<Matrix> {
    list.iter().map(|m| m.to_matrix()).collect()
}

impl Adjusted {
    fn finite(&self) -> bool {
        let singles = [&self.phi_a, &self.w, &self.scaled_phi, &self.scaled_phi_a];
        singles
            .into_iter()
            .chain(&self.p)
            .chain(&self.scaled_p)
            .all(|m| m.cells.iter().all(|v| v.is_finite()))
    }
}

/// What is held together, bit by bit.
trait Numbers {
    fn numbers(&self) -> Vec<f64>;
}

impl Numbers for Verdict {
    fn numbers(&self) -> Vec<f64> {
        vec![self.f, self.df, self.rank.into()]
    }
}

impl Numbers for Verdicts {
    fn numbers(&self) -> Vec<f64> {
        self.0.iter().chain(&self.1).flat_map(Numbers::numbers).collect()
    }
}

impl Numbers for Adjusted {
    fn numbers(&self) -> Vec<f64> {
        let singles = [&self.phi_a, &self.w, &self.scaled_phi, &self.scaled_phi_a, &self.ie];
        let all = singles.into_iter().chain(&self.p).chain(&self.scaled_p);
        all.flat_map(|m| m.cells.iter().copied()).chain([self.rotations.into()]).collect()
    }
}

impl Numbers for Run {
    fn numbers(&self) -> Vec<f64> {
        let verdicts = self.coefficients.iter().chain(&self.contrast).flat_map(Numbers::numbers);
        self.adjusted.numbers().into_iter().chain(verdicts).collect()
    }
}

/// The copies' answer; with the built-in table it must be the files' own.
fn held<T: Numbers>(
    cutoffs: &Cutoffs,
    alike: impl FnOnce() -> Result<T, Refusal>,
    unchanged: impl FnOnce() -> Result<T, Refusal>,
) -> Result<T, Refusal> {
    let answer = in_force(cutoffs, alike);
    if *cutoffs == Cutoffs::BUILT_IN {
        let equal = match (&answer, &unchanged()) {
            (Ok(a), Ok(b)) => all_same(&a.numbers(), &b.numbers()),
            (Err(a), Err(b)) => a == b,
            _ => false,
        };
        assert!(equal, "the copies of lme-rs's files differ from the files");
    }
    answer
}

fn all_same(a: &[f64], b: &[f64]) -> bool {
    a.len() == b.len() && a.iter().zip(b).all(|(&a, &b)| same(a, b))
}

/// `kenward_roger_modcomp_data`, and the late refusal 4 behind it.
pub fn adjust(cutoffs: &Cutoffs, series: &Series) -> Result<Adjusted, Refusal> {
    held(cutoffs, || alike::adjust(series), || unchanged::adjust(series))
}

/// The Kenward–Roger run.
pub fn kenward_roger_run(cutoffs: &Cutoffs, series: &Series) -> Result<Run, Refusal> {
    held(cutoffs, || alike::kenward_roger_run(series), || unchanged::kenward_roger_run(series))
}

/// The tests on an archive's matrices.
pub fn archive_tests(
    cutoffs: &Cutoffs,
    archive: &Archive,
    tests: &Tests,
) -> Result<Verdicts, Refusal> {
    held(
        cutoffs,
        || alike::archive_tests(archive, tests),
        || unchanged::archive_tests(archive, tests),
    )
}

/// The Satterthwaite test.
pub fn satterthwaite_test(cutoffs: &Cutoffs, series: &SattSeries) -> Result<Verdict, Refusal> {
    held(cutoffs, || alike::satterthwaite_test(series), || unchanged::satterthwaite_test(series))
}

/// lme-rs alone, as it is, each of its steps once: the adjustment, each coefficient,
/// the contrast. Without the late refusal 4, the numbers in residual units and the
/// mark, which the judgement of the port needs; so this is what its time is
/// to be compared with.
pub fn each_step_once(series: &Series) -> Result<Verdicts, Refusal> {
    unchanged::each_step_once(series)
}

/// The run that lme-rs makes where document 01 has its late refusal 4
/// (docs/DIFFERENCES.md, "The late refusal 4 is document 01's own").
pub fn run_without_late_4(series: &Series) -> Result<Run, Refusal> {
    unchanged::run_without_late_4(series)
}

/// Equal bits, any NaN like any other.
pub fn same(a: f64, b: f64) -> bool {
    a.to_bits() == b.to_bits() || (a.is_nan() && b.is_nan())
}
