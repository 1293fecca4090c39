//! A stand-in for the part of `ndarray-linalg` that four files of lme-rs use:
//! document 01's elimination, Cholesky, Jacobi and sweeps over row pairs.

use listed_algebra::{
    cholesky, eliminate, inverse, jacobi, row_values, Matrix, Plain, ROTATION_FACTOR,
};
use ndarray::{Array1, Array2};
use std::cell::{Cell, RefCell};
use std::fmt;

/// Which half is read. The listed Cholesky reads the lower, the listed Jacobi
/// the upper half; lme-rs asks for nothing else.
#[derive(Debug, Clone, Copy, PartialEq)]
pub enum UPLO {
    Upper,
    Lower,
}

#[derive(Debug, Clone, Copy, PartialEq)]
pub enum LinalgError {
    ZeroPivot,
    DiagonalNotPositive,
}

impl fmt::Display for LinalgError {
    fn fmt(&self, f: &mut fmt::Formatter<'_>) -> fmt::Result {
        f.write_str(match self {
            LinalgError::ZeroPivot => "zero pivot",
            LinalgError::DiagonalNotPositive => "diagonal not positive",
        })
    }
}

type Answer<T> = Result<T, LinalgError>;

pub trait Cholesky {
    fn cholesky(&self, half: UPLO) -> Answer<Array2<f64>>;
}

impl Cholesky for Array2<f64> {
    fn cholesky(&self, half: UPLO) -> Answer<Array2<f64>> {
        assert_eq!(half, UPLO::Lower);
        let factor = cholesky(&Plain, &self.to_matrix());
        factor.map(Array2::from_matrix).ok_or(LinalgError::DiagonalNotPositive)
    }
}

pub trait Inverse {
    fn inv(&self) -> Answer<Array2<f64>>;
}

impl Inverse for Array2<f64> {
    fn inv(&self) -> Answer<Array2<f64>> {
        // The planted factor stands for its own inverse: see `with_gram`.
        if self.has_gram() {
            return Ok(self.clone());
        }
        let inverse = inverse(&Plain, &self.to_matrix());
        inverse.map(Array2::from_matrix).ok_or(LinalgError::ZeroPivot)
    }
}

pub trait Solve {
    fn solve(&self, b: &Array1<f64>) -> Answer<Array1<f64>>;
}

impl Solve for Array2<f64> {
    fn solve(&self, b: &Array1<f64>) -> Answer<Array1<f64>> {
        let column = Matrix { rows: b.len(), cols: 1, cells: b.iter().copied().collect() };
        let x = eliminate(&Plain, &self.to_matrix(), &column).ok_or(LinalgError::ZeroPivot)?;
        Ok(x.cells.into())
    }
}

thread_local! {
    static FACTOR: Cell<f64> = const { Cell::new(ROTATION_FACTOR) };
    static ROTATIONS: Cell<u32> = const { Cell::new(0) };
    static MATRIX: RefCell<Option<Matrix>> = const { RefCell::new(None) };
}

/// Sets the factor of the rotation test for each `eigh` of this thread from now on.
/// LAPACK has no such number, so lme-rs has no place for it; it is 2^-100 until set.
pub fn set_rotation_factor(factor: f64) {
    FACTOR.with(|f| f.set(factor));
}

/// The rotations that the last `eigh` of this thread made.
pub fn last_rotations() -> u32 {
    ROTATIONS.with(|r| r.get())
}

/// The matrix that the last `eigh` of this thread was given: the only way to
/// see IE, a local of lme-rs.
pub fn last_eigh() -> Option<Matrix> {
    MATRIX.with(|m| m.borrow().clone())
}

pub trait Eigh {
    fn eigh(&self, half: UPLO) -> Answer<(Array1<f64>, Array2<f64>)>;
}

impl Eigh for Array2<f64> {
    fn eigh(&self, half: UPLO) -> Answer<(Array1<f64>, Array2<f64>)> {
        assert_eq!(half, UPLO::Upper);
        let eigen = jacobi(&Plain, &self.to_matrix(), FACTOR.with(|f| f.get()));
        ROTATIONS.with(|r| r.set(eigen.rotations));
        MATRIX.with(|m| *m.borrow_mut() = Some(self.to_matrix()));
        Ok((eigen.values.into(), Array2::from_matrix(eigen.vectors)))
    }
}

type Singular = (Option<Array2<f64>>, Array1<f64>, Option<Array2<f64>>);

pub trait SVD {
    fn svd(&self, calc_u: bool, calc_vt: bool) -> Answer<Singular>;
}

impl SVD for Array2<f64> {
    fn svd(&self, calc_u: bool, calc_vt: bool) -> Answer<Singular> {
        assert!(!calc_u && calc_vt);
        let values = row_values(&Plain, &self.to_matrix());
        Ok((None, values.norms.into(), Some(Array2::from_matrix(values.units))))
    }
}
