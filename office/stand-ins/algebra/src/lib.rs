//! The list "Dense algebra (stands in for ndarray and LAPACK)" of document 01.
//!
//! Every function takes the arithmetic that it uses, so that the same text
//! serves the plain run (`Plain`) and the marked run (an arithmetic that looks
//! at each operand and each result). Nothing else differs between the two.

use std::ops::{Index, IndexMut};

/// The five operations that round.
pub trait Arithmetic {
    fn add(&self, a: f64, b: f64) -> f64;
    fn sub(&self, a: f64, b: f64) -> f64;
    fn mul(&self, a: f64, b: f64) -> f64;
    fn div(&self, a: f64, b: f64) -> f64;
    fn sqrt(&self, a: f64) -> f64;
}

/// Plain binary64.
pub struct Plain;

impl Arithmetic for Plain {
    fn add(&self, a: f64, b: f64) -> f64 {
        a + b
    }
    fn sub(&self, a: f64, b: f64) -> f64 {
        a - b
    }
    fn mul(&self, a: f64, b: f64) -> f64 {
        a * b
    }
    fn div(&self, a: f64, b: f64) -> f64 {
        a / b
    }
    fn sqrt(&self, a: f64) -> f64 {
        a.sqrt()
    }
}

/// A dense matrix, row after row.
#[derive(Debug, Clone, PartialEq)]
pub struct Matrix {
    pub rows: usize,
    pub cols: usize,
    pub cells: Vec<f64>,
}

impl Matrix {
    pub fn zeros(rows: usize, cols: usize) -> Matrix {
        Matrix { rows, cols, cells: vec![0.0; rows * cols] }
    }

    pub fn identity(n: usize) -> Matrix {
        Matrix::from_fn(n, n, |i, j| if i == j { 1.0 } else { 0.0 })
    }

    pub fn from_fn(rows: usize, cols: usize, cell: impl Fn(usize, usize) -> f64) -> Matrix {
        let mut out = Matrix::zeros(rows, cols);
        for i in 0..rows {
            for j in 0..cols {
                out[(i, j)] = cell(i, j);
            }
        }
        out
    }

    pub fn row(&self, i: usize) -> &[f64] {
        &self.cells[i * self.cols..(i + 1) * self.cols]
    }

    pub fn column(&self, j: usize) -> Vec<f64> {
        (0..self.rows).map(|i| self[(i, j)]).collect()
    }

    pub fn transposed(&self) -> Matrix {
        Matrix::from_fn(self.cols, self.rows, |i, j| self[(j, i)])
    }

    /// Each cell through `f`.
    pub fn map(&self, f: impl Fn(f64) -> f64) -> Matrix {
        Matrix {
            rows: self.rows,
            cols: self.cols,
            cells: self.cells.iter().map(|&v| f(v)).collect(),
        }
    }

    /// Like cells of two matrices through `f`.
    pub fn with(&self, other: &Matrix, f: impl Fn(f64, f64) -> f64) -> Matrix {
        assert_eq!((self.rows, self.cols), (other.rows, other.cols), "sizes of like cells");
        let cells = self.cells.iter().zip(&other.cells).map(|(&a, &b)| f(a, b)).collect();
        Matrix { rows: self.rows, cols: self.cols, cells }
    }

    fn swap_rows(&mut self, i: usize, j: usize) {
        if i != j {
            for c in 0..self.cols {
                self.cells.swap(i * self.cols + c, j * self.cols + c);
            }
        }
    }
}

impl Index<(usize, usize)> for Matrix {
    type Output = f64;
    fn index(&self, (i, j): (usize, usize)) -> &f64 {
        assert!(i < self.rows && j < self.cols, "cell outside the matrix");
        &self.cells[i * self.cols + j]
    }
}

impl IndexMut<(usize, usize)> for Matrix {
    fn index_mut(&mut self, (i, j): (usize, usize)) -> &mut f64 {
        assert!(i < self.rows && j < self.cols, "cell outside the matrix");
        &mut self.cells[i * self.cols + j]
    }
}

/// "Dot products and sums: from +0, left to right".
pub fn dot(ar: &impl Arithmetic, x: &[f64], y: &[f64]) -> f64 {
    assert_eq!(x.len(), y.len(), "lengths of a dot product");
    let mut sum = 0.0;
    for (&a, &b) in x.iter().zip(y) {
        sum = ar.add(sum, ar.mul(a, b));
    }
    sum
}

/// A sum, from +0, left to right.
pub fn sum(ar: &impl Arithmetic, terms: &[f64]) -> f64 {
    let mut sum = 0.0;
    for &t in terms {
        sum = ar.add(sum, t);
    }
    sum
}

/// The matrix product: each cell is a dot product.
pub fn product(ar: &impl Arithmetic, a: &Matrix, b: &Matrix) -> Matrix {
    assert_eq!(a.cols, b.rows, "sizes of a matrix product");
    let columns: Vec<Vec<f64>> = (0..b.cols).map(|j| b.column(j)).collect();
    Matrix::from_fn(a.rows, b.cols, |i, j| dot(ar, a.row(i), &columns[j]))
}

/// Matrix times vector.
pub fn apply(ar: &impl Arithmetic, a: &Matrix, x: &[f64]) -> Vec<f64> {
    (0..a.rows).map(|i| dot(ar, a.row(i), x)).collect()
}

/// Elimination of A X = B with the listed pivoting; `None` is a zero pivot.
pub fn eliminate(ar: &impl Arithmetic, a: &Matrix, b: &Matrix) -> Option<Matrix> {
    let n = a.rows;
    assert!(a.cols == n && b.rows == n, "sizes of an elimination");
    let mut a = a.clone();
    let mut b = b.clone();
    for c in 0..n {
        // Replaced only by a strictly larger one: a NaN in row c stays, a NaN
        // below is never chosen.
        let mut pivot = c;
        for r in c + 1..n {
            if a[(r, c)].abs() > a[(pivot, c)].abs() {
                pivot = r;
            }
        }
        if a[(pivot, c)] == 0.0 {
            return None;
        }
        a.swap_rows(c, pivot);
        b.swap_rows(c, pivot);
        for r in c + 1..n {
            let factor = ar.div(a[(r, c)], a[(c, c)]);
            for j in c + 1..n {
                a[(r, j)] = ar.sub(a[(r, j)], ar.mul(factor, a[(c, j)]));
            }
            for j in 0..b.cols {
                b[(r, j)] = ar.sub(b[(r, j)], ar.mul(factor, b[(c, j)]));
            }
        }
    }
    let mut x = Matrix::zeros(n, b.cols);
    for j in 0..b.cols {
        for i in (0..n).rev() {
            let mut rest = b[(i, j)];
            for k in i + 1..n {
                rest = ar.sub(rest, ar.mul(a[(i, k)], x[(k, j)]));
            }
            x[(i, j)] = ar.div(rest, a[(i, i)]);
        }
    }
    Some(x)
}

/// "Inverse: B = identity."
pub fn inverse(ar: &impl Arithmetic, a: &Matrix) -> Option<Matrix> {
    eliminate(ar, a, &Matrix::identity(a.rows))
}

/// Cholesky, lower, column by column; `None` where a diagonal is not > 0.
pub fn cholesky(ar: &impl Arithmetic, a: &Matrix) -> Option<Matrix> {
    let n = a.rows;
    assert_eq!(a.cols, n, "sizes of a Cholesky factor");
    let mut l = Matrix::zeros(n, n);
    for j in 0..n {
        let below = |i: usize, l: &Matrix| {
            let mut rest = a[(i, j)];
            for k in 0..j {
                rest = ar.sub(rest, ar.mul(l[(i, k)], l[(j, k)]));
            }
            rest
        };
        let diagonal = below(j, &l);
        if diagonal > 0.0 {
            l[(j, j)] = ar.sqrt(diagonal);
        } else {
            // Zero, negative or NaN.
            return None;
        }
        for i in j + 1..n {
            l[(i, j)] = ar.div(below(i, &l), l[(j, j)]);
        }
    }
    Some(l)
}

/// The c, s and t of one rotation.
struct Rotation {
    t: f64,
    c: f64,
    s: f64,
}

/// t = sign(z)/(|z| + sqrt(z² + 1)), sign(0) = 1; c = 1/sqrt(t² + 1); s = t × c.
fn rotation(ar: &impl Arithmetic, z: f64) -> Rotation {
    let sign = if z < 0.0 { -1.0 } else { 1.0 };
    let root = ar.sqrt(ar.add(ar.mul(z, z), 1.0));
    let t = ar.div(sign, ar.add(z.abs(), root));
    let c = ar.div(1.0, ar.sqrt(ar.add(ar.mul(t, t), 1.0)));
    let s = ar.mul(t, c);
    Rotation { t, c, s }
}

impl Rotation {
    /// (x, y) becomes (cx − sy, sx + cy).
    fn turn(&self, ar: &impl Arithmetic, x: f64, y: f64) -> (f64, f64) {
        (ar.sub(ar.mul(self.c, x), ar.mul(self.s, y)), ar.add(ar.mul(self.s, x), ar.mul(self.c, y)))
    }
}

/// The answer of the Jacobi sweeps.
pub struct Eigen {
    pub values: Vec<f64>,
    /// Eigenvectors, by columns.
    pub vectors: Matrix,
    /// How many rotations were made.
    pub rotations: u32,
}

const SWEEPS: usize = 30;

/// Document 01's factor of the rotation test: 2^-100, exactly.
pub const ROTATION_FACTOR: f64 = f64::from_bits((1023 - 100) << 52);

/// Jacobi of a symmetric matrix whose upper half is read. Where A_ab is not zero it
/// rotates if A_ab² > factor × (A_aa × A_bb); the factor is an operand as any other.
pub fn jacobi(ar: &impl Arithmetic, a: &Matrix, factor: f64) -> Eigen {
    let n = a.rows;
    assert_eq!(a.cols, n, "sizes of a Jacobi");
    let mut a = Matrix::from_fn(n, n, |i, j| if i <= j { a[(i, j)] } else { a[(j, i)] });
    let mut vectors = Matrix::identity(n);
    let mut rotations = 0;
    for _ in 0..SWEEPS {
        for p in 0..n {
            for q in p + 1..n {
                let apq = a[(p, q)];
                if apq == 0.0 {
                    continue;
                }
                let square = ar.mul(apq, apq);
                let bound = ar.mul(factor, ar.mul(a[(p, p)], a[(q, q)]));
                // A NaN on either side makes no rotation.
                if !(square > bound) {
                    continue;
                }
                rotations += 1;
                let z = ar.div(ar.sub(a[(q, q)], a[(p, p)]), ar.mul(2.0, apq));
                let turn = rotation(ar, z);
                let shift = ar.mul(turn.t, apq);
                a[(p, p)] = ar.sub(a[(p, p)], shift);
                a[(q, q)] = ar.add(a[(q, q)], shift);
                a[(p, q)] = 0.0;
                a[(q, p)] = 0.0;
                for r in 0..n {
                    if r != p && r != q {
                        let (x, y) = turn.turn(ar, a[(r, p)], a[(r, q)]);
                        a[(r, p)] = x;
                        a[(p, r)] = x;
                        a[(r, q)] = y;
                        a[(q, r)] = y;
                    }
                }
                for r in 0..n {
                    let (x, y) = turn.turn(ar, vectors[(r, p)], vectors[(r, q)]);
                    vectors[(r, p)] = x;
                    vectors[(r, q)] = y;
                }
            }
        }
    }
    Eigen { values: (0..n).map(|i| a[(i, i)]).collect(), vectors, rotations }
}

/// The answer of the sweeps over row pairs, in falling order.
pub struct RowValues {
    /// Row norms, falling, ties by index; the first min(rows, columns).
    pub norms: Vec<f64>,
    /// The rows of those norms, each divided by its norm.
    pub units: Matrix,
}

/// `contrast_basis`, 30 sweeps over row pairs.
pub fn row_values(ar: &impl Arithmetic, rows: &Matrix) -> RowValues {
    let mut turned: Vec<Vec<f64>> = (0..rows.rows).map(|i| rows.row(i).to_vec()).collect();
    for _ in 0..SWEEPS {
        for i in 0..turned.len() {
            for j in i + 1..turned.len() {
                let (x, y) = turn_rows(ar, &turned[i], &turned[j]);
                turned[i] = x;
                turned[j] = y;
            }
        }
    }
    let all: Vec<f64> = turned.iter().map(|r| ar.sqrt(dot(ar, r, r))).collect();
    let order: Vec<usize> = falling(&all).into_iter().take(rows.rows.min(rows.cols)).collect();
    let norms: Vec<f64> = order.iter().map(|&i| all[i]).collect();
    let units =
        Matrix::from_fn(order.len(), rows.cols, |i, j| ar.div(turned[order[i]][j], all[order[i]]));
    RowValues { norms, units }
}

/// One row pair: both new rows come from the old ones.
fn turn_rows(ar: &impl Arithmetic, x: &[f64], y: &[f64]) -> (Vec<f64>, Vec<f64>) {
    let g = dot(ar, x, y);
    if g == 0.0 {
        return (x.to_vec(), y.to_vec());
    }
    let z = ar.div(ar.sub(dot(ar, y, y), dot(ar, x, x)), ar.mul(2.0, g));
    let turn = rotation(ar, z);
    x.iter().zip(y).map(|(&a, &b)| turn.turn(ar, a, b)).unzip()
}

/// The indices of `values`, values falling, ties by index.
pub fn falling(values: &[f64]) -> Vec<usize> {
    let mut order: Vec<usize> = (0..values.len()).collect();
    // A stable sort keeps equal ones by index.
    order.sort_by(|&a, &b| values[b].partial_cmp(&values[a]).unwrap_or(std::cmp::Ordering::Equal));
    order
}
