//! A stand-in for the part of `ndarray` that four files of lme-rs use.
//!
//! Elementwise operations are plain f64; products and sums are document 01's
//! ("from +0, left to right"). What is a view in `ndarray` is a copy here.

use listed_algebra::{apply, dot, product, sum, Matrix, Plain};
use std::ops::{Add, AddAssign, Bound, Div, Index, IndexMut, Mul, RangeBounds, Sub};

// ---------------------------------------------------------------- vectors

#[derive(Debug, Clone, PartialEq)]
pub struct Array1<T> {
    cells: Vec<T>,
}

#[derive(Debug, Clone, Copy)]
pub struct ArrayView1<'a, T> {
    cells: &'a [T],
}

impl<T> Array1<T> {
    pub fn len(&self) -> usize {
        self.cells.len()
    }
    pub fn is_empty(&self) -> bool {
        self.cells.is_empty()
    }
    pub fn iter(&self) -> std::slice::Iter<'_, T> {
        self.cells.iter()
    }
    pub fn as_slice(&self) -> Option<&[T]> {
        Some(&self.cells)
    }
    pub fn view(&self) -> ArrayView1<'_, T> {
        ArrayView1 { cells: &self.cells }
    }
}

impl Array1<f64> {
    pub fn zeros(n: usize) -> Array1<f64> {
        Array1 { cells: vec![0.0; n] }
    }
    pub fn dot(&self, other: &Array1<f64>) -> f64 {
        dot(&Plain, &self.cells, &other.cells)
    }
    pub fn sum(&self) -> f64 {
        sum(&Plain, &self.cells)
    }
    /// A vector as a matrix of one column.
    pub fn insert_axis(self, axis: Axis) -> Array2<f64> {
        assert_eq!(axis.0, 1, "only the column axis is used");
        let n = self.cells.len();
        Array2 { rows: n, cols: 1, cells: self.cells, gram: None }
    }
}

impl<T> From<Vec<T>> for Array1<T> {
    fn from(cells: Vec<T>) -> Array1<T> {
        Array1 { cells }
    }
}

impl<T> FromIterator<T> for Array1<T> {
    fn from_iter<I: IntoIterator<Item = T>>(cells: I) -> Array1<T> {
        Array1 { cells: cells.into_iter().collect() }
    }
}

impl<T> Index<usize> for Array1<T> {
    type Output = T;
    fn index(&self, i: usize) -> &T {
        &self.cells[i]
    }
}

impl<T> IndexMut<usize> for Array1<T> {
    fn index_mut(&mut self, i: usize) -> &mut T {
        &mut self.cells[i]
    }
}

fn difference(a: &Array1<f64>, b: &Array1<f64>) -> Array1<f64> {
    assert_eq!(a.len(), b.len(), "lengths of a difference");
    a.iter().zip(b.iter()).map(|(x, y)| x - y).collect()
}

impl Sub for Array1<f64> {
    type Output = Array1<f64>;
    fn sub(self, other: Array1<f64>) -> Array1<f64> {
        difference(&self, &other)
    }
}

impl Sub<&Array1<f64>> for &Array1<f64> {
    type Output = Array1<f64>;
    fn sub(self, other: &Array1<f64>) -> Array1<f64> {
        difference(self, other)
    }
}

impl<T> ArrayView1<'_, T> {
    pub fn len(&self) -> usize {
        self.cells.len()
    }
    pub fn is_empty(&self) -> bool {
        self.cells.is_empty()
    }
    pub fn as_slice(&self) -> Option<&[T]> {
        Some(self.cells)
    }
}

impl<T: Copy> ArrayView1<'_, T> {
    pub fn mapv(&self, f: impl FnMut(T) -> T) -> Array1<T> {
        self.cells.iter().copied().map(f).collect()
    }
}

impl<T> Index<usize> for ArrayView1<'_, T> {
    type Output = T;
    fn index(&self, i: usize) -> &T {
        &self.cells[i]
    }
}

pub struct Axis(pub usize);

// ---------------------------------------------------------------- matrices

#[derive(Debug, Clone, PartialEq)]
pub struct Array2<T> {
    rows: usize,
    cols: usize,
    cells: Vec<T>,
    /// Not in `ndarray`. lme-rs computes Φ as KᵀK from the inverse K of a
    /// factor that its fit makes; here Φ is an input, which is no KᵀK to the
    /// bit. A matrix that bears Φ here stands for that factor and for K, and
    /// KᵀK answers Φ. See `with_gram`.
    gram: Option<Box<Array2<T>>>,
}

impl<T> Array2<T> {
    pub fn nrows(&self) -> usize {
        self.rows
    }
    pub fn ncols(&self) -> usize {
        self.cols
    }
    pub fn is_empty(&self) -> bool {
        self.cells.is_empty()
    }
    /// Row after row.
    pub fn iter(&self) -> std::slice::Iter<'_, T> {
        self.cells.iter()
    }
    pub fn rows_mut(&mut self) -> std::vec::IntoIter<RowMut<'_, T>> {
        assert!(self.cols > 0, "rows of no columns");
        let rows: Vec<_> = self.cells.chunks_mut(self.cols).map(|cells| RowMut { cells }).collect();
        rows.into_iter()
    }
    pub fn column_mut(&mut self, col: usize) -> ColumnMut<'_, T> {
        ColumnMut { matrix: self, col }
    }
    fn at(&self, i: usize, j: usize) -> usize {
        assert!(i < self.rows && j < self.cols, "cell outside the matrix");
        i * self.cols + j
    }
}

impl Array2<f64> {
    pub fn zeros((rows, cols): (usize, usize)) -> Array2<f64> {
        Array2 { rows, cols, cells: vec![0.0; rows * cols], gram: None }
    }

    pub fn from_matrix(m: Matrix) -> Array2<f64> {
        Array2 { rows: m.rows, cols: m.cols, cells: m.cells, gram: None }
    }

    pub fn to_matrix(&self) -> Matrix {
        Matrix { rows: self.rows, cols: self.cols, cells: self.cells.clone() }
    }

    /// A factor K of which only KᵀK = `phi` is known.
    pub fn with_gram(phi: Array2<f64>) -> Array2<f64> {
        let n = phi.rows;
        let mut factor = Array2::from_matrix(Matrix::identity(n));
        factor.gram = Some(Box::new(phi));
        factor
    }

    /// True for a factor of which only KᵀK is known.
    pub fn has_gram(&self) -> bool {
        self.gram.is_some()
    }

    pub fn t(&self) -> Array2<f64> {
        let mut out = Array2::from_matrix(self.to_matrix().transposed());
        out.gram = self.gram.clone();
        out
    }

    pub fn dot<R: RightFactor>(&self, right: &R) -> R::Output {
        right.times(self)
    }

    pub fn column(&self, j: usize) -> Array1<f64> {
        (0..self.rows).map(|i| self[[i, j]]).collect()
    }

    pub fn diag(&self) -> Array1<f64> {
        (0..self.rows.min(self.cols)).map(|i| self[[i, i]]).collect()
    }

    pub fn slice(&self, window: Window) -> Array2<f64> {
        let rows = span(window.rows, self.rows);
        let cols = span(window.cols, self.cols);
        let cell = |i, j| self[[rows.0 + i, cols.0 + j]];
        Array2::from_matrix(Matrix::from_fn(rows.1 - rows.0, cols.1 - cols.0, cell))
    }

    fn map(&self, f: impl Fn(f64) -> f64) -> Array2<f64> {
        Array2::from_matrix(self.to_matrix().map(f))
    }

    fn with(&self, other: &Array2<f64>, f: impl Fn(f64, f64) -> f64) -> Array2<f64> {
        Array2::from_matrix(self.to_matrix().with(&other.to_matrix(), f))
    }
}

impl<T> Index<[usize; 2]> for Array2<T> {
    type Output = T;
    fn index(&self, [i, j]: [usize; 2]) -> &T {
        &self.cells[self.at(i, j)]
    }
}

impl<T> IndexMut<[usize; 2]> for Array2<T> {
    fn index_mut(&mut self, [i, j]: [usize; 2]) -> &mut T {
        let at = self.at(i, j);
        &mut self.cells[at]
    }
}

/// What can stand right of a matrix in `dot`.
pub trait RightFactor {
    type Output;
    fn times(&self, left: &Array2<f64>) -> Self::Output;
}

impl RightFactor for Array2<f64> {
    type Output = Array2<f64>;
    fn times(&self, left: &Array2<f64>) -> Array2<f64> {
        if let (Some(phi), Some(_)) = (&left.gram, &self.gram) {
            return (**phi).clone();
        }
        Array2::from_matrix(product(&Plain, &left.to_matrix(), &self.to_matrix()))
    }
}

impl RightFactor for Array1<f64> {
    type Output = Array1<f64>;
    fn times(&self, left: &Array2<f64>) -> Array1<f64> {
        apply(&Plain, &left.to_matrix(), &self.cells).into()
    }
}

pub struct RowMut<'a, T> {
    cells: &'a mut [T],
}

impl<T: Copy> RowMut<'_, T> {
    pub fn iter(&self) -> std::slice::Iter<'_, T> {
        self.cells.iter()
    }
    pub fn mapv_inplace(&mut self, f: impl Fn(T) -> T) {
        for cell in self.cells.iter_mut() {
            *cell = f(*cell);
        }
    }
}

pub struct ColumnMut<'a, T> {
    matrix: &'a mut Array2<T>,
    col: usize,
}

impl<T: Copy> ColumnMut<'_, T> {
    pub fn assign(&mut self, values: &Array1<T>) {
        assert_eq!(self.matrix.rows, values.len(), "length of a column");
        for i in 0..values.len() {
            self.matrix[[i, self.col]] = values[i];
        }
    }
}

// ---------------------------------------------------------------- slices

type Bounds = (Bound<usize>, Bound<usize>);

/// What `s!` makes: a range of rows and a range of columns.
pub struct Window {
    rows: Bounds,
    cols: Bounds,
}

impl Window {
    pub fn new(rows: impl RangeBounds<usize>, cols: impl RangeBounds<usize>) -> Window {
        let own = |b: Bound<&usize>| b.map(|&v| v);
        Window {
            rows: (own(rows.start_bound()), own(rows.end_bound())),
            cols: (own(cols.start_bound()), own(cols.end_bound())),
        }
    }
}

#[macro_export]
macro_rules! s {
    ($rows:expr, $cols:expr) => {
        $crate::Window::new($rows, $cols)
    };
}

fn span(bounds: Bounds, len: usize) -> (usize, usize) {
    let from = match bounds.0 {
        Bound::Included(v) => v,
        Bound::Excluded(v) => v + 1,
        Bound::Unbounded => 0,
    };
    let to = match bounds.1 {
        Bound::Included(v) => v + 1,
        Bound::Excluded(v) => v,
        Bound::Unbounded => len,
    };
    assert!(from <= to && to <= len, "slice outside the matrix");
    (from, to)
}

// ---------------------------------------------------------------- operators

impl Mul<f64> for Array2<f64> {
    type Output = Array2<f64>;
    fn mul(self, k: f64) -> Array2<f64> {
        self.map(|v| v * k)
    }
}

impl Div<f64> for Array2<f64> {
    type Output = Array2<f64>;
    fn div(self, k: f64) -> Array2<f64> {
        self.map(|v| v / k)
    }
}

impl Mul<Array2<f64>> for f64 {
    type Output = Array2<f64>;
    fn mul(self, m: Array2<f64>) -> Array2<f64> {
        m.map(|v| self * v)
    }
}

impl Mul<&Array2<f64>> for f64 {
    type Output = Array2<f64>;
    fn mul(self, m: &Array2<f64>) -> Array2<f64> {
        m.map(|v| self * v)
    }
}

impl Add<&Array2<f64>> for &Array2<f64> {
    type Output = Array2<f64>;
    fn add(self, other: &Array2<f64>) -> Array2<f64> {
        self.with(other, |a, b| a + b)
    }
}

impl Sub<&Array2<f64>> for &Array2<f64> {
    type Output = Array2<f64>;
    fn sub(self, other: &Array2<f64>) -> Array2<f64> {
        self.with(other, |a, b| a - b)
    }
}

impl AddAssign<&Array2<f64>> for Array2<f64> {
    fn add_assign(&mut self, other: &Array2<f64>) {
        *self = self.with(other, |a, b| a + b);
    }
}
