//! The reader of record files, with the refusals 2 to 8, 12 and 13, of the archive
//! that a series' adjusted matrices are kept in (`archive`), of the tables that
//! hold a lab's own cutoffs (`cutoffs`), with 14, and of a season's file (`season`).
//!
//! A length that is no multiple of 16 comes first (2), then records that do not
//! rise (12), then every other reason of 2, among which the order does not
//! show; then the numbers in the blocks (13); then 3, 4, and so on. So the reading
//! goes: length, order, records, cells, numbers, sizes, then the values.
//!
//! A specimen whose weight is zero is torn, and counts as absent. The reader gives
//! the series as it was sent; `torn` has what is left of it.
//!
//! It was written from documents 01 and 02 and the project's decisions, and shares
//! nothing with the panel's reader, so that the one can be held to the other.
//! Beside it: random numbers, random files (`tries`) and the stored vectors, for the
//! tests that need no sources of lme-rs.

use listed_algebra::Matrix;
use std::collections::BTreeMap;

pub mod archive;
pub mod archive_tries;
pub mod cutoffs;
pub mod numbers;
pub mod order;
pub mod programs;
pub mod random;
pub mod season;
pub mod season_tries;
pub mod shift;
pub mod table_tries;
pub mod table_vectors;
pub mod torn;
pub mod tries;
pub mod vectors;

pub type Refusal = u32;

const BAD_RECORDS: Refusal = 2;
const BAD_SIZE: Refusal = 3;
const NOT_FINITE: Refusal = 4;
const SIGMA2: Refusal = 5;
const WEIGHT: Refusal = 6;
const BLOCKS: Refusal = 7;
const ZERO_CONTRAST: Refusal = 8;
const NOT_RISING: Refusal = 12;
const PARAMETER_COUNT: Refusal = 13;

// Limits of document 01.
const SPECIMENS: u32 = 24;
const COEFFICIENTS: u32 = 6;
const RANDOM_COLUMNS: u32 = 24;
const BLOCK_COUNT: u32 = 3;
const BLOCK_PARAMETERS: u32 = 3;
const CONTRAST_ROWS: u32 = 6;
const PARAMETERS: u32 = 4;

// Kinds.
pub const X: u8 = 1;
pub const Z: u8 = 2;
pub const BLOCK: u8 = 3;
pub const THETA: u8 = 4;
pub const WEIGHTS: u8 = 5;
pub const PHI: u8 = 6;
pub const SIGMA: u8 = 7;
pub const BETA: u8 = 8;
pub const CONTRAST: u8 = 9;
pub const BETA_H: u8 = 10;
pub const RESPONSE_PHI: u8 = 11;
pub const RESPONSE_PHI_A: u8 = 12;
pub const RESPONSE_P: u8 = 13;
pub const W: u8 = 14;
pub const RESIDUAL_PHI: u8 = 15;
pub const RESIDUAL_PHI_A: u8 = 16;
pub const RESIDUAL_P: u8 = 17;
pub const ARCHIVED_SIGMA: u8 = 18;
pub const V: u8 = 30;
pub const JACOBIAN: u8 = 31;
pub const A: u8 = 32;

/// One block of random effects.
#[derive(Debug, Clone, Copy, PartialEq)]
pub struct Block {
    pub m: usize,
    pub k: usize,
}

/// An accepted series of the Kenward–Roger call, as it was sent: torn specimens
/// are in it.
#[derive(Debug, Clone, PartialEq)]
pub struct Series {
    pub x: Matrix,
    pub z: Matrix,
    pub blocks: Vec<Block>,
    pub theta: Vec<f64>,
    pub weights: Option<Vec<f64>>,
    pub phi: Matrix,
    pub sigma2: f64,
    pub beta: Vec<f64>,
    pub contrast: Option<Matrix>,
    pub beta_h: Option<Vec<f64>>,
}

/// An accepted series of the Satterthwaite call.
#[derive(Debug, Clone, PartialEq)]
pub struct SattSeries {
    pub beta: Vec<f64>,
    pub contrast: Matrix,
    pub beta_h: Option<Vec<f64>>,
    pub v: Matrix,
    pub jacobians: Vec<Matrix>,
    pub a: Matrix,
}

/// One record, as its bytes stand.
#[derive(Debug, Clone, Copy, PartialEq)]
pub struct Record {
    pub kind: u8,
    pub row: u8,
    pub column: u8,
    pub zero: u8,
    pub count: u32,
    pub bits: u64,
}

impl Record {
    pub fn from_bytes(b: &[u8]) -> Record {
        Record {
            kind: b[0],
            row: b[1],
            column: b[2],
            zero: b[3],
            count: u32::from_le_bytes([b[4], b[5], b[6], b[7]]),
            bits: u64::from_le_bytes([b[8], b[9], b[10], b[11], b[12], b[13], b[14], b[15]]),
        }
    }

    pub fn to_bytes(self) -> [u8; 16] {
        let mut out = [0; 16];
        out[0] = self.kind;
        out[1] = self.row;
        out[2] = self.column;
        out[3] = self.zero;
        out[4..8].copy_from_slice(&self.count.to_le_bytes());
        out[8..16].copy_from_slice(&self.bits.to_le_bytes());
        out
    }
}

/// What a field of a kind may hold.
#[derive(Clone, Copy)]
enum Field {
    /// An index below the limit.
    Index(u32),
    /// A number that is no index: any value parses.
    Number,
    /// Unused: zero.
    Unused,
}
use Field::{Index, Number, Unused};

impl Field {
    fn admits(self, value: u32) -> bool {
        match self {
            Index(limit) => value < limit,
            Number => true,
            Unused => value == 0,
        }
    }
}

/// Row, column and count of a kind of the Kenward–Roger call.
fn kr_fields(kind: u8) -> Option<(Field, Field, Field)> {
    Some(match kind {
        X => (Index(SPECIMENS), Index(COEFFICIENTS), Unused),
        Z => (Index(SPECIMENS), Index(RANDOM_COLUMNS), Unused),
        BLOCK => (Index(BLOCK_COUNT), Number, Number),
        THETA => (Index(BLOCK_PARAMETERS), Unused, Unused),
        WEIGHTS => (Index(SPECIMENS), Unused, Unused),
        PHI => (Index(COEFFICIENTS), Index(COEFFICIENTS), Unused),
        SIGMA => (Unused, Unused, Unused),
        BETA | BETA_H => (Index(COEFFICIENTS), Unused, Unused),
        CONTRAST => (Index(CONTRAST_ROWS), Index(COEFFICIENTS), Unused),
        _ => return None,
    })
}

/// Row, column and count of a kind of the Satterthwaite call.
fn satt_fields(kind: u8) -> Option<(Field, Field, Field)> {
    Some(match kind {
        BETA | BETA_H => (Index(COEFFICIENTS), Unused, Unused),
        CONTRAST => (Index(CONTRAST_ROWS), Index(COEFFICIENTS), Unused),
        V => (Index(COEFFICIENTS), Index(COEFFICIENTS), Unused),
        JACOBIAN => (Index(COEFFICIENTS), Index(COEFFICIENTS), Index(PARAMETERS)),
        A => (Index(PARAMETERS), Index(PARAMETERS), Unused),
        _ => return None,
    })
}

/// Which cell a record fills: kind, number of the matrix, row, column. Only
/// a block's cell is not its key.
type Place = order::Key;

fn place(r: &Record) -> Place {
    match r.kind {
        // A block is told by its row; k, m and the number of its parameters are what
        // it says. So a file that rises can still have a block twice, with two k's.
        BLOCK => (BLOCK, 0, r.row, 0),
        _ => r.key(),
    }
}

type Rules = fn(u8) -> Option<(Field, Field, Field)>;

/// The file as cells, each record looked at by itself.
struct Cells {
    cells: BTreeMap<Place, Record>,
}

impl Cells {
    fn read(bytes: &[u8], rules: Rules) -> Result<Cells, Refusal> {
        if bytes.len() % 16 != 0 {
            return Err(BAD_RECORDS);
        }
        let records: Vec<Record> = bytes.chunks(16).map(Record::from_bytes).collect();
        if !order::rises(&records) {
            return Err(NOT_RISING);
        }
        let mut cells = BTreeMap::new();
        for record in records {
            let (row, column, count) = rules(record.kind).ok_or(BAD_RECORDS)?;
            let value_fits = record.kind != BLOCK || numbers::others_are_zero(&record);
            let fits = record.zero == 0
                && row.admits(record.row.into())
                && column.admits(record.column.into())
                && count.admits(record.count)
                && value_fits;
            if !fits || cells.insert(place(&record), record).is_some() {
                return Err(BAD_RECORDS);
            }
        }
        Ok(Cells { cells })
    }

    fn of(&self, kind: u8) -> impl Iterator<Item = &Record> {
        self.cells.values().filter(move |r| r.kind == kind)
    }

    fn any(&self, kind: u8) -> bool {
        self.of(kind).next().is_some()
    }

    /// The largest row index of a kind, plus one; 0 if the kind is absent.
    fn rows(&self, kind: u8) -> usize {
        self.of(kind).map(|r| r.row as usize + 1).max().unwrap_or(0)
    }

    fn columns(&self, kind: u8) -> usize {
        self.of(kind).map(|r| r.column as usize + 1).max().unwrap_or(0)
    }

    /// A kind whose cells fill rows × columns exactly: none missing, none
    /// beyond.
    fn grid(&self, kind: u8, number: u32, rows: usize, columns: usize) -> Result<Matrix, Refusal> {
        let mut out = Matrix::zeros(rows, columns);
        let mut filled = 0;
        for r in self.of(kind).filter(|r| !order::numbers_matrices(kind) || r.count == number) {
            let (i, j) = (r.row as usize, r.column as usize);
            if i >= rows || j >= columns {
                return Err(BAD_RECORDS);
            }
            out[(i, j)] = f64::from_bits(r.bits);
            filled += 1;
        }
        // No place twice, so a full count leaves none out.
        if filled == rows * columns {
            Ok(out)
        } else {
            Err(BAD_RECORDS)
        }
    }

    /// So many matrices of a kind whose count numbers them.
    fn grids(&self, kind: u8, count: usize, size: usize) -> Result<Vec<Matrix>, Refusal> {
        if self.of(kind).any(|r| r.count as usize >= count) {
            return Err(BAD_RECORDS);
        }
        (0..count).map(|number| self.grid(kind, number as u32, size, size)).collect()
    }

    fn list(&self, kind: u8, len: usize) -> Result<Vec<f64>, Refusal> {
        Ok(self.grid(kind, 0, len, 1)?.cells)
    }

    fn optional_list(&self, kind: u8, len: usize) -> Result<Option<Vec<f64>>, Refusal> {
        if self.any(kind) {
            self.list(kind, len).map(Some)
        } else {
            Ok(None)
        }
    }

    fn values_finite(&self) -> bool {
        self.cells.values().all(|r| f64::from_bits(r.bits).is_finite())
    }
}

/// Reads a file for the Kenward–Roger call.
pub fn read(bytes: &[u8]) -> Result<Series, Refusal> {
    let cells = Cells::read(bytes, kr_fields)?;
    let (n, p) = (cells.rows(X), cells.columns(X));
    if n == 0 || (cells.any(BETA_H) && !cells.any(CONTRAST)) {
        return Err(BAD_RECORDS);
    }
    let shapes = block_records(&cells)?;
    let series = Series {
        x: cells.grid(X, 0, n, p)?,
        z: random_design(&cells, n)?,
        blocks: Vec::new(),
        theta: cells.list(THETA, cells.rows(THETA))?,
        weights: cells.optional_list(WEIGHTS, n)?,
        phi: cells.grid(PHI, 0, p, p)?,
        sigma2: cells.list(SIGMA, 1)?[0],
        beta: cells.list(BETA, p)?,
        contrast: contrast(&cells, p)?,
        beta_h: cells.optional_list(BETA_H, p)?,
    };
    check_sizes(&cells, &shapes, &series)?;
    check_values(&cells, &shapes, &series)?;
    let blocks = shapes.iter().map(|&(m, k)| Block { m: m as usize, k: k.into() }).collect();
    Ok(Series { blocks, ..series })
}

/// 13: the numbers in the blocks. 3: sizes outside their limits that no index has
/// caught, and no specimen left.
fn check_sizes(cells: &Cells, shapes: &[(u32, u8)], series: &Series) -> Result<(), Refusal> {
    if cells.of(BLOCK).any(|block| !numbers::is_right(block)) {
        return Err(PARAMETER_COUNT);
    }
    if shapes.iter().any(|&(m, k)| m == 0 || !(k == 1 || k == 2))
        || parameters(shapes) > BLOCK_PARAMETERS
        || all_torn(&series.weights)
    {
        return Err(BAD_SIZE);
    }
    Ok(())
}

/// 4 to 8. A block's value is a small number, and as an f64 finite.
fn check_values(cells: &Cells, shapes: &[(u32, u8)], series: &Series) -> Result<(), Refusal> {
    if !cells.values_finite() {
        return Err(NOT_FINITE);
    }
    if series.sigma2 <= 0.0 {
        return Err(SIGMA2);
    }
    if series.weights.iter().flatten().any(|&w| w < 0.0) {
        return Err(WEIGHT);
    }
    let columns: u64 = shapes.iter().map(|&(m, k)| u64::from(m) * u64::from(k)).sum();
    if columns != series.z.cols as u64 || parameters(shapes) as usize != series.theta.len() {
        return Err(BLOCKS);
    }
    if all_zero(&series.contrast) {
        return Err(ZERO_CONTRAST);
    }
    Ok(())
}

/// (m, k) of each block, none missing.
fn block_records(cells: &Cells) -> Result<Vec<(u32, u8)>, Refusal> {
    let shapes: Vec<(u32, u8)> = cells.of(BLOCK).map(|r| (r.count, r.column)).collect();
    if shapes.len() == cells.rows(BLOCK) {
        Ok(shapes)
    } else {
        Err(BAD_RECORDS)
    }
}

/// Σ k(k+1)/2.
fn parameters(shapes: &[(u32, u8)]) -> u32 {
    shapes.iter().map(|&(_, k)| numbers::parameter_count(k)).sum()
}

/// Z: its own columns, the specimens' rows; absent cells are 0.
fn random_design(cells: &Cells, n: usize) -> Result<Matrix, Refusal> {
    if cells.rows(Z) > n {
        return Err(BAD_RECORDS);
    }
    let mut z = Matrix::zeros(n, cells.columns(Z));
    for r in cells.of(Z) {
        z[(r.row as usize, r.column as usize)] = f64::from_bits(r.bits);
    }
    Ok(z)
}

fn contrast(cells: &Cells, p: usize) -> Result<Option<Matrix>, Refusal> {
    if cells.any(CONTRAST) {
        cells.grid(CONTRAST, 0, cells.rows(CONTRAST), p).map(Some)
    } else {
        Ok(None)
    }
}

/// Whether weights are there and all of them are zero.
fn all_torn(weights: &Option<Vec<f64>>) -> bool {
    weights.iter().any(|w| w.iter().all(|&w| torn::is_torn(w)))
}

/// Whether a contrast is there and has no cell that is not zero.
fn all_zero(contrast: &Option<Matrix>) -> bool {
    contrast.iter().any(|l| l.cells.iter().all(|&v| v == 0.0))
}

/// Reads a file for the Satterthwaite call.
pub fn read_satterthwaite(bytes: &[u8]) -> Result<SattSeries, Refusal> {
    let cells = Cells::read(bytes, satt_fields)?;
    let p = cells.rows(BETA);
    let parameters = cells.rows(A).max(cells.columns(A));
    if p == 0 || parameters == 0 {
        return Err(BAD_RECORDS);
    }
    let series = SattSeries {
        beta: cells.list(BETA, p)?,
        contrast: contrast(&cells, p)?.ok_or(BAD_RECORDS)?,
        beta_h: cells.optional_list(BETA_H, p)?,
        v: cells.grid(V, 0, p, p)?,
        jacobians: cells.grids(JACOBIAN, parameters, p)?,
        a: cells.grid(A, 0, parameters, parameters)?,
    };
    if cells.values_finite() {
        Ok(series)
    } else {
        Err(NOT_FINITE)
    }
}
