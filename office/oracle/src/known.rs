//! Cases made by hand: document 01's examples, its table of refusals, and the
//! points at which a reading shows.

use crate::random::{file, kr_records, power, satt_records};
use crate::reader::numbers::block;
use crate::reader::{self, order, Block, Record, SattSeries, Series};
use listed_algebra::Matrix;

/// A matrix of its rows.
pub fn rows<const C: usize>(cells: &[[f64; C]]) -> Matrix {
    Matrix { rows: cells.len(), cols: C, cells: cells.concat() }
}

/// The `pulltest` example: X 1,1, Φ 0.5, sigma2 8, β 6, contrast 1.
pub fn pulltest_series() -> Series {
    Series {
        x: rows(&[[1.0], [1.0]]),
        z: Matrix::zeros(2, 0),
        blocks: Vec::new(),
        theta: Vec::new(),
        weights: None,
        phi: rows(&[[0.5]]),
        sigma2: 8.0,
        beta: vec![6.0],
        contrast: Some(rows(&[[1.0]])),
        beta_h: None,
    }
}

/// Bench example (k): Z 1,1, one group, theta 0.
pub fn example_k() -> Series {
    Series {
        z: rows(&[[1.0], [1.0]]),
        blocks: vec![Block { m: 1, k: 1 }],
        theta: vec![0.0],
        ..pulltest_series()
    }
}

/// n = p = 2, X and L the identity, Φ as given.
pub fn identity_series(phi: Matrix) -> Series {
    Series {
        x: Matrix::identity(2),
        z: Matrix::zeros(2, 0),
        phi,
        sigma2: 1.0,
        beta: vec![1.0, 2.0],
        contrast: Some(Matrix::identity(2)),
        ..pulltest_series()
    }
}

/// A cell of IE is -0 in lme-rs and +0 by document 01 (docs/DIFFERENCES.md,
/// "Sums that start at -0 in the Rust").
pub fn minus_zero_series() -> Series {
    Series {
        x: rows(&[[1.0, 1.0]]),
        z: rows(&[[1e-200, -1.0]]),
        blocks: vec![Block { m: 1, k: 2 }],
        theta: vec![1.0, 0.0, 1.0],
        phi: rows(&[[-3.0, 1.0], [1.0, -3.0]]),
        beta: vec![1.0, 2.0],
        contrast: None,
        ..pulltest_series()
    }
}

/// Bench example (i): L identity, v = diag(4,1), J = v, A 0.5, β (4,1).
pub fn example_i() -> SattSeries {
    let v = rows(&[[4.0, 0.0], [0.0, 1.0]]);
    SattSeries {
        beta: vec![4.0, 1.0],
        contrast: Matrix::identity(2),
        beta_h: None,
        jacobians: vec![v.clone()],
        v,
        a: rows(&[[0.5]]),
    }
}

pub fn kr_bytes(s: &Series) -> Vec<u8> {
    file(&kr_records(s, true))
}

pub fn satt_bytes(s: &SattSeries) -> Vec<u8> {
    file(&satt_records(s))
}

/// The example's records, those of one kind changed.
pub(crate) fn changed(records: &[Record], kind: u8, change: impl Fn(&mut Record)) -> Vec<u8> {
    let mut out = records.to_vec();
    out.iter_mut().filter(|r| r.kind == kind).for_each(change);
    file(&out)
}

pub(crate) fn without(records: &[Record], kind: u8) -> Vec<u8> {
    let kept: Vec<Record> = records.iter().filter(|r| r.kind != kind).copied().collect();
    file(&kept)
}

/// With one record more in its place; a record that stood there goes.
pub(crate) fn with(records: &[Record], more: Record) -> Vec<u8> {
    let mut out: Vec<Record> = records.iter().filter(|r| r.key() != more.key()).copied().collect();
    out.push(more);
    order::sorted(&file(&out))
}

pub(crate) fn rec(kind: u8, row: u8, column: u8, count: u32, value: f64) -> Record {
    Record { kind, row, column, zero: 0, count, bits: value.to_bits() }
}

/// The records with k effects in each block, and their number: at most 22, so that
/// a byte holds it.
pub(crate) fn of_effects(records: &[Record], k: u8) -> Vec<u8> {
    changed(records, reader::BLOCK, |r| *r = block(r.row, k, r.count))
}

/// A case: what it shows, the file, and how its answer starts where document
/// 01 or the decisions say so.
pub type Known = (&'static str, Vec<u8>, &'static str);

/// The Kenward–Roger cases.
pub fn kenward_roger() -> Vec<Known> {
    let base = pulltest_series();
    let records = kr_records(&base, true);
    let k = kr_records(&example_k(), true);
    let mut out = vec![
        ("pulltest example", file(&records), "coef 0 rank 1 F 4022000000000000 df 3ff0000000000000 inside|test rank 1 F 4022000000000000 df 3ff0000000000000 inside|"),
        ("no contrast", without(&records, reader::CONTRAST), "coef 0 rank 1 F 4022000000000000 df 3ff0000000000000 inside|"),
        ("(k)", file(&k), "coef 0"),
        ("empty", Vec::new(), "refused 2|"),
        ("one byte short", file(&records)[1..].to_vec(), "refused 2|"),
    ];
    // Refusal 2: kinds, unused fields, limits, twice, missing, beyond.
    for kind in [0, 11, 30, 31, 32, 255] {
        out.push(("bad kind", with(&records, rec(kind, 0, 0, 0, 1.0)), "refused 2|"));
    }
    for kind in [1, 2, 4, 5, 6, 7, 8, 9, 10] {
        let twin = with(&records, Record { zero: 1, ..rec(kind, 0, 0, 0, 1.0) });
        out.push(("byte 3", twin, "refused 2|"));
        out.push(("count", with(&records, rec(kind, 0, 0, 1, 1.0)), "refused 2|"));
        out.push(("row past its limit", with(&records, rec(kind, 24, 0, 0, 1.0)), "refused 2|"));
    }
    for kind in [4, 5, 7, 8, 10] {
        out.push(("unused column", with(&records, rec(kind, 0, 1, 0, 1.0)), "refused 2|"));
    }
    out.push(("sigma2 with a row", changed(&records, 7, |r| r.row = 1), "refused 2|"));
    out.push(("block with bits -0", changed(&k, 3, |r| r.bits = 1 << 63), "refused 2|"));
    out.push(("block 3", changed(&k, 3, |r| r.row = 3), "refused 2|"));
    out.push(("block 1 alone", changed(&k, 3, |r| r.row = 1), "refused 2|"));
    out.push(("theta 3", changed(&k, 4, |r| r.row = 3), "refused 2|"));
    out.push(("theta 1 alone", changed(&k, 4, |r| r.row = 1), "refused 2|"));
    out.push(("block 0 with two k's", with(&k, block(0, 2, 1)), "refused 2|"));
    for kind in [1, 6, 7, 8] {
        out.push(("kind missing", without(&records, kind), "refused 2|"));
    }
    out.push(("one weight of two", with(&records, rec(5, 0, 0, 0, 1.0)), "refused 2|"));
    out.push(("Z row beyond", with(&records, rec(2, 2, 0, 0, 1.0)), "refused 2|"));
    out.push(("β beyond", with(&records, rec(8, 1, 0, 0, 1.0)), "refused 2|"));
    out.push(("contrast column beyond", with(&records, rec(9, 0, 1, 0, 1.0)), "refused 2|"));
    out.push(("β_H beyond", with(&records, rec(10, 1, 0, 0, 1.0)), "refused 2|"));
    let hypothesis = with(&records, rec(10, 0, 0, 0, 6.0));
    out.push(("β_H equal to β", hypothesis, "coef 0 rank 1 F 4022000000000000 df 3ff0000000000000 inside|test rank 1 F 0000000000000000 df 3ff0000000000000 inside|"));
    let bare: Vec<Record> = records.iter().filter(|r| r.kind != 9).copied().collect();
    out.push(("β_H without contrast", with(&bare, rec(10, 0, 0, 0, 6.0)), "refused 2|"));
    // 3 to 8.
    out.push(("k = 3", of_effects(&k, 3), "refused 3|"));
    out.push(("k = 0", of_effects(&k, 0), "refused 3|"));
    out.push(("m = 0", changed(&k, 3, |r| r.count = 0), "refused 3|"));
    out.push(("4 block parameters", with(&k, block(1, 2, 1)), "refused 3|"));
    out.push((
        "β = infinity",
        changed(&records, 8, |r| r.bits = f64::INFINITY.to_bits()),
        "refused 4|",
    ));
    out.push(("sigma2 = NaN", changed(&records, 7, |r| r.bits = f64::NAN.to_bits()), "refused 4|"));
    out.push(("sigma2 = 0", changed(&records, 7, |r| r.bits = 0), "refused 5|"));
    out.push(("sigma2 = -0", changed(&records, 7, |r| r.bits = 1 << 63), "refused 5|"));
    let weights = |w: f64| Series { weights: Some(vec![1.0, w]), ..base.clone() };
    out.push(("weight -1", kr_bytes(&weights(-1.0)), "refused 6|"));
    out.push(("weight -0", kr_bytes(&weights(-0.0)), "coef 0 rank 1 F 3ffccccccccccccd df 3ff0000000000000 inside|test rank 1 F 3ffccccccccccccd df 3ff0000000000000 inside|"));
    out.push(("weight 2", kr_bytes(&weights(2.0)), "coef 0"));
    let two_thetas = Series {
        z: Matrix::identity(2),
        blocks: vec![Block { m: 1, k: 2 }],
        theta: vec![1.0, 1.0],
        ..base.clone()
    };
    out.push(("k = 2, two thetas", kr_bytes(&two_thetas), "refused 7|"));
    out.push(("m = 2^32 - 1", changed(&k, 3, |r| r.count = u32::MAX), "refused 7|"));
    out.push(("Z without blocks", without(&k, 3), "refused 7|"));
    out.push(("blocks without Z", without(&k, 2), "refused 7|"));
    out.push(("contrast 0", changed(&records, 9, |r| r.bits = 1 << 63), "refused 8|"));
    // 9, 10, late 4.
    let steep = Series { theta: vec![1e10], ..example_k() };
    out.push(("theta 1e10", kr_bytes(&steep), "refused 9|"));
    out.push(("Φ = 0", changed(&records, 6, |r| r.bits = 0), "refused 10|"));
    let wald = identity_series(rows(&[[-1.0, 0.0], [0.0, 3.0]]));
    out.push(("zero pivot of Wald", kr_bytes(&wald), "refused 10|"));
    // 3 tr(Φ)² = 22 tr(Φ²): g = 4 and d = 3·2 + 2(1 − 4) = 0.
    let d_zero = rows(&[[11.0, 8.0], [-11.0, 11.0]]).map(|v| v * power(-8));
    out.push(("d = 0", kr_bytes(&identity_series(d_zero)), "coef 0"));
    out.push(("P/sigma2 past the range", changed(&records, 7, |r| r.bits = 1), "refused 4|"));
    // Readings.
    out.push(("a zero of another sign in IE", kr_bytes(&minus_zero_series()), "coef 0"));
    let infinite = Series {
        x: rows(&[[1.0]]),
        z: Matrix::zeros(1, 0),
        phi: rows(&[[1e200]]),
        sigma2: 1.0,
        ..base.clone()
    };
    out.push(("IE infinite, W = 0", kr_bytes(&infinite), "coef 0 rank 1 F none df none inside|"));
    let redundant = Series {
        contrast: Some(rows(&[[0.0, 1.0], [1.0, 2.0], [0.0, 1.0]])),
        ..identity_series(rows(&[[0.5, 0.0], [0.0, 0.25]]))
    };
    out.push(("redundant rows", kr_bytes(&redundant), "coef 0"));
    let far =
        Series { beta: vec![1.0, power(801)], ..identity_series(rows(&[[0.5, 0.0], [0.0, 0.25]])) };
    out.push(("a β outside puts all outside", kr_bytes(&far), "coef 0"));
    let end = |b: f64| changed(&records, 8, |r| r.bits = b.to_bits());
    out.push(("β at the lower end", end(power(-400)), "coef 0"));
    out.push(("β below the range", end(power(-801)), "coef 0"));
    out
}

/// The Satterthwaite cases.
pub fn satterthwaite() -> Vec<Known> {
    let i = example_i();
    let records = satt_records(&i);
    let small_a = |s: &SattSeries| SattSeries { a: rows(&[[power(-12)]]), ..s.clone() };
    let one_row = SattSeries { contrast: rows(&[[1.0, 0.0]]), ..i.clone() };
    let diag = |a: f64, b: f64| rows(&[[a, 0.0], [0.0, b]]);
    let mut out = vec![
        ("(i)", file(&records), "test rank 2 F 4004000000000000 df 4010000000000000 inside|"),
        (
            "(j)",
            satt_bytes(&small_a(&i)),
            "test rank 2 F 4004000000000000 df 40a7700000000000 inside|",
        ),
        (
            "(j), one row",
            satt_bytes(&small_a(&one_row)),
            "test rank 1 F 4010000000000000 df 40c0000000000000 inside|",
        ),
        ("empty", Vec::new(), "refused 2|"),
        ("one byte short", file(&records)[1..].to_vec(), "refused 2|"),
    ];
    for kind in [1, 2, 3, 4, 5, 6, 7, 11, 29, 33] {
        out.push(("kind of the other call", with(&records, rec(kind, 0, 0, 0, 1.0)), "refused 2|"));
    }
    for kind in [8, 9, 30, 31, 32] {
        out.push(("kind missing", without(&records, kind), "refused 2|"));
    }
    out.push(("Jacobian 1 of 1", with(&records, rec(31, 0, 0, 1, 1.0)), "refused 2|"));
    out.push(("Jacobian 4", with(&records, rec(31, 0, 0, 4, 1.0)), "refused 2|"));
    out.push(("A partly", with(&records, rec(32, 1, 0, 0, 1.0)), "refused 2|"));
    out.push(("v beyond", with(&records, rec(30, 2, 0, 0, 1.0)), "refused 2|"));
    out.push(("β_H partly", with(&records, rec(10, 0, 0, 0, 1.0)), "refused 2|"));
    out.push(("A = NaN", changed(&records, 32, |r| r.bits = f64::NAN.to_bits()), "refused 4|"));
    out.push((
        "V = diag(1, 0)",
        satt_bytes(&SattSeries { v: diag(1.0, 0.0), ..i.clone() }),
        "refused 11|",
    ));
    let zero_row = SattSeries { contrast: Matrix::zeros(1, 2), ..i.clone() };
    out.push(("one zero row", satt_bytes(&zero_row), "test rank 1 F none df none outside|"));
    let far = SattSeries { v: diag(1.0, power(1000)), ..one_row.clone() };
    out.push((
        "operand out of range beside a zero factor",
        satt_bytes(&far),
        "test rank 1 F 4030000000000000 df",
    ));
    out.push(("the rotation test is marked", satt_bytes(&rotation_test(0)), "test rank 2"));
    out.push(("the same, 2^-32", satt_bytes(&rotation_test(-32)), "test rank 2"));
    out.push(("a zero product", satt_bytes(&zero_product(0)), "test rank 2"));
    out.push(("the same, 2^32", satt_bytes(&zero_product(32)), "refused 11|"));
    let v = rows(&[[2.0, -0.5], [-0.5, 2.0]]);
    let minus_zero = SattSeries { jacobians: vec![v.clone()], v, ..i.clone() };
    out.push(("sign(-0) = 1", satt_bytes(&minus_zero), "test rank 2"));
    let three = |a: f64| SattSeries {
        beta: vec![1.0; 3],
        contrast: Matrix::identity(3),
        beta_h: None,
        v: Matrix::identity(3),
        jacobians: vec![rows(&[[1.0, 0.0, 0.0], [0.0, 1.0, 0.0], [0.0, 0.0, 0.5]])],
        a: rows(&[[a]]),
    };
    out.push((
        "some ν ≤ 2",
        satt_bytes(&three(1.0)),
        "test rank 3 F 3ff0000000000000 df 4000000000000000",
    ));
    out.push(("2E/(E-q)", satt_bytes(&three(0.25)), "test rank 3"));
    out
}

/// Decision: the products of the rotation test are marked steps. All of v, J
/// and β in a unit 2^k times larger.
fn rotation_test(k: i64) -> SattSeries {
    let (a, b) = (power(-440 + 2 * k), power(-490 + 2 * k));
    let v = rows(&[[a, 1.25 * b], [1.25 * b, 1.5 * a]]);
    SattSeries {
        beta: vec![3.0 * power(-220 + k), 5.0 * power(-220 + k)],
        contrast: Matrix::identity(2),
        beta_h: None,
        jacobians: vec![v.clone()],
        v,
        a: rows(&[[0.5]]),
    }
}

/// Decision: why a zero product of nonzero factors is outside. In another unit
/// (k = 32) the same series is refused.
fn zero_product(k: i64) -> SattSeries {
    SattSeries {
        beta: vec![0.0],
        contrast: rows(&[[1.0 - power(-53)], [power(-200)]]),
        beta_h: None,
        v: rows(&[[7.745183829698637e-121 * power(2 * k)]]),
        jacobians: vec![rows(&[[0.0]])],
        a: rows(&[[0.1]]),
    }
}
