//! Cases made by hand of torn specimens: a weight of zero, of either sign, beside
//! rows that must not matter, and what is refused all the same.

use crate::known::{
    changed, example_k, kr_bytes, of_effects, pulltest_series, rec, rows, with, Known,
};
use crate::random::{file, fitted_phi, kr_records, power, series_of_sizes, Random};
use crate::reader::{
    order, Block, Record, Series, BETA, BLOCK, CONTRAST, PHI, SIGMA, THETA, WEIGHTS, X, Z,
};
use listed_algebra::Matrix;

const ANSWER: &str = "coef 0 rank 1";
const RECORDS: &str = "refused 2|";
const SIZE: &str = "refused 3|";
const NOT_FINITE: &str = "refused 4|";
const SIGMA2: &str = "refused 5|";
const WEIGHT: &str = "refused 6|";
const BLOCKS: &str = "refused 7|";
const FALLS: &str = "refused 12|";

/// The answer of document 01's example.
const EXAMPLE: &str = "coef 0 rank 1 F 4022000000000000 df 3ff0000000000000 inside|\
                       test rank 1 F 4022000000000000 df 3ff0000000000000 inside|";

/// Numbers that a torn row may hold, all finite.
const ODD: [f64; 6] = [f64::MAX, -f64::MAX, 5e-324, -5e-324, -0.0, 1e300];

/// Document 01's example with a third pull that tore. Its two others weigh 1,
/// which changes no bit, so that the answer is the example's own.
pub fn example_with_a_torn_pull() -> Series {
    Series {
        x: rows(&[[1.0], [1.0], [1e300]]),
        z: Matrix::zeros(3, 0),
        weights: Some(vec![1.0, 1.0, 0.0]),
        ..pulltest_series()
    }
}

/// Weights, none of them zero.
const WHOLE: [f64; 6] = [0.5, 2.0, 1.0, 4.0, 1.5, 3.0];

/// Which of the six specimens are torn: `0` by +0, `-` by -0, `.` not at all.
fn torn(places: &str) -> [f64; 6] {
    let mut out = WHOLE;
    for (weight, place) in out.iter_mut().zip(places.chars()) {
        *weight = match place {
            '0' => 0.0,
            '-' => -0.0,
            _ => *weight,
        };
    }
    out
}

/// Six specimens of two coefficients in three groups, the group of a specimen its
/// number modulo 3. Φ is that of a fit to the specimens that are left, where
/// there are enough.
fn six(weights: [f64; 6]) -> Series {
    let series = Series {
        x: rows(&[[1.0, 0.0], [1.0, 1.0], [1.0, 3.0], [1.0, -2.0], [1.0, 0.5], [1.0, 2.0]]),
        z: Matrix::from_fn(6, 3, |i, j| if i % 3 == j { 1.0 } else { 0.0 }),
        blocks: vec![Block { m: 3, k: 1 }],
        theta: vec![0.75],
        weights: Some(weights.to_vec()),
        phi: rows(&[[0.5, -0.125], [-0.125, 0.25]]),
        sigma2: 2.0,
        beta: vec![9.0, 3.5],
        contrast: Some(rows(&[[1.0, 0.0], [1.0, 2.0]])),
        beta_h: None,
    };
    match fitted_phi(&series.clone().without_torn()) {
        Some(phi) => Series { phi, ..series },
        None => series,
    }
}

/// The records of six specimens, zero cells of Z left out, as a stand sends them.
fn sent(places: &str) -> Vec<Record> {
    kr_records(&six(torn(places)), false)
}

/// These records, the one of a cell with another value.
fn put(records: &[Record], kind: u8, row: u8, column: u8, value: f64) -> Vec<Record> {
    let mut out = records.to_vec();
    let at = |r: &&mut Record| (r.kind, r.row, r.column) == (kind, row, column);
    let found = out.iter_mut().find(at).expect("it is there");
    found.bits = value.to_bits();
    out
}

/// Without the records of a kind in a row.
fn less(records: &[Record], kind: u8, row: u8) -> Vec<u8> {
    let kept = records.iter().filter(|r| (r.kind, r.row) != (kind, row));
    file(&kept.copied().collect::<Vec<_>>())
}

/// All values of a kind another one.
fn bits(records: &[Record], kind: u8, value: f64) -> Vec<u8> {
    changed(records, kind, |r| r.bits = value.to_bits())
}

/// The block with another number of groups.
fn groups(records: &[Record], m: u32) -> Vec<u8> {
    changed(records, BLOCK, |r| r.count = m)
}

/// The Kenward–Roger cases.
pub fn kenward_roger() -> Vec<Known> {
    let mut out = accepted();
    out.extend(rows_that_do_not_matter());
    out.extend(random_columns());
    out.extend(all_torn());
    out.extend(not_finite());
    out.extend(below_zero());
    out.extend(incomplete());
    out.extend(later_refusals());
    out.extend(large());
    out
}

/// Which specimens are torn, and by which zero.
fn accepted() -> Vec<Known> {
    let mut tiny = WHOLE;
    tiny[5] = power(-1060);
    vec![
        ("document 01's example, a torn pull", kr_bytes(&example_with_a_torn_pull()), EXAMPLE),
        ("none torn", file(&sent("......")), ANSWER),
        ("the first torn", file(&sent("0.....")), ANSWER),
        ("the last torn", file(&sent(".....0")), ANSWER),
        ("one within torn", file(&sent(".0....")), ANSWER),
        ("the first torn by -0", file(&sent("-.....")), ANSWER),
        ("the last torn by -0", file(&sent(".....-")), ANSWER),
        ("half torn, by both zeros", file(&sent("0..-0.")), ANSWER),
        ("all but two torn", file(&sent("-.0-0.")), ANSWER),
        ("all but the first torn", file(&sent(".00-0-")), ANSWER),
        ("all but the last torn", file(&sent("00000.")), ANSWER),
        ("all but one within torn", file(&sent("--.---")), ANSWER),
        ("a subnormal weight is no zero", kr_bytes(&six(tiny)), NOT_FINITE),
    ]
}

/// Huge, subnormal and zero numbers in torn rows of X and Z, or no Z at all.
fn rows_that_do_not_matter() -> Vec<Known> {
    let records = sent(".0..-.");
    let mut out = Vec::new();
    for (i, value) in ODD.into_iter().enumerate() {
        let in_x = put(&put(&records, X, 1, 0, value), X, 4, 1, ODD[ODD.len() - 1 - i]);
        let in_both = put(&in_x, Z, 4, 1, value);
        out.push(("odd numbers in torn rows", with(&in_both, rec(Z, 1, 2, 0, value)), ANSWER));
    }
    out.push(("a torn row without Z", less(&records, Z, 4), ANSWER));
    out
}

/// Columns of Z whose only records stand in torn rows are zeros, and count.
fn random_columns() -> Vec<Known> {
    let last = sent("..0..-");
    // The second column's only record is the torn specimen's.
    let pull = Series {
        z: rows(&[[1.0, 0.0], [0.0, 1.0]]),
        blocks: vec![Block { m: 2, k: 1 }],
        weights: Some(vec![1.0, 0.0]),
        ..example_k()
    };
    let records = kr_records(&pull, false);
    let slopes = Series {
        z: rows(&[[1.0, 0.5, 0.0, 0.0], [0.0, 0.0, 1.0, -3.0]]),
        blocks: vec![Block { m: 2, k: 2 }],
        theta: vec![1.0, 0.5, 2.0],
        ..pull.clone()
    };
    let two_blocks = Series {
        z: rows(&[[1.0, 0.0, 0.0], [0.0, 1.0, 1.0]]),
        blocks: vec![Block { m: 2, k: 1 }, Block { m: 1, k: 1 }],
        theta: vec![0.5, 0.25],
        ..pull.clone()
    };
    let no_effect_left = Series {
        x: rows(&[[1.0], [1.0], [1.0]]),
        z: rows(&[[0.0], [0.0], [1.0]]),
        weights: Some(vec![1.0, 1.0, -0.0]),
        ..example_k()
    };
    vec![
        ("the last group torn", file(&last), ANSWER),
        ("the last group torn, two groups", groups(&last, 2), BLOCKS),
        ("the last group torn, four groups", groups(&last, 4), BLOCKS),
        ("the first group torn", file(&sent("0..0..")), ANSWER),
        ("the group within torn", file(&sent(".-..0.")), ANSWER),
        ("two groups torn", file(&sent("00.00.")), ANSWER),
        ("a column of a torn specimen alone", file(&records), ANSWER),
        ("the same, a block of one group", groups(&records, 1), BLOCKS),
        ("the same without its record", less(&records, Z, 1), BLOCKS),
        ("the same by a record of zero", file(&put(&records, Z, 1, 1, 0.0)), ANSWER),
        ("k = 2, a group of a torn specimen", kr_bytes(&slopes), ANSWER),
        ("the same, zeros left out", file(&kr_records(&slopes, false)), ANSWER),
        ("a block of torn specimens alone", file(&kr_records(&two_blocks, false)), ANSWER),
        ("all of Z in a torn row", file(&kr_records(&no_effect_left, false)), ANSWER),
        ("Z in a row past the torn ones", with(&records, rec(Z, 2, 0, 0, 1.0)), RECORDS),
    ]
}

/// 3, in its place: before 4 and all that follows, after 2 and 12.
fn all_torn() -> Vec<Known> {
    let all = sent("0-00--");
    let mut falls = all.clone();
    falls.swap(0, 1);
    let single = Series {
        x: rows(&[[1.0]]),
        z: Matrix::zeros(1, 0),
        weights: Some(vec![0.0]),
        ..pulltest_series()
    };
    vec![
        ("all torn", file(&sent("000000")), SIZE),
        ("all torn, by -0", file(&sent("------")), SIZE),
        ("all torn, by both zeros", file(&all), SIZE),
        ("one specimen, torn", kr_bytes(&single), SIZE),
        ("all torn, a NaN in X", file(&put(&all, X, 1, 1, f64::NAN)), SIZE),
        ("all torn, an infinity in Z", file(&put(&all, Z, 3, 0, f64::INFINITY)), SIZE),
        ("all torn, sigma2 = 0", bits(&all, SIGMA, 0.0), SIZE),
        ("all torn, sigma2 = NaN", bits(&all, SIGMA, f64::NAN), SIZE),
        ("all torn, a block of one group", groups(&all, 1), SIZE),
        ("all torn, k = 3", of_effects(&all, 3), SIZE),
        ("all torn, a contrast of zeros", bits(&all, CONTRAST, 0.0), SIZE),
        ("all torn, Φ = 0", bits(&all, PHI, 0.0), SIZE),
        ("all torn, it falls", file(&falls), FALLS),
        ("all torn, a byte less", file(&all)[1..].to_vec(), RECORDS),
        ("all torn, a β missing", less(&all, BETA, 1), RECORDS),
        ("some torn, k = 3", of_effects(&sent("0.00.0"), 3), SIZE),
    ]
}

/// 4 looks at torn rows too, and at a weight before it is asked whether it is
/// zero.
fn not_finite() -> Vec<Known> {
    let (some, all) = (sent("..-..0"), sent("000000"));
    let mut out = Vec::new();
    for value in [f64::NAN, f64::INFINITY, f64::NEG_INFINITY] {
        let in_x = put(&some, X, 2, 1, value);
        let beside = put(&some, WEIGHTS, 1, 0, value);
        let alone = put(&all, WEIGHTS, 3, 0, value);
        let and_below = put(&in_x, WEIGHTS, 1, 0, -1.0);
        out.push(("a torn row of X not finite", file(&in_x), NOT_FINITE));
        out.push(("a torn row of Z not finite", file(&put(&some, Z, 5, 2, value)), NOT_FINITE));
        out.push(("a row beside it not finite", file(&put(&some, X, 1, 1, value)), NOT_FINITE));
        out.push(("a weight beside zeros not finite", file(&beside), NOT_FINITE));
        out.push(("all others torn, a weight not finite", file(&alone), NOT_FINITE));
        out.push(("a torn row not finite, a weight of -1", file(&and_below), NOT_FINITE));
    }
    out
}

/// Only a weight below zero is 6.
fn below_zero() -> Vec<Known> {
    let negative = put(&sent("0....-"), WEIGHTS, 1, 0, -1.0);
    let smallest = put(&sent("0....-"), WEIGHTS, 4, 0, -5e-324);
    let alone = put(&sent("000000"), WEIGHTS, 5, 0, -1.0);
    vec![
        ("a weight of -1 beside zeros", file(&negative), WEIGHT),
        ("a weight of -2^-1074 beside zeros", file(&smallest), WEIGHT),
        ("all others torn, a weight of -1", file(&alone), WEIGHT),
        ("a weight of -1 beside zeros, sigma2 = 0", bits(&negative, SIGMA, 0.0), SIGMA2),
        ("a weight of -1 beside zeros, two groups", groups(&negative, 2), WEIGHT),
        ("sigma2 = -0 beside zeros", bits(&sent("0....-"), SIGMA, -0.0), SIGMA2),
    ]
}

/// A torn specimen is dropped after 2: all of its cells are asked for.
fn incomplete() -> Vec<Known> {
    let some = sent("0.-...");
    let bare = kr_records(&Series { weights: None, ..six(WHOLE) }, false);
    let zero = |row, column| rec(WEIGHTS, row, column, 0, 0.0);
    let twice = order::sorted(&file(&[&some[..], &[zero(2, 0)]].concat()));
    vec![
        ("a weight missing beside zeros", less(&some, WEIGHTS, 1), RECORDS),
        ("a zero missing", less(&some, WEIGHTS, 2), RECORDS),
        ("zeros alone, one missing", less(&sent("000000"), WEIGHTS, 1), RECORDS),
        ("one zero alone", with(&bare, zero(0, 0)), RECORDS),
        ("a zero beyond", with(&some, zero(6, 0)), RECORDS),
        ("a zero in row 24", with(&some, zero(24, 0)), RECORDS),
        ("a zero with a column", with(&some, zero(2, 1)), RECORDS),
        ("a zero twice", twice, FALLS),
        ("a torn row without X", less(&some, X, 2), RECORDS),
        ("the last row, torn, without X", less(&sent(".....0"), X, 5), RECORDS),
        ("a torn row with a column of X more", with(&some, rec(X, 2, 2, 0, 1.0)), RECORDS),
    ]
}

/// What is refused, or not, by what is left.
fn later_refusals() -> Vec<Known> {
    let steep = |weights: Vec<f64>| {
        let ones = Matrix::from_fn(weights.len(), 1, |_, _| 1.0);
        let weights = Some(weights);
        kr_bytes(&Series { x: ones.clone(), z: ones, weights, theta: vec![1e10], ..example_k() })
    };
    let some = sent("0....-");
    vec![
        ("theta 1e10, two left of three", steep(vec![1.0, 0.0, 1.0]), "refused 9|"),
        ("theta 1e10, one left of two", steep(vec![1.0, 0.0]), ANSWER),
        ("two thetas", with(&some, rec(THETA, 1, 0, 0, 1.0)), BLOCKS),
        ("a contrast of zeros", bits(&some, CONTRAST, 0.0), "refused 8|"),
        ("Φ = 0", bits(&some, PHI, 0.0), "refused 10|"),
        ("P/sigma2 past the range", bits(&some, SIGMA, 5e-324), NOT_FINITE),
    ]
}

/// The largest series, with one, half or all but one of its specimens torn.
fn large() -> Vec<Known> {
    let blocks = vec![Block { m: 8, k: 1 }; 3];
    let whole = series_of_sizes(&mut Random::new(8), 24, 6, blocks, 3);
    let torn = |tears: fn(usize) -> bool| {
        let weight = |i| if tears(i) { [0.0, -0.0][i / 2 % 2] } else { 0.5 + i as f64 / 8.0 };
        let weights = Some((0..24).map(weight).collect());
        file(&kr_records(&Series { weights, ..whole.clone() }, false))
    };
    vec![
        ("24 specimens, the last torn", torn(|i| i == 23), ANSWER),
        ("24 specimens, every other one torn", torn(|i| i % 2 == 1), ANSWER),
        ("24 specimens, all but one torn", torn(|i| i != 11), ANSWER),
        ("24 specimens, all torn", torn(|_| true), SIZE),
    ]
}

/// The archive's cases: series for its writer.
pub fn archived() -> Vec<Known> {
    let (some, all) = (sent("..-..0"), sent("0-00--"));
    let negative = put(&some, WEIGHTS, 1, 0, -1.0);
    vec![
        ("the first torn", file(&sent("0.....")), "archive "),
        ("the last torn", file(&sent(".....-")), "archive "),
        ("all but one torn", file(&sent("00.-00")), "archive "),
        ("the last group torn", file(&some), "archive "),
        ("the last group torn, two groups", groups(&some, 2), BLOCKS),
        ("a torn row with odd numbers", file(&put(&some, X, 2, 1, -f64::MAX)), "archive "),
        ("some torn, Φ = 0", bits(&some, PHI, 0.0), "archive "),
        ("all torn", file(&all), SIZE),
        ("all torn, a NaN in X", file(&put(&all, X, 0, 0, f64::NAN)), SIZE),
        ("all torn, sigma2 = 0", bits(&all, SIGMA, 0.0), SIZE),
        ("a torn row not finite", file(&put(&some, X, 2, 0, f64::NAN)), NOT_FINITE),
        ("a weight of -1 beside zeros", file(&negative), WEIGHT),
        ("a weight missing beside zeros", less(&some, WEIGHTS, 1), RECORDS),
    ]
}
