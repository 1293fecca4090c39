//! Cases made by hand of the number in a block record (document 02, "Req 04"): "The
//! first of the eight value bytes now holds that number, k(k+1)/2, and the other
//! seven are zero. It refuses with 13 a block whose written number differs from
//! k(k+1)/2, after 2 and before 3."
//!
//! The numbers and the refusals are written out here from these sentences. Nothing
//! of them is taken from the reader.

use crate::known::{
    changed, example_i, example_k, pulltest_series, rec, rows, with, without, Known,
};
use crate::known_torn::example_with_a_torn_pull;
use crate::random::{file, kr_records, satt_records};
use crate::reader::{
    Block, Record, Series, BETA, BETA_H, BLOCK, CONTRAST, PHI, SIGMA, THETA, WEIGHTS, X, Z,
};
use listed_algebra::Matrix;

const ANSWER: &str = "coef 0 rank 1";
const RECORDS: &str = "refused 2|";
const SIZE: &str = "refused 3|";
const NOT_FINITE: &str = "refused 4|";
const BLOCKS: &str = "refused 7|";
const FALLS: &str = "refused 12|";
const COUNT: &str = "refused 13|";

/// The answer of document 01's example.
const EXAMPLE: &str = "coef 0 rank 1 F 4022000000000000 df 3ff0000000000000 inside|\
                       test rank 1 F 4022000000000000 df 3ff0000000000000 inside|";

/// A k, and k(k+1)/2.
const NUMBERS: [(u8, u16); 8] =
    [(0, 0), (1, 1), (2, 3), (3, 6), (22, 253), (23, 276), (24, 300), (255, 32_640)];

/// What is written behind the number, in one of the seven bytes at a time.
const BEHIND: [u8; 7] = [1, 2, 4, 16, 64, 255, 128];

/// Two specimens of one coefficient in a group of an intercept and a slope.
fn slope() -> Series {
    Series {
        z: rows(&[[1.0, 0.5], [1.0, -1.0]]),
        blocks: vec![Block { m: 1, k: 2 }],
        theta: vec![1.0, 0.5, 2.0],
        ..pulltest_series()
    }
}

/// So many blocks of one effect, of one group each.
fn single(blocks: usize) -> Series {
    Series {
        z: Matrix::from_fn(2, blocks, |i, j| if i == 0 { 1.0 } else { j as f64 }),
        blocks: vec![Block { m: 1, k: 1 }; blocks],
        theta: vec![0.5; blocks],
        ..pulltest_series()
    }
}

/// A number in the first of the value bytes, zeros behind it.
fn number(number: u8) -> [u8; 8] {
    [number, 0, 0, 0, 0, 0, 0, 0]
}

fn of_value(record: Record, value: [u8; 8]) -> Record {
    Record { bits: u64::from_le_bytes(value), ..record }
}

/// The record of a block with this value.
fn block(row: u8, k: u8, m: u32, value: [u8; 8]) -> Record {
    of_value(Record { count: m, ..rec(BLOCK, row, k, 0, 0.0) }, value)
}

/// The records of a series, its blocks with these values, in their order.
fn valued(series: &Series, values: &[[u8; 8]]) -> Vec<Record> {
    let mut out = kr_records(series, true);
    let blocks = out.iter_mut().filter(|r| r.kind == BLOCK);
    blocks.zip(values).for_each(|(r, &value)| *r = of_value(*r, value));
    out
}

/// The file of a series, its blocks with these numbers.
fn numbered(series: &Series, numbers: &[u8]) -> Vec<u8> {
    file(&valued(series, &numbers.iter().map(|&n| number(n)).collect::<Vec<_>>()))
}

/// A series whose one block has this k and this value. With the right one it is
/// accepted for k = 1 and for k = 2, and refused with 3 for any other k.
fn of_effects(k: u8, value: [u8; 8]) -> Vec<u8> {
    let series = if k == 2 { slope() } else { example_k() };
    changed(&kr_records(&series, true), BLOCK, |r| *r = block(0, k, 1, value))
}

/// The Kenward–Roger cases.
pub fn kenward_roger() -> Vec<Known> {
    let mut out = Vec::new();
    for (k, count) in NUMBERS {
        out.extend(of_number(k, count));
    }
    out.extend(other_numbers());
    out.extend(after_two());
    out.extend(before_three());
    out.extend(before_the_values());
    out.extend(several_blocks());
    out.extend(no_blocks());
    out
}

/// One k: the right number where a byte holds it, wrong ones, and bytes behind it.
fn of_number(k: u8, count: u16) -> Vec<Known> {
    let [low, high] = count.to_le_bytes();
    let wrong = |name, byte: u8| (name, of_effects(k, number(byte)), COUNT);
    let mut out =
        vec![wrong("one too many", low.wrapping_add(1)), wrong("one too few", low.wrapping_sub(1))];
    if high == 0 {
        let start = if k == 1 || k == 2 { ANSWER } else { SIZE };
        out.push(("the right number", of_effects(k, number(low)), start));
    } else {
        out.push(wrong("what a byte keeps of the number", low));
        let both = [low, high, 0, 0, 0, 0, 0, 0];
        out.push(("the number in two bytes", of_effects(k, both), RECORDS));
    }
    if count > 0 {
        out.push(wrong("0, as before the request", 0));
    }
    for (place, byte) in (1..8).zip(BEHIND) {
        let mut value = number(low);
        value[place] = byte;
        out.push(("a byte behind the number", of_effects(k, value), RECORDS));
    }
    // Of k = 0 this is -0.
    let bits = if count == 0 { -0.0 } else { f64::from(count) }.to_bits();
    out.push(("the number as an f64", of_effects(k, bits.to_le_bytes()), RECORDS));
    out
}

/// Numbers that somebody might take for the right one.
fn other_numbers() -> Vec<Known> {
    let mut last_first = number(0);
    last_first[7] = 1;
    let groups = Series { z: Matrix::identity(2), blocks: vec![Block { m: 2, k: 1 }], ..single(1) };
    vec![
        ("k = 2 without correlation: 2", of_effects(2, number(2)), COUNT),
        ("k = 2, the number of k = 1", of_effects(2, number(1)), COUNT),
        ("k = 1, the number of k = 2", of_effects(1, number(3)), COUNT),
        ("k = 2, the cells of its square", of_effects(2, number(4)), COUNT),
        ("k = 1, 255", of_effects(1, number(255)), COUNT),
        ("k = 2, 255", of_effects(2, number(255)), COUNT),
        ("the number in the last byte", of_effects(1, last_first), RECORDS),
        ("two groups, the number of one", numbered(&groups, &[1]), ANSWER),
        ("two groups, the number of both", numbered(&groups, &[2]), COUNT),
        ("k = 23, 255", of_effects(23, number(255)), COUNT),
        ("k = 31, what a byte keeps of 496", of_effects(31, number(240)), COUNT),
        ("k = 128, what a byte keeps of 8,256", of_effects(128, number(64)), COUNT),
        ("k = 254, what a byte keeps of 32,385", of_effects(254, number(129)), COUNT),
    ]
}

/// A wrong number beside each reason that comes before it: all of 2, and 12.
fn after_two() -> Vec<Known> {
    let wrong = valued(&example_k(), &[number(0)]);
    let at = wrong.iter().position(|r| r.kind == BLOCK).expect("a block");
    let beside = |other: Record| {
        let mut out = wrong.clone();
        out.insert(at + 1, other);
        file(&out)
    };
    let mut falls = wrong.clone();
    falls.swap(0, 1);
    let bare: Vec<Record> = wrong.iter().filter(|r| r.kind != CONTRAST).copied().collect();
    let twin = |row, k, n| block(row, k, 1, number(n));
    vec![
        ("a wrong number alone", file(&wrong), COUNT),
        ("a byte less", file(&wrong)[1..].to_vec(), RECORDS),
        ("a byte more", [&file(&wrong)[..], &[0]].concat(), RECORDS),
        ("a bad kind", with(&wrong, rec(11, 0, 0, 0, 1.0)), RECORDS),
        ("kind 0", with(&wrong, rec(0, 0, 0, 0, 1.0)), RECORDS),
        ("byte 3 of the block", changed(&wrong, BLOCK, |r| r.zero = 1), RECORDS),
        ("byte 3 of sigma2", changed(&wrong, SIGMA, |r| r.zero = 1), RECORDS),
        ("a count of β", changed(&wrong, BETA, |r| r.count = 1), RECORDS),
        ("a column of theta", changed(&wrong, THETA, |r| r.column = 1), RECORDS),
        ("block 3", changed(&wrong, BLOCK, |r| r.row = 3), RECORDS),
        ("X in row 24", with(&wrong, rec(X, 24, 0, 0, 1.0)), RECORDS),
        ("two k's, the first number wrong", beside(twin(0, 2, 3)), RECORDS),
        ("two k's, both numbers wrong", beside(twin(0, 2, 0)), RECORDS),
        ("block 1 without block 0", changed(&wrong, BLOCK, |r| r.row = 1), RECORDS),
        ("theta 1 without theta 0", changed(&wrong, THETA, |r| r.row = 1), RECORDS),
        ("no β", without(&wrong, BETA), RECORDS),
        ("no X", without(&wrong, X), RECORDS),
        ("one weight of two", with(&wrong, rec(WEIGHTS, 0, 0, 0, 1.0)), RECORDS),
        ("Z in a row beyond", with(&wrong, rec(Z, 2, 0, 0, 1.0)), RECORDS),
        ("β beyond", with(&wrong, rec(BETA, 1, 0, 0, 1.0)), RECORDS),
        ("β_H without a contrast", with(&bare, rec(BETA_H, 0, 0, 0, 1.0)), RECORDS),
        ("it falls", file(&falls), FALLS),
        ("it falls, a byte less", file(&falls)[1..].to_vec(), RECORDS),
        ("the block twice, then right", beside(twin(0, 1, 1)), FALLS),
        ("a smaller k behind it", beside(twin(0, 0, 0)), FALLS),
    ]
}

/// Each reason of 3: 3 with right numbers, and 13 with a wrong one.
fn before_three() -> Vec<Known> {
    let k = |effects: u8, n: u8| of_effects(effects, number(n));
    let no_groups = |n: u8| changed(&valued(&example_k(), &[number(n)]), BLOCK, |r| r.count = 0);
    let two = |k: [u8; 2], n: [u8; 2]| {
        let mut out = valued(&single(2), &[]);
        for r in out.iter_mut().filter(|r| r.kind == BLOCK) {
            *r = block(r.row, k[r.row as usize], 1, number(n[r.row as usize]));
        }
        file(&out)
    };
    let torn = |weights: [f64; 2], n: u8| {
        numbered(&Series { weights: Some(weights.to_vec()), ..example_k() }, &[n])
    };
    vec![
        ("m = 0", no_groups(1), SIZE),
        ("m = 0, a wrong number", no_groups(0), COUNT),
        ("k = 4", k(4, 10), SIZE),
        ("k = 4, a wrong number", k(4, 9), COUNT),
        ("k = 21", k(21, 231), SIZE),
        ("k = 21, a wrong number", k(21, 253), COUNT),
        ("four parameters", two([1, 2], [1, 3]), SIZE),
        ("four parameters, the first wrong", two([1, 2], [2, 3]), COUNT),
        ("four parameters, the second wrong", two([1, 2], [1, 2]), COUNT),
        ("four parameters, the two exchanged", two([1, 2], [3, 1]), COUNT),
        ("k = 3 beside a wrong number", two([3, 1], [6, 0]), COUNT),
        ("k = 0 beside a wrong number", two([1, 0], [0, 0]), COUNT),
        ("k = 0 beside a right number", two([1, 0], [1, 0]), SIZE),
        ("all torn", torn([0.0, -0.0], 1), SIZE),
        ("all torn, a wrong number", torn([0.0, -0.0], 0), COUNT),
        ("one torn", torn([0.0, 1.0], 1), ANSWER),
        ("one torn, a wrong number", torn([0.0, 1.0], 0), COUNT),
    ]
}

/// Each later refusal: its own number with the right one, and 13 with a wrong one.
fn before_the_values() -> Vec<Known> {
    let of = |kind: u8, value: f64| {
        move |n: u8| {
            let records = valued(&example_k(), &[number(n)]);
            changed(&records, kind, |r| r.bits = value.to_bits())
        }
    };
    let groups =
        |m: u32| move |n: u8| changed(&valued(&example_k(), &[number(n)]), BLOCK, |r| r.count = m);
    let weight = |n: u8| numbered(&Series { weights: Some(vec![1.0, -1.0]), ..example_k() }, &[n]);
    let thetas = |n: u8| numbered(&Series { theta: vec![1.0, 1.0], ..example_k() }, &[n]);
    let no_z = |n: u8| without(&valued(&example_k(), &[number(n)]), Z);
    let later: [(&'static str, &dyn Fn(u8) -> Vec<u8>, &'static str); 15] = [
        ("an infinity in X", &of(X, f64::INFINITY), NOT_FINITE),
        ("a NaN in Z", &of(Z, f64::NAN), NOT_FINITE),
        ("theta = NaN", &of(THETA, f64::NAN), NOT_FINITE),
        ("β = -infinity", &of(BETA, f64::NEG_INFINITY), NOT_FINITE),
        ("sigma2 = 0", &of(SIGMA, 0.0), "refused 5|"),
        ("weight -1", &weight, "refused 6|"),
        ("two groups, one column of Z", &groups(2), BLOCKS),
        ("m = 2^32 - 1", &groups(u32::MAX), BLOCKS),
        ("two thetas", &thetas, BLOCKS),
        ("no Z", &no_z, BLOCKS),
        ("a contrast of zeros", &of(CONTRAST, 0.0), "refused 8|"),
        ("theta 1e10", &of(THETA, 1e10), "refused 9|"),
        ("Φ = 0", &of(PHI, 0.0), "refused 10|"),
        ("P/sigma2 past the range", &of(SIGMA, f64::from_bits(1)), NOT_FINITE),
        ("an answer", &of(BETA, 6.0), ANSWER),
    ];
    let both = |(name, made, start): (_, &dyn Fn(u8) -> Vec<u8>, _)| {
        [(name, made(1), start), (name, made(0), COUNT), (name, made(2), COUNT)]
    };
    later.into_iter().flat_map(both).collect()
}

/// Two and three blocks: which of them is wrong.
fn several_blocks() -> Vec<Known> {
    let (two, three) = (single(2), single(3));
    let (right, wrong) = (number(1), number(0));
    let mut behind = right;
    behind[4] = 9;
    let of = |values: [[u8; 8]; 3]| file(&valued(&three, &values));
    vec![
        ("two blocks", numbered(&two, &[1, 1]), ANSWER),
        ("the first of two", numbered(&two, &[0, 1]), COUNT),
        ("the second of two", numbered(&two, &[1, 0]), COUNT),
        ("both of two", numbered(&two, &[0, 0]), COUNT),
        ("two blocks, their sum in the first", numbered(&two, &[2, 0]), COUNT),
        ("two blocks, their sum in each", numbered(&two, &[2, 2]), COUNT),
        ("two blocks, the thetas up to each", numbered(&two, &[1, 2]), COUNT),
        ("three blocks", numbered(&three, &[1, 1, 1]), ANSWER),
        ("the first of three", numbered(&three, &[2, 1, 1]), COUNT),
        ("the second of three", numbered(&three, &[1, 0, 1]), COUNT),
        ("the third of three", numbered(&three, &[1, 1, 3]), COUNT),
        ("all of three", numbered(&three, &[0, 0, 0]), COUNT),
        ("three blocks, their sum in each", numbered(&three, &[3, 3, 3]), COUNT),
        ("a byte behind the third's", of([right, right, behind]), RECORDS),
        ("the first wrong, a byte behind the third's", of([wrong, right, behind]), RECORDS),
        ("a byte behind the first's, the third wrong", of([behind, right, wrong]), RECORDS),
    ]
}

/// A series without blocks is what it was.
fn no_blocks() -> Vec<Known> {
    let records = kr_records(&pulltest_series(), true);
    let k = kr_records(&example_k(), true);
    vec![
        ("no blocks", file(&records), EXAMPLE),
        ("no blocks, a torn pull", file(&kr_records(&example_with_a_torn_pull(), true)), EXAMPLE),
        ("Z and theta without blocks", without(&k, BLOCK), BLOCKS),
        ("theta without blocks", with(&records, rec(THETA, 0, 0, 0, 1.0)), BLOCKS),
        ("a block without Z and theta", with(&records, block(0, 1, 1, number(1))), BLOCKS),
        ("the same, a wrong number", with(&records, block(0, 1, 1, number(0))), COUNT),
    ]
}

/// The archive's cases: its writer refuses alike.
pub fn archived() -> Vec<Known> {
    let wrong = valued(&example_k(), &[number(0)]);
    let mut falls = wrong.clone();
    falls.swap(0, 1);
    let torn = |n: u8| numbered(&Series { weights: Some(vec![0.0; 2]), ..example_k() }, &[n]);
    let mut behind = number(1);
    behind[7] = 128;
    vec![
        ("the right number of k = 1", of_effects(1, number(1)), "archive "),
        ("the right number of k = 2", of_effects(2, number(3)), "archive "),
        ("k = 2 without correlation: 2", of_effects(2, number(2)), COUNT),
        ("0, as before the request", file(&wrong), COUNT),
        ("a byte behind the number", of_effects(1, behind), RECORDS),
        ("the number as an f64", of_effects(2, 3f64.to_bits().to_le_bytes()), RECORDS),
        ("k = 0", of_effects(0, number(0)), SIZE),
        ("k = 3", of_effects(3, number(6)), SIZE),
        ("k = 3, a wrong number", of_effects(3, number(0)), COUNT),
        ("k = 22", of_effects(22, number(253)), SIZE),
        ("k = 23, what a byte keeps of 276", of_effects(23, number(20)), COUNT),
        ("k = 255, what a byte keeps of 32,640", of_effects(255, number(128)), COUNT),
        ("three blocks", numbered(&single(3), &[1, 1, 1]), "archive "),
        ("the first of three", numbered(&single(3), &[0, 1, 1]), COUNT),
        ("the third of three", numbered(&single(3), &[1, 1, 0]), COUNT),
        ("two blocks, their sum in the first", numbered(&single(2), &[2, 0]), COUNT),
        ("all torn", torn(1), SIZE),
        ("all torn, a wrong number", torn(2), COUNT),
        ("it falls, a wrong number", file(&falls), FALLS),
        ("no β, a wrong number", without(&wrong, BETA), RECORDS),
        ("β infinite, a wrong number", with(&wrong, rec(BETA, 0, 0, 0, f64::INFINITY)), COUNT),
        ("a contrast of zeros, a wrong number", changed(&wrong, CONTRAST, |r| r.bits = 0), COUNT),
    ]
}

/// The Satterthwaite cases: a block is a kind of the other call, whatever is
/// written in it.
pub fn satterthwaite() -> Vec<Known> {
    let records = satt_records(&example_i());
    let before = |record: Record| file(&[&[record], &records[..]].concat());
    let behind = |record: Record| file(&[&records[..], &[record]].concat());
    let mut out = Vec::new();
    for (k, n) in [(1, 1), (1, 0), (2, 3), (2, 2), (3, 6), (0, 0), (255, 128)] {
        out.push(("a block", before(block(0, k, 1, number(n))), RECORDS));
    }
    out.push(("a block at the end", behind(block(0, 1, 1, number(0))), FALLS));
    out
}
