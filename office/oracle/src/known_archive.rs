//! Cases made by hand of the archive: series for the writer, and pairs of an
//! archive and a second file for the test.

use crate::archive::archive;
use crate::known::{
    self, changed, example_k, identity_series, kr_bytes, of_effects, pulltest_series, rec, rows,
    with, without, Known,
};
use crate::known_numbers;
use crate::known_torn::{self, example_with_a_torn_pull};
use crate::random::{file, kr_records, power, series_of_sizes, Random};
use crate::reader::archive::{read_archive, test_records, Archive};
use crate::reader::numbers::block;
use crate::reader::{order, Block, Record, Series};
use listed_algebra::Matrix;

/// A case of the test: what it shows, the archive, the second file, and how its
/// answer starts where document 02 says so.
pub type KnownPair = (&'static str, Vec<u8>, Vec<u8>, &'static str);

const FALLS: &str = "refused 12|";
const RECORDS: &str = "refused 2|";
const NOT_FINITE: &str = "refused 4|";
const SIGMA2: &str = "refused 5|";
const ZERO_CONTRAST: &str = "refused 8|";
const PIVOT: &str = "refused 10|";
const ANSWER: &str = "coef 0 rank 1";
/// The example's archive: Φ 4, Φ_A 4, P -1/4, W 2; Φ 1/2, Φ_A 1/2, P -2,
/// sigma2 8; and the answer of document 01.
const EXAMPLE: &str = "archive \
    0b0000000000000000000000000010400c000000000000000000000000001040\
    0d00000000000000000000000000d0bf0e000000000000000000000000000040\
    0f00000000000000000000000000e03f1000000000000000000000000000e03f\
    110000000000000000000000000000c012000000000000000000000000002040|\
    coef 0 rank 1 F 4022000000000000 df 3ff0000000000000 inside|\
    test rank 1 F 4022000000000000 df 3ff0000000000000 inside|";

/// More records than an archive has cells.
const LONG: usize = 500;

// ------------------------------------------------------ the writer

/// The largest archive: six coefficients, four matrices P.
fn largest() -> Series {
    series_of_sizes(&mut Random::new(4), 7, 6, vec![Block { m: 2, k: 1 }; 3], 2)
}

/// IE of rank one, so large that 1e-8 on its diagonal is lost.
fn zero_pivot() -> Series {
    Series {
        x: rows(&[[1.0]]),
        z: rows(&[[power(20), power(20)]]),
        blocks: vec![Block { m: 1, k: 1 }; 2],
        theta: vec![0.0, 0.0],
        phi: rows(&[[0.0]]),
        ..pulltest_series()
    }
}

/// A cell of X that is zero makes cells of P that are -0.
fn minus_zeros() -> Series {
    Series { sigma2: 3.0, ..identity_series(rows(&[[0.5, -0.0], [0.0, 0.25]])) }
}

/// The example with X times 2^424: Φ and P are out of range in residual units,
/// and in response units every number of the tests is inside. So the mark is
/// outside by the operands of the scaling alone.
pub fn outside_by_scaling() -> Series {
    Series {
        x: rows(&[[power(424)], [power(424)]]),
        phi: rows(&[[power(-849)]]),
        sigma2: power(103),
        ..pulltest_series()
    }
}

/// The series of the writer.
pub fn series() -> Vec<Known> {
    let base = pulltest_series();
    let records = kr_records(&base, true);
    let k = kr_records(&example_k(), true);
    let bits = |kind: u8, value: f64| changed(&records, kind, |r| r.bits = value.to_bits());
    let weights = |w: f64| kr_bytes(&Series { weights: Some(vec![1.0, w]), ..base.clone() });
    let two_thetas = Series {
        z: Matrix::identity(2),
        blocks: vec![Block { m: 1, k: 2 }],
        theta: vec![1.0, 1.0],
        ..base.clone()
    };
    let half = identity_series(rows(&[[0.5, 0.0], [0.0, 0.25]]));
    let of_sizes = |seed: u64, n, p, blocks, rows| {
        kr_bytes(&series_of_sizes(&mut Random::new(seed), n, p, blocks, rows))
    };
    let mut out = vec![
        ("pulltest example", file(&records), EXAMPLE),
        ("no contrast", without(&records, 9), "archive "),
        ("β_H", with(&records, rec(10, 0, 0, 0, 5.0)), "archive "),
        ("(k)", file(&k), "archive "),
        ("the largest archive", kr_bytes(&largest()), "archive "),
        ("one coefficient, N = 4", of_sizes(5, 4, 1, vec![Block { m: 2, k: 1 }; 3], 1), "archive "),
        ("six coefficients, N = 1", of_sizes(6, 6, 6, Vec::new(), 3), "archive "),
        ("k = 2: N = 4", of_sizes(7, 4, 2, vec![Block { m: 2, k: 2 }], 2), "archive "),
        ("-0 in Φ and in P", kr_bytes(&minus_zeros()), "archive "),
        ("a zero of another sign in IE", kr_bytes(&known::minus_zero_series()), "archive "),
        // No test is run: what only a test refuses is archived.
        ("Φ = 0", bits(6, 0.0), "archive "),
        ("Φ = -0", bits(6, -0.0), "archive "),
        (
            "Φ lost in response units",
            {
                let tiny =
                    Series { phi: rows(&[[power(-80)]]), sigma2: power(-1000), ..base.clone() };
                kr_bytes(&tiny)
            },
            "archive ",
        ),
        (
            "zero pivot of Wald",
            kr_bytes(&identity_series(rows(&[[-1.0, 0.0], [0.0, 3.0]]))),
            "archive ",
        ),
        ("β out of range", bits(8, power(801)), "archive "),
        ("sigma2 out of range", bits(7, power(-900)), "archive "),
        ("outside by the scaling alone", kr_bytes(&outside_by_scaling()), "archive "),
        ("Φ subnormal", bits(6, power(-1060)), "archive "),
        (
            "redundant rows",
            kr_bytes(&Series {
                contrast: Some(rows(&[[0.0, 1.0], [1.0, 2.0], [0.0, 1.0]])),
                ..half.clone()
            }),
            "archive ",
        ),
        // The refusals.
        ("empty", Vec::new(), RECORDS),
        ("one byte short", file(&records)[1..].to_vec(), RECORDS),
        ("an archive's kind", with(&records, rec(11, 0, 0, 0, 1.0)), RECORDS),
        ("no β", without(&records, 8), RECORDS),
        ("byte 3", changed(&records, 7, |r| r.zero = 1), RECORDS),
        ("an archive", archive(&file(&records)).expect("it is accepted"), RECORDS),
        ("the first pair falls", file(&swapped(&records, 0)), FALLS),
        ("it falls, a byte less", file(&swapped(&records, 0))[1..].to_vec(), RECORDS),
        ("a cell twice", file(&[&records[..], &records[records.len() - 1..]].concat()), FALLS),
        ("k = 3", of_effects(&k, 3), "refused 3|"),
        ("β = infinity", bits(8, f64::INFINITY), NOT_FINITE),
        ("sigma2 = -0", bits(7, -0.0), SIGMA2),
        ("weight -1", weights(-1.0), "refused 6|"),
        ("k = 2, two thetas", kr_bytes(&two_thetas), "refused 7|"),
        ("a contrast of zeros", bits(9, 0.0), ZERO_CONTRAST),
        (
            "a contrast of zeros, Φ = 0",
            kr_bytes(&Series {
                contrast: Some(rows(&[[-0.0]])),
                phi: rows(&[[0.0]]),
                ..base.clone()
            }),
            ZERO_CONTRAST,
        ),
        ("theta 1e10", kr_bytes(&Series { theta: vec![1e10], ..example_k() }), "refused 9|"),
        ("zero pivot of IE", kr_bytes(&zero_pivot()), PIVOT),
        ("P/sigma2 past the range", bits(7, f64::from_bits(1)), NOT_FINITE),
        (
            "Φ·sigma2 past the range",
            kr_bytes(&Series { phi: rows(&[[1e200]]), sigma2: 1e200, ..base.clone() }),
            NOT_FINITE,
        ),
        (
            "Φ_A past the range",
            kr_bytes(&Series { x: rows(&[[1e160], [1.0]]), ..base.clone() }),
            NOT_FINITE,
        ),
    ];
    out.extend(numbered(&records));
    out.push(("a torn pull beside the example's", kr_bytes(&example_with_a_torn_pull()), EXAMPLE));
    out.extend(known_torn::archived());
    out.extend(known_numbers::archived());
    out
}

/// The archive's two kinds of P, which a series does not have, stand by their
/// count; the kinds beside them do not.
fn numbered(records: &[Record]) -> Vec<Known> {
    let end = |pair: [Record; 2]| file(&[records, &pair].concat());
    let p = |kind, count, row| rec(kind, row, 0, count, 1.0);
    let mut out = Vec::new();
    for kind in [13, 17] {
        out.extend([
            ("P, counts rise", end([p(kind, 0, 0), p(kind, 1, 0)]), RECORDS),
            ("P, counts fall", end([p(kind, 1, 0), p(kind, 0, 0)]), FALLS),
            ("P, counts rise and rows fall", end([p(kind, 0, 1), p(kind, 1, 0)]), RECORDS),
            ("P, counts fall and rows rise", end([p(kind, 1, 0), p(kind, 0, 1)]), FALLS),
            ("P, the same count and row", end([p(kind, 2, 3), p(kind, 2, 3)]), FALLS),
            ("P, large counts", end([p(kind, 255, 0), p(kind, u32::MAX, 0)]), RECORDS),
        ]);
    }
    for kind in [11, 12, 14, 15, 16, 18] {
        out.push(("another kind, counts rise", end([p(kind, 0, 0), p(kind, 1, 0)]), FALLS));
    }
    out
}

// ------------------------------------------------------ the test

/// The records with two neighbours swapped.
fn swapped(records: &[Record], at: usize) -> Vec<Record> {
    let mut out = records.to_vec();
    out.swap(at, at + 1);
    out
}

/// The pairs, as they come to be: an archive and the second file beside it.
struct Pairs {
    archive: Vec<Record>,
    tests: Vec<Record>,
    out: Vec<KnownPair>,
}

fn records_of(bytes: &[u8]) -> Vec<Record> {
    bytes.chunks(16).map(Record::from_bytes).collect()
}

impl Pairs {
    /// Of a series: its archive and its own records of the kinds 8 to 10.
    fn of(series: &Series) -> Pairs {
        let bytes = kr_bytes(series);
        let archive = archive(&bytes).expect("it is accepted");
        Pairs {
            archive: records_of(&archive),
            tests: records_of(&test_records(&bytes)),
            out: Vec::new(),
        }
    }

    fn pair(&mut self, name: &'static str, archive: Vec<u8>, tests: Vec<u8>, start: &'static str) {
        self.out.push((name, archive, tests, start));
    }

    /// Another archive beside the own second file.
    fn archive(&mut self, name: &'static str, archive: Vec<u8>, start: &'static str) {
        self.pair(name, archive, file(&self.tests.clone()), start);
    }

    /// The own archive beside another second file.
    fn tests(&mut self, name: &'static str, tests: Vec<u8>, start: &'static str) {
        self.pair(name, file(&self.archive.clone()), tests, start);
    }

    /// The own archive with records of a kind changed.
    fn changed(
        &mut self,
        name: &'static str,
        kind: u8,
        start: &'static str,
        change: impl Fn(&mut Record),
    ) {
        let archive = changed(&self.archive, kind, change);
        self.archive(name, archive, start);
    }

    /// The own archive with its numbers changed in both units.
    fn numbers(&mut self, name: &'static str, start: &'static str, change: impl Fn(&mut Archive)) {
        let mut archive = read_archive(&file(&self.archive)).expect("it is accepted");
        change(&mut archive);
        self.archive(name, archive.to_bytes(), start);
    }

    /// A record more in its place in the archive.
    fn more(&mut self, name: &'static str, record: Record) {
        let archive = with(&self.archive, record);
        self.archive(name, archive, RECORDS);
    }
}

/// The pairs of the test.
pub fn pairs() -> Vec<KnownPair> {
    let mut out = example();
    out.extend(orders());
    out.extend(zeros());
    out.extend(by_count());
    out.extend(second_files());
    out.extend(large());
    out
}

/// Document 01's example: eight records, each changed in every way.
fn example() -> Vec<KnownPair> {
    let mut p = Pairs::of(&pulltest_series());
    let (archive, tests) = (p.archive.clone(), p.tests.clone());
    let answer = "coef 0 rank 1 F 4022000000000000 df 3ff0000000000000 inside|\
                  test rank 1 F 4022000000000000 df 3ff0000000000000 inside|";
    p.archive("pulltest example", file(&archive), answer);
    p.archive("empty", Vec::new(), RECORDS);
    p.pair("both empty", Vec::new(), Vec::new(), RECORDS);
    p.archive("cut by a byte", file(&archive)[..127].to_vec(), RECORDS);
    p.archive("cut by a record", file(&archive[..7]), RECORDS);
    p.archive("a byte more", [&file(&archive)[..], &[0]].concat(), RECORDS);
    p.archive("one record alone", file(&archive[..1]), RECORDS);
    for kind in 11..=18 {
        p.archive("a kind missing", without(&archive, kind), RECORDS);
        p.changed("byte 3", kind, RECORDS, |r| r.zero = 1);
        p.changed("a row", kind, RECORDS, |r| r.row = 1);
        p.changed("a column", kind, RECORDS, |r| r.column = 1);
        p.changed("a count", kind, RECORDS, |r| r.count = 1);
        // W is in no unit: it has no other half that it could differ from.
        let start = if kind == 14 { ANSWER } else { RECORDS };
        p.changed("the last digit", kind, start, |r| r.bits ^= 1);
        let start = match kind {
            14 => ANSWER,
            18 => SIGMA2,
            _ => RECORDS,
        };
        p.changed("the sign", kind, start, |r| r.bits ^= 1 << 63);
        p.changed("NaN", kind, NOT_FINITE, |r| r.bits = f64::NAN.to_bits());
        p.changed("infinite", kind, NOT_FINITE, |r| r.bits = f64::INFINITY.to_bits());
        p.changed("-infinite", kind, NOT_FINITE, |r| r.bits = f64::NEG_INFINITY.to_bits());
    }
    // Past the limits, and beyond the file's own sizes.
    p.more("row 6", rec(11, 6, 0, 0, 4.0));
    p.more("column 6", rec(15, 0, 6, 0, 4.0));
    p.more("P 4", rec(13, 0, 0, 4, 1.0));
    p.more("P 4, residual", rec(17, 0, 0, 4, 1.0));
    p.more("P 2^32 - 1", rec(17, 0, 0, u32::MAX, 1.0));
    p.more("W's row 4", rec(14, 4, 0, 0, 1.0));
    p.more("W's column 4", rec(14, 0, 4, 0, 1.0));
    p.more("W's row 3 alone", rec(14, 3, 0, 0, 1.0));
    p.more("Φ's row 5 alone", rec(11, 5, 0, 0, 1.0));
    p.more("Φ_A beyond", rec(12, 1, 1, 0, 1.0));
    p.more("P 1 of 1", rec(13, 0, 0, 1, 1.0));
    p.more("P 1 of 1, residual", rec(17, 0, 0, 1, 1.0));
    p.more("sigma2 with a row", rec(18, 1, 0, 0, 8.0));
    for kind in [0, 1, 7, 8, 9, 10, 19, 20, 30, 31, 255] {
        p.more("a bad kind", rec(kind, 0, 0, 0, 1.0));
    }
    p.more("a block", block(0, 1, 1));
    p.more("a block with a wrong number", Record { bits: 0, ..block(0, 1, 1) });
    p.tests("a block", file(&[block(0, 1, 1), tests[0], tests[1]]), RECORDS);
    p.pair("the two files in one", with(&archive, tests[0]), Vec::new(), RECORDS);
    p.pair("the files exchanged", file(&tests), file(&archive), RECORDS);
    p.archive("a series", kr_bytes(&pulltest_series()), RECORDS);
    // sigma2.
    for (name, value, in_all) in [
        ("sigma2 = 0", 0.0, NOT_FINITE),
        ("sigma2 = -0", -0.0, NOT_FINITE),
        ("sigma2 = -8", -8.0, SIGMA2),
        ("sigma2 = -2^-1074", -power(-1074), NOT_FINITE),
    ] {
        p.changed(name, 18, SIGMA2, |r| r.bits = value.to_bits());
        // In P's response units it can make an infinity, and 4 comes first.
        p.numbers(name, in_all, |a| a.sigma2 = value);
    }
    p.changed("sigma2 alone halved", 18, RECORDS, |r| r.bits = 4f64.to_bits());
    p.numbers("sigma2 halved in all", ANSWER, |a| a.sigma2 = 4.0);
    p.numbers("sigma2 = 3", ANSWER, |a| a.sigma2 = 3.0);
    p.numbers("sigma2 = 2^-801", ANSWER, |a| a.sigma2 = power(-801));
    p.numbers("sigma2 = 2^-1074", NOT_FINITE, |a| a.sigma2 = power(-1074));
    p.numbers("sigma2 = 2^-1074, P = 0", PIVOT, |a| {
        a.sigma2 = power(-1074);
        a.p[0] = rows(&[[0.0]]);
    });
    // Numbers that no adjustment has, or that only a test refuses.
    p.numbers("Φ = 0", PIVOT, |a| a.phi = rows(&[[0.0]]));
    p.numbers("Φ_A = 0", "coef 0 rank 1 F none df 3ff0000000000000", |a| a.phi_a = rows(&[[0.0]]));
    p.numbers("Φ_A = -1", "coef 0 rank 1 F none df 3ff0000000000000", |a| {
        a.phi_a = rows(&[[-1.0]])
    });
    p.numbers("Φ < 0", ANSWER, |a| a.phi = rows(&[[-0.5]]));
    p.numbers("P = 0", ANSWER, |a| a.p[0] = rows(&[[0.0]]));
    p.numbers("W = 0", ANSWER, |a| a.w = rows(&[[0.0]]));
    p.numbers("W = -0", ANSWER, |a| a.w = rows(&[[-0.0]]));
    p.numbers("W < 0", ANSWER, |a| a.w = rows(&[[-2.0]]));
    p.numbers("W at the end of the range", ANSWER, |a| a.w = rows(&[[f64::MAX]]));
    p.numbers("P subnormal, lost in response units", ANSWER, |a| a.p[0] = rows(&[[power(-1074)]]));
    p.numbers("P subnormal in response units", ANSWER, |a| a.p[0] = rows(&[[power(-1072)]]));
    p.numbers("Φ subnormal", ANSWER, |a| a.phi = rows(&[[power(-1070)]]));
    p.numbers("Φ_A subnormal", ANSWER, |a| a.phi_a = rows(&[[power(-1074)]]));
    p.numbers("Φ below the range", ANSWER, |a| a.phi = rows(&[[power(-801)]]));
    p.numbers("P above the range", ANSWER, |a| a.p[0] = rows(&[[power(801)]]));
    p.numbers("Φ·sigma2 infinite", NOT_FINITE, |a| a.phi = rows(&[[f64::MAX]]));
    p.out
}

/// Each pair of neighbouring reasons.
fn orders() -> Vec<KnownPair> {
    let mut p = Pairs::of(&pulltest_series());
    let archive = p.archive.clone();
    let put = |changes: &[(usize, f64)]| {
        let mut out = archive.clone();
        changes.iter().for_each(|&(at, value)| out[at].bits = value.to_bits());
        out
    };
    let mut bad = archive.clone();
    bad[1].zero = 1;
    let good = file(&archive);
    let falls = file(&swapped(&archive, 2));
    let differs = file(&put(&[(0, 1.0)]));
    p.archive("it falls, a byte less", falls[..127].to_vec(), RECORDS);
    p.archive("a bad field, it falls", file(&swapped(&bad, 2)), FALLS);
    p.archive("all swapped", file(&archive.iter().rev().copied().collect::<Vec<_>>()), FALLS);
    p.archive("the first twice", file(&[&archive[..1], &archive].concat()), FALLS);
    let mut infinite = put(&[(3, f64::INFINITY)]);
    infinite[1].zero = 1;
    p.archive("not finite, a bad field", file(&infinite), RECORDS);
    p.archive("sigma2 = -8, W not finite", file(&put(&[(3, f64::NAN), (7, -8.0)])), NOT_FINITE);
    p.archive("Φ differs, W not finite", file(&put(&[(3, f64::NAN), (0, 1.0)])), NOT_FINITE);
    p.archive("Φ differs, sigma2 = -8", file(&put(&[(0, 1.0), (7, -8.0)])), SIGMA2);
    p.archive("Φ differs", differs.clone(), RECORDS);
    // All of the archive before the second file.
    let beta = |value| rec(8, 0, 0, 0, value);
    let row = |value| rec(9, 0, 0, 0, value);
    let second_falls = file(&[row(1.0), beta(6.0)]);
    let second_infinite = file(&[beta(f64::INFINITY), row(1.0)]);
    let second_zero = file(&[beta(6.0), row(0.0)]);
    let second_odd = file(&[beta(6.0)])[1..].to_vec();
    let sigma2 = file(&put(&[(7, 0.0)]));
    for (name, second) in [
        ("it falls", &second_falls),
        ("not finite", &second_infinite),
        ("a contrast of zeros", &second_zero),
    ] {
        p.pair(name, differs.clone(), second.clone(), RECORDS);
        p.pair(name, sigma2.clone(), second.clone(), SIGMA2);
        p.pair(name, falls.clone(), second.clone(), FALLS);
        p.pair(name, good[1..].to_vec(), second.clone(), RECORDS);
    }
    p.pair("the second file's length", falls.clone(), second_odd.clone(), FALLS);
    p.pair("the second file's length", sigma2, second_odd, SIGMA2);
    p.pair(
        "not finite, the second file falls",
        file(&put(&[(3, f64::NAN)])),
        second_falls.clone(),
        NOT_FINITE,
    );
    // Within the second file, and the test behind it.
    p.tests("it falls, a byte less", second_falls[..31].to_vec(), RECORDS);
    p.tests("a bad kind, it falls", file(&[rec(99, 0, 0, 0, 1.0), beta(6.0)]), FALLS);
    p.tests("a cell twice", file(&[beta(6.0), beta(6.0)]), FALLS);
    p.tests("not finite, a bad kind", file(&[beta(f64::NAN), rec(99, 0, 0, 0, 1.0)]), RECORDS);
    p.tests("a contrast of zeros, β not finite", file(&[beta(f64::NAN), row(0.0)]), NOT_FINITE);
    p.tests("a contrast of zeros", second_zero.clone(), ZERO_CONTRAST);
    p.tests("a contrast of -0", file(&[beta(6.0), row(-0.0)]), ZERO_CONTRAST);
    let zero_phi = put(&[(0, 0.0), (4, 0.0)]);
    p.pair("Φ = 0, a contrast of zeros", file(&zero_phi), second_zero, ZERO_CONTRAST);
    p.archive("Φ = 0", file(&zero_phi), PIVOT);
    p.out
}

/// Zeros of either sign: n = p = 2, X the identity, Φ diagonal.
fn zeros() -> Vec<KnownPair> {
    let mut p =
        Pairs::of(&Series { sigma2: 3.0, ..identity_series(rows(&[[0.5, 0.0], [0.0, 0.25]])) });
    let archive = p.archive.clone();
    p.archive("as it is", file(&archive), ANSWER);
    let turned = |kinds: &[u8]| {
        let mut out = archive.clone();
        let cell = |r: &&mut Record| kinds.contains(&r.kind) && (r.row, r.column) == (0, 1);
        out.iter_mut().filter(cell).for_each(|r| r.bits ^= 1 << 63);
        file(&out)
    };
    for (response, residual) in [(11, 15), (12, 16), (13, 17)] {
        p.archive("the sign of a zero, response units", turned(&[response]), RECORDS);
        p.archive("the sign of a zero, residual units", turned(&[residual]), RECORDS);
        p.archive("the sign of a zero in both", turned(&[response, residual]), ANSWER);
    }
    p.numbers("Φ_A = 0: Wald has no pivot", PIVOT, |a| a.phi_a = Matrix::zeros(2, 2));
    p.numbers("Φ_11 = 0: coefficient 1", PIVOT, |a| a.phi[(1, 1)] = 0.0);
    p.numbers("Φ not symmetric", ANSWER, |a| a.phi[(0, 1)] = 0.125);
    p.numbers("Φ_01 above the range", ANSWER, |a| a.phi[(0, 1)] = power(801));
    p.numbers("P_01 below the range", ANSWER, |a| a.p[0][(0, 1)] = power(-801));
    p.out
}

/// Two Ps, which stand by their number before row and column.
fn by_count() -> Vec<KnownPair> {
    let series = Series {
        z: rows(&[[1.0], [1.0]]),
        blocks: vec![Block { m: 1, k: 1 }],
        theta: vec![0.5],
        ..identity_series(rows(&[[0.5, 0.125], [0.125, 0.25]]))
    };
    let mut p = Pairs::of(&series);
    let archive = p.archive.clone();
    p.archive("two Ps", file(&archive), ANSWER);
    for kind in [13, 17] {
        let by = |key: fn(&Record) -> (u32, u8, u8)| {
            let mut out = archive.clone();
            let first = out.iter().position(|r| r.kind == kind).expect("the kind");
            out[first..first + 8].sort_by_key(key);
            file(&out)
        };
        p.archive("P by row before count", by(|r| (0, r.row, r.column)), FALLS);
        p.archive("P 1 before P 0", by(|r| (9 - r.count, r.row, r.column)), FALLS);
        p.archive("P by column before row", by(|r| (r.count, r.column, r.row)), FALLS);
        let numbered = |from: u32, to: u32| {
            let mut out = archive.clone();
            let of = |r: &&mut Record| r.kind == kind && r.count == from;
            out.iter_mut().filter(of).for_each(|r| r.count = to);
            order::sorted(&file(&out))
        };
        p.archive("P 2 in the place of P 1", numbered(1, 2), RECORDS);
        p.archive("P 4 in the place of P 1", numbered(1, 4), RECORDS);
        p.archive("P 0 twice", numbered(1, 0), FALLS);
        let less = archive.iter().filter(|r| r.kind != kind || r.count != 1).copied();
        p.archive("P 1 missing", file(&less.collect::<Vec<_>>()), RECORDS);
    }
    let fewer: Vec<Record> =
        archive.iter().filter(|r| r.kind != 14 || (r.row, r.column) == (0, 0)).copied().collect();
    p.archive("W of one P, two Ps", file(&fewer), RECORDS);
    let both: Vec<Record> =
        fewer.iter().filter(|r| !matches!(r.kind, 13 | 17) || r.count == 0).copied().collect();
    p.archive("one P and its W", file(&both), ANSWER);
    p.out
}

/// Second files other than the series' own.
fn second_files() -> Vec<KnownPair> {
    let mut p = Pairs::of(&identity_series(rows(&[[0.5, 0.125], [0.125, 0.25]])));
    let beta = [rec(8, 0, 0, 0, 1.0), rec(8, 1, 0, 0, 2.0)];
    let hypothesis = [rec(10, 0, 0, 0, 1.0), rec(10, 1, 0, 0, 2.5)];
    let row = |i: u8, a: f64, b: f64| vec![rec(9, i, 0, 0, a), rec(9, i, 1, 0, b)];
    let one = row(0, 1.0, -1.0);
    let of = |parts: &[&[Record]]| file(&parts.concat());
    p.tests("the series' own", file(&p.tests.clone()), ANSWER);
    p.tests("empty", Vec::new(), RECORDS);
    p.tests("β alone", of(&[&beta]), ANSWER);
    p.tests("another contrast", of(&[&beta, &one]), ANSWER);
    p.tests("another contrast and β_H", of(&[&beta, &one, &hypothesis]), ANSWER);
    p.tests(
        "β_H equal to β",
        of(&[&beta, &one, &[rec(10, 0, 0, 0, 1.0), rec(10, 1, 0, 0, 2.0)]]),
        ANSWER,
    );
    p.tests("another β", of(&[&[rec(8, 0, 0, 0, -7.0), rec(8, 1, 0, 0, 0.1)], &one]), ANSWER);
    let rows_of = |list: &[(f64, f64)]| -> Vec<Record> {
        list.iter().enumerate().flat_map(|(i, &(a, b))| row(i as u8, a, b)).collect()
    };
    p.tests("two rows", of(&[&beta, &rows_of(&[(1.0, 0.0), (1.0, 3.0)])]), "coef 0 rank 1");
    p.tests(
        "three rows, one redundant",
        of(&[&beta, &rows_of(&[(1.0, 0.0), (0.5, 0.0), (1.0, 3.0)])]),
        ANSWER,
    );
    p.tests("a zero row of two", of(&[&beta, &rows_of(&[(0.0, -0.0), (1.0, 3.0)])]), ANSWER);
    p.tests(
        "six rows",
        of(&[
            &beta,
            &rows_of(&[(1.0, 2.0), (3.0, 4.0), (5.0, 6.0), (7.0, 8.0), (1.5, 0.0), (0.0, 2.5)]),
            &hypothesis,
        ]),
        ANSWER,
    );
    p.tests("a contrast out of range", of(&[&beta, &row(0, power(900), 0.0)]), ANSWER);
    p.tests("β out of range", of(&[&[beta[0], rec(8, 1, 0, 0, power(-900))], &one]), ANSWER);
    p.tests(
        "β_H out of range",
        of(&[&beta, &one, &[hypothesis[0], rec(10, 1, 0, 0, power(900))]]),
        ANSWER,
    );
    p.tests("β subnormal", of(&[&[beta[0], rec(8, 1, 0, 0, power(-1074))]]), ANSWER);
    p.tests("all rows zero", of(&[&beta, &rows_of(&[(0.0, 0.0), (-0.0, 0.0)])]), ZERO_CONTRAST);
    for (name, tests) in [
        ("β of one coefficient", of(&[&beta[..1]])),
        ("β of one coefficient, a contrast of one", of(&[&beta[..1], &one[..1]])),
        ("β of three coefficients", of(&[&beta, &[rec(8, 2, 0, 0, 1.0)]])),
        ("β's last alone", of(&[&beta[1..]])),
        ("no β", of(&[&one])),
        ("β_H without a contrast", of(&[&beta, &hypothesis])),
        ("β_H in part", of(&[&beta, &one, &hypothesis[..1]])),
        ("β_H of three coefficients", of(&[&beta, &one, &hypothesis, &[rec(10, 2, 0, 0, 1.0)]])),
        ("a contrast of one column", of(&[&beta, &one[..1]])),
        ("a contrast of three columns", of(&[&beta, &one, &[rec(9, 0, 2, 0, 1.0)]])),
        ("the contrast's row 1 alone", of(&[&beta, &row(1, 1.0, 2.0)])),
        ("the contrast's row 6", of(&[&beta, &one, &row(6, 1.0, 2.0)])),
        ("β's row 6", of(&[&beta, &[rec(8, 6, 0, 0, 1.0)]])),
        ("β with a column", of(&[&beta[..1], &[rec(8, 1, 1, 0, 2.0)]])),
        ("β with a count", of(&[&beta[..1], &[rec(8, 1, 0, 1, 2.0)]])),
        ("a contrast with a count", of(&[&beta, &one[..1], &[rec(9, 0, 1, 1, 2.0)]])),
        ("byte 3", of(&[&beta[..1], &[Record { zero: 255, ..beta[1] }]])),
        ("sigma2 too", of(&[&[rec(7, 0, 0, 0, 1.0)], &beta])),
        ("an archive's kind", of(&[&beta, &[rec(18, 0, 0, 0, 1.0)]])),
        ("two Ps by count", of(&[&beta, &[rec(13, 0, 0, 0, 1.0), rec(13, 0, 0, 1, 1.0)]])),
        ("a byte more", [&of(&[&beta])[..], &[0]].concat()),
        ("a byte less", of(&[&beta])[..31].to_vec()),
    ] {
        p.tests(name, tests, RECORDS);
    }
    p.tests(
        "two Ps, counts fall",
        of(&[&beta, &[rec(17, 0, 0, 1, 1.0), rec(17, 0, 0, 0, 1.0)]]),
        FALLS,
    );
    p.tests("the contrast first", of(&[&one, &beta]), FALLS);
    p.tests("β twice", of(&[&beta, &beta]), FALLS);
    for value in [f64::NAN, f64::INFINITY, f64::NEG_INFINITY] {
        p.tests("β not finite", of(&[&beta[..1], &[rec(8, 1, 0, 0, value)]]), NOT_FINITE);
        p.tests("a contrast not finite", of(&[&beta, &row(0, 1.0, value)]), NOT_FINITE);
        p.tests(
            "β_H not finite",
            of(&[&beta, &one, &hypothesis[..1], &[rec(10, 1, 0, 0, value)]]),
            NOT_FINITE,
        );
    }
    p.out
}

/// The largest archive, and files longer than any.
fn large() -> Vec<KnownPair> {
    let mut p = Pairs::of(&largest());
    let archive = file(&p.archive);
    p.archive("the largest", archive.clone(), ANSWER);
    p.archive(
        "the largest, the last digit of a P",
        {
            let mut out = archive;
            let at = out.chunks(16).rposition(|b| b[0] == 17).expect("a P");
            out[16 * at + 8] ^= 1;
            out
        },
        RECORDS,
    );
    let mut small = Pairs::of(&pulltest_series());
    let mut long = [&small.archive[..], &order::rising(LONG - 8)].concat();
    small.archive("500 records that rise", file(&long), RECORDS);
    long.swap(LONG - 2, LONG - 1);
    small.archive("500 records, the last pair falls", file(&long), FALLS);
    let many = [&small.tests[..], &order::rising(60)].concat();
    small.tests("62 records that rise", file(&many), RECORDS);
    small.tests("62 records, the last pair falls", file(&swapped(&many, 60)), FALLS);
    p.out.extend(small.out);
    p.out
}
