//! Document 01's bench examples, by lme-rs and by the marked run, and the
//! comparison of the two runs on random series.

use crate::archive::{archive, archive_fill, archive_test_fill};
use crate::calls::{kenward_roger_fill, satterthwaite_fill};
use crate::known::{self, example_i, example_k, kr_bytes, pulltest_series, rows, satt_bytes};
use crate::kr_modcomp::{kr_modcomp_test, KenwardRogerModcompData};
use crate::marked::{self, in_range, Marking, Scaled};
use crate::print::{archive_lines, archive_test_lines, bits_report, pulltest, satterthwaite_line};
use crate::random::{
    kr_case, power, satt_case, Random, KR_FAMILIES, MORE_KR_FAMILIES, SATT_FAMILIES, SHUFFLED,
};
use crate::reader::archive::{read_archive, test_records};
use crate::reader::cutoffs::Cutoffs;
use crate::reader::torn::Torn;
use crate::reader::{self, order, Record, Series};
use crate::{
    ddf, known_archive, known_numbers, known_order, known_torn, kr_vcov_adj, lme_run, trace,
};
use ::reader::vectors::hex;
use listed_algebra::Matrix;
use ndarray::{Array1, Array2};

const BUILT_IN: &Cutoffs = &Cutoffs::BUILT_IN;

#[test]
fn a_b_packed_places() {
    let packs = [kr_vcov_adj::reach::packed, marked::packed];
    for packed in packs {
        assert_eq!(packed(1, 2, 3), 4);
        assert_eq!(packed(2, 1, 3), 4);
        assert_eq!(packed(2, 2, 3), 5);
    }
}

/// Example (a) cannot tell a packing that never swaps: 2·3 − 3 + 1 is 4 too. All
/// ordered pairs of one to four matrices can, and each place has one pair.
#[test]
fn every_pair_has_its_place() {
    for n in 1..=4 {
        let mut pairs = vec![Vec::new(); n * (n + 1) / 2];
        for (r, s) in (0..n).flat_map(|r| (0..n).map(move |s| (r, s))) {
            assert_eq!(kr_vcov_adj::reach::packed(r, s, n), marked::packed(r, s, n));
            pairs[marked::packed(r, s, n)].push([r, s]);
        }
        let mirrored = |pair: &[usize; 2]| [pair[1], pair[0]];
        for place in pairs {
            let one = place[0];
            assert!(place.iter().all(|pair| *pair == one || *pair == mirrored(&one)));
        }
    }
}

#[test]
fn c_d_e_pooled_df() {
    for (nu, df) in [(vec![6.0, 6.0, 4.0], 5.0), (vec![1.0, 1.0], 1.0), (vec![2.0, 5.0], 2.0)] {
        assert_eq!(ddf::get_fstat_ddf(&nu, 1e-8), df);
        assert_eq!(marked::pooled_df(&nu), df);
    }
}

#[test]
fn f_g_variance_df() {
    let a = rows(&[[4.0]]);
    let j: Array1<f64> = vec![2.0].into();
    assert_eq!(ddf::variance_df(2.0, j.view(), &Array2::from_matrix(a.clone())), 0.5);
    assert!(ddf::variance_df(0.0, j.view(), &Array2::from_matrix(a.clone())).is_nan());
    let mark = Marking::new();
    assert_eq!(marked::variance_df(&mark, 2.0, &[2.0], &a), 0.5);
    assert!(marked::variance_df(&mark, 0.0, &[2.0], &a).is_nan());
}

#[test]
fn h_one_coefficient() {
    let one = |v: f64| Array2::from_matrix(rows(&[[v]]));
    let data = KenwardRogerModcompData {
        phi: one(1.0),
        phi_a: one(4.0),
        p_list: vec![one(-1.0)],
        w: one(2.0),
    };
    let beta: Array1<f64> = vec![6.0].into();
    let test = kr_modcomp_test(&data, &one(-8.0), &beta, None).expect("no refusal");
    assert_eq!((test.f_stat, test.den_df), (9.0, 1.0));
    let scaled = Scaled {
        phi: rows(&[[1.0]]),
        phi_a: rows(&[[4.0]]),
        p: vec![rows(&[[-1.0]])],
        w: rows(&[[2.0]]),
        inside: true,
    };
    let (entry, _) =
        marked::kr_test(BUILT_IN, &scaled, &rows(&[[-8.0]]), &[6.0], None).expect("no refusal");
    assert_eq!((entry.f, entry.df, entry.rank, entry.inside), (Some(9.0), Some(1.0), 1, true));
}

#[test]
fn i_two_rows() {
    let answer = lme_run::satterthwaite_test(BUILT_IN, &example_i()).expect("no refusal");
    assert_eq!((answer.f, answer.df, answer.rank), (2.5, 4.0, 2));
}

#[test]
fn j_cap_of_several_rows_alone() {
    let mut s = example_i();
    s.a = rows(&[[power(-12)]]);
    assert_eq!(lme_run::satterthwaite_test(BUILT_IN, &s).expect("no refusal").df, 3000.0);
    s.contrast = rows(&[[1.0, 0.0]]);
    assert_eq!(lme_run::satterthwaite_test(BUILT_IN, &s).expect("no refusal").df, 8192.0);
}

#[test]
fn k_theta_zero() {
    let series = example_k();
    let rust = lme_run::adjust(BUILT_IN, &series).expect("no refusal");
    assert_eq!((rust.phi_a[(0, 0)], rust.w[(0, 0)]), (0.5, 200000000.0));
    let own = marked::adjust(BUILT_IN, &series).expect("no refusal");
    assert_eq!((own.phi_a[(0, 0)], own.w[(0, 0)]), (0.5, 200000000.0));
}

#[test]
fn pulltest_lines() {
    let expected = "coef 0 rank 1 F 4022000000000000 df 3ff0000000000000 inside\n\
                    test rank 1 F 4022000000000000 df 3ff0000000000000 inside\n";
    let bytes = kr_bytes(&pulltest_series());
    assert_eq!(pulltest(&bytes), expected);
    assert!(bits_report(&bytes).starts_with(expected));
    assert_eq!(pulltest(&[]), "refused 2\n");
}

/// Every known case, with what documents 01 and 02 say of it.
#[test]
fn known_cases() {
    let calls: [(Vec<known::Known>, fn(&[u8]) -> String); 8] = [
        (known::kenward_roger(), pulltest),
        (known_order::kenward_roger(), pulltest),
        (known_torn::kenward_roger(), pulltest),
        (known_numbers::kenward_roger(), pulltest),
        (known::satterthwaite(), satterthwaite_line),
        (known_order::satterthwaite(), satterthwaite_line),
        (known_numbers::satterthwaite(), satterthwaite_line),
        (known_archive::series(), archive_lines),
    ];
    for (cases, output) in calls {
        for (name, bytes, start) in cases {
            starts(name, &output(&bytes), start);
        }
    }
    for (name, archive, tests, start) in known_archive::pairs() {
        starts(name, &archive_test_lines(&archive, &tests), start);
    }
}

fn starts(name: &str, output: &str, start: &str) {
    let text = output.replace('\n', "|");
    assert!(text.starts_with(start), "{name}: {text} does not start with {start}");
}

/// The largest archive fills the lent bytes; what a test alone refuses is
/// archived; the mark of a test from an archive counts the scaling.
#[test]
fn points_of_the_archive() {
    let text = |name: &str| {
        let case = known_archive::series().into_iter().find(|c| c.0 == name);
        archive_lines(&case.expect("a known case").1)
    };
    let length = |text: &str| text.lines().next().map_or(0, |l| (l.len() - "archive ".len()) / 2);
    assert_eq!(length(&text("the largest archive")), reader::archive::LENT);
    assert_eq!(length(&text("pulltest example")), reader::archive::SHORTEST);
    for name in ["Φ = 0", "Φ = -0", "Φ lost in response units", "zero pivot of Wald"] {
        assert!(text(name).ends_with("\nrefused 10\n"), "{name}");
    }
    for name in
        ["β out of range", "sigma2 out of range", "Φ subnormal", "outside by the scaling alone"]
    {
        assert_eq!(text(name).matches("outside").count(), 2, "{name}");
    }
    let series = known_archive::outside_by_scaling();
    let (_, scaled) = marked::adjusted(BUILT_IN, &series).expect("no refusal");
    let given = Scaled { inside: true, ..scaled };
    let l = series.contrast.as_ref().expect("a contrast");
    let (entry, _) = marked::kr_test(BUILT_IN, &given, l, &series.beta, None).expect("no refusal");
    assert!(entry.inside, "its numbers in response units alone would be inside");
    let minus_zero = Record { kind: 17, row: 0, column: 1, zero: 0, count: 0, bits: 1 << 63 };
    assert!(text("-0 in Φ and in P").contains(&hex(&minus_zero.to_bytes())));
}

/// The test from a series' archive answers as the direct run; the archive reads
/// and writes back to the same bytes, and the two files are all that is needed.
#[test]
fn archives_answer_as_the_series() {
    let (mut archived, mut refused_by_a_test) = (0, 0);
    known_archive::series().iter().for_each(|(_, bytes, _)| drop(archive_lines(bytes)));
    for (f, family) in KR_FAMILIES.iter().chain(&MORE_KR_FAMILIES).enumerate() {
        let mut random = Random::new(300 + f as u64);
        for _ in 0..60 {
            let bytes = kr_case(&mut random, family);
            let mut direct = [7; 168];
            let number = kenward_roger_fill(&bytes, &mut direct);
            let mut lent = [9; 7184];
            let length = archive_fill(&bytes, &mut lent) as usize;
            if length < reader::archive::SHORTEST {
                assert_eq!((length, lent), (number as usize, [9; 7184]));
                continue;
            }
            let file = &lent[..length];
            assert!(lent[length..].iter().all(|&b| b == 9));
            assert_eq!(read_archive(file).expect("it is accepted").to_bytes(), file);
            let mut answer = [7; 168];
            assert_eq!(archive_test_fill(file, &test_records(&bytes), &mut answer), number);
            assert_eq!(answer, direct, "{family} {}", hex(&bytes));
            archived += 1;
            refused_by_a_test += u32::from(number != 0);
        }
    }
    assert!(archived > 400 && refused_by_a_test > 5, "{archived}, {refused_by_a_test}");
    // docs/DIFFERENCES.md, "Sums that start at -0 in the Rust": no archive shows it.
    let seen = trace::take();
    for matrix in ["W", "Φ_A", "P"] {
        let name = format!("zero of another sign in {matrix}");
        assert!(!seen.contains_key(name.as_str()), "{name}");
    }
}

/// The points of the decisions' list that the mark alone shows.
#[test]
fn marks_of_the_decisions() {
    let mark = |cases: Vec<known::Known>, name: &str, output: fn(&[u8]) -> String| {
        let bytes = cases.into_iter().find(|c| c.0 == name).expect("a known case").1;
        output(&bytes)
    };
    for name in [
        "operand out of range beside a zero factor",
        "the rotation test is marked",
        "the same, 2^-32",
        "a zero product",
    ] {
        let text = mark(known::satterthwaite(), name, satterthwaite_line);
        assert!(text.ends_with("outside\n"), "{name}: {text}");
    }
    let text = mark(known::kenward_roger(), "redundant rows", pulltest);
    assert_eq!(text.matches(" inside").count(), 3, "{text}");
    assert!(text.contains("test rank 2"), "{text}");
    let text = mark(known::kenward_roger(), "a β outside puts all outside", pulltest);
    assert_eq!(text.matches("outside").count(), 3, "{text}");
}

#[test]
fn range_of_the_mark() {
    for inside in [0.0, -0.0, power(-800), -power(-800), power(800), 1.9999 * power(800)] {
        assert!(in_range(inside));
    }
    for outside in [power(801), power(-801), power(-1074), f64::INFINITY, f64::NAN] {
        assert!(!in_range(outside) && !in_range(-outside));
    }
}

#[test]
fn answer_bytes() {
    let file = kr_bytes(&pulltest_series());
    for len in [0, 100, 167, 169] {
        let mut answer = vec![7; len];
        assert_eq!(kenward_roger_fill(&file, &mut answer), 1);
        // 1 comes before the bytes are looked at.
        assert_eq!(kenward_roger_fill(&[1], &mut answer), 1);
        assert_eq!(satterthwaite_fill(&[1], &mut answer), 1);
        assert!(answer.iter().all(|&b| b == 7));
    }
    let example = archive(&file).expect("it is accepted");
    for len in [0, 128, 7183, 7185] {
        let mut lent = vec![7; len];
        assert_eq!(archive_fill(&file, &mut lent), 1);
        assert_eq!(archive_fill(&[1], &mut lent), 1);
        assert_eq!(archive_test_fill(&example, &test_records(&file), &mut lent), 1);
        assert_eq!(archive_test_fill(&[1], &[1], &mut lent), 1);
        assert!(lent.iter().all(|&b| b == 7));
    }
    let mut answer = [7; 168];
    assert_eq!(kenward_roger_fill(&[1], &mut answer), 2);
    assert_eq!(answer, [7; 168]);
    assert_eq!(kenward_roger_fill(&file, &mut answer), 0);
    let mut entry = [0; 24];
    entry[..8].copy_from_slice(&9f64.to_bits().to_le_bytes());
    entry[8..16].copy_from_slice(&1f64.to_bits().to_le_bytes());
    entry[16..20].copy_from_slice(&[1, 1, 1, 1]);
    assert_eq!(answer[..24], entry);
    assert_eq!(answer[24..144], [0; 120]);
    assert_eq!(answer[144..], entry);
    let mut one = [7; 24];
    assert_eq!(satterthwaite_fill(&satt_bytes(&example_i()), &mut one), 0);
    assert_eq!(one[16..], [2, 1, 1, 1, 0, 0, 0, 0]);
}

/// Records out of order are refused, and in order again they are accepted.
#[test]
fn records_out_of_order() {
    let mut random = Random::new(5);
    for _ in 0..100 {
        let file = kr_case(&mut random, SHUFFLED);
        assert_eq!(pulltest(&file), "refused 12\n");
        assert!(pulltest(&order::sorted(&file)).starts_with("coef 0 "));
        let file = satt_case(&mut random, SHUFFLED);
        assert_eq!(satterthwaite_line(&file), "refused 12\n");
        assert!(satterthwaite_line(&order::sorted(&file)).starts_with("test "));
    }
}

/// Both runs on random series: the calls stop where they differ in a bit.
#[test]
fn both_runs_agree() {
    for (f, family) in KR_FAMILIES.iter().enumerate() {
        let mut random = Random::new(100 + f as u64);
        for _ in 0..40 {
            pulltest(&kr_case(&mut random, family));
        }
    }
    for (f, family) in SATT_FAMILIES.iter().enumerate() {
        let mut random = Random::new(200 + f as u64);
        for _ in 0..60 {
            satterthwaite_line(&satt_case(&mut random, family));
        }
    }
}

/// A file in another unit: sigma2, v and the Jacobians times 4^k, β and β_H
/// times 2^k, and (Kenward–Roger) each contrast row times a power of its own.
fn converted(random: &mut Random, bytes: &[u8], satt: bool) -> Vec<u8> {
    let k = random.between(-32, 32);
    let rows: Vec<i64> = (0..6).map(|_| random.between(-32, 32)).collect();
    let mut out = Vec::new();
    for chunk in bytes.chunks(16) {
        let mut record = Record::from_bytes(chunk);
        let shift = match record.kind {
            reader::SIGMA | reader::V | reader::JACOBIAN => 2 * k,
            reader::BETA | reader::BETA_H => k,
            reader::CONTRAST if !satt => rows[record.row as usize],
            _ => 0,
        };
        record.bits = (f64::from_bits(record.bits) * power(shift)).to_bits();
        out.extend(record.to_bytes());
    }
    out
}

/// The lines without their marks.
fn verdicts(text: &str) -> String {
    text.replace(" inside", "").replace(" outside", "")
}

/// A run that is inside keeps its verdicts in every unit (demand 3), with torn
/// specimens too. This would show a mark that is set too generously.
#[test]
fn inside_runs_keep_their_verdicts() {
    let mut random = Random::new(77);
    let mut tried = Shifted::default();
    for _ in 0..60 {
        for family in ["small", "contrasts", "extreme", "singular", "negative", "late"] {
            tried.one(&mut random, kr_case, family, pulltest, false);
        }
        for family in ["plain", "equal", "singular", "extreme", "extreme", "extreme"] {
            tried.one(&mut random, satt_case, family, satterthwaite_line, true);
        }
    }
    assert!(tried.inside > 300 && tried.torn > 30, "{tried:?}");
}

/// Inside runs that were tried in another unit.
#[derive(Debug, Default)]
struct Shifted {
    inside: u32,
    /// With torn specimens.
    torn: u32,
}

impl Shifted {
    fn one(
        &mut self,
        random: &mut Random,
        case: fn(&mut Random, &str) -> Vec<u8>,
        family: &str,
        output: fn(&[u8]) -> String,
        satt: bool,
    ) {
        let bytes = case(random, family);
        let text = output(&bytes);
        if text.contains("refused") || text.contains("outside") {
            return;
        }
        let other = output(&converted(random, &bytes, satt));
        assert_eq!(verdicts(&text), verdicts(&other), "{family} {}", hex(&bytes));
        self.inside += 1;
        self.torn += u32::from(Torn::of(&bytes).is_some());
    }
}

/// docs/DIFFERENCES.md, "The late refusal 4 is document 01's own": there lme-rs
/// answers none, or a df without F, or has a zero pivot.
#[test]
fn late_refusal_is_not_in_lme_rs() {
    let single = Series { x: rows(&[[1.0]]), z: Matrix::zeros(1, 0), ..pulltest_series() };
    let infinite_p = Series { sigma2: power(-1060), ..pulltest_series() };
    let infinite_phi_a = Series { sigma2: power(1023), ..single };
    let zero_phi = Series { sigma2: power(-1074), ..pulltest_series() };
    for series in [&infinite_p, &infinite_phi_a, &zero_phi] {
        assert_eq!(lme_run::kenward_roger_run(BUILT_IN, series).err(), Some(4));
    }
    let first = |series| lme_run::run_without_late_4(series).map(|run| run.coefficients[0]);
    let none = first(&infinite_p).expect("lme-rs answers");
    assert!(none.f.is_nan() && none.df.is_nan());
    let df_alone = first(&infinite_phi_a).expect("lme-rs answers");
    assert!(df_alone.f.is_nan() && df_alone.df == 1.0);
    assert_eq!(first(&zero_phi).err(), Some(10));
}

/// docs/DIFFERENCES.md, "Sums that start at -0 in the Rust": a cell of IE that
/// is -0 in lme-rs and +0 by document 01, and no other number that shows it.
#[test]
fn sums_from_minus_zero() {
    let series = known::minus_zero_series();
    let rust = lme_run::adjust(BUILT_IN, &series).expect("no refusal");
    let own = marked::adjust(BUILT_IN, &series).expect("no refusal");
    assert_eq!(rust.ie[(0, 1)].to_bits(), (-0.0f64).to_bits());
    assert_eq!(own.ie[(0, 1)].to_bits(), 0.0f64.to_bits());
    let bits = |m: &Matrix| m.cells.iter().map(|v| v.to_bits()).collect::<Vec<_>>();
    assert_eq!(bits(&rust.w), bits(&own.w));
    assert_eq!(bits(&rust.phi_a), bits(&own.phi_a));
}

/// S by the elimination with pivoting: rows do swap, and forward substitution
/// would give other bits.
#[test]
fn elimination_pivots() {
    let l = rows(&[[1.0, 0.0], [3.0, 0.1]]);
    let inverse = listed_algebra::inverse(&listed_algebra::Plain, &l).expect("no zero pivot");
    // Pivot 3: factor 1/3, then 0 − (1/3) × 0.1 in the last place.
    assert_eq!(inverse[(0, 0)], (0.0 - 0.1 * inverse[(1, 0)]) / 3.0);
    assert!(listed_algebra::inverse(&listed_algebra::Plain, &Matrix::zeros(1, 1)).is_none());
}
