//! Cases made by hand of calls with a table: damaged tables, the order of the
//! refusals, each row at its threshold and alone, the rotation factor's mark, and
//! values at the ends of what a table may hold.

use crate::archive::archive;
use crate::known::{self, example_i, identity_series, kr_bytes, pulltest_series, rows, satt_bytes};
use crate::make_tables::{built_in, outcome};
use crate::marked;
use crate::random::power;
use crate::reader::archive::test_records;
use crate::reader::cutoffs::{Cutoffs, CAP_ROW, ROTATION_ROW, ROWS, TABLE_BYTES};
use crate::reader::table_tries::{above_2, damaged, WAYS};
use crate::reader::table_vectors::{TableCall, TableInput, TABLE_CALLS};
use crate::reader::{Block, SattSeries, Series};
use crate::{known_archive, known_numbers, known_order, known_torn};
use ::reader::random::Random;
use ::reader::vectors::refusal;
use listed_algebra::Matrix;
use TableCall::{Archive, ArchiveTest, KenwardRoger, Satterthwaite};

/// What document 02 says of a case.
#[derive(Debug, Clone, Copy, PartialEq)]
pub enum Expected {
    /// Refused with this number.
    Refused(u32),
    /// Accepted.
    Accepted,
    /// Accepted, with the bytes that the built-in table gives.
    AsBuiltIn,
    /// Accepted, with other bytes.
    Changed,
}
use Expected::*;

/// What it shows, what the call is given, and what comes of it.
pub type KnownTable = (String, TableInput, Expected);

const TABLE: Expected = Refused(14);

/// All cases.
pub fn cases() -> Vec<KnownTable> {
    [
        damaged_tables(),
        bad_values(),
        bad_bytes(),
        lengths(),
        before_the_series(),
        at_thresholds(),
        denominator_alone(),
        ridges(),
        from_an_archive(),
        caps(),
        rotations(),
        marks(),
        ends(),
    ]
    .concat()
}

fn next_up(x: f64) -> f64 {
    f64::from_bits(x.to_bits() + 1)
}

fn next_down(x: f64) -> f64 {
    f64::from_bits(x.to_bits() - 1)
}

/// A table that is not the built-in one, and changes no answer of the small cases.
fn other() -> Cutoffs {
    Cutoffs { near: 1e-3, cap: 2999.0, ..Cutoffs::BUILT_IN }
}

/// A good input of each call: document 01's examples.
fn good(call: TableCall, table: &[u8]) -> TableInput {
    let series = kr_bytes(&pulltest_series());
    match call {
        KenwardRoger | Archive => TableInput::of(call, table, &series),
        Satterthwaite => TableInput::of(call, table, &satt_bytes(&example_i())),
        ArchiveTest => {
            let archive = archive(&series).expect("it is accepted");
            TableInput::test(table, &archive, &test_records(&series))
        }
    }
}

/// The same call with files that are refused: an odd length.
fn bad(call: TableCall, table: &[u8]) -> TableInput {
    TableInput { file: vec![1], tests: Vec::new(), ..good(call, table) }
}

/// Each way of damage, beside a good file and beside a bad one.
fn damaged_tables() -> Vec<KnownTable> {
    let mut out = Vec::new();
    for (i, way) in WAYS.iter().enumerate() {
        let mut random = Random::new(i as u64);
        let table = damaged(&mut random, &Cutoffs::BUILT_IN.to_table(), way);
        for call in [TABLE_CALLS[i % 4], TABLE_CALLS[(i + 1) % 4]] {
            out.push((format!("{way}, a good file"), good(call, &table), TABLE));
        }
        let call = TABLE_CALLS[(i + 2) % 4];
        out.push((format!("{way}, a bad file"), bad(call, &table), TABLE));
    }
    out
}

/// Each row with each value that is none.
fn bad_values() -> Vec<KnownTable> {
    let nan = f64::from_bits(0x7ff0_0000_0000_0001);
    let values = [nan, f64::INFINITY, f64::NEG_INFINITY, 0.0, -0.0, -1e-10, -f64::from_bits(1)];
    let mut out = Vec::new();
    for row in 0..ROWS {
        for (i, value) in values.into_iter().enumerate() {
            let table = Cutoffs::BUILT_IN.with(row, value).to_table();
            let call = TABLE_CALLS[(row + i) % 4];
            out.push((format!("row {row} is {value:?}"), good(call, &table), TABLE));
        }
    }
    for value in [2.0, next_down(2.0), 1.0, power(-1074)] {
        let table = Cutoffs::BUILT_IN.with(CAP_ROW, value).to_table();
        out.push((format!("a cap of {value:?}"), good(Satterthwaite, &table), TABLE));
    }
    out
}

/// Each byte of the first, a middle and the last record that is not the value's.
fn bad_bytes() -> Vec<KnownTable> {
    let mut out = Vec::new();
    for row in [0, 4, 8] {
        for byte in 0..8 {
            let mut table = Cutoffs::BUILT_IN.to_table();
            table[16 * row + byte] ^= if byte % 2 == 0 { 1 } else { 128 };
            let call = TABLE_CALLS[byte % 4];
            out.push((format!("byte {byte} of record {row}"), good(call, &table), TABLE));
        }
    }
    out
}

/// Tables of other lengths that begin as one.
fn lengths() -> Vec<KnownTable> {
    let table = Cutoffs::BUILT_IN.to_table();
    let long = [&table[..], &table].concat();
    let lengths = [0, 1, 15, 16, 128, TABLE_BYTES - 1, TABLE_BYTES + 1, 160, 2 * TABLE_BYTES];
    let case = |length: usize| {
        let call = TABLE_CALLS[length % 4];
        (format!("{length} bytes"), good(call, &long[..length]), TABLE)
    };
    lengths.into_iter().map(case).collect()
}

/// The first known file of each refusal of a call.
fn refused_files(cases: &[known::Known], numbers: &[u32]) -> Vec<(u32, Vec<u8>)> {
    let first = |number: &u32| {
        let case = cases.iter().find(|(_, _, start)| refusal(start) == Some(*number));
        (*number, case.unwrap_or_else(|| panic!("no known file with {number}")).1.clone())
    };
    numbers.iter().map(first).collect()
}

/// 14 comes before every refusal of a series, an archive or a second file; with a
/// good table, not the built-in one, each of these comes as before.
fn before_the_series() -> Vec<KnownTable> {
    let mut inputs = Vec::new();
    let kr = [
        known::kenward_roger(),
        known_order::kenward_roger(),
        known_torn::kenward_roger(),
        known_numbers::kenward_roger(),
    ]
    .concat();
    for (number, file) in refused_files(&kr, &[2, 12, 13, 3, 4, 5, 6, 7, 8, 9, 10]) {
        inputs.push((number, TableInput::of(KenwardRoger, &[], &file)));
    }
    let late = kr.iter().find(|c| c.0 == "P/sigma2 past the range").expect("a known case");
    inputs.push((4, TableInput::of(KenwardRoger, &[], &late.1)));
    let writer = [known_archive::series(), kr].concat();
    for (number, file) in refused_files(&writer, &[2, 12, 13, 3, 4, 5, 6, 7, 8, 9, 10]) {
        // What only a test refuses is archived.
        let refused = outcome(&TableInput::of(Archive, &built_in(), &file)).number;
        if refused == number {
            inputs.push((number, TableInput::of(Archive, &[], &file)));
        }
    }
    let satt = [known::satterthwaite(), known_order::satterthwaite()].concat();
    for (number, file) in refused_files(&satt, &[2, 12, 4, 11]) {
        inputs.push((number, TableInput::of(Satterthwaite, &[], &file)));
    }
    for number in [2, 12, 4, 5, 8, 10] {
        let pairs = known_archive::pairs();
        let case = pairs.iter().find(|(.., start)| refusal(start) == Some(number));
        let (_, archive, tests, _) = case.expect("a known pair of each refusal");
        inputs.push((number, TableInput::test(&[], archive, tests)));
    }
    let (good_table, bad_table) = (other().to_table(), other().with(5, 0.0).to_table());
    let both = |(number, input): (u32, TableInput)| {
        let name = format!("{} refused {number}", input.call.letter());
        let before = (format!("{name}, a bad table"), input.with_table(&bad_table), TABLE);
        [(name, input.with_table(&good_table), Refused(number)), before]
    };
    inputs.into_iter().flat_map(both).collect()
}

/// Two coefficients without random effects, tested together: Φ = diag(1/2, 1/8), so
/// that the scaling is not 1 and no number of the test is zero.
fn uneven() -> Series {
    identity_series(rows(&[[0.5, 0.0], [0.0, 0.125]]))
}

/// The same with |V0| and |V1| smaller than |V2|.
fn far() -> Series {
    identity_series(rows(&[[1.5, 0.0], [0.0, 0.5]]))
}

/// The same with |V1|, 0.35, smaller than |V0|, 0.70, and |V2|, 1.40.
fn small_v1() -> Series {
    identity_series(rows(&[[1.0, 0.0], [0.0, 0.125]]))
}

/// The same with |d| smaller than |a2|.
fn small_d() -> Series {
    identity_series(rows(&[[1.0, 0.85], [-0.85, 1.0]]))
}

/// Two specimens, each a group of its own: both Gs are the identity, and IE has four
/// equal cells.
fn equal_cells() -> Series {
    Series {
        z: Matrix::identity(2),
        blocks: vec![Block { m: 2, k: 1 }],
        theta: vec![0.0],
        ..pulltest_series()
    }
}

/// A row at a number that it is compared with, and one digit to each side. At which
/// of the three the answer is another one follows from the comparison.
fn threshold(
    name: &str,
    row: usize,
    at: f64,
    series: &Series,
    expected: [Expected; 3],
) -> Vec<KnownTable> {
    let values = [next_down(at), at, next_up(at)];
    let words = ["below", "at", "above"];
    let case = |i: usize| {
        let table = Cutoffs::BUILT_IN.with(row, values[i]).to_table();
        let input = TableInput::of(KenwardRoger, &table, &kr_bytes(series));
        (format!("{} {name}", words[i]), input, expected[i])
    };
    (0..3).map(case).collect()
}

/// The comparisons of the Kenward–Roger call, each at the number that it compares.
fn at_thresholds() -> Vec<KnownTable> {
    let parts = |series: &Series| {
        let run = marked::kenward_roger_run(&Cutoffs::BUILT_IN, series).expect("it is accepted");
        let (_, moments) = run.contrast.expect("a contrast");
        (moments.a2, marked::parts(&Cutoffs::BUILT_IN, moments.a1, moments.a2, 2.0))
    };
    let series = uneven();
    let (a2, p) = parts(&series);
    let (_, d) = parts(&small_d());
    let (_, v) = parts(&far());
    // x > cutoff holds below alone; x < cutoff holds above alone.
    let (greater, less) = ([AsBuiltIn, Changed, Changed], [AsBuiltIn, AsBuiltIn, Changed]);
    [
        threshold("a2", 0, a2.abs(), &series, greater),
        threshold("d", 0, d.d.abs(), &small_d(), greater),
        threshold("V0", 1, v.v[0].abs(), &far(), less),
        threshold("V2", 1, p.v[2].abs(), &series, less),
        threshold("the denominator V1", 2, v.v[1].abs(), &far(), less),
        threshold("the denominator V2", 2, p.v[2].abs(), &series, less),
        threshold("qρ-1", 3, p.excess.abs(), &series, greater),
        threshold("df-2", 4, (p.df - 2.0).abs(), &series, less),
        // IE is one cell, (1 - 1/2)² + (1 - 1/8)².
        threshold("IE's eigenvalue", 5, 1.015625, &series, greater),
        threshold("IE's eigenvalue, 1", 5, 1.0, &pulltest_series(), greater),
    ]
    .concat()
}

/// V1 becomes 0 by no row, and is a denominator alone: row 1 passes it over.
fn denominator_alone() -> Vec<KnownTable> {
    let file = kr_bytes(&small_v1());
    let case = |(row, expected): (usize, Expected)| {
        let table = Cutoffs::BUILT_IN.with(row, 0.5).to_table();
        (format!("V1 below row {row}"), TableInput::of(KenwardRoger, &table, &file), expected)
    };
    [(1, AsBuiltIn), (2, Changed)].map(case).to_vec()
}

/// What joins IE's diagonal: where row 5 asks for it, where it does not, and in example
/// (k), which has it by itself.
fn ridges() -> Vec<KnownTable> {
    let (series, k) = (kr_bytes(&uneven()), kr_bytes(&known::example_k()));
    let mut out = Vec::new();
    for (name, ridge) in [("ridge 1", 1.0), ("ridge 2^-60", power(-60)), ("ridge 1e300", 1e300)] {
        let raised = Cutoffs { eigenvalue: 2.0, ridge, ..Cutoffs::BUILT_IN }.to_table();
        let alone = Cutoffs::BUILT_IN.with(6, ridge).to_table();
        for call in [KenwardRoger, Archive] {
            out.push((name.to_string(), TableInput::of(call, &raised, &series), Accepted));
            let input = TableInput::of(call, &alone, &series);
            out.push((format!("{name}, not reached"), input, AsBuiltIn));
            let expected = if call == Archive { Changed } else { Accepted };
            let input = TableInput::of(call, &alone, &k);
            out.push((format!("{name}, example (k)"), input, expected));
        }
    }
    out
}

/// The test from an archive has the rows 0 to 4 too.
fn from_an_archive() -> Vec<KnownTable> {
    let series = kr_bytes(&uneven());
    let file = archive(&series).expect("it is accepted");
    let case = |(row, value): (usize, f64)| {
        let table = Cutoffs::BUILT_IN.with(row, value).to_table();
        let input = TableInput::test(&table, &file, &test_records(&series));
        (format!("row {row} of a test from an archive"), input, Changed)
    };
    [(0, 0.75), (1, 0.75), (2, 0.75), (3, 1.0), (4, 7.0)].map(case).to_vec()
}

/// Components of 8192 df, as example (j), or of others, with a cap beside them.
fn caps() -> Vec<KnownTable> {
    let of = |a: f64| SattSeries { a: rows(&[[a]]), ..example_i() };
    let file = satt_bytes(&of(power(-12)));
    let mut out = Vec::new();
    for (cap, expected) in [
        (next_up(3000.0), Changed),
        (next_down(3000.0), Changed),
        (next_down(8192.0), Changed),
        (8192.0, Changed),
        (next_up(8192.0), Changed),
        (f64::MAX, Changed),
        (above_2(), Changed),
        (2.5, Changed),
    ] {
        let table = Cutoffs::BUILT_IN.with(CAP_ROW, cap).to_table();
        let input = TableInput::of(Satterthwaite, &table, &file);
        out.push((format!("cap {cap:?} of 8192"), input, expected));
    }
    // One row has no cap; components of 4, 2 and 1 df.
    let one_row = SattSeries { contrast: rows(&[[1.0, 0.0]]), ..of(power(-12)) };
    let at_2 = Cutoffs::BUILT_IN.with(CAP_ROW, above_2()).to_table();
    let one = TableInput::of(Satterthwaite, &at_2, &satt_bytes(&one_row));
    out.push(("one row has no cap".to_string(), one, AsBuiltIn));
    for (a, expected) in [(0.5, Changed), (1.0, AsBuiltIn), (2.0, AsBuiltIn)] {
        let input = TableInput::of(Satterthwaite, &at_2, &satt_bytes(&of(a)));
        out.push((format!("cap just above 2, df {}", 2.0 / a), input, expected));
    }
    // Two components apart: 8 and 32.
    let jacobian = rows(&[[4.0, 0.0], [0.0, power(-1)]]);
    let apart = SattSeries { jacobians: vec![jacobian], ..of(0.25) };
    for cap in [above_2(), 2.5, 8.0, 20.0, 31.0, 32.0] {
        let table = Cutoffs::BUILT_IN.with(CAP_ROW, cap).to_table();
        let input = TableInput::of(Satterthwaite, &table, &satt_bytes(&apart));
        let expected = if cap < 32.0 { Changed } else { AsBuiltIn };
        out.push((format!("cap {cap:?} of 8 and 32"), input, expected));
    }
    out
}

/// v with equal diagonals and a cell beside them.
fn beside(diagonal: f64, cell: f64) -> SattSeries {
    let v = rows(&[[diagonal, cell], [cell, diagonal]]);
    SattSeries { jacobians: vec![rows(&[[1.0, 0.5], [0.5, 3.0]])], v, ..example_i() }
}

/// The factor at the number that a rotation test compares, in both Jacobis.
fn rotations() -> Vec<KnownTable> {
    let mut out = Vec::new();
    let satt = satt_bytes(&beside(2.0, 1.0));
    // A_ab² = 1 > factor × 4.
    for (factor, expected) in
        [(next_down(0.25), AsBuiltIn), (0.25, Changed), (next_up(0.25), Changed), (1.0, Changed)]
    {
        let table = Cutoffs::BUILT_IN.with(ROTATION_ROW, factor).to_table();
        let input = TableInput::of(Satterthwaite, &table, &satt);
        out.push((format!("factor {factor:?} of V"), input, expected));
    }
    // Four equal cells: without a rotation no eigenvalue is small, and the inverse
    // has a zero pivot.
    let series = kr_bytes(&equal_cells());
    for (factor, expected) in [
        (next_down(1.0), AsBuiltIn),
        (1.0, Refused(10)),
        (next_up(1.0), Refused(10)),
        (f64::MAX, Refused(10)),
        (power(-1074), AsBuiltIn),
    ] {
        let table = Cutoffs::BUILT_IN.with(ROTATION_ROW, factor).to_table();
        for call in [KenwardRoger, Archive] {
            let input = TableInput::of(call, &table, &series);
            out.push((format!("factor {factor:?} of IE"), input, expected));
        }
    }
    out
}

/// A factor, and a diagonal of V with which the product is lost; below the range; in the
/// range; below it; in the range; above it; infinite.
fn products() -> [(f64, f64); 7] {
    [
        (power(-800), power(-150)),
        (power(-800), power(-1)),
        (power(-790), power(-5)),
        (power(-791), power(-5)),
        (power(790), power(5)),
        (power(791), power(5)),
        (power(800), power(300)),
    ]
}

/// The factor as an operand of marked steps: at the ends of the mark's range, with a
/// V that is diagonal and so has no rotation test, and with one that is not. The last
/// ones lose the product, or leave the range by it.
fn marks() -> Vec<KnownTable> {
    let ends = [
        power(-1074),
        power(-1022),
        power(-801),
        next_down(power(-800)),
        power(-800),
        power(800),
        next_down(power(801)),
        power(801),
        f64::MAX,
    ];
    let mut out = Vec::new();
    let mut put = |name: String, factor: f64, series: &SattSeries, expected: Expected| {
        let table = Cutoffs::BUILT_IN.with(ROTATION_ROW, factor).to_table();
        out.push((name, TableInput::of(Satterthwaite, &table, &satt_bytes(series)), expected));
    };
    for factor in ends {
        put(format!("{factor:e}, V diagonal"), factor, &example_i(), AsBuiltIn);
        put(format!("{factor:e}, V not"), factor, &beside(1.0, 0.5), marked_so(factor));
        let one = SattSeries { contrast: rows(&[[1.0, 0.5]]), ..beside(1.0, 0.5) };
        put(format!("{factor:e}, one row"), factor, &one, AsBuiltIn);
    }
    for (factor, diagonal) in products() {
        let series = beside(diagonal, diagonal / 4.0);
        put(format!("{factor:e} and {diagonal:e}"), factor, &series, Accepted);
    }
    out.extend(unmarked());
    out
}

/// No mark of the other call: IE's rotation test is not marked.
fn unmarked() -> Vec<KnownTable> {
    let mut out = Vec::new();
    for factor in [power(-1074), f64::MAX] {
        let table = Cutoffs::BUILT_IN.with(ROTATION_ROW, factor).to_table();
        for series in [uneven(), pulltest_series()] {
            let input = TableInput::of(KenwardRoger, &table, &kr_bytes(&series));
            out.push((format!("{factor:e} without marks"), input, AsBuiltIn));
        }
    }
    out
}

/// V has the diagonal 1, so the product is the factor itself. A large factor makes
/// no rotation, which changes F; a small one outside the range changes the mark.
fn marked_so(factor: f64) -> Expected {
    let inside = factor >= power(-800) && factor < power(801);
    if inside && factor < 0.25 {
        AsBuiltIn
    } else {
        Changed
    }
}

/// All rows at the smallest and at the largest number, and one of each row.
fn ends() -> Vec<KnownTable> {
    let mut out = Vec::new();
    let smallest = Cutoffs::from_values([power(-1074); ROWS]).with(CAP_ROW, above_2());
    let largest = Cutoffs::from_values([f64::MAX; ROWS]);
    let normal = Cutoffs::from_values([f64::MIN_POSITIVE; ROWS]).with(CAP_ROW, 3.0);
    let series = [uneven(), small_d(), known::example_k(), equal_cells()].map(|s| kr_bytes(&s));
    for (name, cutoffs) in [("smallest", smallest), ("largest", largest), ("normal", normal)] {
        let table = cutoffs.to_table();
        for file in &series {
            for call in [KenwardRoger, Archive] {
                let input = TableInput::of(call, &table, file);
                let number = outcome(&input).number;
                let refused = call.written(number).is_none();
                let expected = if refused { Refused(number) } else { Accepted };
                out.push((format!("all {name}"), input, expected));
            }
        }
        for file in [example_i(), beside(1.0, 0.5), beside(2.0, 1.0)] {
            let input = TableInput::of(Satterthwaite, &table, &satt_bytes(&file));
            out.push((format!("all {name}"), input, Accepted));
        }
        out.push((format!("all {name}"), good(ArchiveTest, &table), Accepted));
    }
    for row in 0..ROWS {
        let small = if row == CAP_ROW { above_2() } else { power(-1074) };
        for value in [small, f64::MAX] {
            let table = Cutoffs::BUILT_IN.with(row, value).to_table();
            let name = format!("row {row} alone at {value:e}");
            out.push((name, TableInput::of(KenwardRoger, &table, &series[0]), Accepted));
        }
    }
    out
}
