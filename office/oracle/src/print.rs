//! What the programs `pulltest` and `pullseason` print, and more for the `bits`
//! command; and what the program `table_packing` prints.

use crate::archive::{archive_test_with, archive_with};
use crate::calls::{
    both_runs, kenward_roger_with, satterthwaite_with, series_to_run, BothRuns, Entries,
};
use crate::kr_vcov_adj::reach::packed;
use crate::marked::{Entry, Moments};
use crate::reader::archive::test_records;
use crate::reader::cutoffs::Cutoffs;
use crate::reader::{season, Refusal};
use ::reader::vectors::hex;
use listed_algebra::Matrix;

fn bits(x: Option<f64>) -> String {
    x.map_or("none".to_string(), |v| format!("{:016x}", v.to_bits()))
}

fn fields(e: &Entry) -> String {
    let mark = if e.inside { "inside" } else { "outside" };
    format!("rank {} F {} df {} {mark}\n", e.rank, bits(e.f), bits(e.df))
}

fn refused(number: Refusal) -> String {
    format!("refused {number}\n")
}

fn lines(entries: &Entries) -> String {
    let mut out = String::new();
    for (i, e) in entries[..6].iter().enumerate() {
        if let Some(e) = e {
            out += &format!("coef {i} {}", fields(e));
        }
    }
    if let Some(e) = &entries[6] {
        out += &format!("test {}", fields(e));
    }
    out
}

/// The output of `pulltest` for a file.
pub fn pulltest(bytes: &[u8]) -> String {
    pulltest_with(&Cutoffs::BUILT_IN, bytes)
}

/// The same with a lab's own cutoffs, and so each of these.
pub fn pulltest_with(cutoffs: &Cutoffs, bytes: &[u8]) -> String {
    kenward_roger_with(cutoffs, bytes).map_or_else(refused, |entries| lines(&entries))
}

/// The output of `pullseason` for a season's file.
pub fn pullseason(bytes: &[u8]) -> String {
    pullseason_with(&Cutoffs::BUILT_IN, bytes)
}

pub fn pullseason_with(cutoffs: &Cutoffs, bytes: &[u8]) -> String {
    season::printed(bytes, |series| pulltest_with(cutoffs, series))
}

/// The same form for the Satterthwaite call: one `test` line.
pub fn satterthwaite_line(bytes: &[u8]) -> String {
    satterthwaite_line_with(&Cutoffs::BUILT_IN, bytes)
}

pub fn satterthwaite_line_with(cutoffs: &Cutoffs, bytes: &[u8]) -> String {
    satterthwaite_with(cutoffs, bytes).map_or_else(refused, |e| format!("test {}", fields(&e)))
}

/// The same form for the test from an archive.
pub fn archive_test_lines(archive: &[u8], tests: &[u8]) -> String {
    archive_test_lines_with(&Cutoffs::BUILT_IN, archive, tests)
}

pub fn archive_test_lines_with(cutoffs: &Cutoffs, archive: &[u8], tests: &[u8]) -> String {
    let entries = archive_test_with(cutoffs, archive, tests);
    entries.map_or_else(refused, |entries| lines(&entries))
}

/// A series' archive, and the lines of the test from it with the series' own
/// records of the kinds 8 to 10.
pub fn archive_lines(bytes: &[u8]) -> String {
    archive_lines_with(&Cutoffs::BUILT_IN, bytes)
}

pub fn archive_lines_with(cutoffs: &Cutoffs, bytes: &[u8]) -> String {
    archive_with(cutoffs, bytes).map_or_else(refused, |file| {
        let tests = archive_test_lines_with(cutoffs, &file, &test_records(bytes));
        format!("archive {}\n{tests}", hex(&file))
    })
}

fn matrix(name: &str, m: &Matrix) -> String {
    let mut out = String::new();
    for i in 0..m.rows {
        let row: Vec<String> = m.row(i).iter().map(|&v| bits(Some(v))).collect();
        out += &format!("{name} row {i} {}\n", row.join(" "));
    }
    out
}

fn moments(name: &str, m: &Moments) -> String {
    let plain = |v: f64| if v.is_nan() { "nan".to_string() } else { bits(Some(v)) };
    format!("{name} a1 {} a2 {}\n", plain(m.a1), plain(m.a2))
}

/// `pulltest`'s lines and the numbers behind them.
pub fn bits_report(bytes: &[u8]) -> String {
    bits_report_with(&Cutoffs::BUILT_IN, bytes)
}

pub fn bits_report_with(cutoffs: &Cutoffs, bytes: &[u8]) -> String {
    let run = |s| both_runs(cutoffs, &s).unwrap_or_else(|text| panic!("{text}"));
    let runs = series_to_run(bytes).and_then(run);
    match runs {
        Err(number) => refused(number),
        Ok(runs) => lines(&runs.entries()) + &numbers(&runs),
    }
}

fn numbers(runs: &BothRuns) -> String {
    let a = &runs.rust.adjusted;
    let mut out = String::from("-- in residual units, by lme-rs\n");
    out += &matrix("PhiA", &a.phi_a);
    for (i, p) in a.p.iter().enumerate() {
        out += &matrix(&format!("P {i}"), p);
    }
    out += &matrix("IE", &a.ie);
    out += &matrix("W", &a.w);
    out += &format!("rotations {}\n", a.rotations);
    out += "-- scaled by sigma2, by lme-rs\n";
    out += &matrix("Phi", &a.scaled_phi);
    out += &matrix("PhiA", &a.scaled_phi_a);
    for (i, p) in a.scaled_p.iter().enumerate() {
        out += &matrix(&format!("P {i}"), p);
    }
    out += "-- by the marked run (locals of lme-rs, not to be had from it)\n";
    for (i, (_, m)) in runs.marked.coefficients.iter().enumerate() {
        out += &moments(&format!("coef {i}"), m);
    }
    if let Some((_, m)) = &runs.marked.contrast {
        out += &moments("test", m);
    }
    out
}

/// lme-rs's place of each ordered pair of indices, for one to four matrices: a
/// line has the number of matrices, the pair and its place.
pub fn places() -> String {
    let mut out = String::new();
    for n in 1..=4 {
        for (r, s) in (0..n).flat_map(|r| (0..n).map(move |s| (r, s))) {
            out += &format!("{n} {r} {s} {}\n", packed(r, s, n));
        }
    }
    out
}
