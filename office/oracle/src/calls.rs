//! The Kenward–Roger and the Satterthwaite call on bytes: lme-rs's F, df and
//! rank, and the mark of the marked run. The two runs must agree in everything
//! that both have; if they do not, the oracle stops, since then one of them is
//! wrong. The archive's two calls are in `archive`.
//!
//! A file becomes the series that is run in one place, `series_to_run`. Each call has
//! a form with a table; the one without a table is the same with the built-in one.

use crate::lme_run::{self, same, Verdict, Verdicts};
use crate::marked::{self, Entry, Tested};
use crate::reader::cutoffs::Cutoffs;
use crate::reader::{read, read_satterthwaite, Refusal, Series};
use crate::trace::hit_if;
use listed_algebra::Matrix;

pub const KR_ANSWER: usize = 168;
pub const ENTRY: usize = 24;

/// Entries 0 to 5 are the coefficients, 6 is the contrast; unused: `None`.
pub type Entries = [Option<Entry>; 7];

fn none_is_nan(x: Option<f64>) -> f64 {
    x.unwrap_or(f64::NAN)
}

/// Why the two verdicts differ, if they do.
fn verdicts_differ(rust: &Verdict, marked: &Entry) -> bool {
    !same(rust.f, none_is_nan(marked.f))
        || !same(rust.df, none_is_nan(marked.df))
        || rust.rank != marked.rank
}

/// Equal bits in every cell; zeros of either sign count as equal, as no verdict shows it
/// (docs/DIFFERENCES.md, "Sums that start at -0 in the Rust").
pub(crate) fn cells_agree(a: &Matrix, b: &Matrix) -> bool {
    let like = |x: f64, y: f64| same(x, y) || (x == 0.0 && y == 0.0);
    let pairs = || a.cells.iter().zip(&b.cells);
    a.cells.len() == b.cells.len() && pairs().all(|(&x, &y)| like(x, y))
}

/// Notes zeros of another sign.
fn note_zeros(name: &'static str, a: &Matrix, b: &Matrix) {
    let mut pairs = a.cells.iter().zip(&b.cells);
    hit_if(pairs.any(|(x, y)| *x == 0.0 && x.to_bits() != y.to_bits()), name);
}

/// Both runs of an accepted file.
pub struct BothRuns {
    pub rust: lme_run::Run,
    pub marked: marked::Run,
}

/// Runs both on a series; `Err` of text where they disagree.
pub fn both_runs(cutoffs: &Cutoffs, series: &Series) -> Result<Result<BothRuns, Refusal>, String> {
    let rust = lme_run::kenward_roger_run(cutoffs, series);
    match (rust, marked::kenward_roger_run(cutoffs, series)) {
        (Ok(rust), Ok(marked)) => {
            compare_runs(&rust, &marked)?;
            Ok(Ok(BothRuns { rust, marked }))
        }
        (Err(a), Err(b)) if a == b => Ok(Err(a)),
        (a, b) => Err(format!("refusals differ: lme-rs {:?}, marked {:?}", a.err(), b.err())),
    }
}

fn need(holds: bool, what: &str) -> Result<(), String> {
    if holds {
        Ok(())
    } else {
        Err(format!("{what} differ"))
    }
}

/// The adjustments of both runs, in residual units and scaled.
pub(crate) fn compare_adjustments(
    r: &lme_run::Adjusted,
    m: &marked::Adjustment,
    scaled: &marked::Scaled,
) -> Result<(), String> {
    need(r.rotations == m.rotations, "rotations")?;
    need(cells_agree(&r.ie, &m.ie), "IE")?;
    need(cells_agree(&r.w, &m.w), "W")?;
    need(cells_agree(&r.phi_a, &m.phi_a), "Φ_A")?;
    need(r.p.iter().zip(&m.p).all(|(a, b)| cells_agree(a, b)), "P")?;
    need(cells_agree(&r.scaled_phi, &scaled.phi), "scaled Φ")?;
    need(cells_agree(&r.scaled_phi_a, &scaled.phi_a), "scaled Φ_A")?;
    need(r.scaled_p.iter().zip(&scaled.p).all(|(a, b)| cells_agree(a, b)), "scaled P")?;
    note_zeros("zero of another sign in IE", &r.ie, &m.ie);
    note_zeros("zero of another sign in W", &r.w, &m.w);
    note_zeros("zero of another sign in Φ_A", &r.phi_a, &m.phi_a);
    r.p.iter().zip(&m.p).for_each(|(a, b)| note_zeros("zero of another sign in P", a, b));
    Ok(())
}

/// The verdicts of both runs.
fn compare_verdicts(
    coefficients: (&[Verdict], &[(Entry, marked::Moments)]),
    contrast: (&Option<Verdict>, &Option<(Entry, marked::Moments)>),
) -> Result<(), String> {
    for (i, (a, (b, _))) in coefficients.0.iter().zip(coefficients.1).enumerate() {
        need(!verdicts_differ(a, b), &format!("verdicts of coefficient {i} ({a:?}, {b:?})"))?;
    }
    match contrast {
        (Some(a), Some((b, _))) => {
            need(!verdicts_differ(a, b), &format!("verdicts of the contrast ({a:?}, {b:?})"))
        }
        (None, None) => Ok(()),
        _ => Err("one run has no contrast".to_string()),
    }
}

fn compare_runs(rust: &lme_run::Run, marked: &marked::Run) -> Result<(), String> {
    compare_adjustments(&rust.adjusted, &marked.adjustment, &marked.scaled)?;
    let coefficients = (&rust.coefficients[..], &marked.coefficients[..]);
    compare_verdicts(coefficients, (&rust.contrast, &marked.contrast))
}

/// lme-rs's verdict with the marked run's mark.
fn entry(rust: &Verdict, marked: &Entry) -> Entry {
    let given = |x: f64| if x.is_nan() { None } else { Some(x) };
    Entry { f: given(rust.f), df: given(rust.df), rank: rust.rank, inside: marked.inside }
}

/// The entries of verdicts and marks, one by one.
fn entries_of(
    coefficients: (&[Verdict], &[(Entry, marked::Moments)]),
    contrast: (&Option<Verdict>, &Option<(Entry, marked::Moments)>),
) -> Entries {
    let mut out = [None; 7];
    for (i, (a, (b, _))) in coefficients.0.iter().zip(coefficients.1).enumerate() {
        out[i] = Some(entry(a, b));
    }
    if let (Some(a), Some((b, _))) = contrast {
        out[6] = Some(entry(a, b));
    }
    out
}

impl BothRuns {
    pub fn entries(&self) -> Entries {
        entries_of(
            (&self.rust.coefficients, &self.marked.coefficients),
            (&self.rust.contrast, &self.marked.contrast),
        )
    }
}

/// The entries of tests that both have made; text where they disagree.
pub(crate) fn entries_of_both(
    rust: Result<Verdicts, Refusal>,
    marked: Result<Tested, Refusal>,
) -> Result<Result<Entries, Refusal>, String> {
    match (rust, marked) {
        (Ok(rust), Ok(marked)) => {
            let (coefficients, contrast) = ((&rust.0[..], &marked.0[..]), (&rust.1, &marked.1));
            compare_verdicts(coefficients, contrast)?;
            Ok(Ok(entries_of(coefficients, contrast)))
        }
        (Err(a), Err(b)) if a == b => Ok(Err(a)),
        (a, b) => Err(format!("refusals differ: lme-rs {:?}, marked {:?}", a.err(), b.err())),
    }
}

/// The series of a file as lme-rs and the marked run are given it: without its
/// torn specimens, which both then know nothing of.
pub fn series_to_run(bytes: &[u8]) -> Result<Series, Refusal> {
    read(bytes).map(Series::without_torn)
}

/// The Kenward–Roger call.
pub fn kenward_roger(bytes: &[u8]) -> Result<Entries, Refusal> {
    kenward_roger_with(&Cutoffs::BUILT_IN, bytes)
}

pub fn kenward_roger_with(cutoffs: &Cutoffs, bytes: &[u8]) -> Result<Entries, Refusal> {
    let series = series_to_run(bytes)?;
    let runs = both_runs(cutoffs, &series).unwrap_or_else(|text| panic!("{text}"));
    runs.map(|runs| runs.entries())
}

/// The Satterthwaite call.
pub fn satterthwaite(bytes: &[u8]) -> Result<Entry, Refusal> {
    satterthwaite_with(&Cutoffs::BUILT_IN, bytes)
}

pub fn satterthwaite_with(cutoffs: &Cutoffs, bytes: &[u8]) -> Result<Entry, Refusal> {
    let series = read_satterthwaite(bytes)?;
    let rust = lme_run::satterthwaite_test(cutoffs, &series);
    match (rust, marked::satterthwaite_test(cutoffs, &series)) {
        (Ok(a), Ok(b)) => {
            assert!(!verdicts_differ(&a, &b), "verdicts differ ({a:?}, {b:?})");
            Ok(entry(&a, &b))
        }
        (Err(a), Err(b)) if a == b => Err(a),
        (a, b) => panic!("refusals differ: lme-rs {a:?}, marked {b:?}"),
    }
}

/// The 24 bytes of one entry: F bits, df bits (none: 0), rank, F given, df
/// given, inside, four zeros.
pub fn entry_bytes(entry: &Option<Entry>) -> [u8; ENTRY] {
    let mut out = [0; ENTRY];
    let Some(e) = entry else {
        return out;
    };
    out[0..8].copy_from_slice(&e.f.map_or(0, f64::to_bits).to_le_bytes());
    out[8..16].copy_from_slice(&e.df.map_or(0, f64::to_bits).to_le_bytes());
    out[16] = e.rank;
    out[17] = e.f.is_some().into();
    out[18] = e.df.is_some().into();
    out[19] = e.inside.into();
    out
}

/// As the C function of the Kenward–Roger call: the number, and the answer
/// bytes where it is 0.
pub fn kenward_roger_fill(bytes: &[u8], answer: &mut [u8]) -> Refusal {
    kenward_roger_with_fill(&Cutoffs::BUILT_IN.to_table(), bytes, answer)
}

/// The same with a table: 1, then 14, then all else.
pub fn kenward_roger_with_fill(table: &[u8], bytes: &[u8], answer: &mut [u8]) -> Refusal {
    if answer.len() != KR_ANSWER {
        return 1;
    }
    fill(Cutoffs::read(table).and_then(|c| kenward_roger_with(&c, bytes)), answer)
}

/// The number, and the 168 answer bytes where it is 0.
pub(crate) fn fill(entries: Result<Entries, Refusal>, answer: &mut [u8]) -> Refusal {
    match entries {
        Err(number) => number,
        Ok(entries) => {
            for (i, e) in entries.iter().enumerate() {
                answer[i * ENTRY..(i + 1) * ENTRY].copy_from_slice(&entry_bytes(e));
            }
            0
        }
    }
}

/// As the C function of the Satterthwaite call.
pub fn satterthwaite_fill(bytes: &[u8], answer: &mut [u8]) -> Refusal {
    satterthwaite_with_fill(&Cutoffs::BUILT_IN.to_table(), bytes, answer)
}

/// The same with a table: 1, then 14, then all else.
pub fn satterthwaite_with_fill(table: &[u8], bytes: &[u8], answer: &mut [u8]) -> Refusal {
    if answer.len() != ENTRY {
        return 1;
    }
    match Cutoffs::read(table).and_then(|c| satterthwaite_with(&c, bytes)) {
        Err(number) => number,
        Ok(e) => {
            answer.copy_from_slice(&entry_bytes(&Some(e)));
            0
        }
    }
}
