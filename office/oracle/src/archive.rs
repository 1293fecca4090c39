//! The archive's two calls on bytes.
//!
//! The matrices are those of lme-rs's adjustment, in residual units; Φ, Φ_A and
//! P come to response units by one f64 operation for each cell. The test is
//! lme-rs's on these matrices, with the mark of the marked run, which scales
//! them again by marked steps.

use crate::calls::{self, series_to_run, Entries, KR_ANSWER};
use crate::reader::archive::{read_both, Archive, LENT};
use crate::reader::cutoffs::Cutoffs;
use crate::reader::{Refusal, Series};
use crate::{lme_run, marked};
use listed_algebra::Matrix;

/// lme-rs's cells, a zero with the sign that document 01's sums give it: lme-rs
/// starts some at -0 (docs/DIFFERENCES.md), and an archive shows the sign.
fn zeros_by_document(rust: &Matrix, own: &Matrix) -> Matrix {
    rust.with(own, |a, b| if a == 0.0 { b } else { a })
}

/// The adjusted matrices of a series; text where the two runs disagree.
pub fn adjusted(cutoffs: &Cutoffs, series: &Series) -> Result<Result<Archive, Refusal>, String> {
    match (lme_run::adjust(cutoffs, series), marked::adjusted(cutoffs, series)) {
        (Ok(rust), Ok((own, scaled))) => {
            calls::compare_adjustments(&rust, &own, &scaled)?;
            let p = rust.p.iter().zip(&own.p).map(|(a, b)| zeros_by_document(a, b));
            Ok(Ok(Archive {
                phi: series.phi.clone(),
                phi_a: zeros_by_document(&rust.phi_a, &own.phi_a),
                p: p.collect(),
                w: zeros_by_document(&rust.w, &own.w),
                sigma2: series.sigma2,
            }))
        }
        (Err(a), Err(b)) if a == b => Ok(Err(a)),
        (a, b) => Err(format!("refusals differ: lme-rs {:?}, marked {:?}", a.err(), b.err())),
    }
}

/// The writer: no test is run.
pub fn archive(bytes: &[u8]) -> Result<Vec<u8>, Refusal> {
    archive_with(&Cutoffs::BUILT_IN, bytes)
}

pub fn archive_with(cutoffs: &Cutoffs, bytes: &[u8]) -> Result<Vec<u8>, Refusal> {
    let series = series_to_run(bytes)?;
    let archive = adjusted(cutoffs, &series).unwrap_or_else(|text| panic!("{text}"))?;
    Ok(archive.to_bytes())
}

/// The test from an archive.
pub fn archive_test(archive: &[u8], tests: &[u8]) -> Result<Entries, Refusal> {
    archive_test_with(&Cutoffs::BUILT_IN, archive, tests)
}

pub fn archive_test_with(
    cutoffs: &Cutoffs,
    archive: &[u8],
    tests: &[u8],
) -> Result<Entries, Refusal> {
    let (archive, tests) = read_both(archive, tests)?;
    let rust = lme_run::archive_tests(cutoffs, &archive, &tests);
    let marked = marked::archive_tests(cutoffs, &archive, &tests);
    calls::entries_of_both(rust, marked).unwrap_or_else(|text| panic!("{text}"))
}

/// As the C function of the writer: the file's length with the file at the front
/// of the lent bytes, or the number of a refusal.
pub fn archive_fill(bytes: &[u8], lent: &mut [u8]) -> u32 {
    archive_with_fill(&Cutoffs::BUILT_IN.to_table(), bytes, lent)
}

/// The same with a table: 1, then 14, then all else.
pub fn archive_with_fill(table: &[u8], bytes: &[u8], lent: &mut [u8]) -> u32 {
    if lent.len() != LENT {
        return 1;
    }
    match Cutoffs::read(table).and_then(|c| archive_with(&c, bytes)) {
        Err(number) => number,
        Ok(file) => {
            lent[..file.len()].copy_from_slice(&file);
            file.len() as u32
        }
    }
}

/// As the C function of the archive's test.
pub fn archive_test_fill(archive: &[u8], tests: &[u8], answer: &mut [u8]) -> Refusal {
    archive_test_with_fill(&Cutoffs::BUILT_IN.to_table(), archive, tests, answer)
}

/// The same with a table: 1, then 14, then all else.
pub fn archive_test_with_fill(
    table: &[u8],
    archive: &[u8],
    tests: &[u8],
    answer: &mut [u8],
) -> Refusal {
    if answer.len() != KR_ANSWER {
        return 1;
    }
    calls::fill(Cutoffs::read(table).and_then(|c| archive_test_with(&c, archive, tests)), answer)
}
