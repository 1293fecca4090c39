//! The C functions' answers are held to the outside vectors.

use outside::{hold, text, Answer, BOUND, KENWARD_ROGER};

fn kenward_roger(file: &[u8]) -> Result<[u8; KENWARD_ROGER], u32> {
    let mut answer = [0; KENWARD_ROGER];
    match pull::kenward_roger_fill(file, &mut answer) {
        0 => Ok(answer),
        number => Err(number),
    }
}

#[test]
fn kenward_roger_as_pbkrtest() {
    outside::kenward_roger_as_pbkrtest(kenward_roger);
}

/// The same by way of the archive: the series is archived, and tested from it.
fn from_archive(file: &[u8]) -> Result<[u8; KENWARD_ROGER], u32> {
    let archive = pull::archive(file).map_err(pull::Refusal::number)?;
    let mut answer = [0; KENWARD_ROGER];
    match pull::archive_test_fill(&archive, &pull::test_records(file), &mut answer) {
        0 => Ok(answer),
        number => Err(number),
    }
}

#[test]
fn archives_as_pbkrtest() {
    outside::kenward_roger_as_pbkrtest(from_archive);
}

#[test]
fn satterthwaite_as_lmertest() {
    outside::satterthwaite_as_lmertest(|file| {
        let mut answer = [0; outside::SATTERTHWAITE];
        match pull::satterthwaite_fill(file, &mut answer) {
            0 => Ok(answer),
            number => Err(number),
        }
    });
}

/// A function that answers 9 and 1 to everything is found out by the first case.
#[test]
fn a_fixed_answer_fails() {
    fn fixed(_: &[u8]) -> Result<[u8; KENWARD_ROGER], u32> {
        let mut answer = [0; KENWARD_ROGER];
        for entry in answer.chunks_mut(outside::ENTRY) {
            entry[0..8].copy_from_slice(&9f64.to_bits().to_le_bytes());
            entry[8..16].copy_from_slice(&1f64.to_bits().to_le_bytes());
            entry[16..20].copy_from_slice(&[1; 4]);
        }
        Ok(answer)
    }
    fn refuses(_: &[u8]) -> Result<[u8; KENWARD_ROGER], u32> {
        Err(2)
    }
    fn blank(_: &[u8]) -> Result<[u8; KENWARD_ROGER], u32> {
        Ok([0; KENWARD_ROGER])
    }
    for answer in [fixed as Answer<KENWARD_ROGER>, refuses, blank] {
        assert!(hold(&text("kenward-roger.txt"), answer, BOUND).is_err());
    }
}
