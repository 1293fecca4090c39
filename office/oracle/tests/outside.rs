//! The oracle's answers are held to the outside vectors.

use outside::{KENWARD_ROGER, SATTERTHWAITE};

fn kenward_roger(file: &[u8]) -> Result<[u8; KENWARD_ROGER], u32> {
    let mut answer = [0; KENWARD_ROGER];
    match oracle::calls::kenward_roger_fill(file, &mut answer) {
        0 => Ok(answer),
        number => Err(number),
    }
}

fn satterthwaite(file: &[u8]) -> Result<[u8; SATTERTHWAITE], u32> {
    let mut answer = [0; SATTERTHWAITE];
    match oracle::calls::satterthwaite_fill(file, &mut answer) {
        0 => Ok(answer),
        number => Err(number),
    }
}

#[test]
fn kenward_roger_as_pbkrtest() {
    outside::kenward_roger_as_pbkrtest(kenward_roger);
}

#[test]
fn satterthwaite_as_lmertest() {
    outside::satterthwaite_as_lmertest(satterthwaite);
}
