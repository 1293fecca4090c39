//! The random files. A family and a seed decide a file.

use oracle::random::{kr_case, satt_case, KR_FAMILIES, MORE_KR_FAMILIES, SATT_FAMILIES, SHUFFLED};
use reader::random::Random;
use reader::tries::Call;

/// The families of a call: those of the stored vectors, and some more.
pub fn families(call: Call) -> Vec<&'static str> {
    let mut out = match call {
        Call::KenwardRoger => [&KR_FAMILIES[..], &MORE_KR_FAMILIES].concat(),
        Call::Satterthwaite => SATT_FAMILIES.to_vec(),
    };
    out.push(SHUFFLED);
    out
}

/// The file of a family and a seed.
pub fn file(call: Call, family: &str, seed: u64) -> Vec<u8> {
    let mut random = Random::new(seed);
    match call {
        Call::KenwardRoger => kr_case(&mut random, family),
        Call::Satterthwaite => satt_case(&mut random, family),
    }
}

/// The seeds of a family's cases, from the seed of the whole comparison.
pub fn seeds(seed: u64, family: usize) -> impl Iterator<Item = u64> {
    let mut random = Random::new(seed.wrapping_mul(1009).wrapping_add(family as u64));
    std::iter::repeat_with(move || random.bits())
}

pub const CALLS: [Call; 2] = [Call::KenwardRoger, Call::Satterthwaite];

pub fn name(call: Call) -> &'static str {
    match call {
        Call::KenwardRoger => "kenward-roger",
        Call::Satterthwaite => "satterthwaite",
    }
}
