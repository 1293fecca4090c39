//! A file in another converter's unit (demand 3): exact multiplication of its
//! values by powers of two.
//!
//! Kenward–Roger: sigma2 times 4^k, β and β_H times 2^k, and contrast row r
//! times 2^m(r), each row by a power of its own. Satterthwaite: v and the
//! Jacobians times 4^k, β and β_H times 2^k.

use crate::random::Random;
use crate::tries::Call;
use crate::{Record, BETA, BETA_H, CONTRAST, JACOBIAN, SIGMA, V};

/// Document 01's shifts go from -32 to 32.
pub const LARGEST: i64 = 32;

/// An inside mark bears this shift: its numbers have exponents from -800 to 800,
/// and moved by up to 221 they stay from -1021 to 1022.
pub const BORNE: i64 = 221;

/// The powers of one change of unit.
#[derive(Debug, Clone, Copy, PartialEq)]
pub struct Shift {
    pub k: i64,
    pub rows: [i64; 6],
}

impl Shift {
    /// Any k and m(r) of document 01.
    pub fn random(r: &mut Random) -> Shift {
        Shift::up_to(r, LARGEST, LARGEST)
    }

    /// Any k and m(r) that an inside mark covers: no number of a marked step
    /// moves by more than 2k (Satterthwaite: 4k) or m(r).
    pub fn borne(r: &mut Random, call: Call) -> Shift {
        let degree = match call {
            Call::KenwardRoger => 2,
            Call::Satterthwaite => 4,
        };
        Shift::up_to(r, BORNE / degree, BORNE)
    }

    /// Often the largest.
    fn up_to(r: &mut Random, k: i64, row: i64) -> Shift {
        let mut any = |largest: i64| match r.below(8) {
            0 => -largest,
            1 => largest,
            _ => r.between(-largest, largest),
        };
        Shift { k: any(k), rows: [any(row), any(row), any(row), any(row), any(row), any(row)] }
    }

    /// By how many powers of two a record's value is multiplied.
    fn of(&self, call: Call, record: &Record) -> i64 {
        match (call, record.kind) {
            (Call::KenwardRoger, SIGMA) | (Call::Satterthwaite, V | JACOBIAN) => 2 * self.k,
            (_, BETA | BETA_H) => self.k,
            (Call::KenwardRoger, CONTRAST) => self.rows[record.row as usize],
            _ => 0,
        }
    }

    /// The file in the other unit. `None` where a value times its power is no
    /// f64 with the same digits: such a file does not exist.
    pub fn apply(&self, call: Call, file: &[u8]) -> Option<Vec<u8>> {
        let mut out = Vec::with_capacity(file.len());
        for chunk in file.chunks(16) {
            let mut record = Record::from_bytes(chunk);
            let power = self.of(call, &record);
            if power != 0 {
                record.bits = times(f64::from_bits(record.bits), power)?.to_bits();
            }
            out.extend(record.to_bytes());
        }
        Some(out)
    }
}

/// v times 2^power, where it is exact.
fn times(v: f64, power: i64) -> Option<f64> {
    let (there, back) = (two_to(power), two_to(-power));
    let shifted = v * there;
    (shifted * back == v && shifted.is_finite()).then_some(shifted)
}

/// 2^e, for an e of a normal number.
fn two_to(e: i64) -> f64 {
    f64::from_bits(((e + 1023) as u64) << 52)
}

#[cfg(test)]
mod tests {
    use super::*;

    #[test]
    fn exact_or_none() {
        assert_eq!(times(3.0, 5), Some(96.0));
        assert_eq!(times(-0.0, -7).map(f64::to_bits), Some((-0.0f64).to_bits()));
        assert_eq!(times(f64::MAX, 1), None);
        assert_eq!(times(f64::from_bits(3), -1), None);
        assert_eq!(times(f64::from_bits(2), -1), Some(f64::from_bits(1)));
    }
}
