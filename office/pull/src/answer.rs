//! The typed answer.

use crate::{ENTRY_BYTES, KENWARD_ROGER_BYTES};

/// One F test.
#[derive(Debug, Clone, Copy, PartialEq)]
pub struct Test {
    /// The F statistic; `None` where the series gives no number. It can be
    /// infinite, and never is a NaN.
    pub f: Option<f64>,
    /// The denominator's degrees of freedom; `None` where there are none.
    pub df: Option<f64>,
    /// The numerator's degrees of freedom: 1 for a coefficient, for a contrast
    /// the rank of its rows; in the Satterthwaite call the number of its rows.
    pub rank: u8,
    /// Whether every marked number stayed in the range in which a change of
    /// converter leaves the verdict the same, bit for bit.
    pub inside: bool,
}

/// A run: the test of each coefficient, and the contrast's.
#[derive(Debug, Clone, PartialEq)]
pub struct Run {
    pub coefficients: Vec<Test>,
    /// `None` where the file has no contrast.
    pub contrast: Option<Test>,
}

impl Test {
    /// The test of an entry's 24 bytes.
    pub(crate) fn from_bytes(entry: &[u8; ENTRY_BYTES]) -> Test {
        let number = |at: usize, given: u8| {
            let bits = entry[at..at + 8].try_into().expect("eight bytes");
            (given != 0).then(|| f64::from_bits(u64::from_le_bytes(bits)))
        };
        Test {
            f: number(0, entry[17]),
            df: number(8, entry[18]),
            rank: entry[16],
            inside: entry[19] != 0,
        }
    }
}

impl Run {
    /// The run of an answer's 168 bytes. An unused entry is all zero, and a
    /// used one has a rank of 1 or more.
    pub(crate) fn from_bytes(answer: &[u8; KENWARD_ROGER_BYTES]) -> Run {
        let entry = |i: usize| {
            let bytes = answer[i * ENTRY_BYTES..(i + 1) * ENTRY_BYTES].try_into();
            let test = Test::from_bytes(bytes.expect("24 bytes"));
            (test.rank > 0).then_some(test)
        };
        Run { coefficients: (0..6).map_while(entry).collect(), contrast: entry(6) }
    }

    /// Whether all tests of the run are inside: then the whole run's verdict
    /// survives a change of converter.
    pub fn inside(&self) -> bool {
        self.coefficients.iter().chain(&self.contrast).all(|t| t.inside)
    }
}

#[cfg(test)]
mod tests {
    use super::*;

    fn entry(f: f64, df: f64, tail: [u8; 4]) -> [u8; ENTRY_BYTES] {
        let mut out = [0; ENTRY_BYTES];
        out[..8].copy_from_slice(&f.to_bits().to_le_bytes());
        out[8..16].copy_from_slice(&df.to_bits().to_le_bytes());
        out[16..20].copy_from_slice(&tail);
        out
    }

    #[test]
    fn none_is_told_by_its_byte() {
        let zero = Test::from_bytes(&entry(0.0, 0.0, [2, 1, 0, 1]));
        assert_eq!(zero, Test { f: Some(0.0), df: None, rank: 2, inside: true });
        let none = Test::from_bytes(&entry(0.0, 4.0, [1, 0, 1, 0]));
        assert_eq!(none, Test { f: None, df: Some(4.0), rank: 1, inside: false });
    }

    #[test]
    fn unused_entries_are_left_out() {
        let mut answer = [0; KENWARD_ROGER_BYTES];
        answer[..24].copy_from_slice(&entry(9.0, 1.0, [1, 1, 1, 1]));
        answer[24..48].copy_from_slice(&entry(4.0, 1.0, [1, 1, 1, 0]));
        let run = Run::from_bytes(&answer);
        assert_eq!(run.coefficients.len(), 2);
        assert_eq!((run.contrast, run.inside()), (None, false));
        answer[43] = 1;
        answer[144..].copy_from_slice(&entry(2.5, 4.0, [2, 1, 1, 1]));
        let run = Run::from_bytes(&answer);
        assert_eq!(run.contrast.map(|t| t.rank), Some(2));
        assert!(run.inside());
    }
}
