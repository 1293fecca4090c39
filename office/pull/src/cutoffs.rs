//! The lab's own small numbers.

use crate::example::record;
use crate::{kenward_roger_with_fill, Refusal, KENWARD_ROGER_BYTES};

/// Bytes of a table: nine records.
pub const TABLE_BYTES: usize = 144;

/// The nine small numbers at which the tests decide, as the panel has them built in
/// ([`Cutoffs::default`]) or as a lab sets them.
///
/// Each is finite and above zero, and [`cap`](Cutoffs::cap) is above 2. A call with
/// others is refused with [`Refusal::Table`](crate::Refusal::Table); a field can
/// hold them, since the panel alone judges a table. `2^-52`, of the contrast's rank,
/// and the `1e-8` within which components of df count as equal are not among them.
///
/// ```
/// use pull::{example, Cutoffs};
/// let series = example::records();
/// let built_in = Cutoffs::default();
/// assert_eq!(pull::kenward_roger_with(&built_in, &series)?, pull::kenward_roger(&series)?);
/// // A bar at which IE, which is 1 here, counts as singular.
/// let strict = Cutoffs { eigenvalue: 1.0, ridge: 1.0, ..built_in };
/// let run = pull::kenward_roger_with(&strict, &series)?;
/// assert_eq!(run.coefficients[0].df, Some(2.0));
/// # Ok::<(), pull::Refusal>(())
/// ```
#[derive(Debug, Clone, Copy, PartialEq)]
pub struct Cutoffs {
    /// Row 0, built in 1e-15. In a Kenward–Roger test of several rows: where |a2| is
    /// not above it g is 0, and where |d| is not above it c1 is 0.
    pub moment: f64,
    /// Row 1, built in 1e-10. There too: V0 and V2 below it in magnitude become 0.
    pub leading: f64,
    /// Row 2, built in 1e-10. There too: a quotient whose denominator, V1 or V2, is
    /// below it in magnitude is 0.
    pub divisor: f64,
    /// Row 3, built in 1e-12. There too: where |qρ−1| is not above it df is none.
    pub excess: f64,
    /// Row 4, built in 1e-2. There too: where df is nearer to 2 than this F is not
    /// scaled.
    pub near: f64,
    /// Row 5, built in 1e-10. The covariance adjustment: where the smallest eigenvalue
    /// of IE, in magnitude, is not above it IE counts as singular, and `ridge` joins
    /// its diagonal.
    pub eigenvalue: f64,
    /// Row 6, built in 1e-8: what then joins each cell of IE's diagonal.
    pub ridge: f64,
    /// Row 7, built in 2^-100. The Jacobi sweeps, of IE and of a Satterthwaite
    /// contrast's covariance V: a pair is rotated if the square of its cell is above
    /// this factor times the product of the two diagonal cells. In V's sweeps it
    /// counts for the mark, as every operand does.
    pub rotation: f64,
    /// Row 8, built in 3000. A Satterthwaite test of several rows: a component's df
    /// above it becomes it. Above 2.
    pub cap: f64,
}

impl Default for Cutoffs {
    /// The built-in table. A call without a table is the call with this one.
    fn default() -> Cutoffs {
        Cutoffs {
            moment: 1e-15,
            leading: 1e-10,
            divisor: 1e-10,
            excess: 1e-12,
            near: 1e-2,
            eigenvalue: 1e-10,
            ridge: 1e-8,
            rotation: 2f64.powi(-100),
            cap: 3000.0,
        }
    }
}

impl Cutoffs {
    /// The values by row.
    fn values(&self) -> [f64; 9] {
        [
            self.moment,
            self.leading,
            self.divisor,
            self.excess,
            self.near,
            self.eigenvalue,
            self.ridge,
            self.rotation,
            self.cap,
        ]
    }

    /// The cutoffs of a table, a chemist's file say. The panel judges it: what is none
    /// is refused with [`Refusal::Table`].
    ///
    /// ```
    /// use pull::{Cutoffs, Refusal};
    /// let mut table = Cutoffs::default().to_table();
    /// assert_eq!(Cutoffs::from_table(&table), Ok(Cutoffs::default()));
    /// // A cap must be above 2.
    /// table[8 * 16 + 8..].copy_from_slice(&2f64.to_le_bytes());
    /// assert_eq!(Cutoffs::from_table(&table), Err(Refusal::Table));
    /// ```
    pub fn from_table(table: &[u8]) -> Result<Cutoffs, Refusal> {
        let number = kenward_roger_with_fill(table, &[], &mut [0; KENWARD_ROGER_BYTES]);
        if Refusal::from_number(number) == Refusal::Table || table.len() != TABLE_BYTES {
            return Err(Refusal::Table);
        }
        // Behind an accepted table the empty series was refused.
        let value = |row: usize| {
            let bits = table[16 * row + 8..16 * row + 16].try_into().expect("eight bytes");
            f64::from_bits(u64::from_le_bytes(bits))
        };
        Ok(Cutoffs {
            moment: value(0),
            leading: value(1),
            divisor: value(2),
            excess: value(3),
            near: value(4),
            eigenvalue: value(5),
            ridge: value(6),
            rotation: value(7),
            cap: value(8),
        })
    }

    /// The table as a file: nine records of kind 20 with the rows 0 to 8, for a call on
    /// bytes or for a chemist's file. Values that no table may hold are written too.
    pub fn to_table(&self) -> [u8; TABLE_BYTES] {
        let mut out = [0; TABLE_BYTES];
        for (row, (to, value)) in out.chunks_mut(16).zip(self.values()).enumerate() {
            to.copy_from_slice(&record(20, row as u8, 0, 0, value));
        }
        out
    }
}

#[cfg(test)]
mod tests {
    use super::*;

    #[test]
    fn the_built_in_table() {
        let table = Cutoffs::default().to_table();
        for (row, record) in table.chunks(16).enumerate() {
            assert_eq!(record[..8], [20, row as u8, 0, 0, 0, 0, 0, 0]);
        }
        assert_eq!(table[8..16], 1e-15f64.to_bits().to_le_bytes());
        assert_eq!(table[7 * 16 + 8..][..8], [0, 0, 0, 0, 0, 0, 0xb0, 0x39]);
        assert_eq!(table[8 * 16 + 8..], 3000f64.to_bits().to_le_bytes());
    }
}
