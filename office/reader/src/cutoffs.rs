//! The lab's own small numbers, and the file that holds them: nine records of kind
//! 20, the rows 0 to 8, each with one value; every other byte is zero.
//!
//! The reader is written from document 02: it looks at the length, then at each
//! record as a whole, then at the values, and any fault is 14. So the order of a
//! table's records is told by their rows, and not by 12.

use crate::{Record, Refusal};

/// Any other table than an accepted one.
pub const TABLE: Refusal = 14;

/// The kind of a table's records.
pub const CUTOFF: u8 = 20;

/// Rows of a table, and its bytes.
pub const ROWS: usize = 9;
pub const TABLE_BYTES: usize = 16 * ROWS;

/// The names of the nine, by row.
pub const NAMES: [&str; ROWS] =
    ["moment", "leading", "divisor", "excess", "near", "eigenvalue", "ridge", "rotation", "cap"];

/// The row of the rotation factor: the only one that stands in a marked step.
pub const ROTATION_ROW: usize = 7;

/// The row of the component cap, which must be above 2.
pub const CAP_ROW: usize = 8;

/// The nine numbers.
#[derive(Debug, Clone, Copy, PartialEq)]
pub struct Cutoffs {
    /// Row 0: |a2| and |d| up to here count as zero.
    pub moment: f64,
    /// Row 1: |V0| and |V2| below this become 0.
    pub leading: f64,
    /// Row 2: a denominator below this, in magnitude, gives the quotient 0.
    pub divisor: f64,
    /// Row 3: |qρ−1| up to here gives no df.
    pub excess: f64,
    /// Row 4: a df nearer to 2 than this has the scaling 1.
    pub near: f64,
    /// Row 5: with the smallest eigenvalue of IE up to here its diagonal is raised.
    pub eigenvalue: f64,
    /// Row 6: by this.
    pub ridge: f64,
    /// Row 7: the factor of the rotation test of both Jacobis.
    pub rotation: f64,
    /// Row 8: a component's df above this becomes this.
    pub cap: f64,
}

impl Cutoffs {
    /// Document 01's numbers.
    pub const BUILT_IN: Cutoffs = Cutoffs {
        moment: 1e-15,
        leading: 1e-10,
        divisor: 1e-10,
        excess: 1e-12,
        near: 1e-2,
        eigenvalue: 1e-10,
        ridge: 1e-8,
        // 2^-100, exactly.
        rotation: f64::from_bits((1023 - 100) << 52),
        cap: 3000.0,
    };

    /// The nine of an accepted table; 14 for any other.
    pub fn read(table: &[u8]) -> Result<Cutoffs, Refusal> {
        if table.len() != TABLE_BYTES {
            return Err(TABLE);
        }
        let mut values = [0.0; ROWS];
        for (row, bytes) in table.chunks(16).enumerate() {
            let record = Record::from_bytes(bytes);
            values[row] = f64::from_bits(record.bits);
            if record != entry(row, values[row].to_bits()) || !admitted(row, values[row]) {
                return Err(TABLE);
            }
        }
        Ok(Cutoffs::from_values(values))
    }

    /// The nine by row.
    pub fn values(&self) -> [f64; ROWS] {
        [
            self.moment,
            self.leading,
            self.divisor,
            self.excess,
            self.near,
            self.eigenvalue,
            self.ridge,
            self.rotation,
            self.cap,
        ]
    }

    pub fn from_values(values: [f64; ROWS]) -> Cutoffs {
        let [moment, leading, divisor, excess, near, eigenvalue, ridge, rotation, cap] = values;
        Cutoffs { moment, leading, divisor, excess, near, eigenvalue, ridge, rotation, cap }
    }

    /// The same with another value in one row.
    pub fn with(&self, row: usize, value: f64) -> Cutoffs {
        let mut values = self.values();
        values[row] = value;
        Cutoffs::from_values(values)
    }

    /// The table, whatever the values are.
    pub fn to_table(&self) -> Vec<u8> {
        let values = self.values();
        let records = values.iter().enumerate().map(|(row, v)| entry(row, v.to_bits()));
        records.flat_map(Record::to_bytes).collect()
    }
}

/// The record of a row.
fn entry(row: usize, bits: u64) -> Record {
    Record { kind: CUTOFF, row: row as u8, column: 0, zero: 0, count: 0, bits }
}

/// "nine finite positive values, the last above 2".
fn admitted(row: usize, value: f64) -> bool {
    value.is_finite() && value > 0.0 && (row != CAP_ROW || value > 2.0)
}

#[cfg(test)]
mod tests {
    use super::*;

    #[test]
    fn the_built_in_table() {
        let table = Cutoffs::BUILT_IN.to_table();
        assert_eq!(table.len(), TABLE_BYTES);
        assert_eq!(Cutoffs::read(&table), Ok(Cutoffs::BUILT_IN));
        assert_eq!(Cutoffs::BUILT_IN.rotation, 2f64.powi(-100));
    }

    /// Each value at the ends of what is taken, in each row.
    #[test]
    fn values_at_the_ends() {
        let read = |row: usize, value: f64| {
            Cutoffs::read(&Cutoffs::BUILT_IN.with(row, value).to_table()).map(|c| c.values()[row])
        };
        for row in 0..ROWS {
            for value in [f64::MAX, f64::from_bits(2f64.to_bits() + 1), 3000.0] {
                assert_eq!(read(row, value), Ok(value));
            }
            for value in [0.0, -0.0, -1e-9, -f64::MAX, f64::INFINITY, f64::NEG_INFINITY, f64::NAN] {
                assert_eq!(read(row, value), Err(TABLE));
            }
            for value in [f64::from_bits(1), f64::MIN_POSITIVE, 1.0, 2.0] {
                let expected = if row == CAP_ROW { Err(TABLE) } else { Ok(value) };
                assert_eq!(read(row, value), expected);
            }
        }
    }
}
