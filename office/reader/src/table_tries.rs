//! Tables for trying the calls with: accepted ones of every sort, and damaged ones.

use crate::cutoffs::{Cutoffs, CAP_ROW, ROTATION_ROW, ROWS, TABLE_BYTES};
use crate::random::Random;

/// The sorts of accepted tables, by which the random ones are counted.
pub const SORTS: [&str; 10] = [
    "built-in",
    "one changed",
    "near the built-in",
    "tiny",
    "huge",
    "subnormal",
    "the smallest or the largest",
    "cap just above 2",
    "about 1",
    "any",
];

/// 2^e, of a normal or subnormal number.
fn power(e: i64) -> f64 {
    if e >= -1022 {
        f64::from_bits(((e + 1023) as u64) << 52)
    } else {
        f64::from_bits(1 << (e + 1074))
    }
}

/// The next f64 above 2: the smallest cap.
pub fn above_2() -> f64 {
    f64::from_bits(2f64.to_bits() + 1)
}

/// The value of a row, where a row has its own: a cap is above 2.
fn fitting(row: usize, value: f64) -> f64 {
    if row == CAP_ROW && value <= 2.0 {
        above_2() + value
    } else {
        value
    }
}

/// Any positive finite bits: every binary exponent as often as any other.
fn any_positive(r: &mut Random) -> f64 {
    f64::from_bits(1 + r.bits() % (f64::MAX.to_bits()))
}

/// A value of a sort for a row.
fn value(r: &mut Random, sort: &str, row: usize) -> f64 {
    let built_in = Cutoffs::BUILT_IN.values()[row];
    let value = match sort {
        // A last digit, some digits, or a power of two beside it.
        "near the built-in" => match r.below(4) {
            0 => built_in,
            1 => f64::from_bits(built_in.to_bits() ^ (1 + r.bits() % 4)),
            2 => built_in * (1.0 + r.real() / 8.0),
            _ => built_in * power(r.between(-12, 12)),
        },
        "tiny" => power(-r.between(60, 1000)) * (1.0 + r.unit()),
        "huge" => power(r.between(20, 1000)) * (1.0 + r.unit()),
        "subnormal" => f64::from_bits(1 + r.bits() % ((1 << 52) - 1)),
        "the smallest or the largest" => {
            let ends = [f64::from_bits(1), f64::MAX, f64::MIN_POSITIVE];
            // At the mark's range, where the row counts for the mark.
            let marked = [power(-801), power(-800), 1.5 * power(800), power(801)];
            if row == ROTATION_ROW && r.once_in(2) {
                r.pick(&marked)
            } else {
                r.pick(&ends)
            }
        }
        "about 1" => power(-r.between(0, 6)) * (0.5 + r.unit()),
        "any" => any_positive(r),
        _ => built_in,
    };
    fitting(row, value)
}

/// An accepted table of a sort.
pub fn table_of(r: &mut Random, sort: &str) -> Cutoffs {
    match sort {
        "built-in" => Cutoffs::BUILT_IN,
        "one changed" => {
            let (row, sort) = (r.below(ROWS), SORTS[2 + r.below(SORTS.len() - 2)]);
            let value = if row == CAP_ROW && r.once_in(2) { cap(r) } else { value(r, sort, row) };
            Cutoffs::BUILT_IN.with(row, value)
        }
        "cap just above 2" => {
            let cap = cap(r);
            near(r).with(CAP_ROW, cap)
        }
        sort => {
            let mut values = [0.0; ROWS];
            // Some of the rows, or all.
            let once_in = 1 + r.below(3);
            for (row, v) in values.iter_mut().enumerate() {
                let sort = if r.once_in(once_in) { sort } else { "near the built-in" };
                *v = value(r, sort, row);
            }
            Cutoffs::from_values(values)
        }
    }
}

fn near(r: &mut Random) -> Cutoffs {
    table_of(r, "near the built-in")
}

/// A cap that some components pass, at or beside 2, or between.
fn cap(r: &mut Random) -> f64 {
    match r.below(4) {
        0 => above_2(),
        1 => 2.0 + power(-r.between(1, 50)),
        _ => 2.0 + 40.0 * r.unit(),
    }
}

/// A random accepted table, with the name of its sort.
pub fn random_table(r: &mut Random) -> (&'static str, Cutoffs) {
    // The built-in table has its own tests.
    let sort = if r.once_in(40) { SORTS[0] } else { SORTS[1 + r.below(SORTS.len() - 1)] };
    (sort, table_of(r, sort))
}

/// The ways in which a table is damaged. Each gives a table that is refused.
pub const WAYS: [&str; 22] = [
    "empty",
    "cut",
    "a record less",
    "a record more",
    "bytes behind",
    "a record twice",
    "two records changed about",
    "records shuffled",
    "another kind",
    "another row",
    "rows from 1",
    "a column",
    "byte 3",
    "a count",
    "a series",
    "a NaN",
    "infinite",
    "+0",
    "-0",
    "negative",
    "a cap of 2",
    "a cap below 2",
];

/// A table damaged in one way.
pub fn damaged(r: &mut Random, table: &[u8], way: &str) -> Vec<u8> {
    let mut out = table.to_vec();
    let at = 16 * r.below(ROWS);
    match way {
        "empty" => out.clear(),
        "cut" => out.truncate(1 + r.below(TABLE_BYTES - 1)),
        "a record less" => drop(out.drain(at..at + 16)),
        "a record more" => {
            let row = 9 + r.below(2) as u8;
            out.extend([20, row, 0, 0, 0, 0, 0, 0]);
            out.extend(1f64.to_bits().to_le_bytes());
        }
        "bytes behind" => out.extend((0..1 + r.below(40)).map(|_| r.pick(&[0, 0, 20, 255]))),
        "a record twice" => {
            let twin: Vec<u8> = out[at..at + 16].to_vec();
            if r.once_in(2) {
                out.splice(at..at, twin);
            } else {
                // In another's place, so that the length is right.
                let other = (at + 16 * (1 + r.below(ROWS - 1))) % TABLE_BYTES;
                out[other..other + 16].copy_from_slice(&twin);
            }
        }
        "two records changed about" => {
            let other = (at + 16 * (1 + r.below(ROWS - 1))) % TABLE_BYTES;
            (0..16).for_each(|i| out.swap(at + i, other + i));
        }
        "records shuffled" => out.rotate_left(16 * (1 + r.below(ROWS - 1))),
        "a series" => {
            // Records that rise, of a series' kinds.
            out.chunks_mut(16).for_each(|record| record[0] = 1);
        }
        "rows from 1" => out.chunks_mut(16).for_each(|record| record[1] += 1),
        _ => spoil(r, &mut out, at, way),
    }
    out
}

/// A byte or a value that is another than it should be.
fn spoil(r: &mut Random, out: &mut [u8], at: usize, way: &str) {
    let mut set = |at: usize, value: f64| {
        out[at + 8..at + 16].copy_from_slice(&value.to_bits().to_le_bytes());
    };
    let other = 1 + r.below(255) as u8;
    match way {
        "another kind" => out[at] ^= other,
        "another row" => out[at + 1] ^= other,
        "a column" => out[at + 2] = other,
        "byte 3" => out[at + 3] = other,
        "a count" => out[at + 4 + r.below(4)] = other,
        "a NaN" => {
            let (sign, quiet) = (r.bits() & 1, r.bits() & 1);
            let digits = 1 + r.bits() % 1000;
            set(at, f64::from_bits((sign << 63) | (0x7ff << 52) | (quiet << 51) | digits));
        }
        "infinite" => set(at, r.pick(&[f64::INFINITY, f64::NEG_INFINITY])),
        "+0" => set(at, 0.0),
        "-0" => set(at, -0.0),
        "negative" => set(at, -any_positive(r)),
        "a cap of 2" => set(16 * CAP_ROW, 2.0),
        "a cap below 2" => {
            let below = [f64::from_bits(2f64.to_bits() - 1), 1.0, 1e-300, f64::from_bits(1)];
            set(16 * CAP_ROW, r.pick(&below));
        }
        _ => panic!("no such way: {way}"),
    }
}

/// A random damaged table, with the name of the way.
pub fn damaged_table(r: &mut Random) -> (&'static str, Vec<u8>) {
    let (_, cutoffs) = random_table(r);
    let way = r.pick(&WAYS);
    (way, damaged(r, &cutoffs.to_table(), way))
}

/// Bytes that may be a table: mostly one that is accepted, or damaged, or with some
/// bytes changed, or any bytes.
pub fn any_table(r: &mut Random) -> Vec<u8> {
    match r.below(8) {
        0..=3 => random_table(r).1.to_table(),
        4 => damaged_table(r).1,
        5 => (0..r.below(200)).map(|_| r.bits() as u8).collect(),
        _ => {
            let mut table = random_table(r).1.to_table();
            for _ in 0..1 + r.below(3) {
                let at = r.below(table.len());
                table[at] ^= 1 << r.below(8);
            }
            table
        }
    }
}

#[cfg(test)]
mod tests {
    use super::*;
    use crate::cutoffs::TABLE;

    /// Every random table is accepted and reads back; every damaged one is refused.
    #[test]
    fn tables_are_what_they_say() {
        for seed in 0..20_000 {
            let mut r = Random::new(seed);
            let (sort, cutoffs) = random_table(&mut r);
            assert_eq!(Cutoffs::read(&cutoffs.to_table()), Ok(cutoffs), "{sort}, seed {seed}");
            let (way, table) = damaged_table(&mut r);
            assert_eq!(Cutoffs::read(&table), Err(TABLE), "{way}, seed {seed}: {table:02x?}");
        }
    }

    /// Of tables with any bytes many are accepted, and many are not.
    #[test]
    fn any_tables() {
        let good = (0..10_000).filter(|&s| Cutoffs::read(&any_table(&mut Random::new(s))).is_ok());
        assert!((5_000..8_500).contains(&good.count()));
    }
}
