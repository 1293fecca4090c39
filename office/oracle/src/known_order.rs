//! Cases made by hand of the order of records: what is refused with 12, and
//! beside each what still rises, so that 2 or an answer comes.

use crate::known::{self, rec, rows, with, Known};
use crate::random::{file, kr_records, satt_records};
use crate::reader::numbers::block;
use crate::reader::{self, order, Record, SattSeries};
use listed_algebra::Matrix;

const FALLS: &str = "refused 12|";
const RECORDS: &str = "refused 2|";

/// As many records as the program `replay` holds, and more than there are
/// cells.
const LONG: usize = 1024;

/// The Kenward–Roger cases.
pub fn kenward_roger() -> Vec<Known> {
    let records = kr_records(&known::pulltest_series(), true);
    let mut out = moved(&records);
    out.extend(twice(&records));
    out.extend(unknown_kinds(&records));
    out.extend(numbered(&records));
    out.extend(widths(&records));
    out.extend(carries(&records));
    out.extend(blocks());
    out.extend(unused_fields(&records));
    out.extend(design());
    out.extend(beside_others(&records));
    out.extend(long(&records));
    out
}

/// The Satterthwaite cases.
pub fn satterthwaite() -> Vec<Known> {
    let records = satt_records(&known::example_i());
    let mut out = moved(&records);
    out.extend(twice(&records));
    out.extend(unknown_kinds(&records));
    out.extend(widths(&records));
    out.extend(carries(&records));
    out.extend(jacobians());
    out.extend(beside_others(&records));
    out.extend(long(&records));
    let other_call = kr_records(&known::pulltest_series(), true);
    out.push(("the other call's example", file(&other_call), RECORDS));
    let [low, high] = [block(0, 1, 1), block(0, 1, 2)];
    out.push(("a block's groups are not in the order", behind(&[low, high], &records), FALLS));
    let other_k = block(0, 2, 1);
    out.push(("one block, two k's", behind(&[low, other_k], &records), RECORDS));
    out
}

/// The file of some records, then others.
fn behind(first: &[Record], then: &[Record]) -> Vec<u8> {
    file(&[first, then].concat())
}

/// The file with record `from` moved to place `to`.
fn put(records: &[Record], from: usize, to: usize) -> Vec<u8> {
    let mut out = records.to_vec();
    let record = out.remove(from);
    out.insert(to, record);
    file(&out)
}

/// A pair at each end and within, one record moved far, all of them.
fn moved(records: &[Record]) -> Vec<Known> {
    let last = records.len() - 1;
    let mut reversed = records.to_vec();
    reversed.reverse();
    vec![
        ("the first pair falls", put(records, 0, 1), FALLS),
        ("the last pair falls", put(records, last - 1, last), FALLS),
        ("a pair within falls", put(records, 2, 3), FALLS),
        ("the first at the end", put(records, 0, last), FALLS),
        ("the last at the front", put(records, last, 0), FALLS),
        ("all reversed", file(&reversed), FALLS),
        ("two records alone", file(&[records[last], records[0]]), FALLS),
        ("two records alone that rise", file(&[records[0], records[last]]), RECORDS),
        ("one record alone", file(&records[..1]), RECORDS),
    ]
}

/// A record again, `change`d, beside itself.
fn again(records: &[Record], at: usize, change: impl Fn(&mut Record)) -> Vec<u8> {
    let mut out = records.to_vec();
    let mut twin = out[at];
    change(&mut twin);
    out.insert(at + 1, twin);
    file(&out)
}

/// Equal neighbours do not rise, whatever their byte 3, count and value.
fn twice(records: &[Record]) -> Vec<Known> {
    let last = records.len() - 1;
    vec![
        ("the first twice", again(records, 0, |_| ()), FALLS),
        ("the last twice", again(records, last, |_| ()), FALLS),
        ("one within twice", again(records, 2, |_| ()), FALLS),
        ("twice with another value", again(records, 2, |r| r.bits ^= 1), FALLS),
        ("twice with a larger value", again(records, last, |r| r.bits += 1 << 52), FALLS),
        ("twice with another byte 3", again(records, 2, |r| r.zero = 1), FALLS),
        ("twice with a larger count", again(records, 0, |r| r.count += 1), FALLS),
        ("the first again at the end", behind(records, &records[..1]), FALLS),
        ("the whole file twice", behind(records, records), FALLS),
    ]
}

/// A kind that no call has, in its place and out of it.
fn unknown_kinds(records: &[Record]) -> Vec<Known> {
    let low = rec(0, 0, 0, 0, 1.0);
    let high = |row, column, count| rec(200, row, column, count, 1.0);
    vec![
        ("kind 0 in its place", behind(&[low], records), RECORDS),
        ("kind 0 at the end", behind(records, &[low]), FALLS),
        ("kind 200 in its place", behind(records, &[high(0, 0, 0)]), RECORDS),
        ("kind 200 at the front", behind(&[high(0, 0, 0)], records), FALLS),
        ("kind 200, rows rise", behind(records, &[high(0, 9, 0), high(1, 0, 0)]), RECORDS),
        ("kind 200, columns rise", behind(records, &[high(0, 0, 9), high(0, 1, 0)]), RECORDS),
        ("kind 200, rows fall", behind(records, &[high(1, 0, 0), high(0, 9, 0)]), FALLS),
        ("kind 200, counts rise", behind(records, &[high(0, 0, 0), high(0, 0, 1)]), FALLS),
    ]
}

/// Kind 31, which the Kenward–Roger call does not have, is sorted by its count.
fn numbered(records: &[Record]) -> Vec<Known> {
    let j = |count, row| rec(31, row, 0, count, 1.0);
    let end = |pair: [Record; 2]| behind(records, &pair);
    vec![
        ("kind 31, counts rise", end([j(0, 0), j(1, 0)]), RECORDS),
        ("kind 31, counts fall", end([j(1, 0), j(0, 0)]), FALLS),
        ("kind 31, counts rise and rows fall", end([j(0, 1), j(1, 0)]), RECORDS),
        ("kind 31, counts fall and rows rise", end([j(1, 0), j(0, 1)]), FALLS),
        ("kind 31, the same count and row", end([j(7, 3), j(7, 3)]), FALLS),
    ]
}

/// Each field is an unsigned number of its whole width, lowest byte first.
fn widths(records: &[Record]) -> Vec<Known> {
    let mut out = Vec::new();
    for low in [127, 254] {
        let kinds = [rec(low, 0, 0, 0, 1.0), rec(low + 1, 0, 0, 0, 1.0)];
        let rows = [rec(200, low, 0, 0, 1.0), rec(200, low + 1, 0, 0, 1.0)];
        let columns = [rec(200, 0, low, 0, 1.0), rec(200, 0, low + 1, 0, 1.0)];
        for [a, b] in [kinds, rows, columns] {
            out.push(("a byte above 127 rises", behind(records, &[a, b]), RECORDS));
            out.push(("a byte above 127 falls", behind(records, &[b, a]), FALLS));
        }
    }
    let before = below_jacobians(records);
    for low in [0xff, 0xffff, 0xff_ffff, 0x7fff_ffff, u32::MAX - 1] {
        let [a, b] = [rec(31, 0, 0, low, 1.0), rec(31, 0, 0, low + 1, 1.0)];
        out.push(("a large count rises", behind(&before, &[a, b]), RECORDS));
        out.push(("a large count falls", behind(&before, &[b, a]), FALLS));
    }
    out
}

/// A later field at its largest does not reach into an earlier one.
fn carries(records: &[Record]) -> Vec<Known> {
    let before = below_jacobians(records);
    let mut out = Vec::new();
    for [a, b] in [
        [rec(200, 0, 255, 0, 1.0), rec(200, 1, 0, 0, 1.0)],
        [rec(200, 255, 255, 0, 1.0), rec(201, 0, 0, 0, 1.0)],
        [rec(31, 255, 255, 0, 1.0), rec(31, 0, 0, 1, 1.0)],
        [rec(31, 255, 255, u32::MAX, 1.0), rec(32, 0, 0, 0, 1.0)],
    ] {
        out.push(("the largest, then the next", behind(&before, &[a, b]), RECORDS));
        out.push(("the next, then the largest", behind(&before, &[b, a]), FALLS));
    }
    out
}

/// The records that stand before every Jacobian.
fn below_jacobians(records: &[Record]) -> Vec<Record> {
    records.iter().filter(|r| r.kind < reader::JACOBIAN).copied().collect()
}

/// A block's k is its column and rises; its groups are its count and do not.
fn blocks() -> Vec<Known> {
    let k = kr_records(&known::example_k(), true);
    let at = k.iter().position(|r| r.kind == 3).expect("a block");
    vec![
        ("block 0 with k = 1 and k = 2", again(&k, at, |r| *r = block(0, 2, 1)), RECORDS),
        ("block 0 with k = 1 and k = 0", again(&k, at, |r| *r = block(0, 0, 1)), FALLS),
        ("block 0 twice, groups rise", again(&k, at, |r| *r = block(0, 1, 2)), FALLS),
        ("block 1, a smaller k", again(&k, at, |r| *r = block(1, 0, 1)), "refused 3|"),
    ]
}

/// Row and column count also where the kind leaves them unused.
fn unused_fields(records: &[Record]) -> Vec<Known> {
    let at = records.iter().position(|r| r.kind == 7).expect("sigma2");
    let mut before = records.to_vec();
    before.insert(at, rec(7, 0, 1, 0, 8.0));
    vec![
        ("sigma2 in column 1 too", again(records, at, |r| r.column = 1), RECORDS),
        ("sigma2 in row 1 too", again(records, at, |r| r.row = 1), RECORDS),
        ("sigma2 in column 1 before", file(&before), FALLS),
        ("β in column 1 too", with(records, rec(8, 0, 1, 0, 1.0)), RECORDS),
    ]
}

/// Rows before columns.
fn design() -> Vec<Known> {
    let series = known::identity_series(rows(&[[0.5, 0.0], [0.0, 0.25]]));
    let records = kr_records(&series, true);
    let mut by_columns = records.clone();
    by_columns[..4].sort_by_key(|r| (r.column, r.row));
    vec![("X by rows", file(&records), "coef 0"), ("X by columns", file(&by_columns), FALLS)]
}

/// 12 comes after 2 for the length, and before every other reason.
fn beside_others(records: &[Record]) -> Vec<Known> {
    let mut all = records.to_vec();
    for r in &mut all {
        (r.zero, r.bits) = (1, f64::NAN.to_bits());
    }
    all.push(rec(255, 255, 255, u32::MAX, f64::NAN));
    let rising = file(&all);
    let falling = put(&all, 0, 1);
    let mut values = records.to_vec();
    values.iter_mut().for_each(|r| r.bits = f64::NAN.to_bits());
    vec![
        ("every fault but the order", rising.clone(), RECORDS),
        ("every fault", falling.clone(), FALLS),
        ("every fault, a byte too many", [&falling[..], &[0]].concat(), RECORDS),
        ("no value finite, and it falls", put(&values, 0, 1), FALLS),
        ("no value finite", file(&values), "refused 4|"),
        ("it falls, a byte too many", [&put(records, 0, 1)[..], &[0]].concat(), RECORDS),
        ("it falls, a byte less", put(records, 0, 1)[1..].to_vec(), RECORDS),
        ("it falls, 15 bytes more", [&put(records, 0, 1)[..], &[255; 15]].concat(), RECORDS),
        ("one record and a byte", [&file(&records[..1])[..], &[0]].concat(), RECORDS),
    ]
}

/// Jacobian by Jacobian, and A by its rows.
fn jacobians() -> Vec<Known> {
    let example = known::example_i();
    let two = SattSeries {
        jacobians: vec![example.v.clone(), Matrix::identity(2)],
        a: rows(&[[0.5, 0.125], [0.125, 0.25]]),
        ..example
    };
    let records = satt_records(&two);
    let by = |key: fn(&Record) -> (u32, u8, u8), kind: u8| {
        let mut out = records.clone();
        let first = out.iter().position(|r| r.kind == kind).expect("the kind");
        let end = first + out.iter().filter(|r| r.kind == kind).count();
        out[first..end].sort_by_key(key);
        file(&out)
    };
    let jacobian = |count, row| rec(31, row, 0, count, 1.0);
    let one = satt_records(&known::example_i());
    vec![
        ("Jacobians by count, row, column", by(|r| (r.count, r.row, r.column), 31), "test rank 2"),
        ("Jacobians by row before count", by(|r| (0, r.row, r.column), 31), FALLS),
        ("Jacobian 1 before Jacobian 0", by(|r| (9 - r.count, r.row, r.column), 31), FALLS),
        ("Jacobians by column before row", by(|r| (r.count, r.column, r.row), 31), FALLS),
        ("v by column before row", by(|r| (0, r.column, r.row), 30), FALLS),
        ("A by column before row", by(|r| (0, r.column, r.row), 32), FALLS),
        ("Jacobian 4 in its place", with(&one, jacobian(4, 0)), RECORDS),
        ("Jacobian 4 at the end", behind(&one, &[jacobian(4, 0)]), FALLS),
        ("Jacobian 4 at the front", behind(&[jacobian(4, 0)], &one), FALLS),
    ]
}

/// More records than there are cells: the last pair still counts.
fn long(records: &[Record]) -> Vec<Known> {
    let rising = [records, &order::rising(LONG - records.len())].concat();
    let odd = put(&rising, 0, 1)[..16 * LONG - 1].to_vec();
    vec![
        ("1,024 records that rise", file(&rising), RECORDS),
        ("1,024 records, the last pair falls", put(&rising, LONG - 2, LONG - 1), FALLS),
        ("1,024 records less a byte, the first pair falls", odd, RECORDS),
    ]
}
