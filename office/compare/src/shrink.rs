//! Makes a failing file small: torn specimens go first or are made whole, wrong
//! numbers in blocks are made right, then whole parts of the series go, then single
//! records, then the digits of the numbers. Each step is kept if the file still
//! differs in the same manner. No step but the sorting moves a record past another,
//! so a file that rises still does.

use crate::judge::manner;
use reader::archive::{read_archive, Archive};
use reader::archive_tries::Pair;
use reader::numbers::{corrected, others_are_zero, parameter_count, written_number};
use reader::torn::is_torn;
use reader::tries::Call;
use reader::{
    Record, A, ARCHIVED_SIGMA, BETA, BETA_H, BLOCK, CONTRAST, JACOBIAN, PHI, RESIDUAL_P,
    RESIDUAL_PHI, RESIDUAL_PHI_A, RESPONSE_P, RESPONSE_PHI, RESPONSE_PHI_A, THETA, V, W, WEIGHTS,
    X, Z,
};

/// At most so many files are tried.
const TRIES: usize = 20_000;

/// A file as records, and the bytes behind the last whole one.
#[derive(Clone, PartialEq)]
struct File {
    records: Vec<Record>,
    rest: Vec<u8>,
}

impl File {
    fn from_bytes(bytes: &[u8]) -> File {
        let whole = bytes.len() / 16 * 16;
        File {
            records: bytes[..whole].chunks(16).map(Record::from_bytes).collect(),
            rest: bytes[whole..].to_vec(),
        }
    }

    fn to_bytes(&self) -> Vec<u8> {
        let records = self.records.iter().flat_map(|r| r.to_bytes());
        records.chain(self.rest.iter().copied()).collect()
    }
}

/// The search: the smallest file so far.
struct Search<'a> {
    fails: &'a dyn Fn(&[u8]) -> bool,
    best: File,
    left: usize,
}

/// A smaller file on which the two still differ in the same manner.
pub fn shrink(call: Call, bytes: &[u8]) -> Vec<u8> {
    let Some(first) = manner(call, bytes) else {
        return bytes.to_vec();
    };
    shrink_while(bytes, &|file| manner(call, file) == Some(first))
}

/// A smaller file on which `fails` still holds.
pub fn shrink_while(bytes: &[u8], fails: &dyn Fn(&[u8]) -> bool) -> Vec<u8> {
    let mut search = Search { fails, best: File::from_bytes(bytes), left: TRIES };
    loop {
        let before = search.best.clone();
        search.torn();
        search.blocks();
        search.parts();
        search.single_records();
        search.order();
        search.numbers();
        if search.best == before || search.left == 0 {
            return search.best.to_bytes();
        }
    }
}

/// A smaller pair of an archive and a second file on which `fails` still holds.
pub fn shrink_pair(pair: &Pair, fails: &dyn Fn(&Pair) -> bool) -> Pair {
    let mut best = pair.clone();
    loop {
        let before = best.clone();
        // Both as one file: a coefficient goes out of both at once.
        let both = [&best.1[..], &best.0].concat();
        if parted(&both) == best {
            best = parted(&shrink_while(&both, &|file| fails(&parted(file))));
        }
        best.0 = shrink_while(&best.0, &|archive| fails(&(archive.to_vec(), best.1.clone())));
        best.1 = shrink_while(&best.1, &|tests| fails(&(best.0.clone(), tests.to_vec())));
        best.0 = simpler_archive(&best, fails);
        if best == before {
            return best;
        }
    }
}

/// Two files in one: the second file's kinds stand before the archive's.
fn parted(file: &[u8]) -> Pair {
    let second = file.chunks(16).take_while(|record| record[0] < RESPONSE_PHI);
    let (tests, archive) = file.split_at((16 * second.count()).min(file.len()));
    (archive.to_vec(), tests.to_vec())
}

/// Each number of a good archive to a simpler one, in both units at once.
fn simpler_archive((archive, tests): &Pair, fails: &dyn Fn(&Pair) -> bool) -> Vec<u8> {
    let Ok(mut best) = read_archive(archive) else {
        return archive.clone();
    };
    for at in 0.. {
        let Some(&mut value) = number(&mut best, at) else {
            break;
        };
        for simple in simpler(value) {
            let mut candidate = best.clone();
            *number(&mut candidate, at).expect("as many numbers") = simple;
            if fails(&(candidate.to_bytes(), tests.clone())) {
                best = candidate;
                break;
            }
        }
    }
    best.to_bytes()
}

/// The numbers of an archive, one after the other.
fn number(archive: &mut Archive, at: usize) -> Option<&mut f64> {
    let matrices = [&mut archive.phi, &mut archive.phi_a, &mut archive.w].into_iter();
    let cells = matrices.chain(&mut archive.p).flat_map(|m| &mut m.cells);
    cells.chain([&mut archive.sigma2]).nth(at)
}

impl Search<'_> {
    /// Takes the candidate if it still fails.
    fn try_file(&mut self, candidate: File) -> bool {
        if self.left == 0 || candidate == self.best {
            return false;
        }
        self.left -= 1;
        let fails = (self.fails)(&candidate.to_bytes());
        if fails {
            self.best = candidate;
        }
        fails
    }

    /// Tries a change of the records.
    fn try_records(&mut self, change: impl Fn(&[Record]) -> Vec<Record>) -> bool {
        let records = change(&self.best.records);
        let rest = self.best.rest.clone();
        self.try_file(File { records, rest })
    }

    /// Torn specimens: all of them dropped or made whole, then each. So one that
    /// is left has to be torn.
    fn torn(&mut self) {
        self.try_records(|rs| torn_rows(rs).into_iter().rev().fold(rs.to_vec(), without_row));
        self.try_records(|rs| torn_rows(rs).into_iter().fold(rs.to_vec(), made_whole));
        for row in torn_rows(&self.best.records).into_iter().rev() {
            let dropped = self.try_records(|rs| without_row(rs.to_vec(), row));
            if !dropped {
                self.try_records(|rs| made_whole(rs.to_vec(), row));
            }
        }
    }

    /// The blocks' values: all of them made right, then each. So one that is left
    /// wrong has to be.
    fn blocks(&mut self) {
        self.try_records(|rs| rs.iter().map(|&r| corrected(r)).collect());
        for at in 0..self.best.records.len() {
            self.try_records(|rs| {
                let mut out = rs.to_vec();
                out[at] = corrected(out[at]);
                out
            });
        }
    }

    /// Specimens, coefficients, contrast rows, blocks, groups, parameters, and
    /// kinds that may be absent.
    fn parts(&mut self) {
        self.try_file(File { rest: Vec::new(), ..self.best.clone() });
        for kinds in [&[BETA_H][..], &[CONTRAST, BETA_H], &[WEIGHTS], &[Z, BLOCK, THETA]] {
            self.try_records(|rs| {
                rs.iter().filter(|r| !kinds.contains(&r.kind)).copied().collect()
            });
        }
        for part in [Part::Specimen, Part::Coefficient, Part::ContrastRow, Part::Parameter] {
            // From the last: what is left keeps its number.
            for i in (0..24).rev() {
                self.try_records(|rs| without_index(rs, part, i));
            }
        }
        for block in (0..3).rev() {
            self.try_records(|rs| without_block(rs, block));
            for group in (0..24).rev() {
                self.try_records(|rs| without_group(rs, block, group));
            }
        }
    }

    /// Runs of records, halves first, then each alone.
    fn single_records(&mut self) {
        let mut size = self.best.records.len().div_ceil(2);
        while size > 0 {
            let mut at = 0;
            while at < self.best.records.len() {
                let taken = self.try_records(|rs| {
                    let end = (at + size).min(rs.len());
                    [&rs[..at], &rs[end..]].concat()
                });
                if !taken {
                    at += size;
                }
            }
            size /= 2;
        }
    }

    /// The records in order.
    fn order(&mut self) {
        self.try_records(|rs| {
            let mut sorted = rs.to_vec();
            sorted.sort_by_key(Record::key);
            sorted
        });
    }

    /// Each value to a simpler one.
    fn numbers(&mut self) {
        for at in 0..self.best.records.len() {
            for simple in simpler_value(&self.best.records[at]) {
                let taken = self.try_records(|rs| {
                    let mut out = rs.to_vec();
                    out[at].bits = simple.to_bits();
                    out
                });
                if taken {
                    break;
                }
            }
        }
    }
}

/// The rows whose weight is zero.
fn torn_rows(records: &[Record]) -> Vec<u8> {
    let torn = |r: &&Record| r.kind == WEIGHTS && is_torn(f64::from_bits(r.bits));
    records.iter().filter(torn).map(|r| r.row).collect()
}

fn without_row(records: Vec<Record>, row: u8) -> Vec<Record> {
    without_index(&records, Part::Specimen, row.into())
}

/// The specimen of a row with the weight 1.
fn made_whole(mut records: Vec<Record>, row: u8) -> Vec<Record> {
    let own = records.iter_mut().filter(|r| r.kind == WEIGHTS && r.row == row);
    own.for_each(|r| r.bits = 1f64.to_bits());
    records
}

/// Values simpler than a record's. A weight neither becomes zero nor ceases to
/// be: that would tear its specimen, or make it whole. The value of a block is no
/// f64.
fn simpler_value(record: &Record) -> Vec<f64> {
    if record.kind == BLOCK {
        return Vec::new();
    }
    let value = f64::from_bits(record.bits);
    let alike = |v: &f64| record.kind != WEIGHTS || is_torn(*v) == is_torn(value);
    simpler(value).into_iter().filter(alike).collect()
}

/// Numbers simpler than x, the simplest first.
fn simpler(x: f64) -> Vec<f64> {
    let cut = |digits: u32| f64::from_bits(x.to_bits() & !0 << (52 - digits));
    let near_one = f64::from_bits((x.to_bits() & !(0x7ff << 52)) | 1023 << 52);
    let list = [0.0, 1.0, -1.0, 2.0, 0.5, x.round(), cut(0), near_one, cut(4), cut(12), cut(26)];
    list.into_iter().filter(|v| effort(*v) < effort(x)).collect()
}

/// How much there is to read in a number.
fn effort(x: f64) -> u32 {
    if x.to_bits() == 0 {
        return 0;
    }
    if x == 1.0 {
        return 1;
    }
    let fraction = x.to_bits() & ((1 << 52) - 1);
    let digits = if fraction == 0 { 0 } else { 52 - fraction.trailing_zeros() };
    let exponent = ((x.to_bits() >> 52 & 0x7ff) as i32 - 1023).unsigned_abs();
    2 + digits + exponent + u32::from(x.is_sign_negative())
}

#[derive(Clone, Copy)]
enum Part {
    Specimen,
    Coefficient,
    ContrastRow,
    Parameter,
}

/// Without the part of this number; those behind it move up.
fn without_index(records: &[Record], part: Part, number: u32) -> Vec<Record> {
    let mut out = Vec::new();
    for r in records {
        let mut r = *r;
        let (row, column, count) = match (part, r.kind) {
            (Part::Specimen, X | Z | WEIGHTS) => (true, false, false),
            (Part::Coefficient, X | CONTRAST) => (false, true, false),
            (Part::Coefficient, PHI | V | JACOBIAN) => (true, true, false),
            (Part::Coefficient, RESPONSE_PHI..=RESPONSE_P | RESIDUAL_PHI..=RESIDUAL_P) => {
                (true, true, false)
            }
            (Part::Coefficient, BETA | BETA_H) => (true, false, false),
            (Part::ContrastRow, CONTRAST) => (true, false, false),
            (Part::Parameter, A | W) => (true, true, false),
            (Part::Parameter, JACOBIAN | RESPONSE_P | RESIDUAL_P) => (false, false, true),
            _ => (false, false, false),
        };
        let at = number as u8;
        let goes =
            (row && r.row == at) || (column && r.column == at) || (count && r.count == number);
        if goes {
            continue;
        }
        r.row -= u8::from(row && r.row > at);
        r.column -= u8::from(column && r.column > at);
        r.count -= u32::from(count && r.count > number);
        out.push(r);
    }
    out
}

/// The columns before a block, its groups and its effects.
fn block_columns(records: &[Record], block: u8) -> Option<(u32, u32, u8)> {
    let shape = |number: u8| {
        let found = records.iter().find(|r| r.kind == BLOCK && r.row == number);
        found.map(|r| (r.count.min(24), r.column.min(2)))
    };
    let before = (0..block).filter_map(shape).map(|(m, k)| m * u32::from(k)).sum();
    shape(block).map(|(m, k)| (before, m, k))
}

/// Without columns `from` to `from + count - 1` of Z.
fn without_columns(records: &[Record], from: u32, count: u32) -> Vec<Record> {
    let mut out = Vec::new();
    for r in records {
        let mut r = *r;
        if r.kind == Z && u32::from(r.column) >= from {
            if u32::from(r.column) < from + count {
                continue;
            }
            r.column -= count as u8;
        }
        out.push(r);
    }
    out
}

/// Without a block, its columns and its thetas.
fn without_block(records: &[Record], block: u8) -> Vec<Record> {
    let Some((before, m, k)) = block_columns(records, block) else {
        return records.to_vec();
    };
    // At most 3, since k is taken as 2 at most.
    let parameters = |k: u8| parameter_count(k) as u8;
    let first = (0..block).filter_map(|b| block_columns(records, b));
    let first: u8 = first.map(|(_, _, k)| parameters(k)).sum();
    let mut out = without_columns(records, before, m * u32::from(k));
    out.retain(|r| {
        let own_theta = r.kind == THETA && (first..first + parameters(k)).contains(&r.row);
        let own_record = r.kind == BLOCK && r.row == block;
        !own_theta && !own_record
    });
    for r in out.iter_mut() {
        if r.kind == THETA && r.row >= first {
            r.row -= parameters(k);
        }
        if r.kind == BLOCK && r.row > block {
            r.row -= 1;
        }
    }
    out
}

/// Without one group of a block.
fn without_group(records: &[Record], block: u8, group: u32) -> Vec<Record> {
    let Some((before, m, k)) = block_columns(records, block).filter(|&(_, m, _)| group < m) else {
        return records.to_vec();
    };
    let k = u32::from(k);
    let mut out = without_columns(records, before + group * k, k);
    for r in out.iter_mut().filter(|r| r.kind == BLOCK && r.row == block) {
        r.count = m - 1;
    }
    out
}

/// A file for a reader, one record to a line.
pub fn text(bytes: &[u8]) -> String {
    let file = File::from_bytes(bytes);
    let mut out = String::new();
    for r in &file.records {
        let (k, i, j, m) = (kind(r.kind), r.row, r.column, r.count);
        let byte3 = if r.zero == 0 { String::new() } else { format!(" byte 3: {}", r.zero) };
        let value = if r.kind == BLOCK && others_are_zero(r) {
            format!("number {}", written_number(r))
        } else {
            format!("value {:?} ({:016x})", f64::from_bits(r.bits), r.bits)
        };
        out += &format!("    {k:<14} row {i} column {j} count {m}{byte3} {value}\n");
    }
    if !file.rest.is_empty() {
        out += &format!("    and {} bytes more\n", file.rest.len());
    }
    out
}

fn kind(kind: u8) -> String {
    let names = [
        (X, "X"),
        (Z, "Z"),
        (BLOCK, "block"),
        (THETA, "theta"),
        (WEIGHTS, "weight"),
        (PHI, "Φ"),
        (reader::SIGMA, "sigma2"),
        (BETA, "β"),
        (CONTRAST, "contrast"),
        (BETA_H, "β_H"),
        (RESPONSE_PHI, "Φ·sigma2"),
        (RESPONSE_PHI_A, "Φ_A·sigma2"),
        (RESPONSE_P, "P/sigma2"),
        (W, "W"),
        (RESIDUAL_PHI, "Φ"),
        (RESIDUAL_PHI_A, "Φ_A"),
        (RESIDUAL_P, "P"),
        (ARCHIVED_SIGMA, "sigma2"),
        (V, "v"),
        (JACOBIAN, "Jacobian"),
        (A, "A"),
    ];
    let name = names.iter().find(|(k, _)| *k == kind).map_or("", |(_, name)| name);
    format!("{kind} {name}")
}

#[cfg(test)]
mod tests {
    use super::*;
    use oracle::known::kr_bytes;
    use oracle::random::series_of_sizes;
    use reader::random::Random;
    use reader::Block;

    /// The largest series, and a "failure" that needs little of it.
    #[test]
    fn a_large_file_becomes_small() {
        let mut random = Random::new(3);
        let blocks = vec![Block { m: 8, k: 1 }; 3];
        let file = kr_bytes(&series_of_sizes(&mut random, 24, 6, blocks, 5));
        let fails = |bytes: &[u8]| match reader::read(bytes) {
            Ok(s) => s.x.cols >= 2 && s.blocks.iter().any(|b| b.m >= 2) && s.contrast.is_some(),
            Err(_) => false,
        };
        assert!(fails(&file));
        let small = shrink_while(&file, &fails);
        let series = reader::read(&small).expect("it still fails, so it is accepted");
        assert_eq!((series.x.rows, series.x.cols), (1, 2));
        assert_eq!(series.blocks, [Block { m: 2, k: 1 }]);
        assert_eq!(series.contrast.map(|l| l.rows), Some(1));
        assert!(small.len() <= 16 * 15, "{} bytes\n{}", small.len(), text(&small));
    }

    /// Three blocks with wrong numbers, of which a failure needs one: it alone is left
    /// wrong, in a file of it and of what no series can be without.
    #[test]
    fn one_wrong_number_is_left() {
        let blocks = vec![Block { m: 3, k: 1 }; 3];
        let mut file = kr_bytes(&series_of_sizes(&mut Random::new(11), 12, 3, blocks, 2));
        let places: Vec<usize> =
            (0..file.len()).step_by(16).filter(|&i| file[i] == BLOCK).collect();
        for (&at, number) in places.iter().zip([0, 7, 255]) {
            file[at + 8] = number;
        }
        let small = shrink_while(&file, &|bytes| reader::read(bytes) == Err(13));
        assert_eq!(small.len(), 16 * 5, "{}", text(&small));
        let seven = |bytes: &[u8]| {
            reader::read(bytes) == Err(13) && bytes.chunks(16).any(|r| r[0] == BLOCK && r[8] == 7)
        };
        assert!(seven(&file));
        let small = shrink_while(&file, &seven);
        assert_eq!(small.len(), 16 * 5, "{}", text(&small));
        assert!(text(&small).contains("number 7"), "{}", text(&small));
        // A failure that needs blocks and no wrong number has none.
        let three = |bytes: &[u8]| bytes.chunks(16).filter(|r| r[0] == BLOCK).count() == 3;
        let small = shrink_while(&file, &three);
        let numbers = reader::numbers::Numbers::of(&small).expect("blocks");
        assert!(numbers.all_right(), "{}", text(&small));
    }

    /// A series of which every other specimen is torn.
    fn torn_file(n: usize, seed: u64) -> Vec<u8> {
        let blocks = vec![Block { m: 4, k: 1 }; 2];
        let series = series_of_sizes(&mut Random::new(seed), n, 4, blocks, 3);
        let weight = |i| if i % 2 == 0 { [-0.0, 0.0][i / 2 % 2] } else { 1.5 + i as f64 };
        kr_bytes(&reader::Series { weights: Some((0..n).map(weight).collect()), ..series })
    }

    /// Of a failure that needs a torn specimen one is left, beside one that is
    /// not.
    #[test]
    fn one_torn_specimen_is_left() {
        let file = torn_file(20, 7);
        let fails = |bytes: &[u8]| match reader::read(bytes) {
            Ok(s) => s.weights.iter().flatten().any(|&w| is_torn(w)),
            Err(_) => false,
        };
        assert!(fails(&file));
        let small = shrink_while(&file, &fails);
        let series = reader::read(&small).expect("it still fails, so it is accepted");
        assert_eq!((series.x.rows, series.x.cols), (2, 1), "{}", text(&small));
        let weights = series.weights.expect("weights");
        assert_eq!(weights.iter().filter(|&&w| is_torn(w)).count(), 1, "{weights:?}");
        assert!(weights.contains(&1.0), "{weights:?}");
    }

    /// A failure that needs weights and no torn specimen has none, and one that
    /// needs a row of a torn specimen has it whole.
    #[test]
    fn torn_specimens_go_or_are_made_whole() {
        let file = torn_file(12, 8);
        let weighted = |bytes: &[u8]| reader::read(bytes).is_ok_and(|s| s.weights.is_some());
        let small = shrink_while(&file, &weighted);
        assert_eq!(torn_rows(&File::from_bytes(&small).records), [0u8; 0], "{}", text(&small));
        let first = file[8..16].to_vec();
        let row = |bytes: &[u8]| {
            let cell = bytes.chunks(16).any(|r| r[0] == X && r[8..] == first);
            cell && reader::read(bytes).is_ok_and(|s| s.weights.is_some())
        };
        assert!(row(&file) && torn_rows(&File::from_bytes(&file).records).contains(&0));
        let small = shrink_while(&file, &row);
        assert_eq!(torn_rows(&File::from_bytes(&small).records), [0u8; 0], "{}", text(&small));
        assert!(row(&small));
    }

    /// Torn specimens alone: one of them is left.
    #[test]
    fn a_series_of_torn_specimens() {
        let all: Vec<Record> = File::from_bytes(&torn_file(10, 9)).records;
        let zero = |r: Record| if r.kind == WEIGHTS { Record { bits: 0, ..r } } else { r };
        let file = File { records: all.into_iter().map(zero).collect(), rest: Vec::new() };
        let small = shrink_while(&file.to_bytes(), &|bytes| reader::read(bytes) == Err(3));
        assert_eq!(small.len(), 16 * 5, "{}", text(&small));
    }

    /// Of records out of order the pair that falls is left.
    #[test]
    fn a_falling_pair_is_found() {
        let mut random = Random::new(5);
        let mut file = kr_bytes(&series_of_sizes(&mut random, 24, 6, Vec::new(), 5));
        let last = file.len() - 16;
        file[last - 16..].rotate_left(16);
        let small = shrink_while(&file, &|bytes| reader::read(bytes) == Err(12));
        assert_eq!(small.len(), 32, "{}", text(&small));
    }

    /// Of the largest archive that differs in one P, one coefficient and one P
    /// are left, with simple numbers.
    #[test]
    fn a_large_pair_becomes_small() {
        let mut random = Random::new(6);
        let archive = reader::archive_tries::random_archive(&mut random, 6, 4);
        let pair = (archive.to_bytes(), reader::archive_tries::random_tests(&mut random, 6));
        let fails = |(archive, tests): &Pair| match reader::archive::read_both(archive, tests) {
            Ok((archive, _)) => archive.p.iter().any(|p| p.cells.iter().any(|&v| v < 0.0)),
            Err(_) => false,
        };
        assert!(fails(&pair));
        let small = shrink_pair(&pair, &fails);
        assert_eq!(small.0.len(), reader::archive::SHORTEST, "{}", text(&small.0));
        assert_eq!(small.1.len(), 16, "{}", text(&small.1));
        let archive = read_archive(&small.0).expect("it still fails, so it is accepted");
        assert_eq!((archive.phi[(0, 0)], archive.sigma2), (0.0, 1.0));
    }

    /// A damaged record alone is left.
    #[test]
    fn a_damaged_record_is_found() {
        let mut random = Random::new(4);
        let mut file = kr_bytes(&series_of_sizes(&mut random, 10, 3, Vec::new(), 2));
        file[16 * 7 + 3] = 9;
        file.push(1);
        let small =
            shrink_while(&file, &|bytes| bytes.chunks(16).any(|c| c.len() > 3 && c[3] == 9));
        assert_eq!(small.len(), 16);
    }
}
