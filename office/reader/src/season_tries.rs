//! Random seasons, for trying the program `pullseason` with, and a count of what
//! occurs in them.
//!
//! Their series are stored vectors of every sort, document 01's example with another
//! β, series of which F is a zero of either sign, and such as are refused for the
//! season's own reasons: empty ones, records of kind 21 that close nothing, more records
//! than are held. Most series of one season are of any sort; some seasons have falling,
//! rising or equal F numbers, or none above zero, so that each way in which a worst
//! stays, goes and comes is met often.

use crate::order::{misplaced, rising};
use crate::random::Random;
use crate::season::{closing, contrast_f, joined, refused, split, Latest, CLOSING_KIND};
use crate::vectors::{self, Vector};
use crate::{Record, Refusal, BETA, BETA_H, CONTRAST, PHI, SIGMA, X};
use std::collections::BTreeMap;

/// The most series of a season.
const MOST: usize = 60;

/// The program holds a series of so many records; a longer one is refused.
pub const HELD: usize = 1024;

/// Stored series of more bytes are passed over: thousands are drawn.
const LONGEST: usize = 4096;

/// Series to draw from.
pub struct Stock {
    /// Refused ones, by their number.
    refused: BTreeMap<Refusal, Vec<Vec<u8>>>,
    /// Accepted ones, by what their contrast has.
    accepted: BTreeMap<Sort, Vec<Vec<u8>>>,
}

/// What the contrast of an accepted series has.
#[derive(Debug, Clone, Copy, PartialEq, Eq, PartialOrd, Ord)]
enum Sort {
    WithoutContrast,
    NoF,
    Outside,
    Zero,
    Infinite,
    Negative,
    /// A negative one whose β was made zero: F is a zero, mostly -0.
    Zeroed,
    Positive,
}

const SORTS: [Sort; 8] = [
    Sort::WithoutContrast,
    Sort::NoF,
    Sort::Outside,
    Sort::Zero,
    Sort::Infinite,
    Sort::Negative,
    Sort::Zeroed,
    Sort::Positive,
];

impl Sort {
    /// The sort of what `pulltest` prints of an accepted series.
    fn of(text: &str) -> Sort {
        let Some(test) = text.lines().find(|line| line.starts_with("test ")) else {
            return Sort::WithoutContrast;
        };
        let Some(f) = contrast_f(text).map(f64::from_bits) else {
            return Sort::NoF;
        };
        match f {
            0.0 => Sort::Zero,
            f if f.is_infinite() => Sort::Infinite,
            _ if test.ends_with("outside") => Sort::Outside,
            f if f < 0.0 => Sort::Negative,
            _ => Sort::Positive,
        }
    }
}

/// A series with β and β_H zero.
fn zeroed(series: &[u8]) -> Vec<u8> {
    let mut out = series.to_vec();
    for record in out.chunks_exact_mut(16) {
        if record[0] == BETA || record[0] == BETA_H {
            record[8..].fill(0);
        }
    }
    out
}

/// Document 01's example with this β: F is a quarter of its square.
pub fn of_beta(beta: f64) -> Vec<u8> {
    let record = |kind, row, value: f64| {
        Record { kind, row, column: 0, zero: 0, count: 0, bits: value.to_bits() }.to_bytes()
    };
    [
        record(X, 0, 1.0),
        record(X, 1, 1.0),
        record(PHI, 0, 0.5),
        record(SIGMA, 0, 8.0),
        record(BETA, 0, beta),
        record(CONTRAST, 0, 1.0),
    ]
    .concat()
}

/// A record of kind 21 that closes nothing: byte `at`, from 1 to 15, is set.
pub fn other_21(at: usize, value: u8) -> [u8; 16] {
    let mut out = closing();
    out[at] = value;
    out
}

impl Default for Stock {
    fn default() -> Stock {
        Stock::new()
    }
}

impl Stock {
    /// The stored vectors of whole records that are not too long.
    pub fn new() -> Stock {
        let mut out = Stock { refused: BTreeMap::new(), accepted: BTreeMap::new() };
        let fits = |case: &Vector| case.file.len() % 16 == 0 && case.file.len() <= LONGEST;
        for case in vectors::load(vectors::KENWARD_ROGER).into_iter().filter(fits) {
            if let Some(number) = case.refusal() {
                out.refused.entry(number).or_default().push(case.file);
                continue;
            }
            let sort = Sort::of(&case.output.replace('|', "\n"));
            if sort == Sort::Negative {
                out.accepted.entry(Sort::Zeroed).or_default().push(zeroed(&case.file));
            }
            out.accepted.entry(sort).or_default().push(case.file);
        }
        out
    }

    /// Every series of it, but for those that are made for a season.
    pub fn all(&self) -> impl Iterator<Item = &[u8]> {
        let sorts = self.refused.values().chain(self.accepted.values());
        sorts.flatten().map(Vec::as_slice)
    }

    fn accepted(&self, r: &mut Random, sort: Sort) -> Vec<u8> {
        let all = &self.accepted[&sort];
        all[r.below(all.len())].clone()
    }

    /// A stored series that is refused, each number as often as any other.
    fn refused(&self, r: &mut Random) -> Vec<u8> {
        let numbers: Vec<Refusal> = self.refused.keys().copied().collect();
        let all = &self.refused[&r.pick(&numbers)];
        all[r.below(all.len())].clone()
    }

    /// A series with records of kind 21 that close nothing: at its end, where they rise,
    /// at its front or within, or alone.
    fn with_21(&self, r: &mut Random) -> Vec<u8> {
        let mut out = if r.once_in(4) { Vec::new() } else { self.accepted(r, Sort::Positive) };
        for _ in 0..1 + r.below(2) {
            let other = other_21(1 + r.below(15), 1 << r.below(8));
            let at = if r.once_in(2) { out.len() } else { 16 * r.below(out.len() / 16 + 1) };
            out.splice(at..at, other);
        }
        out
    }

    /// A series for a season of any sorts.
    pub fn series(&self, r: &mut Random) -> Vec<u8> {
        match r.below(40) {
            0..=7 => self.refused(r),
            8 | 9 => Vec::new(),
            10..=12 => self.with_21(r),
            13 if r.once_in(4) => too_long(r),
            14..=29 => {
                let sort = r.pick(&SORTS);
                self.accepted(r, sort)
            }
            _ => of_beta(r.small()),
        }
    }

    /// A series that gives no F.
    fn without_f(&self, r: &mut Random) -> Vec<u8> {
        match r.below(4) {
            0 => self.refused(r),
            1 => Vec::new(),
            2 => self.accepted(r, Sort::NoF),
            _ => self.accepted(r, Sort::WithoutContrast),
        }
    }

    /// So many series, of one of the manners of a season.
    fn of_manner(&self, r: &mut Random, count: usize) -> Vec<Vec<u8>> {
        let manner = r.below(10);
        let one = |r: &mut Random, i: usize| match manner {
            0..=3 if r.once_in(5) => self.without_f(r),
            // Falling, rising, equal by β of either sign.
            0 => of_beta((2 * MOST - i) as f64),
            1 => of_beta((1 + i) as f64),
            2 => of_beta(r.pick(&[2.0, -2.0, 1.0, -1.0])),
            // None above zero.
            3 => {
                let sort = r.pick(&[Sort::Zero, Sort::Zeroed, Sort::Zeroed, Sort::Negative]);
                self.accepted(r, sort)
            }
            4 => self.without_f(r),
            _ => self.series(r),
        };
        let mut out: Vec<Vec<u8>> = Vec::with_capacity(count);
        for i in 0..count {
            let again = manner > 4 && i > 0 && r.once_in(8);
            let next = if again { out[r.below(i)].clone() } else { one(r, i) };
            out.push(next);
        }
        out
    }

    /// What is left over: mostly nothing; else a few bytes, a part of a closing record, a
    /// whole series, or one that falls.
    fn rest(&self, r: &mut Random) -> Vec<u8> {
        match r.below(12) {
            0 => (0..1 + r.below(16)).map(|_| r.bits() as u8).collect(),
            1 => closing()[..1 + r.below(15)].to_vec(),
            2 => self.accepted(r, Sort::Positive),
            3 => misplaced(r, &of_beta(2.0)),
            4 => self.series(r),
            _ => Vec::new(),
        }
    }

    /// The next season.
    pub fn season(&self, r: &mut Random) -> Vec<u8> {
        let count = match r.below(8) {
            0 => r.below(3),
            // Beside twenty, where the first one goes.
            1 => 19 + r.below(5),
            _ => r.below(MOST + 1),
        };
        let series = self.of_manner(r, count);
        let rest = self.rest(r);
        let mut file = joined(&series, &rest);
        if r.once_in(12) {
            damage(r, &mut file);
        }
        file
    }
}

/// More records than are held, rising, or with two of them exchanged.
fn too_long(r: &mut Random) -> Vec<u8> {
    let mut records: Vec<[u8; 16]> =
        rising(HELD + 1 + r.below(300)).into_iter().map(Record::to_bytes).collect();
    if r.once_in(2) {
        // Often beside the end of what is held.
        let at = if r.once_in(2) { HELD - 3 + r.below(4) } else { r.below(records.len() - 1) };
        records.swap(at, at + 1);
    }
    records.concat()
}

/// A season whose later records stand beside their places, by some bytes more or less;
/// or one of whose closing records has another byte set.
fn damage(r: &mut Random, file: &mut Vec<u8>) {
    if file.is_empty() {
        return;
    }
    let at = r.below(file.len());
    match r.below(3) {
        0 => {
            let more: Vec<u8> = (0..1 + r.below(15)).map(|_| r.bits() as u8).collect();
            file.splice(at..at, more);
        }
        1 => drop(file.drain(at..(at + 1 + r.below(15)).min(file.len()))),
        _ => {
            let closes = |i: &usize| file[16 * i..16 * (i + 1)] == closing();
            let places: Vec<usize> = (0..file.len() / 16).filter(closes).collect();
            if !places.is_empty() {
                file[16 * r.pick(&places) + 1 + r.below(15)] = 1 << r.below(8);
            }
        }
    }
}

/// What a season may hold, and how often it was met: in how many seasons or of how many
/// series.
#[derive(Debug, Clone, Default)]
pub struct Tally {
    pub seasons: usize,
    pub series: usize,
    pub met: BTreeMap<&'static str, usize>,
}

/// All that is counted, but for the bytes of `OTHER_BYTES`.
pub const BRANCHES: [&str; 37] = [
    "an empty season",
    "more than twenty series",
    "bytes and no closing record",
    "refused 2",
    "refused 3",
    "refused 4",
    "refused 5",
    "refused 6",
    "refused 7",
    "refused 8",
    "refused 9",
    "refused 10",
    "refused 12",
    "refused 13",
    "an empty series",
    "closing records in a row",
    "more records than are held, rising",
    "more records than are held, falling",
    "the contrast outside",
    "no contrast",
    "F none",
    "F +0",
    "F -0",
    "F infinite",
    "F negative",
    "F positive",
    "worst none",
    "worst infinite",
    "worst negative",
    "worst tied",
    "worst +0, -0 after it",
    "worst -0, +0 after it",
    "worst smaller than before",
    "left over: fewer than 16 bytes",
    "left over: 16 bytes and more",
    "left over: a series that would be accepted",
    "left over: records that fall",
];

/// Kind 21 with this byte set.
pub const OTHER_BYTES: [&str; 15] = [
    "kind 21, byte 1 set",
    "kind 21, byte 2 set",
    "kind 21, byte 3 set",
    "kind 21, byte 4 set",
    "kind 21, byte 5 set",
    "kind 21, byte 6 set",
    "kind 21, byte 7 set",
    "kind 21, byte 8 set",
    "kind 21, byte 9 set",
    "kind 21, byte 10 set",
    "kind 21, byte 11 set",
    "kind 21, byte 12 set",
    "kind 21, byte 13 set",
    "kind 21, byte 14 set",
    "kind 21, byte 15 set",
];

impl Tally {
    fn meet(&mut self, name: &'static str, holds: bool) {
        if holds {
            *self.met.entry(name).or_default() += 1;
        }
    }

    /// Counts a season, from what `pulltest` prints of each series.
    pub fn add(&mut self, file: &[u8], mut text_of: impl FnMut(&[u8]) -> String) {
        let season = split(file);
        self.seasons += 1;
        self.series += season.series.len();
        self.meet("an empty season", file.is_empty());
        self.meet("more than twenty series", season.series.len() > 20);
        self.meet("bytes and no closing record", !file.is_empty() && season.series.is_empty());
        let (mut latest, mut before) = (Latest::default(), None);
        for (i, series) in season.series.iter().enumerate() {
            let text = text_of(series);
            self.meet("closing records in a row", i > 0 && series.is_empty());
            self.add_bytes(series, &text);
            self.add_text(&text);
            latest.add(contrast_f(&text));
            if !refused(&text) {
                self.add_worst(&latest, before);
            }
            before = latest.worst();
        }
        self.add_rest(season.rest, text_of);
    }

    fn add_bytes(&mut self, series: &[u8], text: &str) {
        self.meet("an empty series", series.is_empty());
        let long = series.len() > 16 * HELD;
        self.meet("more records than are held, rising", long && text == "refused 2\n");
        self.meet("more records than are held, falling", long && text == "refused 12\n");
        self.add_21(series);
    }

    fn add_21(&mut self, bytes: &[u8]) {
        for record in bytes.chunks_exact(16).filter(|record| record[0] == CLOSING_KIND) {
            for (name, &byte) in OTHER_BYTES.into_iter().zip(&record[1..]) {
                self.meet(name, byte != 0);
            }
        }
    }

    fn add_text(&mut self, text: &str) {
        if refused(text) {
            let known = BRANCHES.into_iter().find(|&name| name == text.trim_end());
            self.meet(known.unwrap_or("refused otherwise"), true);
            return;
        }
        let Some(test) = text.lines().find(|line| line.starts_with("test ")) else {
            return self.meet("no contrast", true);
        };
        self.meet("the contrast outside", test.ends_with("outside"));
        match contrast_f(text).map(f64::from_bits) {
            None => self.meet("F none", true),
            Some(f) if f == 0.0 => {
                self.meet(if f.is_sign_negative() { "F -0" } else { "F +0" }, true)
            }
            Some(f) => {
                self.meet("F infinite", f.is_infinite());
                self.meet(if f < 0.0 { "F negative" } else { "F positive" }, true);
            }
        }
    }

    /// The worst that is printed, beside that after the series before.
    fn add_worst(&mut self, latest: &Latest, before: Option<u64>) {
        let Some(bits) = latest.worst() else {
            return self.meet("worst none", true);
        };
        let worst = f64::from_bits(bits);
        let tied: Vec<u64> =
            latest.f.iter().flatten().copied().filter(|&f| f64::from_bits(f) == worst).collect();
        self.meet("worst infinite", worst.is_infinite());
        self.meet("worst negative", worst < 0.0);
        self.meet("worst tied", tied.len() > 1);
        let mixed = tied.iter().any(|&other| other != bits);
        self.meet("worst +0, -0 after it", mixed && !worst.is_sign_negative());
        self.meet("worst -0, +0 after it", mixed && worst.is_sign_negative());
        self.meet("worst smaller than before", before.is_some_and(|f| worst < f64::from_bits(f)));
    }

    fn add_rest(&mut self, rest: &[u8], mut text_of: impl FnMut(&[u8]) -> String) {
        if rest.is_empty() {
            return;
        }
        self.add_21(rest);
        self.meet("left over: fewer than 16 bytes", rest.len() < 16);
        self.meet("left over: 16 bytes and more", rest.len() >= 16);
        let text = text_of(rest);
        self.meet("left over: a series that would be accepted", !refused(&text));
        self.meet("left over: records that fall", text == "refused 12\n");
    }

    /// The branches that were met fewer than so many times.
    pub fn rare(&self, least: usize) -> Vec<&'static str> {
        let all = BRANCHES.into_iter().chain(OTHER_BYTES);
        all.filter(|name| self.met.get(name).copied().unwrap_or(0) < least).collect()
    }

    /// Seasons, series, and how often each branch was met.
    pub fn lines(&self) -> String {
        let mut out = format!("{} seasons of {} closed series", self.seasons, self.series);
        for (name, times) in &self.met {
            out += &format!("\n- {name}: {times}");
        }
        out
    }
}

#[cfg(test)]
mod tests {
    use super::*;
    use std::collections::HashMap;

    #[test]
    fn every_sort_is_in_stock() {
        let stock = Stock::new();
        assert!(SORTS.iter().all(|sort| !stock.accepted[sort].is_empty()));
        let numbers: Vec<Refusal> = stock.refused.keys().copied().collect();
        assert_eq!(numbers, [2, 3, 4, 5, 6, 7, 8, 9, 10, 12, 13]);
    }

    /// What `pulltest` prints of a stored series, else the reader's refusal, else a word
    /// that stands for an answer: this crate runs no series.
    fn text_of(stored: &HashMap<Vec<u8>, String>, series: &[u8]) -> String {
        let read = || match crate::read(series) {
            Err(number) => format!("refused {number}\n"),
            Ok(_) => "accepted\n".to_string(),
        };
        stored.get(series).cloned().unwrap_or_else(read)
    }

    /// All that can be told without running a series is met; a test of `pull` has the
    /// others too.
    #[test]
    fn every_branch_of_the_bytes_is_met() {
        let stored = vectors::load(vectors::KENWARD_ROGER).into_iter();
        let stored = stored.map(|case| (case.file, case.output.replace('|', "\n"))).collect();
        let (stock, mut random) = (Stock::new(), Random::new(7));
        let mut tally = Tally::default();
        for _ in 0..300 {
            let file = stock.season(&mut random);
            assert!(split(&file).series.len() <= MOST);
            tally.add(&file, |series| text_of(&stored, series));
        }
        let run = ["F -0", "worst +0, -0 after it", "worst -0, +0 after it", "worst tied"];
        let rare: Vec<_> = tally.rare(3).into_iter().filter(|name| !run.contains(name)).collect();
        assert!(rare.is_empty(), "{rare:?} in {}", tally.lines());
    }

    /// The same numbers, the same season.
    #[test]
    fn the_seed_decides() {
        let stock = Stock::new();
        let seasons = |seed| {
            let mut random = Random::new(seed);
            (0..5).map(|_| stock.season(&mut random)).collect::<Vec<_>>()
        };
        assert_eq!(seasons(1), seasons(1));
        assert_ne!(seasons(1), seasons(2));
    }
}
