//! Writes the stored season, with the oracle's answers: first the series in which each
//! branch of document 02's "Req 07" shows, then random ones; and, at the end, bytes that
//! no record closes.

use crate::print::{pullseason, pulltest};
use crate::reader::order::{misplaced, rising};
use crate::reader::season::{contrast_f, joined, refused};
use crate::reader::season_tries::{of_beta, other_21, Stock, Tally, HELD};
use crate::reader::Record;
use ::reader::random::Random;
use std::path::Path;
use std::{fs, io};

/// Random series stay below so many bytes, so that the season stays short.
const LONGEST: usize = 2000;

/// The stock with what `pulltest` prints of each series, the shortest first.
struct Texts(Vec<(Vec<u8>, String)>);

impl Texts {
    fn new(stock: &Stock) -> Texts {
        let mut all: Vec<(Vec<u8>, String)> =
            stock.all().map(|series| (series.to_vec(), pulltest(series))).collect();
        all.sort();
        all.sort_by_key(|(series, _)| series.len());
        Texts(all)
    }

    /// The shortest series whose text is such.
    fn such(&self, holds: impl Fn(&str) -> bool) -> Vec<u8> {
        let found = self.0.iter().find(|(_, text)| holds(text));
        found.expect("the stock has every sort").0.clone()
    }

    fn of_f(&self, f: f64) -> Vec<u8> {
        self.such(|text| contrast_f(text) == Some(f.to_bits()))
    }

    fn refused(&self, number: u32) -> Vec<u8> {
        self.such(|text| text == format!("refused {number}\n"))
    }
}

/// More records than the program holds, the last two of them exchanged or not.
fn too_long(falls: bool) -> Vec<u8> {
    let mut records: Vec<[u8; 16]> = rising(HELD + 1).into_iter().map(Record::to_bytes).collect();
    if falls {
        records.swap(HELD - 1, HELD);
    }
    records.concat()
}

/// Records of kind 21 with one byte set each, of which none closes: behind a series they
/// fall, since most of them have one key. Then such as rise, each in a row of its own.
fn with_21() -> [Vec<u8>; 2] {
    let one = (1..16).map(|at| other_21(at, 1));
    let falling = of_beta(6.0).into_iter().chain(one.flatten()).collect();
    let rows = (2..16).map(|at| {
        let mut record = other_21(at, 255);
        record[1] = at as u8;
        record
    });
    [falling, of_beta(6.0).into_iter().chain(rows.flatten()).collect()]
}

/// No F above zero: none, a negative one, zeros of both signs that tie, and between them
/// all that is refused, until the first zero leaves the twenty and the other's bits come.
fn zeros_and_refusals(texts: &Texts) -> Vec<Vec<u8>> {
    let negative = texts.such(|text| contrast_f(text).is_some_and(|f| f64::from_bits(f) < 0.0));
    let without = texts.such(|text| !refused(text) && !text.contains("test "));
    let no_f = texts.such(|text| text.contains("test ") && contrast_f(text).is_none());
    let [falling, rising] = with_21();
    let mut out = vec![
        without.clone(),
        negative.clone(),
        texts.of_f(-0.0),
        texts.of_f(0.0),
        texts.of_f(-0.0),
        Vec::new(),
        Vec::new(),
        falling,
        rising,
        too_long(false),
        too_long(true),
        no_f,
    ];
    out.extend([3, 4, 5, 6, 7, 8, 9, 10, 12, 13].map(|number| texts.refused(number)));
    out.extend([without, negative]);
    out
}

/// Ties, numbers outside and infinite ones; then falling ones, until the infinite ones
/// have left the twenty and each worst after them as well.
fn ties_and_falls(texts: &Texts) -> Vec<Vec<u8>> {
    let outside = texts.such(|text| {
        let test = text.lines().find(|line| line.starts_with("test "));
        let f = contrast_f(text).map(f64::from_bits);
        test.is_some_and(|line| line.ends_with("outside")) && f.is_some_and(|f| f > 0.0)
    });
    let infinite = texts.of_f(f64::INFINITY);
    let mut out = vec![outside, of_beta(6.0), of_beta(-6.0), infinite.clone(), infinite];
    out.extend((0..23).map(|i| of_beta(f64::from(30 - i))));
    out
}

/// The season of a seed: so many series, at least those of the branches, and bytes left
/// over: a series that falls, for which 12 would be wrong.
pub fn season(seed: u64, count: usize) -> Vec<u8> {
    let stock = Stock::new();
    let texts = Texts::new(&stock);
    let mut random = Random::new(seed);
    let mut series = zeros_and_refusals(&texts);
    series.extend(ties_and_falls(&texts));
    while series.len() < count {
        let next = stock.series(&mut random);
        if next.len() <= LONGEST {
            series.push(next);
        }
    }
    let mut rest = of_beta(6.0);
    while !refused(&pulltest(&rest)) {
        rest = misplaced(&mut random, &rest);
    }
    joined(&series, &rest)
}

/// `oracle make-season DIR SEED COUNT`: the season as the `stdin` of the program `pullseason`,
/// what it has to print as its `stdout`. What the season holds.
pub fn make_season(folder: &Path, seed: u64, count: usize) -> io::Result<Tally> {
    fs::create_dir_all(folder)?;
    let file = season(seed, count);
    let mut tally = Tally::default();
    tally.add(&file, pulltest);
    fs::write(folder.join("stdout"), pullseason(&file))?;
    fs::write(folder.join("stdin"), file)?;
    Ok(tally)
}
