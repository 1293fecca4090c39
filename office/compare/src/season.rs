//! Random seasons through the program `pullseason` and through the oracle: every line.
//!
//! The series of a season are those of the reader's makers, or random ones of every
//! family of the Kenward–Roger call. Of a season that differs every series goes that can
//! go while it still differs.

use crate::cases::{families, file};
use crate::live::Plan;
use oracle::print::pulltest;
use reader::programs::PULLSEASON;
use reader::random::Random;
use reader::season::{joined, printed, split};
use reader::season_tries::{Stock, Tally};
use reader::tries::Call;
use std::collections::HashMap;
use std::panic::{catch_unwind, AssertUnwindSafe};

/// A comparison that has met so many differences ends.
const ENOUGH: usize = 5;

/// The most series of a season of every family.
const MOST: usize = 60;

/// What has been seen.
#[derive(Default)]
pub struct Summary {
    pub failures: usize,
    /// What the seasons held, by the oracle's texts.
    pub tally: Tally,
}

/// The season of a seed.
pub fn season(stock: &Stock, seed: u64) -> Vec<u8> {
    let mut random = Random::new(seed);
    if random.once_in(2) {
        return stock.season(&mut random);
    }
    let all = families(Call::KenwardRoger);
    let series: Vec<Vec<u8>> = (0..random.below(MOST + 1))
        .map(|_| {
            let mut series = file(Call::KenwardRoger, random.pick(&all), random.bits());
            // A record that is cut moves all that stand behind it: now and then.
            if !random.once_in(20) {
                series.truncate(series.len() / 16 * 16);
            }
            series
        })
        .collect();
    let rest = if random.once_in(4) { stock.series(&mut random) } else { Vec::new() };
    joined(&series, &rest)
}

/// What `pulltest` prints of each series by the oracle; a text of its own where the
/// oracle fails, which no program prints.
struct Oracle(HashMap<Vec<u8>, String>);

impl Oracle {
    fn text_of(&mut self, series: &[u8]) -> String {
        let run = || {
            let failed = |_| "the oracle failed\n".to_string();
            catch_unwind(AssertUnwindSafe(|| pulltest(series))).unwrap_or_else(failed)
        };
        self.0.entry(series.to_vec()).or_insert_with(run).clone()
    }

    fn printed(&mut self, season: &[u8]) -> String {
        printed(season, |series| self.text_of(series))
    }

    fn differs(&mut self, season: &[u8]) -> bool {
        PULLSEASON.printed([season]) != self.printed(season)
    }
}

/// Whether the program is there; where it is not, says what builds it.
fn there() -> bool {
    let path = PULLSEASON.path();
    if !path.is_file() {
        println!(
            "seasons: {} is not there. `rt run` in crates/pullseason builds it.",
            path.display()
        );
    }
    path.is_file()
}

/// Compares as many seasons as the plan says, and prints each difference as it is met.
pub fn run(plan: &Plan) -> Summary {
    let mut summary = Summary::default();
    if plan.seasons > 0 && !there() {
        summary.failures = 1;
        return summary;
    }
    let stock = Stock::new();
    let mut seeds = Random::new(plan.seed.wrapping_mul(1009).wrapping_add(7));
    for _ in 0..plan.seasons {
        let seed = seeds.bits();
        if plan.trace {
            eprintln!("season {seed}");
        }
        if !one(&stock, seed, plan, &mut summary) {
            summary.failures += 1;
            println!("DIFFERENT: compare --season-case {seed}");
        }
        if summary.failures >= ENOUGH {
            println!("{ENOUGH} differences: the comparison ends here");
            return summary;
        }
    }
    let tally = &summary.tally;
    println!("seasons: {} of {} closed series", tally.seasons, tally.series);
    println!("seasons: what was met {:?}", tally.met);
    summary
}

/// One season; whether every line is the same.
pub fn one(stock: &Stock, seed: u64, plan: &Plan, summary: &mut Summary) -> bool {
    if !there() {
        return false;
    }
    let file = season(stock, seed);
    let mut oracle = Oracle(HashMap::new());
    let same = !oracle.differs(&file);
    summary.tally.add(&file, |series| oracle.text_of(series));
    if !same {
        report(&mut oracle, &file, seed, plan);
    }
    same
}

/// The season without each part that can go while it still differs: the bytes left over,
/// then one series after the other.
fn shrink(oracle: &mut Oracle, file: &[u8]) -> Vec<u8> {
    let season = split(file);
    let (mut series, mut rest) = (season.series, season.rest);
    if oracle.differs(&joined(&series, &[])) {
        rest = &[];
    }
    for i in (0..series.len()).rev() {
        let mut fewer = series.clone();
        fewer.remove(i);
        if oracle.differs(&joined(&fewer, rest)) {
            series = fewer;
        }
    }
    joined(&series, rest)
}

/// Prints the first line that differs, and writes the season and a smaller one.
fn report(oracle: &mut Oracle, file: &[u8], seed: u64, plan: &Plan) {
    let small = shrink(oracle, file);
    let (program, expected) = (PULLSEASON.printed([&small[..]]), oracle.printed(&small));
    println!("  shrunk to {} series, {} bytes", split(&small).series.len(), small.len());
    let lines = program.lines().count().max(expected.lines().count());
    let line = |text: &str, i: usize| text.lines().nth(i).unwrap_or("(no line)").to_string();
    let first = (0..lines).find(|&i| line(&program, i) != line(&expected, i)).unwrap_or(lines);
    println!("  line {}: program {}", first + 1, line(&program, first));
    println!(
        "  {}oracle  {}",
        " ".repeat(7 + (first + 1).to_string().len()),
        line(&expected, first)
    );
    for (end, content) in [("", file), ("-small", &small)] {
        let path = plan.folder.join(format!("season-{seed}{end}.rec"));
        let written =
            std::fs::create_dir_all(&plan.folder).and_then(|()| std::fs::write(&path, content));
        match written {
            Ok(()) => println!("  written to {}", path.display()),
            Err(e) => println!("  not written to {}: {e}", path.display()),
        }
    }
}
