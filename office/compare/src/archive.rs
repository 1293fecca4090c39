//! The archive's two functions against the oracle.
//!
//! Each random series is archived by both: the number, or every byte of the
//! archive, and the bytes behind it. One that is archived is tested from its
//! archive with its own second file, and the panel's outcome is the oracle's and
//! that of `pull_kenward_roger` on the series. Beside it go two pairs more: its
//! two files damaged, and an archive of random numbers, mostly damaged too.

use crate::cases::{self, families, file};
use crate::judge::{caught, compare, Manner, Outcome, UNTOUCHED};
use crate::live::Plan;
use crate::shrink::{shrink_pair, shrink_while, text};
use crate::{numbers, torn};
use oracle::archive::{archive_fill, archive_test_fill};
use oracle::calls::{ENTRY, KR_ANSWER};
use reader::archive::{test_records, LENT, SHORTEST};
use reader::archive_tries::{random_pair, varied, Pair};
use reader::random::Random;
use reader::torn::Torn;
use reader::tries::Call;
use std::collections::BTreeMap;

/// A comparison that has met so many differences ends.
const ENOUGH: usize = 5;

fn filled(length: usize, fill: impl FnOnce(&mut [u8]) -> u32) -> Outcome {
    let mut answer = vec![UNTOUCHED; length];
    let number = fill(&mut answer);
    Outcome { number, answer }
}

/// The panel's archive of a series.
pub fn panel(series: &[u8]) -> Outcome {
    filled(LENT, |lent| pull::archive_fill(series, lent))
}

/// The oracle's; a text where its own two runs differ, or it fails.
pub fn oracle(series: &[u8]) -> Result<Outcome, String> {
    caught(|| Ok(filled(LENT, |lent| archive_fill(series, lent))))
}

/// The panel's test from an archive.
pub fn panel_test((archive, tests): &Pair) -> Outcome {
    filled(KR_ANSWER, |answer| pull::archive_test_fill(archive, tests, answer))
}

pub fn oracle_test((archive, tests): &Pair) -> Result<Outcome, String> {
    caught(|| Ok(filled(KR_ANSWER, |answer| archive_test_fill(archive, tests, answer))))
}

/// How the two differ on a series, if they do. Where both archive it the test
/// from the archive is the panel's direct call too.
pub fn manner(series: &[u8]) -> Option<Manner> {
    let archive = panel(series);
    let differ = compare(&archive, &oracle(series));
    if differ.is_some() || (archive.number as usize) < SHORTEST {
        return differ;
    }
    let pair = (archive.answer[..archive.number as usize].to_vec(), test_records(series));
    let direct = crate::judge::panel(Call::KenwardRoger, series);
    let tested = panel_test(&pair);
    compare(&tested, &oracle_test(&pair)).or_else(|| compare(&tested, &Ok(direct)))
}

/// How the two differ on a pair.
pub fn manner_of_pair(pair: &Pair) -> Option<Manner> {
    compare(&panel_test(pair), &oracle_test(pair))
}

/// What has been seen.
#[derive(Default)]
pub struct Summary {
    pub series: usize,
    pub archived: usize,
    pub pairs: usize,
    pub failures: usize,
    /// What the panel returned: the writer's numbers and how many archives, the
    /// numbers of the test from a series' own archive, and of the other pairs.
    pub writer: BTreeMap<u32, usize>,
    pub own: BTreeMap<u32, usize>,
    pub other: BTreeMap<u32, usize>,
    /// Of the tests that answered: entries, and those inside.
    pub entries: usize,
    pub inside: usize,
    /// The series with torn specimens, and those with blocks, by the writer's number.
    pub torn: torn::Tally,
    pub numbers: numbers::Tally,
}

impl Summary {
    fn lines(&self) -> String {
        format!(
            "archive: {} series, refused by number {:?}, {} archived; the test from each by number {:?};\n\
             archive: {} other pairs by number {:?}; of {} tests {} inside\n\
             archive: {}\n\
             archive: {}",
            self.series, self.writer, self.archived, self.own, self.pairs, self.other, self.entries,
            self.inside, self.torn.line(), self.numbers.line()
        )
    }

    fn add(&mut self, outcome: &Outcome) {
        let used = outcome.answer.chunks(ENTRY).filter(|e| outcome.number == 0 && e[16] > 0);
        for entry in used {
            self.entries += 1;
            self.inside += usize::from(entry[19]);
        }
    }
}

/// Archives as many series as the plan says, the families in turn, and prints
/// each difference as it is met.
pub fn run(plan: &Plan) -> Summary {
    let mut summary = Summary::default();
    let all = families(Call::KenwardRoger);
    let chosen: Vec<_> = all
        .iter()
        .enumerate()
        .filter(|(_, f)| plan.family.as_deref().is_none_or(|only| only == **f))
        .collect();
    let mut seeds: Vec<_> =
        chosen.iter().map(|(f, _)| cases::seeds(plan.seed ^ ARCHIVE_SEEDS, *f)).collect();
    // A family without archives would go on for ever.
    let most = 20 * plan.archives;
    while summary.archived < plan.archives && summary.series < most && !chosen.is_empty() {
        for ((_, family), seeds) in chosen.iter().zip(&mut seeds) {
            let seed = seeds.next().expect("seeds without end");
            if plan.trace {
                eprintln!("archive {family} {seed}");
            }
            if !one(family, seed, plan, &mut summary) {
                summary.failures += 1;
                println!("DIFFERENT: compare --archive {family} {seed}");
            }
            if summary.failures >= ENOUGH {
                println!("{ENOUGH} differences: the comparison ends here");
                return summary;
            }
        }
    }
    println!("{}", summary.lines());
    summary
}

/// Other series than those of the direct calls.
const ARCHIVE_SEEDS: u64 = 1 << 32;

/// One series of a family and what goes beside it; whether all is the same.
pub fn one(family: &str, seed: u64, plan: &Plan, summary: &mut Summary) -> bool {
    let series = file(Call::KenwardRoger, family, seed);
    if plan.untorn && Torn::of(&series).is_some() {
        return true;
    }
    let mut random = Random::new(!seed);
    summary.series += 1;
    let archive = panel(&series);
    let refused = if (archive.number as usize) < SHORTEST { archive.number } else { 0 };
    summary.torn.add(&series, refused);
    summary.numbers.add(&series, refused);
    if manner(&series).is_some() {
        report_series(&series, plan);
        return false;
    }
    let mut pairs = vec![random_pair(&mut random)];
    if (archive.number as usize) < SHORTEST {
        *summary.writer.entry(archive.number).or_default() += 1;
    } else {
        let own = (archive.answer[..archive.number as usize].to_vec(), test_records(&series));
        let tested = panel_test(&own);
        summary.archived += 1;
        summary.add(&tested);
        *summary.own.entry(tested.number).or_default() += 1;
        pairs.push(own);
    }
    for pair in pairs {
        let pair = varied(&mut random, pair);
        summary.pairs += 1;
        if manner_of_pair(&pair).is_some() {
            report_pair(&pair, plan);
            return false;
        }
        let tested = panel_test(&pair);
        summary.add(&tested);
        *summary.other.entry(tested.number).or_default() += 1;
    }
    true
}

fn report_series(series: &[u8], plan: &Plan) {
    let first = manner(series);
    let small = shrink_while(series, &|file| manner(file) == first);
    println!("  a series, {first:?}; shrunk from {} to {} bytes:", series.len(), small.len());
    print!("{}", text(&small));
    let archive = panel(&small);
    print!("{}", describe(&archive, &oracle(&small), 16));
    if archive.number as usize >= SHORTEST {
        let pair = (archive.answer[..archive.number as usize].to_vec(), test_records(&small));
        print!("  the test from it:\n{}", describe(&panel_test(&pair), &oracle_test(&pair), ENTRY));
        let direct = crate::judge::panel(Call::KenwardRoger, &small);
        print!("  beside the direct call:\n{}", describe(&panel_test(&pair), &Ok(direct), ENTRY));
    }
    write(plan, "series", &small);
}

fn report_pair(pair: &Pair, plan: &Plan) {
    let first = manner_of_pair(pair);
    let small = shrink_pair(pair, &|pair| manner_of_pair(pair) == first);
    println!("  a pair, {first:?}; shrunk to {} and {} bytes:", small.0.len(), small.1.len());
    print!("{}    beside\n{}", text(&small.0), text(&small.1));
    print!("{}", describe(&panel_test(&small), &oracle_test(&small), ENTRY));
    write(plan, "archive", &small.0);
    write(plan, "tests", &small.1);
}

/// The numbers, and each part of so many bytes that differs.
pub(crate) fn describe(panel: &Outcome, other: &Result<Outcome, String>, part: usize) -> String {
    let other = match other {
        Ok(other) => other,
        Err(text) => {
            return format!("  panel {}, the oracle has no answer: {text}\n", panel.number)
        }
    };
    let mut out = format!("  number: panel {}, other {}\n", panel.number, other.number);
    let pairs = panel.answer.chunks(part).zip(other.answer.chunks(part));
    for (i, (a, b)) in pairs.enumerate().filter(|(_, (a, b))| a != b) {
        out += &format!("  part {i}: panel {a:02x?}\n           other {b:02x?}\n");
    }
    out
}

fn write(plan: &Plan, name: &str, bytes: &[u8]) {
    let path = plan.folder.join(format!("archive-{name}-small.bin"));
    let written = std::fs::create_dir_all(&plan.folder).and_then(|()| std::fs::write(&path, bytes));
    match written {
        Ok(()) => println!("  written to {}", path.display()),
        Err(e) => println!("  not written to {}: {e}", path.display()),
    }
}
