//! The comparison of many files.

use crate::cases::{self, families, file, name};
use crate::judge::{compare, describe, oracle, panel, Outcome};
use crate::shrink::{shrink, text};
use crate::{numbers, torn};
use oracle::calls::ENTRY;
use oracle::trace;
use reader::torn::Torn;
use reader::tries::Call;
use std::collections::BTreeMap;
use std::path::PathBuf;

/// A comparison that has met so many differences ends.
const ENOUGH: usize = 5;

/// What to compare.
pub struct Plan {
    /// Files for each call, shared among its families.
    pub files: usize,
    /// Series that are archived, and tested from their archives.
    pub archives: usize,
    /// Cases with a table for each of the four calls.
    pub tables: usize,
    /// Seasons, through the program.
    pub seasons: usize,
    pub seed: u64,
    /// One family alone.
    pub family: Option<String>,
    /// Files with torn specimens are passed over.
    pub untorn: bool,
    /// Each family and seed before its call, for a call that does not come back.
    pub trace: bool,
    /// Where failing files are written.
    pub folder: PathBuf,
}

/// What has been seen.
#[derive(Default)]
pub struct Summary {
    pub files: usize,
    pub failures: usize,
    /// Lines, one to a family.
    pub lines: Vec<String>,
    /// In how many files each branch of document 01 was taken.
    pub branches: BTreeMap<&'static str, usize>,
    /// The Kenward–Roger files with torn specimens, and those with blocks.
    pub torn: torn::Tally,
    pub numbers: numbers::Tally,
}

/// Counts of one family.
#[derive(Default)]
struct Tally {
    files: usize,
    numbers: BTreeMap<u32, usize>,
    entries: usize,
    inside: usize,
    no_f: usize,
    no_df: usize,
}

impl Tally {
    fn add(&mut self, outcome: &Outcome) {
        self.files += 1;
        *self.numbers.entry(outcome.number).or_insert(0) += 1;
        if outcome.number != 0 {
            return;
        }
        for entry in outcome.answer.chunks(ENTRY).filter(|e| e[16] > 0) {
            self.entries += 1;
            self.no_f += usize::from(entry[17] == 0);
            self.no_df += usize::from(entry[18] == 0);
            self.inside += usize::from(entry[19]);
        }
    }

    fn line(&self, call: Call, family: &str) -> String {
        format!(
            "{} {family}: {} files, by number {:?}; of {} tests {} inside, {} without F, {} without df",
            name(call), self.files, self.numbers, self.entries, self.inside, self.no_f, self.no_df
        )
    }
}

/// Runs a plan, and prints each difference as it is met.
pub fn run(plan: &Plan) -> Summary {
    let mut summary = Summary::default();
    for call in cases::CALLS {
        let all = families(call);
        let chosen = |f: &str| plan.family.as_deref().is_none_or(|only| only == f);
        let share = plan.files.div_ceil(all.iter().filter(|f| chosen(f)).count().max(1));
        for (f, family) in all.iter().enumerate().filter(|(_, f)| chosen(f)) {
            let mut tally = Tally::default();
            for seed in cases::seeds(plan.seed, f).take(share) {
                if plan.trace {
                    eprintln!("{} {family} {seed}", name(call));
                }
                one(call, family, seed, plan, &mut summary, &mut tally);
                if summary.failures >= ENOUGH {
                    println!("{ENOUGH} differences: the comparison ends here");
                    return summary;
                }
            }
            let line = tally.line(call, family);
            println!("{line}");
            summary.lines.push(line);
        }
    }
    println!("{}: {}", name(Call::KenwardRoger), summary.torn.line());
    println!("{}: {}", name(Call::KenwardRoger), summary.numbers.line());
    summary
}

fn one(call: Call, family: &str, seed: u64, plan: &Plan, summary: &mut Summary, tally: &mut Tally) {
    let bytes = file(call, family, seed);
    if plan.untorn && Torn::of(&bytes).is_some() {
        return;
    }
    // The making of a file runs series too: their branches do not count.
    trace::take();
    let (panel, oracle) = (panel(call, &bytes), oracle(call, &bytes));
    for branch in trace::take().into_keys() {
        *summary.branches.entry(branch).or_insert(0) += 1;
    }
    summary.files += 1;
    tally.add(&panel);
    // The other call has neither specimens nor blocks.
    if call == Call::KenwardRoger {
        summary.torn.add(&bytes, panel.number);
        summary.numbers.add(&bytes, panel.number);
    }
    if compare(&panel, &oracle).is_some() {
        summary.failures += 1;
        let flag = if call == Call::Satterthwaite { " --satterthwaite" } else { "" };
        println!("DIFFERENT: {}: compare --case {family} {seed}{flag}", name(call));
        report(call, &format!("{}-{family}-{seed}", name(call)), &bytes, plan);
    }
}

/// Prints a difference, and writes the file and a smaller one.
pub fn report(call: Call, title: &str, bytes: &[u8], plan: &Plan) {
    print!("{}", describe(call, bytes));
    let small = shrink(call, bytes);
    println!("  shrunk from {} to {} bytes:", bytes.len(), small.len());
    print!("{}{}", text(&small), describe(call, &small));
    for (end, content) in [("", bytes), ("-small", &small)] {
        let path = plan.folder.join(format!("{title}{end}.bin"));
        let written =
            std::fs::create_dir_all(&plan.folder).and_then(|()| std::fs::write(&path, content));
        match written {
            Ok(()) => println!("  written to {}", path.display()),
            Err(e) => println!("  not written to {}: {e}", path.display()),
        }
    }
}
