//! Writes the list of calls with the oracle's answers, which the program `replay` of the gate
//! reads: the cases of the two direct calls from here, then the archive's and those with a
//! table, then lines that are wrong on purpose.

use crate::known::{self, Known};
use crate::print::{pulltest, satterthwaite_line};
use crate::random::{kr_case, satt_case, Random, KR_FAMILIES, SATT_FAMILIES, SHUFFLED};
use crate::{
    known_numbers, known_order, known_torn, make_archive, make_tables, replay, trace, wrong,
};
use ::reader::numbers::Numbers;
use ::reader::torn::Torn;
use ::reader::vectors::{hex, KENWARD_ROGER, SATTERTHWAITE};
use std::collections::BTreeMap;
use std::fmt::Write as _;
use std::path::Path;
use std::{fs, io};

/// One line per case: the call, its file in hexadecimal (`-` for an empty one) and the
/// expected output with `|` for each newline, with blanks between.
pub fn line(call: &str, bytes: &[u8], output: &str) -> String {
    let file = if bytes.is_empty() { "-".to_string() } else { hex(bytes) };
    format!("{call} {file} {}\n", output.replace('\n', "|"))
}

/// What the cases of a family have hit.
#[derive(Default)]
struct Tally {
    cases: u32,
    /// In how many cases each refusal, mark, none and branch occurred, torn
    /// specimens, and wrong numbers in blocks.
    hits: BTreeMap<String, u32>,
}

impl Tally {
    fn add(&mut self, file: &[u8], output: &str) {
        self.cases += 1;
        let mut seen: Vec<String> = trace::take().into_keys().map(String::from).collect();
        if Torn::of(file).is_some() {
            seen.push("torn specimens".to_string());
            if !output.starts_with("refused") {
                seen.push("torn specimens, answered".to_string());
            }
        }
        if Numbers::of(file).is_some_and(|numbers| !numbers.all_right()) {
            seen.push("a block with a wrong value".to_string());
        }
        if let Some(number) = output.strip_prefix("refused ") {
            seen.push(format!("refused {}", number.trim_end()));
        } else {
            for (text, name) in [
                (" inside", "some entry inside"),
                (" outside", "some entry outside"),
                ("F none", "some F none"),
                ("df none", "some df none"),
            ] {
                if output.contains(text) {
                    seen.push(name.to_string());
                }
            }
        }
        for name in seen {
            *self.hits.entry(name).or_insert(0) += 1;
        }
    }

    fn text(&self, call: &str, family: &str) -> String {
        let mut out = format!("## {call}, {family}: {} cases\n\n", self.cases);
        for (name, count) in &self.hits {
            writeln!(out, "- {name}: {count}").expect("a String takes all");
        }
        out + "\n"
    }
}

/// So many files of either call are good but for their order.
const SHUFFLED_CASES: usize = 30;

/// The cases of one call.
struct List {
    call: &'static str,
    known: Vec<Known>,
    families: &'static [&'static str],
    /// The order's cases made by hand, those of torn specimens, and those of the
    /// numbers in blocks.
    known_order: Vec<Known>,
    known_torn: Vec<Known>,
    known_numbers: Vec<Known>,
    case: fn(&mut Random, &str) -> Vec<u8>,
    output: fn(&[u8]) -> String,
}

/// A list's lines and its part of the summary, as they come to be.
#[derive(Default)]
struct Written {
    lines: String,
    summary: String,
}

impl List {
    /// The known cases, `count` random ones shared among all families, then the
    /// cases of the order, of torn specimens and of the numbers in blocks.
    fn write(self, seed: u64, count: usize) -> Written {
        let mut out = Written::default();
        self.by_hand(&mut out, "known", &self.known);
        let families = self.families.len();
        for (f, family) in self.families.iter().enumerate() {
            let share = count / families + usize::from(f < count % families);
            self.random(&mut out, family, seed, f, share);
        }
        self.by_hand(&mut out, "order", &self.known_order);
        self.random(&mut out, SHUFFLED, seed, families, SHUFFLED_CASES);
        if !self.known_torn.is_empty() {
            self.by_hand(&mut out, "torn", &self.known_torn);
        }
        self.by_hand(&mut out, "numbers", &self.known_numbers);
        out
    }

    fn by_hand(&self, out: &mut Written, family: &str, cases: &[Known]) {
        let mut tally = Tally::default();
        for (_, bytes, _) in cases {
            self.one(out, &mut tally, bytes);
        }
        out.summary += &tally.text(self.call, family);
    }

    /// The random cases of family number f.
    fn random(&self, out: &mut Written, family: &str, seed: u64, f: usize, cases: usize) {
        let mut random = Random::new(seed.wrapping_mul(1009).wrapping_add(f as u64));
        let mut tally = Tally::default();
        for _ in 0..cases {
            let bytes = (self.case)(&mut random, family);
            self.one(out, &mut tally, &bytes);
        }
        out.summary += &tally.text(self.call, family);
    }

    fn one(&self, out: &mut Written, tally: &mut Tally, bytes: &[u8]) {
        // The making of a case runs series too: their branches do not count.
        trace::take();
        let text = (self.output)(bytes);
        tally.add(bytes, &text);
        out.lines += &line(self.call, bytes, &text);
    }
}

fn lists() -> [List; 2] {
    [
        List {
            call: KENWARD_ROGER,
            known: known::kenward_roger(),
            families: &KR_FAMILIES,
            known_order: known_order::kenward_roger(),
            known_torn: known_torn::kenward_roger(),
            known_numbers: known_numbers::kenward_roger(),
            case: kr_case,
            output: pulltest,
        },
        List {
            call: SATTERTHWAITE,
            known: known::satterthwaite(),
            families: &SATT_FAMILIES,
            known_order: known_order::satterthwaite(),
            // This call has no specimens.
            known_torn: Vec::new(),
            known_numbers: known_numbers::satterthwaite(),
            case: satt_case,
            output: satterthwaite_line,
        },
    ]
}

/// How many random cases are made, behind those made by hand.
#[derive(Debug, Clone, Copy)]
pub struct Counts {
    /// Of each of the two direct calls.
    pub series: usize,
    /// Of the archive's writer; the test from an archive has twice as many.
    pub archives: usize,
    /// Of the four calls with a table, together.
    pub tables: usize,
}

/// The list, what the program `replay` has to print of it, and what its cases hit.
pub struct Made {
    pub list: String,
    pub printed: String,
    pub summary: String,
}

/// The list of a seed.
pub fn made(seed: u64, counts: Counts) -> Made {
    let (mut list, mut summary) = (String::new(), String::new());
    for direct in lists() {
        let written = direct.write(seed, counts.series);
        list += &written.lines;
        summary += &written.summary;
    }
    let archives = make_archive::archives(seed, counts.archives);
    let tests = make_archive::archive_tests(seed, 2 * counts.archives);
    let tables = make_tables::with_tables(seed, counts.tables);
    for (name, (lines, tally)) in
        [("archive", archives), ("archive_test", tests), ("with a table", tables)]
    {
        list += &lines;
        summary += &make_archive::tally_text(name, &tally);
    }
    list += &wrong::lines(&list);
    let printed = replay::printed(&list);
    Made { list, printed, summary }
}

/// `oracle make-vectors DIR SEED SERIES ARCHIVES TABLES`: the list as the program's `stdin`,
/// what it has to print as its `stdout`. The summary of the cases.
pub fn make_vectors(folder: &Path, seed: u64, counts: Counts) -> io::Result<String> {
    fs::create_dir_all(folder)?;
    let made = made(seed, counts);
    fs::write(folder.join("stdin"), made.list)?;
    fs::write(folder.join("stdout"), made.printed)?;
    let Counts { series, archives, tables } = counts;
    let head = format!(
        "# What the vectors hit\n\nPrinted by `oracle make-vectors DIR {seed} {series} {archives} \
         {tables}`. Each number counts the cases of the family, or of the calls, in which it \
         occurred.\n\n"
    );
    Ok(format!("{}\n", (head + &made.summary).trim_end()))
}
