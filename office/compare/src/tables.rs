//! The four functions that take a table against the oracle.
//!
//! Each random file of each call goes through both with a random table, about one in
//! ten with a damaged one: the number, every byte that is written and every byte that
//! is not. An archive is tested with its table too, and has the outcome of the direct
//! call with that table. A case that differs is made smaller: each row that may be the
//! built-in's becomes it, then the files shrink.

use crate::archive::describe;
use crate::judge::{caught, compare, Manner, Outcome, UNTOUCHED};
use crate::live::Plan;
use crate::shrink::{shrink_pair, shrink_while, text};
use oracle::make_tables::{self, families, random_files};
use reader::archive::test_records;
use reader::cutoffs::{Cutoffs, NAMES, ROTATION_ROW};
use reader::random::Random;
use reader::table_tries::{damaged_table, random_table};
use reader::table_vectors::{TableCall, TableInput, TABLE_CALLS};
use std::collections::BTreeMap;

/// A comparison that has met so many differences ends.
const ENOUGH: usize = 5;

/// One table in so many is damaged.
const DAMAGED_ONE_IN: usize = 10;

/// The panel's outcome of a call with a table.
pub fn panel(input: &TableInput) -> Outcome {
    let mut answer = vec![UNTOUCHED; input.call.lent()];
    let (table, file, lent) = (&input.table, &input.file, &mut answer);
    let number = match input.call {
        TableCall::KenwardRoger => pull::kenward_roger_with_fill(table, file, lent),
        TableCall::Satterthwaite => pull::satterthwaite_with_fill(table, file, lent),
        TableCall::Archive => pull::archive_with_fill(table, file, lent),
        TableCall::ArchiveTest => pull::archive_test_with_fill(table, file, &input.tests, lent),
    };
    Outcome { number, answer }
}

/// The oracle's.
pub fn oracle(input: &TableInput) -> Result<Outcome, String> {
    caught(|| {
        let mut answer = vec![UNTOUCHED; input.call.lent()];
        let number = make_tables::fill(input, &mut answer);
        Ok(Outcome { number, answer })
    })
}

/// The test from an archive that the writer has made of this series.
fn own_test(input: &TableInput, archive: &Outcome) -> Option<TableInput> {
    let length = input.call.written(archive.number).filter(|_| input.call == TableCall::Archive)?;
    let tests = test_records(&input.file);
    Some(TableInput::test(&input.table, &archive.answer[..length], &tests))
}

/// How the two differ on a case, if they do. With an archive goes the test from it.
pub fn manner(input: &TableInput) -> Option<Manner> {
    let outcome = panel(input);
    let differ = compare(&outcome, &oracle(input));
    let Some(test) = own_test(input, &outcome).filter(|_| differ.is_none()) else {
        return differ;
    };
    let direct = TableInput { call: TableCall::KenwardRoger, ..input.clone() };
    let tested = panel(&test);
    compare(&tested, &oracle(&test)).or_else(|| compare(&tested, &Ok(panel(&direct))))
}

/// A random case of a call and a family.
fn case(call: TableCall, family: &str, seed: u64) -> (Sort, TableInput) {
    let mut random = Random::new(seed);
    let files = random_files(&mut random, call, family);
    if random.once_in(DAMAGED_ONE_IN) {
        let (way, table) = damaged_table(&mut random);
        return (Sort::Damaged(way), files.with_table(&table));
    }
    let (sort, cutoffs) = random_table(&mut random);
    (Sort::Accepted(sort, cutoffs), files.with_table(&cutoffs.to_table()))
}

/// What sort of table a case has.
enum Sort {
    Accepted(&'static str, Cutoffs),
    Damaged(&'static str),
}

/// What has been seen.
#[derive(Default)]
pub struct Summary {
    pub cases: BTreeMap<TableCall, usize>,
    pub failures: usize,
    /// By call and number; an archive's length counts as 0.
    pub numbers: BTreeMap<(char, u32), usize>,
    /// Accepted tables by their sort, damaged ones by the way.
    pub sorts: BTreeMap<&'static str, usize>,
    pub ways: BTreeMap<&'static str, usize>,
    /// Accepted tables that have a value of a class: see `classes`.
    pub classes: BTreeMap<&'static str, usize>,
    /// Accepted answers, and those that are not the built-in table's, by call.
    pub accepted: BTreeMap<TableCall, usize>,
    pub changed: BTreeMap<TableCall, usize>,
    /// Of the tests that answered: entries, and those inside.
    pub entries: usize,
    pub inside: usize,
    /// Archives whose test with the same table was compared.
    pub archives: usize,
}

/// The extremes that a table has.
fn classes(cutoffs: &Cutoffs) -> Vec<&'static str> {
    let values = cutoffs.values();
    let any = |holds: fn(f64) -> bool| values.iter().any(|&v| holds(v));
    let range = |v: f64| v < 2f64.powi(-800) || v >= 2f64.powi(801);
    [
        (any(f64::is_subnormal), "a subnormal"),
        (any(|v| v < 1e-100), "a value below 1e-100"),
        (any(|v| v > 1e100), "a value above 1e100"),
        (any(|v| v == f64::MAX), "the largest f64"),
        (any(|v| v == f64::from_bits(1)), "the smallest f64"),
        (cutoffs.cap < 2.0 + 1e-9, "a cap just above 2"),
        (range(values[ROTATION_ROW]), "a rotation factor out of the mark's range"),
    ]
    .into_iter()
    .filter_map(|(holds, name)| holds.then_some(name))
    .collect()
}

impl Summary {
    fn add(&mut self, sort: &Sort, input: &TableInput, outcome: &Outcome) {
        let call = input.call;
        *self.cases.entry(call).or_default() += 1;
        let accepted = call.written(outcome.number).is_some();
        let number = if accepted { 0 } else { outcome.number };
        *self.numbers.entry((call.letter(), number)).or_default() += 1;
        match sort {
            Sort::Damaged(way) => *self.ways.entry(way).or_default() += 1,
            Sort::Accepted(sort, cutoffs) => {
                *self.sorts.entry(sort).or_default() += 1;
                for class in classes(cutoffs) {
                    *self.classes.entry(class).or_default() += 1;
                }
            }
        }
        if accepted {
            let built_in = panel(&input.with_table(&make_tables::built_in()));
            *self.accepted.entry(call).or_default() += 1;
            *self.changed.entry(call).or_default() += usize::from(built_in != *outcome);
            self.count_marks(call, outcome);
        }
        self.archives += usize::from(call == TableCall::Archive && accepted);
    }

    fn count_marks(&mut self, call: TableCall, outcome: &Outcome) {
        if call != TableCall::Archive {
            for entry in outcome.answer.chunks(24).filter(|entry| entry[16] > 0) {
                self.entries += 1;
                self.inside += usize::from(entry[19]);
            }
        }
    }

    /// Cases with an accepted table, and those refused with 14.
    pub fn tables(&self) -> [usize; 2] {
        [self.sorts.values().sum(), self.ways.values().sum()]
    }

    fn lines(&self) -> String {
        let [accepted, refused] = self.tables();
        let by = |map: &BTreeMap<TableCall, usize>| {
            let parts = map.iter().map(|(call, n)| format!("{} {n}", call.letter()));
            parts.collect::<Vec<_>>().join(", ")
        };
        format!(
            "tables: cases by call {}; {accepted} with an accepted table, {refused} with another (14)\n\
             tables: accepted ones by sort {:?}\n\
             tables: accepted ones with {:?}\n\
             tables: damaged ones by way {:?}\n\
             tables: by call and number (0: accepted) {:?}\n\
             tables: answers {}; of these not the built-in table's {}\n\
             tables: of {} tests {} inside; {} archives tested with their table",
            by(&self.cases), self.sorts, self.classes, self.ways, self.numbers,
            by(&self.accepted), by(&self.changed), self.entries, self.inside, self.archives
        )
    }
}

/// Compares as many cases for each call as the plan says, the families in turn, and
/// prints each difference as it is met.
pub fn run(plan: &Plan) -> Summary {
    let mut summary = Summary::default();
    for (c, call) in TABLE_CALLS.into_iter().enumerate() {
        let all = families(call);
        let mut seeds = Random::new(plan.seed.wrapping_mul(1009).wrapping_add(1 + c as u64));
        for i in 0..plan.tables {
            let (family, seed) = (all[i % all.len()], seeds.bits());
            if plan.family.as_deref().is_some_and(|only| only != family) {
                continue;
            }
            if plan.trace {
                eprintln!("table {} {family} {seed}", call.letter());
            }
            if !one(call, family, seed, plan, &mut summary) {
                summary.failures += 1;
                println!("DIFFERENT: compare --table-case {} {family} {seed}", call.letter());
            }
            if summary.failures >= ENOUGH {
                println!("{ENOUGH} differences: the comparison ends here");
                return summary;
            }
        }
    }
    println!("{}", summary.lines());
    summary
}

/// One case; whether all is the same.
pub fn one(call: TableCall, family: &str, seed: u64, plan: &Plan, summary: &mut Summary) -> bool {
    let (sort, input) = case(call, family, seed);
    summary.add(&sort, &input, &panel(&input));
    let same = manner(&input).is_none();
    if !same {
        report(&input, plan);
    }
    same
}

/// A smaller case that differs in the same manner: the table nearer to the built-in
/// one, row by row, then smaller files.
pub fn shrink(input: &TableInput) -> TableInput {
    let first = manner(input);
    let fails = |input: &TableInput| manner(input) == first;
    let mut best = input.clone();
    let rows = Cutoffs::BUILT_IN.to_table();
    for row in (0..rows.len()).step_by(16) {
        let mut nearer = best.clone();
        let Some(record) = nearer.table.get_mut(row..row + 16) else {
            break;
        };
        record.copy_from_slice(&rows[row..row + 16]);
        if fails(&nearer) {
            best = nearer;
        }
    }
    let table = best.table.clone();
    if input.call == TableCall::ArchiveTest {
        let pair = (best.file.clone(), best.tests.clone());
        let small = shrink_pair(&pair, &|pair| fails(&TableInput::test(&table, &pair.0, &pair.1)));
        return TableInput::test(&table, &small.0, &small.1);
    }
    let small = shrink_while(&best.file, &|file| fails(&TableInput::of(input.call, &table, file)));
    TableInput::of(input.call, &table, &small)
}

fn report(input: &TableInput, plan: &Plan) {
    let small = shrink(input);
    println!("  {:?}, {:?}; shrunk, its table:", small.call, manner(&small));
    print!("{}", table_text(&small.table));
    print!("{}", text(&small.file));
    if small.call == TableCall::ArchiveTest {
        print!("    beside\n{}", text(&small.tests));
    }
    print!("{}", describe(&panel(&small), &oracle(&small), 16));
    if let Some(test) = own_test(&small, &panel(&small)) {
        print!("  the test from it:\n{}", describe(&panel(&test), &oracle(&test), 24));
    }
    let path = plan.folder.join("table-small.txt");
    let written = std::fs::create_dir_all(&plan.folder)
        .and_then(|()| std::fs::write(&path, format!("{}\n", small.text())));
    match written {
        Ok(()) => println!("  written to {}", path.display()),
        Err(e) => println!("  not written to {}: {e}", path.display()),
    }
}

/// The rows that are not the built-in's; of a table that is none its bytes.
fn table_text(table: &[u8]) -> String {
    let Ok(cutoffs) = Cutoffs::read(table) else {
        return format!("    no table: {table:02x?}\n");
    };
    let rows = cutoffs.values().into_iter().zip(Cutoffs::BUILT_IN.values()).zip(NAMES);
    let other = rows.filter(|((own, built_in), _)| own != built_in);
    other.map(|((own, _), name)| format!("    {name} {own:e}\n")).collect()
}
