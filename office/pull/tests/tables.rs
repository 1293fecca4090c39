//! The lab's own cutoffs through the C functions: the stored list byte for byte; the
//! built-in table beside the calls without one; tables that are none; the archive with
//! one table on both sides.

mod with_table;

use pull::{Cutoffs, Refusal};
use reader::archive::{test_records, SHORTEST};
use reader::cutoffs;
use reader::random::Random;
use reader::table_tries::{damaged, damaged_table, random_table, table_of, SORTS, WAYS};
use reader::table_vectors::{self, TableCall, TableInput, TABLE_CALLS};
use reader::tries::{Call, Tries};
use reader::vectors;
use std::collections::BTreeMap;
use with_table::{fill, outcome, outcome_without, UNTOUCHED};

fn built_in() -> Vec<u8> {
    Cutoffs::default().to_table().to_vec()
}

/// Every number and every byte of the stored list.
#[test]
fn stored_list() {
    let cases = table_vectors::load();
    let mut tally: BTreeMap<(char, u32), usize> = BTreeMap::new();
    for case in &cases {
        let got = outcome(&case.input);
        assert_eq!(got, case.outcome, "line {}", case.line);
        let number = if case.input.call.written(got.number).is_some() { 0 } else { got.number };
        *tally.entry((case.input.call.letter(), number)).or_default() += 1;
    }
    println!("with tables: {} cases, by call and number (0: accepted): {tally:?}", cases.len());
    assert!(cases.len() > 400);
    for call in TABLE_CALLS {
        let of = |number: u32| tally.get(&(call.letter(), number)).copied().unwrap_or(0);
        assert!(of(0) >= 30 && of(14) >= 30 && of(2) > 0, "{tally:?}");
    }
}

/// All stored files of the calls without a table, with the built-in table.
fn stored() -> Vec<TableInput> {
    let of = |call: TableCall, list: &str| {
        let files = vectors::load(list).into_iter().map(|case| case.file);
        files.map(|file| TableInput::of(call, &built_in(), &file)).collect::<Vec<_>>()
    };
    let tests = vectors::load_archive_tests();
    let tests = tests.iter().map(|case| TableInput::test(&built_in(), &case.archive, &case.tests));
    [
        of(TableCall::KenwardRoger, vectors::KENWARD_ROGER),
        of(TableCall::Satterthwaite, vectors::SATTERTHWAITE),
        of(TableCall::Archive, vectors::ARCHIVE),
        of(TableCall::Archive, vectors::KENWARD_ROGER),
        tests.collect(),
    ]
    .concat()
}

/// A call without a table is the call with the built-in one.
#[test]
fn the_built_in_table_is_no_table() {
    let mut accepted: BTreeMap<char, usize> = BTreeMap::new();
    let stored = stored();
    for input in &stored {
        let got = outcome(input);
        assert_eq!(got, outcome_without(input), "{}", input.text());
        let own = input.call.written(got.number).is_some();
        *accepted.entry(input.call.letter()).or_default() += usize::from(own);
    }
    println!("{} stored files alike with and without the built-in table;", stored.len());
    println!("  accepted, by call: {accepted:?}");
    assert!(stored.len() > 3_000 && accepted.values().all(|&n| n > 50));
}

/// Every way of damage to every sort of table, on good files and on bad ones: 14, and
/// nothing is written.
#[test]
fn tables_that_are_none() {
    let mut random = Random::new(14);
    let stored = stored();
    let mut beside: BTreeMap<bool, usize> = BTreeMap::new();
    for round in 0..40 {
        for (i, way) in WAYS.iter().enumerate() {
            let table = table_of(&mut random, SORTS[(round + i) % SORTS.len()]).to_table();
            let table = damaged(&mut random, &table, way);
            for _ in 0..4 {
                let input = &stored[random.below(stored.len())];
                let got = outcome(&input.with_table(&table));
                assert_eq!(got.number, 14, "{way}: {}", input.with_table(&table).text());
                let good = input.call.written(outcome(input).number).is_some();
                *beside.entry(good).or_default() += 1;
            }
        }
    }
    println!("damaged tables beside files that are accepted or not: {beside:?}");
    assert!(beside.len() == 2 && beside.values().all(|&n| n > 500));
}

/// Each single bit of the built-in table turned: 14, or another accepted table where
/// the bit is of a value, as the reader says.
#[test]
fn every_bit_of_a_table() {
    let series = pull::example::records();
    let (mut accepted, mut refused) = (0, 0);
    for bit in 0..8 * pull::TABLE_BYTES {
        let mut table = built_in();
        table[bit / 8] ^= 1 << (bit % 8);
        let input = TableInput::of(TableCall::KenwardRoger, &table, &series);
        let number = outcome(&input).number;
        match cutoffs::Cutoffs::read(&table) {
            Err(expected) => assert_eq!(number, expected, "bit {bit}"),
            Ok(_) => assert_eq!(number, 0, "bit {bit}"),
        }
        *(if number == 0 { &mut accepted } else { &mut refused }) += 1;
    }
    println!("{accepted} bits of a table make another one, {refused} none");
    assert!(accepted > 400 && refused >= 9 * 65);
}

/// 1 comes before 14, and 14 before the files; nothing is written.
#[test]
fn one_then_fourteen() {
    for call in TABLE_CALLS {
        for length in [0, 1, 23, 25, 167, 169, 7183, 7185] {
            if length == call.lent() {
                continue;
            }
            for table in [&built_in()[..], &[], &built_in()[1..]] {
                let mut lent = vec![UNTOUCHED; length];
                let input = TableInput::of(call, table, &[1]);
                assert_eq!(fill(&input, &mut lent), 1, "{call:?}, {length} bytes");
                assert!(lent.iter().all(|&b| b == UNTOUCHED));
            }
        }
        for file in [&[][..], &[1], &[20; 16]] {
            assert_eq!(outcome(&TableInput::of(call, &[], file)).number, 14);
            assert_eq!(outcome(&TableInput::of(call, &built_in(), file)).number, 2);
        }
    }
}

/// A series archived with a table and tested with the same one has the direct call's
/// answer with it; other tables on the two sides may give another.
#[test]
fn archives_with_one_table() {
    let tries = Tries::new(Call::KenwardRoger);
    let stored: Vec<_> =
        vectors::load(vectors::KENWARD_ROGER).into_iter().map(|case| case.file).collect();
    let (mut archived, mut changed, mut by_test, mut refused) = (0, 0, 0, 0);
    for seed in 0..20_000 {
        let mut random = Random::new(seed);
        let table = random_table(&mut random).1.to_table();
        let series = if random.once_in(2) {
            stored[random.below(stored.len())].clone()
        } else {
            tries.file(&mut random)
        };
        let direct = outcome(&TableInput::of(TableCall::KenwardRoger, &table, &series));
        let archive = outcome(&TableInput::of(TableCall::Archive, &table, &series));
        if (archive.number as usize) < SHORTEST {
            assert_eq!(archive.number, direct.number, "seed {seed}");
            refused += 1;
            continue;
        }
        let test = TableInput::test(&table, &archive.written, &test_records(&series));
        assert_eq!(outcome(&test), direct, "seed {seed}");
        archived += 1;
        by_test += usize::from(direct.number != 0);
        changed += usize::from(
            direct != outcome_without(&TableInput::of(TableCall::KenwardRoger, &table, &series)),
        );
    }
    println!(
        "{archived} archives with a table tested as the series ({by_test} refused by a test),"
    );
    println!("  {changed} answers are not those of the built-in table; {refused} series refused");
    assert!(archived > 5_000 && changed > 1_000 && by_test > 20);
}

/// The typed functions.
#[test]
fn typed() {
    let series = pull::example::records();
    let raised = Cutoffs { eigenvalue: 1.0, ridge: 1.0, ..Cutoffs::default() };
    let run = pull::kenward_roger_with(&raised, &series).expect("it is accepted");
    assert_eq!((run.coefficients[0].f, run.coefficients[0].df), (Some(9.0), Some(2.0)));
    let archive = pull::archive_with(&raised, &series).expect("it is accepted");
    let tests = pull::test_records(&series);
    assert_eq!(pull::archive_test_with(&raised, &archive, &tests), Ok(run));
    for (bad, files) in [(0.0, &series[..]), (-1.0, &[]), (f64::NAN, &[1]), (f64::INFINITY, &[])] {
        let bad = Cutoffs { ridge: bad, ..Cutoffs::default() };
        assert_eq!(pull::kenward_roger_with(&bad, files), Err(Refusal::Table));
        assert_eq!(pull::satterthwaite_with(&bad, files), Err(Refusal::Table));
        assert_eq!(pull::archive_with(&bad, files), Err(Refusal::Table));
        assert_eq!(pull::archive_test_with(&bad, files, files), Err(Refusal::Table));
        assert_eq!(Cutoffs::from_table(&bad.to_table()), Err(Refusal::Table));
    }
    assert_eq!(Refusal::Table.number(), 14);
    let text = Refusal::Table.to_string();
    assert_eq!(text, "the table of cutoffs is damaged, or has a value that none may have");
}

/// A chemist's file is judged by the panel: as the independent reader judges it.
#[test]
fn tables_from_files() {
    for seed in 0..5_000 {
        let mut random = Random::new(seed);
        let (_, own) = random_table(&mut random);
        let read = Cutoffs::from_table(&own.to_table()).expect("it is accepted");
        assert_eq!(read.to_table()[..], own.to_table());
        assert_eq!(Cutoffs::from_table(&damaged_table(&mut random).1), Err(Refusal::Table));
    }
}

/// The stored tables beside the example series.
#[test]
fn example_tables() {
    let folder = vectors::root().join("examples");
    let read = |name: &str| std::fs::read(folder.join(name)).expect("it is stored");
    assert_eq!(read("built-in.table"), built_in());
    let decades = Cutoffs::from_table(&read("decades.table")).expect("it is accepted");
    let df = |cutoffs: &Cutoffs| {
        let run = pull::kenward_roger_with(cutoffs, &read("decades.rec")).expect("it is accepted");
        run.coefficients[1].df.expect("a number")
    };
    assert!((df(&decades) - 5.0).abs() < 1e-4, "{}", df(&decades));
    assert!((df(&Cutoffs::default()) - 200.1).abs() < 0.1, "{}", df(&Cutoffs::default()));
}
