//! The calls with a table: the cases made by hand, both runs on random series with
//! random tables, the archive, changes of unit.

use crate::archive::{archive_test_with_fill, archive_with_fill};
use crate::calls::{kenward_roger_with_fill, satterthwaite_with_fill};
use crate::cutoffs::{self, in_force};
use crate::known::{example_i, kr_bytes, pulltest_series, satt_bytes};
use crate::known_tables::{self, Expected};
use crate::make_tables::{built_in, changes, families, outcome, random_files};
use crate::random::{kr_case, Random, KR_FAMILIES, MORE_KR_FAMILIES};
use crate::reader::archive::{test_records, SHORTEST};
use crate::reader::cutoffs::{Cutoffs, CAP_ROW, ROTATION_ROW, ROWS};
use crate::reader::shift::Shift;
use crate::reader::table_tries::{damaged_table, random_table, table_of, SORTS};
use crate::reader::table_vectors::{TableCall, TableInput, TableOutcome, TABLE_CALLS};
use crate::reader::tries::Call;
use ::reader::vectors::{hex, ENTRY};
use listed_algebra::{jacobi, Matrix, Plain};
use std::panic::catch_unwind;

/// Every case made by hand, with what document 02 says of it.
#[test]
fn known_cases() {
    for (name, input, expected) in known_tables::cases() {
        let got = outcome(&input);
        let accepted = input.call.written(got.number).is_some();
        let holds = match expected {
            Expected::Refused(number) => got.number == number && !accepted,
            Expected::Accepted => accepted,
            Expected::AsBuiltIn => accepted && !changes(&input),
            Expected::Changed => accepted && changes(&input),
        };
        assert!(holds, "{name}: {expected:?}, got {}", got.text(input.call));
    }
}

/// Each of the nine rows alone makes another answer of some case.
#[test]
fn every_row_changes_an_answer() {
    let mut rows = [0; ROWS];
    for (_, input, expected) in known_tables::cases() {
        let Ok(cutoffs) = Cutoffs::read(&input.table) else {
            continue;
        };
        let built_in = Cutoffs::BUILT_IN.values();
        let other: Vec<usize> =
            (0..ROWS).filter(|&row| cutoffs.values()[row] != built_in[row]).collect();
        if let ([row], Expected::Changed | Expected::Refused(10)) = (&other[..], expected) {
            rows[*row] += 1;
        }
    }
    assert!(rows.iter().all(|&cases| cases > 0), "{rows:?}");
}

/// 1, then 14, then the file; and nothing is written.
#[test]
fn one_then_fourteen() {
    let series = kr_bytes(&pulltest_series());
    let bad = Cutoffs::BUILT_IN.with(CAP_ROW, 2.0).to_table();
    type Fill<'a> = &'a dyn Fn(&[u8], &mut [u8]) -> u32;
    let calls: [(TableCall, Fill); 4] = [
        (TableCall::KenwardRoger, &|t, a| kenward_roger_with_fill(t, &series, a)),
        (TableCall::Satterthwaite, &|t, a| {
            satterthwaite_with_fill(t, &satt_bytes(&example_i()), a)
        }),
        (TableCall::Archive, &|t, a| archive_with_fill(t, &series, a)),
        (TableCall::ArchiveTest, &|t, a| archive_test_with_fill(t, &[1], &[1], a)),
    ];
    for (call, fill) in calls {
        for length in [0, call.lent() - 1, call.lent() + 1] {
            let mut lent = vec![7; length];
            assert_eq!((fill(&built_in(), &mut lent), fill(&bad, &mut lent)), (1, 1));
            assert!(lent.iter().all(|&b| b == 7));
        }
        let mut lent = vec![7; call.lent()];
        assert_eq!((fill(&bad, &mut lent), fill(&[], &mut lent)), (14, 14));
        assert!(lent.iter().all(|&b| b == 7));
    }
}

/// The table is in force for one run, and gone after a run that failed.
#[test]
fn tables_come_and_go() {
    let other = Cutoffs { cap: 5.0, moment: 1.0, ..Cutoffs::BUILT_IN };
    assert_eq!(in_force(&other, || (cutoffs::cap(), cutoffs::moment())), (5.0, 1.0));
    let failed = catch_unwind(|| in_force(&other, || panic!("on purpose")));
    assert!(failed.is_err());
    assert_eq!((cutoffs::cap(), cutoffs::moment()), (3000.0, 1e-15));
    let in_thread = || std::thread::spawn(cutoffs::cap).join().expect("no failure");
    assert_eq!(in_force(&other, in_thread), 3000.0);
}

/// The Jacobi with a factor: at A_ab² = factor × (A_aa × A_bb) it does not rotate.
#[test]
fn rotation_factor() {
    let m = Matrix { rows: 2, cols: 2, cells: vec![2.0, 1.0, 1.0, 2.0] };
    let rotations = |factor: f64| jacobi(&Plain, &m, factor).rotations;
    assert_eq!([rotations(0.25), rotations(0.2499), rotations(1e300)], [0, 1, 0]);
    assert_eq!(rotations(f64::from_bits(1)), 1);
}

/// Both runs on random files with random tables, every sort of table on every
/// family: the calls stop where they differ in a bit. Damaged tables are 14.
#[test]
fn both_runs_agree() {
    let (mut changed, mut all) = (0, 0);
    for call in TABLE_CALLS {
        for (f, family) in families(call).iter().enumerate() {
            let mut random = Random::new(400 + f as u64);
            for i in 0..30 {
                let files = random_files(&mut random, call, family);
                let table = table_of(&mut random, SORTS[i % SORTS.len()]).to_table();
                changed += usize::from(changes(&files.with_table(&table)));
                all += 1;
                let damaged = files.with_table(&damaged_table(&mut random).1);
                assert_eq!(outcome(&damaged), TableOutcome { number: 14, written: Vec::new() });
            }
        }
    }
    assert!(changed * 10 > all, "{changed} of {all} answers are others");
}

/// With one table on both sides the test from an archive answers as the direct run.
#[test]
fn archives_answer_as_the_series() {
    let (mut archived, mut changed) = (0, 0);
    for (f, family) in KR_FAMILIES.iter().chain(&MORE_KR_FAMILIES).enumerate() {
        let mut random = Random::new(500 + f as u64);
        for _ in 0..30 {
            let series = kr_case(&mut random, family);
            let table = random_table(&mut random).1.to_table();
            let direct = TableInput::of(TableCall::KenwardRoger, &table, &series);
            let written = outcome(&TableInput::of(TableCall::Archive, &table, &series));
            if (written.number as usize) < SHORTEST {
                assert_eq!(written.number, outcome(&direct).number);
                continue;
            }
            let test = TableInput::test(&table, &written.written, &test_records(&series));
            assert_eq!(outcome(&test), outcome(&direct), "{family} {}", hex(&series));
            archived += 1;
            changed += usize::from(changes(&direct));
        }
    }
    assert!(archived > 200 && changed > 50, "{archived}, {changed}");
}

/// Whether all tests of an accepted answer are inside.
fn inside(outcome: &TableOutcome) -> bool {
    let used = outcome.written.chunks(ENTRY).filter(|entry| entry[16] > 0);
    outcome.number == 0 && used.into_iter().all(|entry| entry[19] == 1)
}

/// The answer without its marks.
fn verdict(outcome: &TableOutcome) -> Vec<u8> {
    let mut out = outcome.written.clone();
    out.chunks_mut(ENTRY).for_each(|entry| entry[19] = 0);
    out
}

/// A run that is inside keeps its verdicts in every unit, whatever the table is; a
/// rotation factor far off puts it outside.
#[test]
fn inside_runs_keep_their_verdicts() {
    let mut random = Random::new(78);
    let mut tried = [0, 0];
    for i in 0..1_200 {
        let (call, with) = match i % 2 {
            0 => (Call::KenwardRoger, TableCall::KenwardRoger),
            _ => (Call::Satterthwaite, TableCall::Satterthwaite),
        };
        let families = families(with);
        let files = random_files(&mut random, with, families[i / 2 % families.len()]);
        let files = files.with_table(&random_table(&mut random).1.to_table());
        let before = outcome(&files);
        if !inside(&before) {
            continue;
        }
        let shift = Shift::borne(&mut random, call);
        let other = shift.apply(call, &files.file).expect("an inside file has another unit");
        let after = outcome(&TableInput { file: other, ..files.clone() });
        assert_eq!(after.number, 0, "{shift:?} {}", files.text());
        assert_eq!(verdict(&before), verdict(&after), "{shift:?} {}", files.text());
        tried[i % 2] += 1;
    }
    assert!(tried[0] > 100 && tried[1] > 100, "{tried:?}");
}

/// The mark of the cases made by hand, by the factor's exponent.
#[test]
fn marks_of_the_factor() {
    let mut seen = [0, 0];
    for (name, input, _) in known_tables::cases() {
        let row = Cutoffs::read(&input.table).map(|c| c.values()[ROTATION_ROW]);
        let (Ok(factor), Some(_)) = (row, name.strip_suffix(", V not")) else {
            continue;
        };
        let far = !crate::marked::in_range(factor);
        assert_eq!(outcome(&input).written[19], u8::from(!far), "{name}");
        seen[usize::from(far)] += 1;
    }
    assert_eq!(seen, [3, 6]);
}
