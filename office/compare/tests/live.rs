//! The live comparison as a test: more than 20,000 random series and archives,
//! other ones than those of the command.

use compare::archive;
use compare::live::{run, Plan};
use compare::{numbers, season, tables, torn};
use std::path::Path;

fn plan() -> Plan {
    let folder = Path::new(env!("CARGO_TARGET_TMPDIR")).join("compare");
    Plan {
        files: 27_000,
        archives: 20_000,
        tables: 10_000,
        seasons: 400,
        seed: 2,
        family: None,
        untorn: false,
        trace: false,
        folder,
    }
}

/// Thousands of files with torn specimens, most of them accepted.
fn enough_torn(torn: &torn::Tally) {
    let enough = torn.files >= 4_000
        && torn.accepted() >= 2_000
        && torn.column_lost >= 500
        && torn.all >= 100
        && torn.not_finite >= 200;
    assert!(enough, "{}", torn.line());
}

/// Thousands of files with blocks, most of them with right numbers; wrong ones of
/// every manner.
fn enough_numbers(numbers: &numbers::Tally) {
    let enough = numbers.right >= 10_000
        && numbers.refused_13() >= 500
        && numbers.zero >= 100
        && numbers.wrapped >= 50
        && numbers.behind >= 100
        && numbers.size >= 100;
    assert!(enough, "{}", numbers.line());
}

/// Thousands of cases with each sort of table, of answers that are not the built-in
/// table's, and of tables that are none.
#[test]
fn tables_agree_in_every_bit() {
    let summary = tables::run(&plan());
    let [accepted, refused] = summary.tables();
    assert!(summary.cases.len() == 4 && summary.cases.values().all(|&n| n >= 10_000));
    assert!(accepted >= 30_000 && refused >= 3_000, "{accepted}, {refused}");
    assert!(summary.sorts.len() == 10 && summary.sorts.values().all(|&n| n >= 300));
    assert!(summary.ways.len() == 22 && summary.ways.values().all(|&n| n >= 50));
    assert!(summary.classes.len() == 7 && summary.classes.values().all(|&n| n >= 500));
    assert!(summary.changed.len() == 4 && summary.changed.values().all(|&n| n >= 500));
    assert_eq!(summary.failures, 0, "cases differ; see above");
}

/// Every branch of a season is met.
#[test]
fn seasons_agree_in_every_line() {
    let summary = season::run(&plan());
    assert_eq!(summary.failures, 0, "seasons differ; see above");
    assert_eq!(summary.tally.seasons, 400);
    assert!(summary.tally.series >= 8_000, "{} series", summary.tally.series);
    assert_eq!(summary.tally.rare(1), [""; 0], "not met");
}

#[test]
fn archives_agree_in_every_bit() {
    let summary = archive::run(&plan());
    assert!(summary.archived >= 20_000, "{} archives", summary.archived);
    assert!(summary.pairs >= 40_000, "{} pairs", summary.pairs);
    enough_torn(&summary.torn);
    enough_numbers(&summary.numbers);
    assert_eq!(summary.failures, 0, "series or pairs differ; see above");
}

#[test]
fn the_panel_and_the_oracle_agree_in_every_bit() {
    let summary = run(&plan());
    assert!(summary.files >= 27_000, "{} files", summary.files);
    enough_torn(&summary.torn);
    enough_numbers(&summary.numbers);
    assert_eq!(summary.failures, 0, "files differ; see above");
}
