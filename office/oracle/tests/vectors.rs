//! The stored list of calls is made again, with what is to be printed of it, and so is the
//! stored season; and the places that the gate's program `table_packing` has to print are
//! lme-rs's.

use oracle::make::{made, Counts};
use oracle::make_season::season;
use oracle::print::{pullseason, pulltest};
use reader::programs::PULLSEASON;
use reader::season_tries::Tally;
use reader::vectors::{of_program, text_of_program, REPLAY};

/// The seed and the numbers of random cases of vectors/README.md.
const LIST: (u64, Counts) = (1, Counts { series: 550, archives: 72, tables: 180 });

/// The first line of two texts that differs, since the list has thousands.
fn same(made: &str, stored: &str, what: &str) {
    let pairs = made.lines().zip(stored.lines()).enumerate();
    for (i, (made, stored)) in pairs {
        assert_eq!(made, stored, "line {} of {what}", i + 1);
    }
    assert!(made == stored, "the number of lines of {what}");
}

#[test]
fn the_list() {
    let made = made(LIST.0, LIST.1);
    same(&made.list, &text_of_program(REPLAY, "stdin"), "the list");
    same(&made.printed, &text_of_program(REPLAY, "stdout"), "what is printed of the list");
}

/// The seed and the number of series of vectors/README.md.
const MADE: (u64, usize) = (1, 60);

/// What one season cannot have beside the rest of it.
const NOT_IN_ONE: [&str; 4] = [
    "an empty season",
    "bytes and no closing record",
    "left over: fewer than 16 bytes",
    "left over: a series that would be accepted",
];

#[test]
fn the_season() {
    let file = of_program(PULLSEASON.name, "stdin");
    assert!(file == season(MADE.0, MADE.1), "the season is made otherwise");
    assert_eq!(text_of_program(PULLSEASON.name, "stdout"), pullseason(&file));
    let mut tally = Tally::default();
    tally.add(&file, pulltest);
    assert_eq!((tally.seasons, tally.series), (1, MADE.1));
    assert_eq!(tally.rare(1), NOT_IN_ONE);
}

#[test]
fn places() {
    let text = text_of_program("table_packing", "stdout");
    assert_eq!(text, oracle::print::places());
    assert_eq!(text.lines().count(), 30);
}
