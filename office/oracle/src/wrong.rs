//! Lines for the end of the list that are wrong on purpose: a program that compares and never
//! finds a difference would not find these.

use crate::reader::table_vectors::TableCall::{
    self, Archive, ArchiveTest, KenwardRoger, Satterthwaite,
};
use ::reader::vectors::{Line, ARCHIVE, ARCHIVE_TEST, KENWARD_ROGER, SATTERTHWAITE, WRONG};

/// The shortest line of a call in the list whose answer is such.
fn shortest(list: &str, call: &str, such: impl Fn(&str) -> bool) -> Line {
    let all = list.lines().enumerate().filter_map(|(i, line)| Line::parse(i + 1, line));
    let such = all.filter(|line| line.call == call && such(&line.answer));
    such.min_by_key(|line| line.files.len() + line.answer.len()).expect("the list has every sort")
}

/// A text whose last decimal digit is the next one.
fn other_digit(text: &str) -> String {
    let at = text.rfind(|c: char| c.is_ascii_digit()).expect("a digit");
    let digit = (text.as_bytes()[at] - b'0' + 1) % 10;
    format!("{}{digit}{}", &text[..at], &text[at + 1..])
}

/// A text without its last so many characters.
fn cut(text: &str, count: usize) -> &str {
    &text[..text.len() - count]
}

fn accepted(answer: &str) -> bool {
    !answer.starts_with("refused")
}

/// With a table: what is written stands behind a blank.
fn written(answer: &str) -> bool {
    answer.contains(' ')
}

/// A line of a call with other files or another answer.
fn line(call: &str, files: &str, answer: &str) -> String {
    format!("{call} {files} {answer}\n")
}

/// The wrong lines of the calls without a table.
fn plain(list: &str) -> Vec<String> {
    let run = shortest(list, KENWARD_ROGER, accepted);
    let refused = shortest(list, KENWARD_ROGER, |answer| !accepted(answer));
    let entry = shortest(list, SATTERTHWAITE, |answer| answer.ends_with(" inside|"));
    let archive = shortest(list, ARCHIVE, |answer| answer.contains("|coef "));
    let (bytes, tests) = archive.answer.split_once('|').expect("an archive and its tests");
    let test = shortest(list, ARCHIVE_TEST, accepted);
    vec![
        // A digit, a text cut short, the refusal of what is accepted and the other way round.
        line(KENWARD_ROGER, &run.files, &other_digit(&run.answer)),
        line(KENWARD_ROGER, &run.files, cut(&run.answer, 1)),
        line(KENWARD_ROGER, &run.files, &refused.answer),
        line(KENWARD_ROGER, &refused.files, &run.answer),
        // The mark, and a letter more.
        line(SATTERTHWAITE, &entry.files, &entry.answer.replace(" inside|", " outside|")),
        line(SATTERTHWAITE, &entry.files, &format!("{}|", entry.answer)),
        // A digit of the archive's bytes; a digit of the test from it.
        line(ARCHIVE, &archive.files, &format!("{}|{tests}", other_digit(bytes))),
        line(ARCHIVE, &archive.files, &other_digit(&archive.answer)),
        // An empty answer.
        line(ARCHIVE_TEST, &test.files, ""),
        // No call, the files of another call, no answer at all.
        line(&format!("{KENWARD_ROGER}s"), &run.files, &run.answer),
        line(ARCHIVE_TEST, &archive.files, &archive.answer),
        format!("{SATTERTHWAITE} {}\n", entry.files),
    ]
}

/// Those of the calls with a table: a digit, another number, a byte less, a byte more.
fn with_table(list: &str) -> Vec<String> {
    let of = |call: TableCall| shortest(list, call.word(), written);
    let [run, entry, archive, test] = [KenwardRoger, Satterthwaite, Archive, ArchiveTest].map(of);
    vec![
        line(&run.call, &run.files, &other_digit(&run.answer)),
        line(&entry.call, &entry.files, "14"),
        line(&archive.call, &archive.files, cut(&archive.answer, 2)),
        line(&test.call, &test.files, &format!("{}00", test.answer)),
    ]
}

/// The lines that are wrong on purpose, made of lines of the list.
pub fn lines(list: &str) -> String {
    let lines = [plain(list), with_table(list)].concat();
    assert_eq!(lines.len(), WRONG);
    lines.concat()
}
