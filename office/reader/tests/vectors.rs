//! The reader on the stored list, whose refusals are those of documents 01 and 02; and the
//! list beside what the program `replay` has to print of it.

use reader::archive::{read_archive, read_both, test_records};
use reader::table_vectors::TABLE_CALLS;
use reader::tries::Call;
use reader::vectors::{self, ARCHIVE, ARCHIVE_TEST, KENWARD_ROGER, REPLAY, SATTERTHWAITE, WRONG};

fn check(name: &str, call: Call) {
    let cases = vectors::load(name);
    assert!(cases.len() > 500, "{name} has {} cases", cases.len());
    for case in cases {
        match (call.verdict(&case.file), case.refusal()) {
            (Err(a), Some(b)) => assert_eq!(a, b, "{name}:{}", case.line),
            (Err(a), None) => panic!("{name}:{}: the reader refuses with {a}", case.line),
            (Ok(_), None) => {}
            (Ok(_), Some(b)) => {
                let later = call.later_refusals().contains(&b);
                assert!(later, "{name}:{}: the reader accepts what is refused {b}", case.line);
            }
        }
    }
}

#[test]
fn kenward_roger() {
    check(KENWARD_ROGER, Call::KenwardRoger);
}

#[test]
fn satterthwaite() {
    check(SATTERTHWAITE, Call::Satterthwaite);
}

/// The writer's series by the reader, and each archive there and back.
#[test]
fn archive() {
    for case in vectors::load(ARCHIVE) {
        let line = case.line;
        let Some((archive, test)) = case.archive() else {
            match (Call::KenwardRoger.verdict(&case.file), case.refusal()) {
                (Err(a), b) => assert_eq!(Some(a), b, "line {line}"),
                (Ok(_), b) => assert!(matches!(b, Some(4 | 9 | 10)), "line {line}: {b:?}"),
            }
            continue;
        };
        assert!(Call::KenwardRoger.verdict(&case.file).is_ok(), "line {line}");
        let back = read_archive(&archive).map(|a| a.to_bytes());
        assert_eq!(back.as_ref(), Ok(&archive), "line {line}");
        assert!(read_both(&archive, &test_records(&case.file)).is_ok(), "line {line}");
        assert!(matches!(vectors::refusal(test), None | Some(10)), "line {line}");
    }
}

#[test]
fn archive_test() {
    for case in vectors::load_archive_tests() {
        let line = case.line;
        match (read_both(&case.archive, &case.tests), vectors::refusal(&case.output)) {
            (Err(a), b) => assert_eq!(Some(a), b, "line {line}"),
            (Ok(_), b) => assert!(matches!(b, None | Some(10)), "line {line}: {b:?}"),
        }
    }
}

/// The limits of the program that replays the list.
const LINE: usize = 65_536;
const FILES: usize = 32_768;

/// The program holds every line of the list, and every file.
#[test]
fn limits_of_the_list() {
    for (i, line) in vectors::text_of_program(REPLAY, "stdin").lines().enumerate() {
        assert!(line.len() <= LINE, "line {}", i + 1);
        assert!(line.split(' ').nth(1).map_or(0, str::len) <= FILES, "line {}", i + 1);
    }
}

/// The program has to find each line that is wrong on purpose and no other, and to count
/// every other one for its call.
#[test]
fn what_is_to_be_printed_of_the_list() {
    let calls = [KENWARD_ROGER, SATTERTHWAITE, ARCHIVE, ARCHIVE_TEST].into_iter();
    let calls = calls.chain(TABLE_CALLS.map(|call| call.word()));
    let counts: Vec<(&str, usize)> = calls.map(|call| (call, vectors::lines(call).len())).collect();
    let right: usize = counts.iter().map(|(_, count)| count).sum();
    let lines = vectors::text_of_program(REPLAY, "stdin").lines().count();
    assert_eq!(right + WRONG, lines);
    let printed = vectors::text_of_program(REPLAY, "stdout");
    let mut printed = printed.lines();
    for number in right + 1..=lines {
        let line = printed.next().expect("a line that differs");
        assert_eq!(line.split(' ').next(), Some(&*number.to_string()), "{line}");
    }
    for (call, count) in counts {
        assert_eq!(printed.next(), Some(&*format!("{call} {count}")));
    }
    assert_eq!(printed.next(), Some(&*format!("differ {WRONG}")));
    assert_eq!(printed.next(), None);
}
