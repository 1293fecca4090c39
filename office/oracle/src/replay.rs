//! What the program `replay` of the gate has to print of a list of calls: each line that
//! differs from the oracle's answer, with that answer, and how many do not.

use crate::make_tables::outcome;
use crate::print::{archive_lines, archive_test_lines, pulltest, satterthwaite_line};
use crate::reader::table_vectors::{TableCall, TableInput, TABLE_CALLS};
use ::reader::vectors::{pair, unhex, ARCHIVE, ARCHIVE_TEST, KENWARD_ROGER, SATTERTHWAITE};

/// The longest line that the program holds, and the most digits of a line's files.
const LINE: usize = 65_536;
const FILES: usize = 32_768;

/// The names of the calls, in the order of their counts.
pub fn calls() -> Vec<&'static str> {
    let plain = [KENWARD_ROGER, SATTERTHWAITE, ARCHIVE, ARCHIVE_TEST];
    plain.into_iter().chain(TABLE_CALLS.map(TableCall::word)).collect()
}

/// The oracle's answer to the files of a line; `None` where they are not this call's.
pub fn answer(call: &str, files: &str) -> Option<String> {
    if let Some(call) = TableCall::of_word(call) {
        return Some(outcome(&TableInput::from_files(call, files)?).text(call));
    }
    let lines = match call {
        ARCHIVE_TEST => {
            let (archive, tests) = pair(files)?;
            archive_test_lines(&archive, &tests)
        }
        ARCHIVE => archive_lines(&unhex(files)?),
        SATTERTHWAITE => satterthwaite_line(&unhex(files)?),
        _ => pulltest(&unhex(files)?),
    };
    Some(lines.replace('\n', "|"))
}

/// The call of a line that is answered as stored; else the word that stands for its call, and
/// the right answer or what is wrong with the line.
fn judged<'a>(calls: &[&'a str], line: &str) -> Result<&'a str, (String, String)> {
    if line.len() > LINE {
        return Err(("a line".to_string(), "is too long".to_string()));
    }
    let (word, rest) = line.split_once(' ').unwrap_or((line, ""));
    let differs = |text: &str| Err((word.to_string(), text.to_string()));
    let Some(call) = calls.iter().find(|&&call| call == word) else {
        return differs("is no call");
    };
    let Some((files, stored)) = rest.split_once(' ') else {
        return differs("has no answer in its line");
    };
    let answer = answer(call, files).filter(|_| files.len() <= FILES);
    match answer {
        Some(answer) if answer == stored => Ok(call),
        Some(answer) => differs(&answer),
        None => differs("has other files"),
    }
}

/// What the program has to print of a list.
pub fn printed(list: &str) -> String {
    let calls = calls();
    let mut out = String::new();
    let mut as_stored = Vec::new();
    for (i, line) in list.lines().enumerate() {
        match judged(&calls, line) {
            Ok(call) => as_stored.push(call),
            Err((word, text)) => out += &format!("{} {word} {text}\n", i + 1),
        }
    }
    for call in calls {
        let count = as_stored.iter().filter(|&&other| other == call).count();
        out += &format!("{call} {count}\n");
    }
    out + &format!("differ {}\n", list.lines().count() - as_stored.len())
}
