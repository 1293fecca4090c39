//! The stored list of calls, which the program `replay` of the gate reads: a line has the
//! name of its call, the call's files in hexadecimal and the answer (vectors/README.md).
//! Here are the lines of a call, the cases of the calls without a table, and the answer
//! bytes that follow from what `pulltest` prints.

use crate::Refusal;
use std::path::{Path, PathBuf};

/// Bytes of one entry of an answer, and of the Kenward–Roger call's seven.
pub const ENTRY: usize = 24;
pub const KR_ANSWER: usize = 7 * ENTRY;

/// One stored case.
#[derive(Debug, Clone, PartialEq)]
pub struct Vector {
    /// The number of its line, from 1.
    pub line: usize,
    pub file: Vec<u8>,
    /// The expected output, `|` for each newline.
    pub output: String,
}

pub fn hex(bytes: &[u8]) -> String {
    bytes.iter().map(|b| format!("{b:02x}")).collect()
}

/// The bytes of a file in hexadecimal; `-` is an empty file.
pub fn unhex(text: &str) -> Option<Vec<u8>> {
    if text == "-" {
        return Some(Vec::new());
    }
    if !text.is_ascii() || text.len() % 2 != 0 {
        return None;
    }
    (0..text.len()).step_by(2).map(|i| u8::from_str_radix(&text[i..i + 2], 16).ok()).collect()
}

/// The root of the repository.
pub fn root() -> PathBuf {
    Path::new(env!("CARGO_MANIFEST_DIR")).join("../..")
}

/// What a program of the gate is run on (`stdin`) and has to print (`stdout`).
pub fn of_program(program: &str, file: &str) -> Vec<u8> {
    let path = root().join("crates").join(program).join(file);
    std::fs::read(&path).unwrap_or_else(|e| panic!("{}: {e}", path.display()))
}

/// The same, as text.
pub fn text_of_program(program: &str, file: &str) -> String {
    String::from_utf8(of_program(program, file)).expect("plain text")
}

/// The program that reads the list, its `stdin`.
pub const REPLAY: &str = "replay";

/// The calls without a table, by their names in the list; `table_vectors` has the others.
pub const KENWARD_ROGER: &str = "kenward_roger";
pub const SATTERTHWAITE: &str = "satterthwaite";
pub const ARCHIVE: &str = "archive";
pub const ARCHIVE_TEST: &str = "archive_test";

/// So many lines at the list's end are wrong on purpose, to see that the program finds them.
pub const WRONG: usize = 16;

/// A line of the list in its parts.
#[derive(Debug, Clone, PartialEq)]
pub struct Line {
    /// The number of the line, from 1.
    pub number: usize,
    pub call: String,
    pub files: String,
    pub answer: String,
}

impl Line {
    pub fn parse(number: usize, text: &str) -> Option<Line> {
        let (call, rest) = text.split_once(' ')?;
        let (files, answer) = rest.split_once(' ')?;
        let [call, files, answer] = [call, files, answer].map(String::from);
        Some(Line { number, call, files, answer })
    }

    /// The line, by `case`; it panics where the line is none.
    fn case<T>(&self, case: impl Fn(&Line) -> Option<T>) -> T {
        case(self).unwrap_or_else(|| panic!("line {} of the list: no {}", self.number, self.call))
    }
}

/// The lines of a call in the stored list, but for those that are wrong on purpose.
pub fn lines(call: &str) -> Vec<Line> {
    let text = text_of_program(REPLAY, "stdin");
    let all: Vec<&str> = text.lines().collect();
    let right = all[..all.len() - WRONG].iter().enumerate();
    let parsed = right.map(|(i, line)| {
        Line::parse(i + 1, line).unwrap_or_else(|| panic!("line {} of the list: no call", i + 1))
    });
    parsed.filter(|line| line.call == call).collect()
}

/// The cases of a call, each by `case`.
pub fn cases<T>(call: &str, case: impl Fn(&Line) -> Option<T>) -> Vec<T> {
    lines(call).iter().map(|line| line.case(&case)).collect()
}

/// All cases of a call that has one file and no table.
pub fn load(call: &str) -> Vec<Vector> {
    cases(call, |line| {
        let (file, output) = (unhex(&line.files)?, line.answer.clone());
        Some(Vector { line: line.number, file, output })
    })
}

/// One stored case of the archive's test.
#[derive(Debug, Clone, PartialEq)]
pub struct ArchiveTest {
    /// The number of its line, from 1.
    pub line: usize,
    pub archive: Vec<u8>,
    /// The second file.
    pub tests: Vec<u8>,
    /// The expected output, `|` for each newline.
    pub output: String,
}

/// All cases of the archive's test.
pub fn load_archive_tests() -> Vec<ArchiveTest> {
    cases(ARCHIVE_TEST, |line| {
        let ((archive, tests), output) = (pair(&line.files)?, line.answer.clone());
        Some(ArchiveTest { line: line.number, archive, tests, output })
    })
}

/// Two files in hexadecimal with a comma between them.
pub fn pair(text: &str) -> Option<(Vec<u8>, Vec<u8>)> {
    let (first, second) = text.split_once(',')?;
    Some((unhex(first)?, unhex(second)?))
}

/// The refusal, where an output is one.
pub fn refusal(output: &str) -> Option<Refusal> {
    output.strip_prefix("refused ")?.trim_end_matches('|').parse().ok()
}

/// The number and the 168 answer bytes that the lines of an output stand for; a
/// refusal leaves the bytes as they were.
pub fn kenward_roger_outcome(
    output: &str,
    before: u8,
) -> Result<(Refusal, [u8; KR_ANSWER]), String> {
    match refusal(output) {
        Some(number) => Ok((number, [before; KR_ANSWER])),
        None => Ok((0, kenward_roger_answer(output)?)),
    }
}

/// The 168 answer bytes that `coef` and `test` lines stand for.
fn kenward_roger_answer(output: &str) -> Result<[u8; KR_ANSWER], String> {
    let mut out = [0; KR_ANSWER];
    for line in output.split_terminator('|') {
        let words: Vec<&str> = line.split(' ').collect();
        let (at, fields) = match words.as_slice() {
            ["coef", index, fields @ ..] => (index.parse().ok(), fields),
            ["test", fields @ ..] => (Some(6), fields),
            _ => (None, &[] as &[&str]),
        };
        let at: usize = at.filter(|&i| i < 7).ok_or_else(|| format!("no entry: {line}"))?;
        out[at * ENTRY..(at + 1) * ENTRY].copy_from_slice(&entry(fields)?);
    }
    Ok(out)
}

/// What `pulltest` prints of a call's number and its 168 answer bytes.
pub fn kenward_roger_text(number: Refusal, answer: &[u8; KR_ANSWER]) -> String {
    if number != 0 {
        return format!("refused {number}\n");
    }
    let mut out = String::new();
    // An unused entry has no rank.
    for (i, entry) in answer.chunks(ENTRY).enumerate().filter(|(_, entry)| entry[16] > 0) {
        let name = if i < 6 { format!("coef {i}") } else { "test".to_string() };
        out += &format!("{name} {}\n", fields(entry));
    }
    out
}

/// An entry's bytes as `rank R F BITS df BITS inside`.
fn fields(entry: &[u8]) -> String {
    let number = |at: usize, given: u8| {
        let bits = u64::from_le_bytes(entry[at..at + 8].try_into().expect("eight bytes"));
        if given == 0 {
            "none".to_string()
        } else {
            format!("{bits:016x}")
        }
    };
    let mark = if entry[19] == 0 { "outside" } else { "inside" };
    format!("rank {} F {} df {} {mark}", entry[16], number(0, entry[17]), number(8, entry[18]))
}

impl Vector {
    /// The refusal, where the output is one.
    pub fn refusal(&self) -> Option<Refusal> {
        refusal(&self.output)
    }

    /// Of the archive's writer: the archive, and the output of the test from it.
    pub fn archive(&self) -> Option<(Vec<u8>, &str)> {
        let (archive, test) = self.output.strip_prefix("archive ")?.split_once('|')?;
        Some((unhex(archive)?, test))
    }

    /// The 168 answer bytes that the `coef` and `test` lines stand for.
    pub fn kenward_roger_answer(&self) -> Result<[u8; KR_ANSWER], String> {
        kenward_roger_answer(&self.output)
    }

    /// The 24 answer bytes that one `test` line stands for.
    pub fn satterthwaite_answer(&self) -> Result<[u8; ENTRY], String> {
        let words: Vec<&str> = self.output.trim_end_matches('|').split(' ').collect();
        match words.as_slice() {
            ["test", fields @ ..] => entry(fields),
            _ => Err(format!("no test line: {}", self.output)),
        }
    }
}

/// `rank R F BITS df BITS inside` as an entry's bytes.
fn entry(fields: &[&str]) -> Result<[u8; ENTRY], String> {
    let read = || {
        let ["rank", rank, "F", f, "df", df, mark] = fields else {
            return None;
        };
        let mut out = [0; ENTRY];
        let (f, df) = (number(f)?, number(df)?);
        out[..8].copy_from_slice(&f.unwrap_or(0).to_le_bytes());
        out[8..16].copy_from_slice(&df.unwrap_or(0).to_le_bytes());
        out[16] = rank.parse().ok()?;
        out[17] = f.is_some().into();
        out[18] = df.is_some().into();
        out[19] = match *mark {
            "inside" => 1,
            "outside" => 0,
            _ => return None,
        };
        Some(out)
    };
    read().ok_or_else(|| format!("not the fields of an entry: {}", fields.join(" ")))
}

/// `none`, or 16 hexadecimal digits.
fn number(word: &str) -> Option<Option<u64>> {
    if word == "none" {
        return Some(None);
    }
    let digits = word.len() == 16;
    u64::from_str_radix(word, 16).ok().filter(|_| digits).map(Some)
}

#[cfg(test)]
mod tests {
    use super::*;

    /// The stored outputs, as answer bytes and back.
    #[test]
    fn there_and_back() {
        for case in load(KENWARD_ROGER) {
            let (number, answer) = kenward_roger_outcome(&case.output, 0).expect("an output");
            let text = kenward_roger_text(number, &answer).replace('\n', "|");
            assert_eq!(text, case.output, "line {}", case.line);
        }
    }
}
