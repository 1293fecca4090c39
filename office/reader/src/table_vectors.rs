//! The calls with a table in the stored list: a line has the name of the call, the table and
//! the call's files, the number that is returned, and where the call accepts the bytes that
//! are written (vectors/README.md, "Tables").

use crate::archive::{LENT, SHORTEST};
use crate::vectors::{self, hex, unhex, Line, ENTRY, KR_ANSWER};

/// A call with a table.
#[derive(Debug, Clone, Copy, PartialEq, Eq, PartialOrd, Ord)]
pub enum TableCall {
    KenwardRoger,
    Satterthwaite,
    Archive,
    ArchiveTest,
}

use TableCall::*;

pub const TABLE_CALLS: [TableCall; 4] = [KenwardRoger, Satterthwaite, Archive, ArchiveTest];

impl TableCall {
    /// Its name in the list.
    pub fn word(self) -> &'static str {
        match self {
            KenwardRoger => "kenward_roger_with",
            Satterthwaite => "satterthwaite_with",
            Archive => "archive_with",
            ArchiveTest => "archive_test_with",
        }
    }

    /// The call of a name.
    pub fn of_word(word: &str) -> Option<TableCall> {
        TABLE_CALLS.into_iter().find(|call| word == call.word())
    }

    /// The letter that stands for it where a name would be long.
    pub fn letter(self) -> char {
        match self {
            KenwardRoger => 'k',
            Satterthwaite => 's',
            Archive => 'a',
            ArchiveTest => 't',
        }
    }

    /// The bytes that are lent to it for its answer.
    pub fn lent(self) -> usize {
        match self {
            KenwardRoger | ArchiveTest => KR_ANSWER,
            Satterthwaite => ENTRY,
            Archive => LENT,
        }
    }

    /// How many bytes it has written where it returns a number; `None` at a refusal.
    pub fn written(self, number: u32) -> Option<usize> {
        match self {
            Archive => (number as usize >= SHORTEST).then_some(number as usize),
            _ => (number == 0).then(|| self.lent()),
        }
    }
}

/// What a call with a table is given.
#[derive(Debug, Clone, PartialEq)]
pub struct TableInput {
    pub call: TableCall,
    pub table: Vec<u8>,
    /// The series, or the archive.
    pub file: Vec<u8>,
    /// The second file; empty for every other call than the archive's test.
    pub tests: Vec<u8>,
}

impl TableInput {
    /// A call that has one file.
    pub fn of(call: TableCall, table: &[u8], file: &[u8]) -> TableInput {
        TableInput { call, table: table.to_vec(), file: file.to_vec(), tests: Vec::new() }
    }

    /// The archive's test.
    pub fn test(table: &[u8], archive: &[u8], tests: &[u8]) -> TableInput {
        TableInput { tests: tests.to_vec(), ..TableInput::of(ArchiveTest, table, archive) }
    }

    /// The same with another table.
    pub fn with_table(&self, table: &[u8]) -> TableInput {
        TableInput { table: table.to_vec(), ..self.clone() }
    }

    /// What stands in a line before the answer.
    pub fn text(&self) -> String {
        let file = |bytes: &[u8]| if bytes.is_empty() { "-".to_string() } else { hex(bytes) };
        let mut out = format!("{} {},{}", self.call.word(), file(&self.table), file(&self.file));
        if self.call == ArchiveTest {
            out += &format!(",{}", file(&self.tests));
        }
        out
    }

    /// What a call is given by the files of its line.
    pub fn from_files(call: TableCall, files: &str) -> Option<TableInput> {
        let files: Vec<Vec<u8>> = files.split(',').map(unhex).collect::<Option<_>>()?;
        match (call, files.as_slice()) {
            (ArchiveTest, [table, archive, tests]) => Some(TableInput::test(table, archive, tests)),
            (ArchiveTest, _) => None,
            (call, [table, file]) => Some(TableInput::of(call, table, file)),
            _ => None,
        }
    }
}

/// What a call with a table did: its number, and the bytes that it has written.
#[derive(Debug, Clone, PartialEq)]
pub struct TableOutcome {
    pub number: u32,
    pub written: Vec<u8>,
}

impl TableOutcome {
    /// The outcome by a number and all lent bytes after the call.
    pub fn of(call: TableCall, number: u32, lent: &[u8]) -> TableOutcome {
        TableOutcome { number, written: lent[..call.written(number).unwrap_or(0)].to_vec() }
    }

    /// The answer of a line.
    pub fn text(&self, call: TableCall) -> String {
        match call.written(self.number) {
            None => self.number.to_string(),
            Some(_) => format!("{} {}", self.number, hex(&self.written)),
        }
    }

    pub fn from_text(call: TableCall, text: &str) -> Option<TableOutcome> {
        let (number, written) = match text.split_once(' ') {
            None => (text, Vec::new()),
            Some((number, written)) => (number, unhex(written)?),
        };
        let number = number.parse().ok()?;
        let length = call.written(number).unwrap_or(0);
        (written.len() == length).then_some(TableOutcome { number, written })
    }
}

/// One stored case.
#[derive(Debug, Clone, PartialEq)]
pub struct TableVector {
    /// The number of its line, from 1.
    pub line: usize,
    pub input: TableInput,
    pub outcome: TableOutcome,
}

/// A line of the list.
pub fn line(input: &TableInput, outcome: &TableOutcome) -> String {
    format!("{} {}\n", input.text(), outcome.text(input.call))
}

/// The case of a line.
pub fn parse(line: &Line) -> Option<TableVector> {
    let call = TableCall::of_word(&line.call)?;
    let input = TableInput::from_files(call, &line.files)?;
    let outcome = TableOutcome::from_text(call, &line.answer)?;
    Some(TableVector { line: line.number, input, outcome })
}

/// All cases of the list, a call after the other.
pub fn load() -> Vec<TableVector> {
    TABLE_CALLS.into_iter().flat_map(|call| vectors::cases(call.word(), parse)).collect()
}

#[cfg(test)]
mod tests {
    use super::*;

    #[test]
    fn lines_there_and_back() {
        let test = TableInput::test(&[1, 2], &[], &[255]);
        let accepted = TableOutcome { number: 0, written: vec![7; 168] };
        let refused = TableOutcome { number: 14, written: Vec::new() };
        let parsed = |text: &str| parse(&Line::parse(3, text.trim_end())?);
        let written = line(&test, &accepted);
        assert!(written.starts_with("archive_test_with 0102,-,ff 0 07"), "{written}");
        let back = parsed(&written).expect("a line");
        assert_eq!((back.line, back.input, back.outcome), (3, test, accepted));
        let series = TableInput::of(Satterthwaite, &[], &[0]);
        assert_eq!(line(&series, &refused), "satterthwaite_with -,00 14\n");
        for bad in [
            "satterthwaite_with -,00",
            "satterthwaite_with - 14",
            "satterthwaite -,- 14",
            "kenward_roger_with -,-,- 14",
            "archive_test_with -,- 14",
            "kenward_roger_with -,- 0 00",
        ] {
            assert_eq!(parsed(bad), None, "{bad}");
        }
    }
}
