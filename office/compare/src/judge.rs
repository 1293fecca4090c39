//! One file through the panel and through the oracle.

use oracle::calls::{both_runs, entry_bytes, satterthwaite_fill, series_to_run, ENTRY, KR_ANSWER};
use reader::cutoffs::Cutoffs;
use reader::tries::Call;
use std::panic::{catch_unwind, AssertUnwindSafe};

/// What the answer bytes hold before a call: a refusal must leave it there.
pub(crate) const UNTOUCHED: u8 = 0xa5;

/// What a call did: its number, and the answer bytes afterwards.
#[derive(Debug, Clone, PartialEq)]
pub struct Outcome {
    pub number: u32,
    pub answer: Vec<u8>,
}

fn answer_length(call: Call) -> usize {
    match call {
        Call::KenwardRoger => KR_ANSWER,
        Call::Satterthwaite => ENTRY,
    }
}

/// The panel's outcome.
pub fn panel(call: Call, file: &[u8]) -> Outcome {
    let mut answer = vec![UNTOUCHED; answer_length(call)];
    let number = match call {
        Call::KenwardRoger => pull::kenward_roger_fill(file, &mut answer),
        Call::Satterthwaite => pull::satterthwaite_fill(file, &mut answer),
    };
    Outcome { number, answer }
}

/// The oracle's outcome; a text where its own two runs differ, or it fails.
pub fn oracle(call: Call, file: &[u8]) -> Result<Outcome, String> {
    caught(|| match call {
        Call::KenwardRoger => kenward_roger(file),
        Call::Satterthwaite => {
            let mut answer = vec![UNTOUCHED; ENTRY];
            Ok(Outcome { number: satterthwaite_fill(file, &mut answer), answer })
        }
    })
}

/// A run of the oracle, a failure inside it as its text.
pub(crate) fn caught(run: impl FnOnce() -> Result<Outcome, String>) -> Result<Outcome, String> {
    catch_unwind(AssertUnwindSafe(run)).unwrap_or_else(|panic| {
        let text = panic.downcast_ref::<String>().cloned();
        let text = text.or_else(|| panic.downcast_ref::<&str>().map(|t| t.to_string()));
        Err(text.unwrap_or_else(|| "the oracle failed".to_string()))
    })
}

fn kenward_roger(file: &[u8]) -> Result<Outcome, String> {
    let refused = |number| Outcome { number, answer: vec![UNTOUCHED; KR_ANSWER] };
    let series = match series_to_run(file) {
        Ok(series) => series,
        Err(number) => return Ok(refused(number)),
    };
    Ok(match both_runs(&Cutoffs::BUILT_IN, &series)? {
        Err(number) => refused(number),
        Ok(runs) => {
            Outcome { number: 0, answer: runs.entries().iter().flat_map(entry_bytes).collect() }
        }
    })
}

/// In which manner the two differ. A file that is made smaller keeps it.
#[derive(Debug, Clone, Copy, PartialEq)]
pub enum Manner {
    /// The numbers, the panel's first.
    Numbers(u32, u32),
    /// The same number, other answer bytes.
    Answers,
    /// The oracle has no answer.
    Oracle,
}

/// The manner in which they differ on a file, if they do.
pub fn manner(call: Call, file: &[u8]) -> Option<Manner> {
    compare(&panel(call, file), &oracle(call, file))
}

pub fn compare(panel: &Outcome, oracle: &Result<Outcome, String>) -> Option<Manner> {
    match oracle {
        Err(_) => Some(Manner::Oracle),
        Ok(oracle) if panel.number != oracle.number => {
            Some(Manner::Numbers(panel.number, oracle.number))
        }
        Ok(oracle) => (panel.answer != oracle.answer).then_some(Manner::Answers),
    }
}

/// The two outcomes for a reader: the numbers, and each entry that differs.
pub fn describe(call: Call, file: &[u8]) -> String {
    let panel = panel(call, file);
    let oracle = match oracle(call, file) {
        Ok(oracle) => oracle,
        Err(text) => {
            return format!("  panel {}, the oracle has no answer: {text}\n", panel.number)
        }
    };
    let mut out = format!("  number: panel {}, oracle {}\n", panel.number, oracle.number);
    let pairs = panel.answer.chunks(ENTRY).zip(oracle.answer.chunks(ENTRY));
    for (i, (a, b)) in pairs.enumerate().filter(|(_, (a, b))| a != b) {
        out += &format!("  entry {i}: panel  {}\n           oracle {}\n", entry(a), entry(b));
    }
    out
}

fn entry(bytes: &[u8]) -> String {
    if bytes.iter().all(|&b| b == UNTOUCHED) {
        return "untouched".to_string();
    }
    let bits = |at: usize| {
        let bits = u64::from_le_bytes(bytes[at..at + 8].try_into().expect("eight bytes"));
        format!("{bits:016x} ({:e})", f64::from_bits(bits))
    };
    let tail: Vec<String> = bytes[16..].iter().map(u8::to_string).collect();
    format!("F {} df {} then {}", bits(0), bits(8), tail.join(" "))
}
