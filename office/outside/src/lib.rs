//! Holds answers to numbers from software that nobody here wrote: pbkrtest and
//! lmerTest, on fits by lme4 (`vectors/r`).
//!
//! The answering function is a parameter: bytes of a record file in, answer
//! bytes or the number of a refusal out. So the same checks serve the C
//! functions (the tests here) and the oracle (its own tests).

use std::path::Path;

/// Bytes of one entry of an answer: F, df, rank, F given, df given, inside, zeros.
pub const ENTRY: usize = 24;
/// Bytes of the Kenward–Roger answer: seven entries.
pub const KENWARD_ROGER: usize = 7 * ENTRY;
/// Bytes of the Satterthwaite answer: one entry.
pub const SATTERTHWAITE: usize = ENTRY;

/// Every F and df is held to this relative bound.
pub const BOUND: f64 = 1e-9;

/// A function that answers record files.
pub type Answer<const N: usize> = fn(&[u8]) -> Result<[u8; N], u32>;

/// What a package says of one entry.
#[derive(Debug, Clone, PartialEq)]
pub struct Expected {
    pub entry: usize,
    pub rank: u8,
    pub f: f64,
    pub df: f64,
}

/// One line of a file of outside vectors.
#[derive(Debug, Clone, PartialEq)]
pub struct Case {
    pub name: String,
    /// `None` where the answer has to hold; else why it differs by design.
    pub differs: Option<String>,
    pub file: Vec<u8>,
    pub expected: Vec<Expected>,
}

/// What came of one case.
#[derive(Debug, Clone, PartialEq)]
pub enum Outcome {
    /// Largest relative deviation of an F, and of a df.
    Answered {
        f: f64,
        df: f64,
    },
    /// The answer has another rank, or no number where the package has one.
    Other(String),
    Refused(u32),
}

/// Reads a file of outside vectors; a line that starts with `#` is a comment.
pub fn cases(text: &str) -> Result<Vec<Case>, String> {
    let lines = text.lines().enumerate().filter(|(_, l)| !l.starts_with('#') && !l.is_empty());
    lines.map(|(i, line)| case(line).ok_or(format!("line {} is no case", i + 1))).collect()
}

/// Name, `holds` or `differs:WHY`, file in hexadecimal, then four words an entry.
fn case(line: &str) -> Option<Case> {
    let words: Vec<&str> = line.split(' ').collect();
    let [name, verdict, file, rest @ ..] = words.as_slice() else {
        return None;
    };
    let differs = match *verdict {
        "holds" => None,
        other => Some(other.strip_prefix("differs:")?.to_string()),
    };
    if rest.is_empty() || rest.len() % 4 != 0 {
        return None;
    }
    let expected = rest.chunks(4).map(expected).collect::<Option<_>>()?;
    Some(Case { name: name.to_string(), differs, file: bytes(file)?, expected })
}

fn expected(words: &[&str]) -> Option<Expected> {
    let number = |w: &str| w.parse::<f64>().ok();
    Some(Expected {
        entry: words[0].parse().ok()?,
        rank: words[1].parse().ok()?,
        f: number(words[2])?,
        df: number(words[3])?,
    })
}

fn bytes(hex: &str) -> Option<Vec<u8>> {
    let digits: Option<Vec<u8>> = hex.chars().map(|c| c.to_digit(16).map(|d| d as u8)).collect();
    let digits = digits?;
    (digits.len() % 2 == 0).then(|| digits.chunks(2).map(|d| d[0] * 16 + d[1]).collect())
}

/// |ours − theirs| / |theirs|, and 0 for equal numbers.
pub fn relative(ours: f64, theirs: f64) -> f64 {
    if ours == theirs {
        0.0
    } else {
        (ours - theirs).abs() / theirs.abs()
    }
}

/// The larger one; a NaN counts as infinite, so that no comparison passes it over.
fn larger(a: f64, b: f64) -> f64 {
    if b.is_nan() {
        f64::INFINITY
    } else {
        a.max(b)
    }
}

/// Answers one case and compares entry by entry.
pub fn run<const N: usize>(case: &Case, answer: Answer<N>) -> Outcome {
    let answer = match answer(&case.file) {
        Err(number) => return Outcome::Refused(number),
        Ok(bytes) => bytes,
    };
    let (mut f, mut df) = (0.0, 0.0);
    for e in &case.expected {
        let Some(entry) = answer.get(e.entry * ENTRY..(e.entry + 1) * ENTRY) else {
            return Outcome::Other(format!("the answer has no entry {}", e.entry));
        };
        let number = |at: usize| {
            let bits: [u8; 8] = entry[at..at + 8].try_into().expect("eight bytes");
            f64::from_bits(u64::from_le_bytes(bits))
        };
        if entry[16] != e.rank {
            return Outcome::Other(format!(
                "entry {}: rank {}, not {}",
                e.entry, entry[16], e.rank
            ));
        }
        if entry[17] != 1 || entry[18] != 1 {
            return Outcome::Other(format!("entry {}: F or df is none", e.entry));
        }
        f = larger(f, relative(number(0), e.f));
        df = larger(df, relative(number(8), e.df));
    }
    Outcome::Answered { f, df }
}

/// The largest deviations of a file, and the cases in which they stand.
#[derive(Debug, Clone, Default, PartialEq)]
pub struct Report {
    pub held: usize,
    pub numbers: usize,
    pub f: f64,
    pub f_case: String,
    pub df: f64,
    pub df_case: String,
    /// The cases that differ by design: name, why, and how.
    pub differing: Vec<(String, String, Outcome)>,
}

/// Holds every case to the bound. A case that is said to differ must differ,
/// by more than the bound, so that the list of differences stays true.
pub fn hold<const N: usize>(text: &str, answer: Answer<N>, bound: f64) -> Result<Report, String> {
    let mut report = Report::default();
    for case in cases(text)? {
        let outcome = run(&case, answer);
        let within = matches!(outcome, Outcome::Answered { f, df } if f <= bound && df <= bound);
        match (&case.differs, &outcome) {
            (None, Outcome::Answered { f, df }) if within => {
                report.held += 1;
                report.numbers += 2 * case.expected.len();
                if *f > report.f {
                    (report.f, report.f_case) = (*f, case.name.clone());
                }
                if *df > report.df {
                    (report.df, report.df_case) = (*df, case.name.clone());
                }
            }
            (None, _) => return Err(format!("{}: {outcome:?}", case.name)),
            (Some(why), _) if within => {
                return Err(format!("{} is said to differ ({why}): {outcome:?}", case.name))
            }
            (Some(why), _) => report.differing.push((case.name.clone(), why.clone(), outcome)),
        }
    }
    Ok(report)
}

impl Report {
    /// The reasons for which cases differ, each once, in the order of the file.
    pub fn reasons(&self) -> Vec<&str> {
        let mut out: Vec<&str> = self.differing.iter().map(|(_, why, _)| why.as_str()).collect();
        out.dedup();
        out
    }
}

/// A file of the repository's outside vectors.
pub fn text(name: &str) -> String {
    let file = Path::new(env!("CARGO_MANIFEST_DIR")).join("../../vectors/r").join(name);
    std::fs::read_to_string(&file).unwrap_or_else(|e| panic!("{}: {e}", file.display()))
}

/// Holds a file, and prints what `cargo test -- --nocapture` shows. It panics
/// at the first case that does not hold.
fn held<const N: usize>(name: &str, answer: Answer<N>) -> Report {
    let report = hold(&text(name), answer, BOUND).unwrap_or_else(|e| panic!("{name}: {e}"));
    println!("{name}: {} cases, {} numbers held to {BOUND:e}", report.held, report.numbers);
    println!("  largest relative deviation of F {:.1e} ({})", report.f, report.f_case);
    println!("  largest relative deviation of df {:.1e} ({})", report.df, report.df_case);
    for (case, why, outcome) in &report.differing {
        println!("  differs by design ({why}): {case}: {outcome:?}");
    }
    report
}

/// The Kenward–Roger call answers as pbkrtest, but for the named reasons.
pub fn kenward_roger_as_pbkrtest(answer: Answer<KENWARD_ROGER>) {
    let report = held("kenward-roger.txt", answer);
    assert!(report.held >= 20);
    let named = ["weights", "inverse", "df-4", "df-2", "df-negative"];
    assert_eq!(report.reasons(), named);
}

/// The Satterthwaite call answers as lmerTest, but for the named reasons.
pub fn satterthwaite_as_lmertest(answer: Answer<SATTERTHWAITE>) {
    let report = held("satterthwaite.txt", answer);
    assert!(report.held >= 20);
    assert_eq!(report.reasons(), ["rows", "cap"]);
    assert_eq!(report.differing[0].2, Outcome::Refused(11));
}
