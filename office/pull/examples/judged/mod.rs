//! A season's file, judged series by series.

use pull::{Refusal, Test};

/// So many series are looked at for the worst, the present one included.
pub const LATEST: usize = 20;

/// What one series gave.
#[derive(Debug, Clone)]
pub struct Entry {
    /// Its contrast's test, if it has one; or why it was refused.
    pub answer: Result<Option<Test>, Refusal>,
    /// The worst of the twenty that end here; the program prints it where the series was
    /// accepted.
    pub worst: Option<Worst>,
}

/// The largest F of the latest twenty series, and the number of its series, from 1.
#[derive(Debug, Clone, Copy, PartialEq)]
pub struct Worst {
    pub f: f64,
    pub series: usize,
}

/// A season: each closed series, and how many bytes stand after the last closing record.
#[derive(Debug, Clone)]
pub struct Season {
    pub entries: Vec<Entry>,
    pub left_over: usize,
}

impl Entry {
    /// F of the contrast. It can be infinite.
    pub fn f(&self) -> Option<f64> {
        self.answer.ok().flatten().and_then(|test| test.f)
    }
}

/// Kind 21 and fifteen zeros close a series.
fn closes(record: &[u8]) -> bool {
    record[0] == 21 && record[1..].iter().all(|&byte| byte == 0)
}

/// How many of these series were refused.
pub fn refused(entries: &[Entry]) -> usize {
    entries.iter().filter(|entry| entry.answer.is_err()).count()
}

impl Season {
    /// Judges a season's file.
    pub fn of(file: &[u8]) -> Season {
        let mut season = Season { entries: Vec::new(), left_over: 0 };
        let mut from = 0;
        for (i, record) in file.chunks_exact(16).enumerate() {
            if closes(record) {
                let run = pull::kenward_roger(&file[from..16 * i]);
                season.add(run.map(|run| run.contrast));
                from = 16 * (i + 1);
            }
        }
        season.left_over = file.len() - from;
        season
    }

    /// The next series.
    pub fn add(&mut self, answer: Result<Option<Test>, Refusal>) {
        self.entries.push(Entry { answer, worst: None });
        let worst = self.worst();
        self.entries.last_mut().expect("it was added").worst = worst;
    }

    /// The latest twenty series, or as many as there are.
    pub fn latest(&self) -> &[Entry] {
        &self.entries[self.entries.len().saturating_sub(LATEST)..]
    }

    /// From the oldest of the twenty: only a larger F takes the place of another.
    fn worst(&self) -> Option<Worst> {
        let before = self.entries.len() - self.latest().len();
        let mut worst: Option<Worst> = None;
        for (i, entry) in self.latest().iter().enumerate() {
            match entry.f() {
                Some(f) if worst.is_none_or(|old| old.f < f) => {
                    worst = Some(Worst { f, series: before + i + 1 });
                }
                _ => {}
            }
        }
        worst
    }
}
