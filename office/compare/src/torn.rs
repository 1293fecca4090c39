//! How many files with torn specimens were compared, and what became of them.

use reader::torn::Torn;
use std::collections::BTreeMap;

#[derive(Debug, Default)]
pub struct Tally {
    pub files: usize,
    /// By the number of the refusal; 0 where the file was accepted.
    pub numbers: BTreeMap<u32, usize>,
    /// Accepted with a column of Z whose only records were torn specimens'.
    pub column_lost: usize,
    /// Torn specimens alone: refused with 3.
    pub all: usize,
    /// A torn row that is not finite: refused with 4.
    pub not_finite: usize,
}

impl Tally {
    /// Counts a file if it has torn specimens.
    pub fn add(&mut self, file: &[u8], number: u32) {
        let Some(torn) = Torn::of(file) else {
            return;
        };
        self.files += 1;
        *self.numbers.entry(number).or_default() += 1;
        self.column_lost += usize::from(number == 0 && torn.column_lost);
        self.all += usize::from(number == 3 && torn.all);
        self.not_finite += usize::from(number == 4 && torn.not_finite);
    }

    pub fn accepted(&self) -> usize {
        self.numbers.get(&0).copied().unwrap_or(0)
    }

    pub fn line(&self) -> String {
        format!(
            "{} files with torn specimens, {} of them accepted ({} with a column of Z that lost \
             its records); {} of torn specimens alone (3), {} with a torn row that is not finite \
             (4); by number {:?}",
            self.files,
            self.accepted(),
            self.column_lost,
            self.all,
            self.not_finite,
            self.numbers
        )
    }
}
