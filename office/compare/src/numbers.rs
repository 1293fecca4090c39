//! How many files with blocks were compared, what numbers they had in them, and
//! what became of them.

use reader::numbers::Numbers;
use std::collections::BTreeMap;

#[derive(Debug, Default)]
pub struct Tally {
    /// Files with blocks, and those of them whose numbers are all right.
    pub files: usize,
    pub right: usize,
    /// Those with a wrong number or a byte behind it, by the number of the refusal.
    pub numbers: BTreeMap<u32, usize>,
    /// Refused with 13: a 0 as before the request, and what a byte keeps of a number
    /// that is too large for it.
    pub zero: usize,
    pub wrapped: usize,
    /// A byte behind the number: refused with 2.
    pub behind: usize,
    /// With right numbers, and refused with 3.
    pub size: usize,
}

impl Tally {
    /// Counts a file if it has blocks.
    pub fn add(&mut self, file: &[u8], number: u32) {
        let Some(numbers) = Numbers::of(file) else {
            return;
        };
        self.files += 1;
        if numbers.all_right() {
            self.right += 1;
            self.size += usize::from(number == 3);
            return;
        }
        *self.numbers.entry(number).or_default() += 1;
        self.zero += usize::from(number == 13 && numbers.zero > 0);
        self.wrapped += usize::from(number == 13 && numbers.wrapped > 0);
        self.behind += usize::from(number == 2 && numbers.behind > 0);
    }

    pub fn refused_13(&self) -> usize {
        self.numbers.get(&13).copied().unwrap_or(0)
    }

    pub fn line(&self) -> String {
        format!(
            "{} files with blocks, {} of them with right numbers ({} refused 3); {} refused 13 \
             ({} with 0, {} with what a byte keeps of the number), {} with a byte behind the \
             number (2); those with a wrong value by number {:?}",
            self.files,
            self.right,
            self.size,
            self.refused_13(),
            self.zero,
            self.wrapped,
            self.behind,
            self.numbers
        )
    }
}
