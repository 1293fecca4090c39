//! Why a series or an archive was refused.

use std::fmt;

/// The reason for which a call gave no answer. Where several hold it is the
/// one with the lowest number, but for these: [`Refusal::Table`] comes directly after
/// [`Refusal::Length`], before anything of a file is looked at; [`Refusal::Order`] comes directly
/// after the file's length, so before every other reason of
/// [`Refusal::Records`]; [`Refusal::ParameterCount`] comes after all of
/// [`Refusal::Records`], and before [`Refusal::Size`]; the late reason of [`Refusal::NotFinite`] comes
/// after [`Refusal::Cholesky`] and [`Refusal::Pivot`] of the adjustment; an
/// archive whose two units do not fit each other ([`Refusal::Records`]) comes
/// after [`Refusal::Sigma2`]; and a second file is looked at after all of its
/// archive.
#[derive(Debug, Clone, Copy, PartialEq, Eq, Hash)]
#[non_exhaustive]
pub enum Refusal {
    /// 1: the bytes lent for the answer, or for the archive, have another length
    /// than the stated one.
    Length,
    /// 2: the file's length is not a multiple of 16, a bad kind, a nonzero
    /// unused field, an index past a limit, a cell twice (a block with two
    /// k's), missing or beyond the sizes. Of a block's eight value bytes all but
    /// the first are unused. In an archive also a record in
    /// response units (kinds 11 to 13) whose bits are not those of its record in
    /// residual units, multiplied with or divided by sigma2.
    Records,
    /// 3: a size outside its limits; or every weight is zero, so that no specimen
    /// is left.
    Size,
    /// 4: an input, or a number of the adjustment's output, is not finite.
    NotFinite,
    /// 5: sigma2 is not above zero.
    Sigma2,
    /// 6: a weight is below zero. Zero, of either sign, is not refused: its
    /// specimen is torn, and counts as absent.
    Weight,
    /// 7: the blocks do not fit the random columns or the thetas.
    Blocks,
    /// 8: the contrast is all zero.
    ZeroContrast,
    /// 9: the covariance of the specimens is not positive definite.
    Cholesky,
    /// 10: an elimination met a zero pivot.
    Pivot,
    /// 11: Satterthwaite: the covariance of several rows has an eigenvalue
    /// that is not finite or not above zero.
    Eigenvalue,
    /// 12: a record that does not stand before the next one: by kind, then for
    /// the kinds 13, 17 and 31 by count, then by row, then by column. So also any
    /// other cell twice.
    Order,
    /// 13: the number that is written in a block (kind 3), in the first of its
    /// eight value bytes, is not that of its parameters, k(k+1)/2. No byte holds
    /// that of a k above 22.
    ParameterCount,
    /// 14: a table of cutoffs that is not nine records of kind 20 with the rows 0 to 8,
    /// in this order and with every other byte zero, each with a value that is finite
    /// and above zero, the last above 2.
    Table,
    /// A number that this library has no name for: the panel's library is of
    /// a later delivery.
    Unlisted(u32),
}

use Refusal::*;

/// In the order of their numbers, from 1.
const LISTED: [Refusal; 14] = [
    Length,
    Records,
    Size,
    NotFinite,
    Sigma2,
    Weight,
    Blocks,
    ZeroContrast,
    Cholesky,
    Pivot,
    Eigenvalue,
    Order,
    ParameterCount,
    Table,
];

impl Refusal {
    /// The refusal of a number that a call returned. 0 is none of them.
    pub(crate) fn from_number(number: u32) -> Refusal {
        let place = (number as usize).wrapping_sub(1);
        LISTED.get(place).copied().unwrap_or(Unlisted(number))
    }

    /// The number that the stand's panel shows.
    pub fn number(self) -> u32 {
        match self {
            Unlisted(number) => number,
            listed => 1 + LISTED.iter().position(|&r| r == listed).expect("it is listed") as u32,
        }
    }
}

impl fmt::Display for Refusal {
    fn fmt(&self, out: &mut fmt::Formatter<'_>) -> fmt::Result {
        let text = match self {
            Length => "the bytes lent for the answer have another length than the stated one",
            Records => "the record file is damaged or incomplete, or an archive's units do not fit",
            Size => "a size is outside its limits, or every weight is zero",
            NotFinite => "an input, or a number of the adjustment, is not finite",
            Sigma2 => "sigma2 is not above zero",
            Weight => "a weight is below zero",
            Blocks => "the blocks do not fit the random columns or the thetas",
            ZeroContrast => "the contrast is all zero",
            Cholesky => "the covariance of the specimens is not positive definite",
            Pivot => "an elimination met a zero pivot",
            Eigenvalue => "the contrast's covariance is not positive definite",
            Order => "the records are not in rising order",
            ParameterCount => "the number written in a block is not k(k+1)/2",
            Table => "the table of cutoffs is damaged, or has a value that none may have",
            Unlisted(number) => return write!(out, "refused with number {number}"),
        };
        out.write_str(text)
    }
}

impl std::error::Error for Refusal {}

#[cfg(test)]
mod tests {
    use super::*;

    #[test]
    fn numbers_there_and_back() {
        for number in 1..=20 {
            assert_eq!(Refusal::from_number(number).number(), number);
        }
        assert_eq!(Refusal::from_number(1), Length);
        assert_eq!(Refusal::from_number(12), Order);
        assert_eq!(Refusal::from_number(13), ParameterCount);
        assert_eq!(Refusal::from_number(14), Table);
        assert_eq!(Refusal::from_number(15), Unlisted(15));
    }
}
