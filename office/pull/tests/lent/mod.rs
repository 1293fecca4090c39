//! The C functions on lent bytes of one value each, which a refusal must leave as
//! they are.

use pull::{archive_fill, kenward_roger_fill, ARCHIVE_BYTES, KENWARD_ROGER_BYTES};

pub const UNTOUCHED: u8 = 0xa5;

/// The number and the answer bytes of the direct call.
pub fn direct(series: &[u8]) -> (u32, [u8; KENWARD_ROGER_BYTES]) {
    let mut answer = [UNTOUCHED; KENWARD_ROGER_BYTES];
    (kenward_roger_fill(series, &mut answer), answer)
}

/// What the writer returns, and all of the lent bytes.
pub fn archived(series: &[u8]) -> (u32, Vec<u8>) {
    let mut lent = vec![UNTOUCHED; ARCHIVE_BYTES];
    (archive_fill(series, &mut lent), lent)
}
