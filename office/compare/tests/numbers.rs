//! The cases made by hand of the numbers in blocks through the C functions, with
//! what document 02 says of them.

use oracle::known::Known;
use oracle::known_numbers;
use pull::{archive_fill, kenward_roger_fill, satterthwaite_fill};
use pull::{ARCHIVE_BYTES, ENTRY_BYTES, KENWARD_ROGER_BYTES, SHORTEST_ARCHIVE};
use reader::vectors::{hex, refusal};

const UNTOUCHED: u8 = 0xa5;

/// The number that each case is refused with, every lent byte as it was; 0, or an
/// archive's length, where it is accepted.
fn check(cases: Vec<Known>, lent: usize, fill: fn(&[u8], &mut [u8]) -> u32) -> [usize; 2] {
    let (mut accepted, mut refused) = (0, 0);
    for (name, file, start) in cases {
        let mut bytes = vec![UNTOUCHED; lent];
        let number = fill(&file, &mut bytes);
        match refusal(start) {
            Some(expected) => {
                assert_eq!(number, expected, "{name}: {}", hex(&file));
                assert!(bytes.iter().all(|&b| b == UNTOUCHED), "{name}: {}", hex(&file));
                refused += 1;
            }
            None => {
                let length = number as usize;
                assert!(length == 0 || length >= SHORTEST_ARCHIVE, "{name}: {}", hex(&file));
                accepted += 1;
            }
        }
    }
    [accepted, refused]
}

#[test]
fn known_numbers_through_the_panel() {
    let direct = check(known_numbers::kenward_roger(), KENWARD_ROGER_BYTES, kenward_roger_fill);
    let writer = check(known_numbers::archived(), ARCHIVE_BYTES, archive_fill);
    let other = check(known_numbers::satterthwaite(), ENTRY_BYTES, satterthwaite_fill);
    println!(
        "accepted, refused: {direct:?}, the archive's writer {writer:?}, the other call {other:?}"
    );
    assert!(direct[0] >= 8 && direct[1] >= 100 && writer[0] >= 3 && other[0] == 0);
}

/// The direct call's cases through the archive's writer: refused alike. What a test
/// alone refuses, with 10, is archived.
#[test]
fn the_writer_refuses_alike() {
    for (name, file, start) in known_numbers::kenward_roger() {
        let mut lent = vec![UNTOUCHED; ARCHIVE_BYTES];
        let number = archive_fill(&file, &mut lent);
        match refusal(start) {
            None | Some(10) => assert!(number as usize >= SHORTEST_ARCHIVE, "{name}"),
            Some(expected) => assert_eq!(number, expected, "{name}: {}", hex(&file)),
        }
    }
}
