//! The number in a block record through the C functions (document 02, "Req 04"): "The
//! first of the eight value bytes now holds that number, k(k+1)/2, and the other
//! seven are zero. It refuses with 13 a block whose written number differs from
//! k(k+1)/2, after 2 and before 3."
//!
//! What is asked: every k with every number, and every byte behind it; each stored
//! series with each other number and each of the seven bytes set; files of numbers
//! that are all 0, as they were before the request, which answer as they did once
//! the numbers are written; and the place among the refusals. Where a call refuses,
//! every lent byte stays as it was.
//!
//! The cases made by hand (`known_numbers` of the oracle) are among the stored
//! vectors, which `replay`, `archive` and `pulltest` run through. What each test
//! counted: `-- --nocapture`.

mod lent;

use lent::{archived, direct, UNTOUCHED};
use pull::example::{block, record, records_with_a_block};
use pull::{archive_fill, archive_test_fill, kenward_roger_fill, satterthwaite_fill, Refusal};
use pull::{ENTRY_BYTES, KENWARD_ROGER_BYTES, SHORTEST_ARCHIVE};
use reader::numbers::{with_numbers, Numbers};
use reader::random::Random;
use reader::tries::{Call, Tries};
use reader::vectors::{self, hex};
use reader::{order, BLOCK};

const RECORDS: u32 = 2;
const SIZE: u32 = 3;
const BLOCKS: u32 = 7;
const COUNT: u32 = 13;
/// Random files.
const FILES: u64 = 200_000;
/// The block of `records_with_a_block`, by its first byte.
const EXAMPLE_BLOCK: usize = 4 * 16;

/// Both calls refuse with this number, and write nothing.
fn refused(series: &[u8], number: u32) {
    assert_eq!(direct(series), (number, [UNTOUCHED; KENWARD_ROGER_BYTES]), "{}", hex(series));
    let (returned, lent) = archived(series);
    assert_eq!(returned, number, "{}", hex(series));
    assert!(lent.iter().all(|&b| b == UNTOUCHED), "a refusal wrote: {}", hex(series));
}

/// Example (k) with this k and these value bytes in its block.
fn example(k: u8, value: [u8; 8]) -> Vec<u8> {
    let mut out = records_with_a_block();
    out[EXAMPLE_BLOCK + 2] = k;
    out[EXAMPLE_BLOCK + 8..EXAMPLE_BLOCK + 16].copy_from_slice(&value);
    out
}

/// Where the block records of a file begin.
fn blocks(file: &[u8]) -> Vec<usize> {
    let records = file.chunks_exact(16).enumerate();
    records.filter(|(_, record)| record[0] == BLOCK).map(|(i, _)| 16 * i).collect()
}

/// Each k with each number. The sum 1 + 2 + .. + k is k(k+1)/2, and larger than
/// every byte from k = 23 on.
#[test]
fn every_k_with_every_number() {
    let (mut right, mut wrong) = (0, 0);
    for k in 0..=255 {
        let sum: u32 = (0..=u32::from(k)).sum();
        for number in 0..=255 {
            let file = example(k, [number, 0, 0, 0, 0, 0, 0, 0]);
            if u32::from(number) != sum {
                refused(&file, COUNT);
                wrong += 1;
                continue;
            }
            right += 1;
            match k {
                1 => assert_eq!(direct(&file).0, 0),
                // One column of Z, one theta.
                2 => refused(&file, BLOCKS),
                _ => refused(&file, SIZE),
            }
        }
    }
    println!("{right} right numbers, {wrong} wrong ones");
    assert_eq!((right, wrong), (23, 256 * 256 - 23));
}

/// Each of the seven bytes behind the number with each of its values: 2, also where
/// the number is wrong, and where it is k(k+1)/2 in two bytes.
#[test]
fn every_byte_behind_the_number() {
    for (k, number) in [(0, 0), (1, 1), (1, 0), (2, 3), (3, 6), (22, 253), (23, 20), (255, 128)] {
        for place in 1..8 {
            for byte in 1..=255 {
                let mut value = [number, 0, 0, 0, 0, 0, 0, 0];
                value[place] = byte;
                refused(&example(k, value), RECORDS);
            }
        }
    }
    for k in 23..=255 {
        let number = u16::from(k) * (u16::from(k) + 1) / 2;
        let [low, high] = number.to_le_bytes();
        refused(&example(k, [low, high, 0, 0, 0, 0, 0, 0]), RECORDS);
    }
    for k in 1..=255 {
        let number = f64::from(k) * (f64::from(k) + 1.0) / 2.0;
        refused(&example(k, number.to_le_bytes()), RECORDS);
    }
}

/// The stored series of both calls that are answered and have blocks, with what
/// they answer.
fn stored() -> Vec<(Vec<u8>, [u8; KENWARD_ROGER_BYTES])> {
    let mut out = Vec::new();
    for case in vectors::load(vectors::KENWARD_ROGER) {
        if case.refusal().is_none() && Numbers::of(&case.file).is_some() {
            let answer = case.kenward_roger_answer().unwrap_or_else(|e| panic!("{e}"));
            out.push((case.file, answer));
        }
    }
    for case in vectors::load(vectors::ARCHIVE) {
        let Some((_, test)) = case.archive() else { continue };
        let (number, answer) =
            vectors::kenward_roger_outcome(test, UNTOUCHED).unwrap_or_else(|e| panic!("{e}"));
        if number == 0 && Numbers::of(&case.file).is_some() {
            out.push((case.file, answer));
        }
    }
    assert!(out.len() > 250, "{} series", out.len());
    out
}

/// Each block of each stored series with each other number, and with each of the
/// seven bytes set.
#[test]
fn stored_series_with_other_values() {
    let mut random = Random::new(6);
    let (mut numbers, mut bytes) = (0, 0);
    for (mut file, answer) in stored() {
        for at in blocks(&file) {
            let right = file[at + 8];
            for number in (0..=255).filter(|&number| number != right) {
                file[at + 8] = number;
                refused(&file, COUNT);
                numbers += 1;
            }
            file[at + 8] = right;
            for place in at + 9..at + 16 {
                file[place] = 1 + random.below(255) as u8;
                refused(&file, RECORDS);
                // Beside a wrong number too.
                file[at + 8] = right.wrapping_add(1);
                refused(&file, RECORDS);
                (file[at + 8], file[place]) = (right, 0);
                bytes += 1;
            }
        }
        assert_eq!(direct(&file), (0, answer), "{}", hex(&file));
    }
    println!("{numbers} other numbers, {bytes} bytes behind them");
    assert!(numbers > 100_000);
}

/// A file as it was before the request has 0 in every block. It is refused, and with
/// its numbers written it is the file that answers as it did.
#[test]
fn numbers_written_into_old_files() {
    let series = stored();
    for (file, answer) in &series {
        let mut old = file.clone();
        for at in blocks(file) {
            old[at + 8..at + 16].fill(0);
        }
        refused(&old, COUNT);
        let written = with_numbers(&old);
        assert_eq!(written, *file);
        assert_eq!(direct(&written), (0, *answer), "{}", hex(file));
        let (length, _) = archived(&written);
        assert!(length as usize >= SHORTEST_ARCHIVE, "{}", hex(file));
    }
    println!("{} series", series.len());
}

/// Random files with blocks: the reader's number; where it is 13 the file with its
/// numbers written is refused later or answered, and never with 2, 12 or, but for a
/// k that is too large, 13.
#[test]
fn random_files() {
    let tries = Tries::new(Call::KenwardRoger);
    let (mut met, mut written) = (0, [0; 14]);
    for seed in 0..FILES {
        let file = tries.file(&mut Random::new(seed));
        if Numbers::of(&file).is_none() || Call::KenwardRoger.verdict(&file) != Err(COUNT) {
            continue;
        }
        refused(&file, COUNT);
        met += 1;
        let number = direct(&with_numbers(&file)).0;
        let large = blocks(&file).into_iter().any(|at| file[at + 2] > 22);
        assert!(![1, 2, 12].contains(&number) && (number == 13) == large, "{}", hex(&file));
        written[number as usize] += 1;
    }
    println!("{met} files refused with 13; with their numbers written, by number: {written:?}");
    assert!(met > 3_000);
    assert!([0, 3, 4, 5, 6, 7, 13].into_iter().all(|number| written[number] > 10));
}

/// A wrong number beside each other reason, by the typed functions: the length and
/// the order, then all of 2, then 13, then the others.
#[test]
fn place_among_the_refusals() {
    let wrong = example(1, [0; 8]);
    let with = |at: usize, new: [u8; 16]| {
        let mut out = wrong.clone();
        out[at * 16..(at + 1) * 16].copy_from_slice(&new);
        out
    };
    let more = |new: [u8; 16]| order::sorted(&[&wrong[..], &new].concat());
    let weights = |a: f64, b: f64| {
        order::sorted(&[&wrong[..], &record(5, 0, 0, 0, a), &record(5, 1, 0, 0, b)].concat())
    };
    let mut falling = wrong.clone();
    falling.rotate_right(16);
    let mut byte_3 = wrong.clone();
    byte_3[EXAMPLE_BLOCK + 3] = 1;
    let before = [
        (wrong[1..].to_vec(), Refusal::Records),
        (falling.clone(), Refusal::Order),
        (falling[1..].to_vec(), Refusal::Records),
        (byte_3, Refusal::Records),
        (more(record(99, 0, 0, 0, 1.0)), Refusal::Records),
        (more(record(8, 1, 0, 0, 1.0)), Refusal::Records),
        (more(block(0, 2, 1)), Refusal::Records),
        (with(4, block(1, 1, 1)), Refusal::Records),
        (wrong[16..].to_vec(), Refusal::Records),
    ];
    let after = [
        wrong.clone(),
        example(3, [0; 8]),
        example(0, [1, 0, 0, 0, 0, 0, 0, 0]),
        with(4, record(3, 0, 1, 0, 0.0)),
        more(block(1, 2, 1)),
        weights(0.0, -0.0),
        with(0, record(1, 0, 0, 0, f64::NAN)),
        with(7, record(7, 0, 0, 0, 0.0)),
        weights(1.0, -1.0),
        with(4, record(3, 0, 1, 2, 0.0)),
        with(9, record(9, 0, 0, 0, 0.0)),
        with(5, record(4, 0, 0, 0, 1e10)),
        with(6, record(6, 0, 0, 0, 0.0)),
    ];
    let after = after.into_iter().map(|file| (file, Refusal::ParameterCount));
    for (file, refusal) in before.into_iter().chain(after) {
        assert_eq!(pull::kenward_roger(&file), Err(refusal), "{}", hex(&file));
        assert_eq!(pull::archive(&file), Err(refusal), "{}", hex(&file));
    }
    // 1 before all of them.
    for length in [0, 100, 167, 169] {
        let mut answer = vec![UNTOUCHED; length];
        assert_eq!(kenward_roger_fill(&wrong, &mut answer), 1);
        assert_eq!(archive_fill(&wrong, &mut answer), 1);
        assert!(answer.iter().all(|&b| b == UNTOUCHED));
    }
}

/// Two and three blocks, of which each alone, or each but one, is wrong.
#[test]
fn several_blocks() {
    for count in 1..=3u8 {
        let series = |numbers: &[u8]| {
            let mut out = Vec::new();
            for (row, &number) in (0..).zip(numbers) {
                let mut block = block(row, 1, 1);
                block[8] = number;
                out.extend(block);
                out.extend(record(4, row, 0, 0, 0.5));
                (0..2).for_each(|i| out.extend(record(2, i, row, 0, f64::from(i + row))));
            }
            order::sorted(&[&out[..], &pull::example::records()].concat())
        };
        let right = vec![1; count.into()];
        assert_eq!(direct(&series(&right)).0, 0, "{count} blocks");
        for at in 0..count.into() {
            for number in [0, 2, 3, 255] {
                let mut one = right.clone();
                one[at] = number;
                refused(&series(&one), COUNT);
                let mut others = vec![number; count.into()];
                others[at] = 1;
                if count > 1 {
                    refused(&series(&others), COUNT);
                }
            }
        }
    }
}

/// The calls that read no blocks: kind 3 is a bad kind there, with any number.
#[test]
fn calls_without_blocks() {
    let series = pull::example::records();
    let archive = pull::archive(&series).expect("it is accepted");
    let tests = pull::test_records(&series);
    for number in [0, 1, 2] {
        let mut bad = block(0, 1, 1);
        bad[8] = number;
        let ahead = |file: &[u8]| [&bad[..], file].concat();
        let mut answer = [UNTOUCHED; KENWARD_ROGER_BYTES];
        assert_eq!(archive_test_fill(&ahead(&archive), &tests, &mut answer), RECORDS);
        assert_eq!(archive_test_fill(&archive, &ahead(&tests), &mut answer), RECORDS);
        let entry = &mut answer[..ENTRY_BYTES];
        assert_eq!(satterthwaite_fill(&ahead(&tests), entry), RECORDS);
        assert_eq!(answer, [UNTOUCHED; KENWARD_ROGER_BYTES]);
    }
}
