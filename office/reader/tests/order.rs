//! The order of the records by the reader: long files, and how often the files
//! for trying a call reach each refusal.

use reader::numbers::Numbers;
use reader::order;
use reader::random::Random;
use reader::torn::Torn;
use reader::tries::{Call, Tries};
use reader::Record;
use std::collections::BTreeMap;

const CALLS: [Call; 2] = [Call::KenwardRoger, Call::Satterthwaite];

fn refused(file: &[u8]) -> u32 {
    let [a, b] = CALLS.map(|call| call.verdict(file).expect_err("no call has these kinds"));
    assert_eq!(a, b);
    a
}

/// Far more records than there are cells: the last pair counts, and the length
/// comes before it.
#[test]
fn long_files() {
    for count in [2, 836, 1024, 1025, 20_000] {
        let bytes =
            |records: &[Record]| -> Vec<u8> { records.iter().flat_map(|r| r.to_bytes()).collect() };
        let mut records = order::rising(count);
        assert_eq!(refused(&bytes(&records)), 2);
        records.swap(count - 2, count - 1);
        let falling = bytes(&records);
        assert_eq!(refused(&falling), 12);
        assert_eq!(refused(&falling[..falling.len() - 1]), 2);
        records[count - 1] = records[count - 2];
        assert_eq!(refused(&bytes(&records)), 12);
    }
}

/// Of 100,000 files each refusal of the reader is met at least 100 times, 12 at
/// least 10,000 times, and as many are accepted.
#[test]
fn tries_reach_each_refusal() {
    for (call, few) in CALLS.into_iter().zip([&[3, 4, 5, 6, 7, 8, 13][..], &[4]]) {
        let tries = Tries::new(call);
        let mut met: BTreeMap<u32, usize> = BTreeMap::new();
        for seed in 0..100_000 {
            let file = tries.file(&mut Random::new(seed));
            *met.entry(call.verdict(&file).err().unwrap_or(0)).or_default() += 1;
        }
        let least = |number: u32, times: usize| {
            let count = met.get(&number).copied().unwrap_or(0);
            assert!(count >= times, "{call:?}: number {number} was met {count} times");
        };
        few.iter().for_each(|&number| least(number, 100));
        [0, 2, 12].into_iter().for_each(|number| least(number, 10_000));
    }
}

/// Of 100,000 files thousands have blocks with right numbers and are accepted; those
/// with a number as before the request, with one that a byte has cut, with another
/// one and with a byte behind it are met often, and 3 beside right numbers too.
#[test]
fn tries_have_wrong_numbers() {
    let tries = Tries::new(Call::KenwardRoger);
    let (mut accepted, mut size, mut zero, mut wrapped, mut another, mut behind) =
        (0, 0, 0, 0, 0, 0);
    for seed in 0..100_000 {
        let file = tries.file(&mut Random::new(seed));
        let Some(numbers) = Numbers::of(&file) else { continue };
        match Call::KenwardRoger.verdict(&file) {
            Ok(_) => accepted += 1,
            Err(3) => size += 1,
            Err(13) if numbers.zero > 0 => zero += 1,
            Err(13) if numbers.wrapped > 0 => wrapped += 1,
            Err(13) => another += 1,
            Err(2) if numbers.behind > 0 => behind += 1,
            Err(_) => {}
        }
    }
    println!(
        "{accepted} accepted, {size} refused 3; 13: {zero} zero, {wrapped} wrapped, {another}"
    );
    println!("{behind} with a byte behind the number");
    assert!(accepted > 5_000 && size > 500 && behind > 500);
    assert!(zero > 500 && wrapped > 200 && another > 500);
}

/// Of 100,000 files thousands have torn specimens and are accepted; those with no
/// other specimen, with a torn row that is not finite, and with a weight below
/// zero are met often.
#[test]
fn tries_have_torn_specimens() {
    let tries = Tries::new(Call::KenwardRoger);
    let (mut accepted, mut all, mut not_finite, mut below_zero) = (0, 0, 0, 0);
    for seed in 0..100_000 {
        let file = tries.file(&mut Random::new(seed));
        let Some(torn) = Torn::of(&file) else { continue };
        match Call::KenwardRoger.verdict(&file) {
            Ok(_) => accepted += 1,
            Err(3) if torn.all => all += 1,
            Err(4) if torn.not_finite => not_finite += 1,
            Err(6) => below_zero += 1,
            Err(_) => {}
        }
    }
    println!("{accepted} accepted, {all} all torn, {not_finite} not finite, {below_zero} below 0");
    assert!(accepted > 2_000 && all > 500 && not_finite > 100 && below_zero > 30);
}
