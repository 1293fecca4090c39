//! The archive through the C functions: the stored lists byte for byte; the
//! test from an archive beside the direct call; other lengths; and random and
//! damaged files between fences, against the reader's number.
//!
//! What each test counted: `-- --nocapture`. A failing call prints its seed.

mod fence;
mod form;

use fence::Fenced;
use pull::{archive_fill, archive_test_fill, kenward_roger_fill, test_records};
use pull::{ARCHIVE_BYTES, KENWARD_ROGER_BYTES, SHORTEST_ARCHIVE};
use reader::archive::{read_archive, read_both};
use reader::archive_tries::ArchiveTries;
use reader::random::Random;
use reader::torn::Torn;
use reader::tries::{Call, Tries};
use reader::vectors::{self, hex, kenward_roger_outcome};
use std::collections::BTreeMap;

const UNTOUCHED: u8 = 0xa5;
/// Hostile calls of each of the two functions.
const CALLS: u64 = 200_000;
/// Calls on each stored series, at the one end of a fence or the other.
const FENCES: u64 = 16;

/// The writer's number and the archive, the rest of the lent bytes looked at.
fn archived(series: &[u8]) -> Result<Vec<u8>, u32> {
    let mut lent = [UNTOUCHED; ARCHIVE_BYTES];
    let number = archive_fill(series, &mut lent);
    let length = number as usize;
    if length < SHORTEST_ARCHIVE {
        assert_eq!(lent, [UNTOUCHED; ARCHIVE_BYTES], "a refusal wrote: {}", hex(series));
        return Err(number);
    }
    assert!(length <= ARCHIVE_BYTES && length % 16 == 0, "{length} bytes: {}", hex(series));
    let rest = &lent[length..];
    assert!(rest.iter().all(|&b| b == UNTOUCHED), "written past its end: {}", hex(series));
    Ok(lent[..length].to_vec())
}

/// The number and the answer bytes of the test.
fn tested(archive: &[u8], tests: &[u8]) -> (u32, [u8; KENWARD_ROGER_BYTES]) {
    let mut answer = [UNTOUCHED; KENWARD_ROGER_BYTES];
    (archive_test_fill(archive, tests, &mut answer), answer)
}

fn direct(series: &[u8]) -> (u32, [u8; KENWARD_ROGER_BYTES]) {
    let mut answer = [UNTOUCHED; KENWARD_ROGER_BYTES];
    (kenward_roger_fill(series, &mut answer), answer)
}

/// An outcome as a failing test prints it.
fn shown((number, answer): (u32, [u8; KENWARD_ROGER_BYTES])) -> String {
    format!("{number} {}", hex(&answer))
}

/// What a stored output stands for.
fn expected(output: &str) -> String {
    shown(kenward_roger_outcome(output, UNTOUCHED).unwrap_or_else(|e| panic!("{e}")))
}

/// Each stored line of the archive's writer: the writer's number or every byte of the
/// archive, and the number and every byte of the test from it.
#[test]
fn stored_series() {
    let cases = vectors::load(vectors::ARCHIVE);
    assert!(cases.len() > 100, "{} cases", cases.len());
    let mut archives = 0;
    for case in &cases {
        let line = case.line;
        match (archived(&case.file), case.archive()) {
            (Err(number), None) => assert_eq!(Some(number), case.refusal(), "line {line}"),
            (Ok(got), Some((archive, test))) => {
                assert_eq!(hex(&got), hex(&archive), "line {line}");
                let got = tested(&archive, &test_records(&case.file));
                assert_eq!(shown(got), expected(test), "line {line}");
                archives += 1;
            }
            (got, _) => panic!("line {line}: {:?} is not {}", got.map(|a| hex(&a)), case.output),
        }
    }
    println!("archive: {} cases, {archives} archives", cases.len());
}

/// Each stored line of the test from an archive.
#[test]
fn stored_pairs() {
    let cases = vectors::load_archive_tests();
    assert!(cases.len() > 300, "{} cases", cases.len());
    for case in &cases {
        let got = tested(&case.archive, &case.tests);
        assert_eq!(shown(got), expected(&case.output), "line {}", case.line);
    }
    println!("archive_test: {} cases", cases.len());
}

/// The stored series of the Kenward–Roger call: one that is archived is tested
/// as the direct call tests it, and any other is refused alike.
#[test]
fn as_the_direct_call() {
    let (mut archives, mut refused, mut by_test) = (0, 0, 0);
    for name in [vectors::KENWARD_ROGER, vectors::ARCHIVE] {
        for case in vectors::load(name) {
            let direct = direct(&case.file);
            match archived(&case.file) {
                Err(number) => {
                    assert_eq!(direct.0, number, "{name}:{}", case.line);
                    refused += 1;
                }
                Ok(archive) => {
                    let got = tested(&archive, &test_records(&case.file));
                    assert_eq!(shown(got), shown(direct), "{name}:{}", case.line);
                    // The reader's own code writes it back to the same bytes.
                    let back = read_archive(&archive).map(|a| a.to_bytes());
                    assert_eq!(back, Ok(archive), "{name}:{}", case.line);
                    archives += 1;
                    by_test += usize::from(direct.0 != 0);
                }
            }
        }
    }
    println!("{archives} archives tested as the series, {by_test} of them refused by a test;");
    println!("{refused} series refused by the writer and by the direct call alike");
    assert!(archives > 400 && by_test > 10 && refused > 200);
}

/// 1 comes before a byte is looked at, and nothing is written.
#[test]
fn other_lengths() {
    let series = pull::example::records();
    let archive = pull::archive(&series).expect("it is accepted");
    let tests = test_records(&series);
    for length in [0, 1, 128, 168, 7168, 7183, 7185, 8000] {
        let mut lent = vec![UNTOUCHED; length];
        for file in [&series[..], &[], &[1]] {
            assert_eq!(archive_fill(file, &mut lent), 1, "{length} bytes");
        }
        assert!(lent.iter().all(|&b| b == UNTOUCHED));
    }
    for length in [0, 1, 24, 144, 167, 169, 192, 7184] {
        let mut answer = vec![UNTOUCHED; length];
        for (archive, tests) in [(&archive[..], &tests[..]), (&[], &[]), (&[1], &[1])] {
            assert_eq!(archive_test_fill(archive, tests, &mut answer), 1, "{length} bytes");
        }
        assert!(answer.iter().all(|&b| b == UNTOUCHED));
    }
}

/// The typed functions: the example, a new question to an old archive, refusals.
#[test]
fn typed() {
    use pull::example::record;
    use pull::Refusal;
    let series = pull::example::records();
    let archive = pull::archive(&series).expect("it is accepted");
    assert_eq!(archive.len(), SHORTEST_ARCHIVE);
    // Φ 4, Φ_A 4, P -1/4 and W 2 in response units.
    let cells: Vec<f64> = archive
        .chunks(16)
        .map(|r| f64::from_bits(u64::from_le_bytes(r[8..].try_into().expect("eight bytes"))))
        .collect();
    assert_eq!(cells, [4.0, 4.0, -0.25, 2.0, 0.5, 0.5, -2.0, 8.0]);
    let own = test_records(&series);
    assert_eq!(pull::archive_test(&archive, &own), pull::kenward_roger(&series));
    let hypothesis = [&own[..], &record(10, 0, 0, 0, 6.0)].concat();
    let run = pull::archive_test(&archive, &hypothesis).expect("it is accepted");
    assert_eq!(run.contrast.and_then(|t| t.f), Some(0.0));
    assert_eq!(pull::archive(&[]), Err(Refusal::Records));
    assert_eq!(pull::archive_test(&archive, &[]), Err(Refusal::Records));
    assert_eq!(pull::archive_test(&series, &own), Err(Refusal::Records));
    let mut other = archive.clone();
    other[8] ^= 1;
    assert_eq!(pull::archive_test(&other, &own), Err(Refusal::Records));
    other[8] ^= 1;
    other[112 + 15] ^= 0x80;
    assert_eq!(pull::archive_test(&other, &own), Err(Refusal::Sigma2));
    other.swap(0, 16);
    assert_eq!(pull::archive_test(&other, &own), Err(Refusal::Order));
    // Φ = 0 is archived, and refused by the test.
    let mut zero = series.clone();
    zero[32..48].copy_from_slice(&record(6, 0, 0, 0, 0.0));
    let archive = pull::archive(&zero).expect("it is accepted");
    assert_eq!(pull::archive_test(&archive, &own), Err(Refusal::Pivot));
}

/// A lent piece of memory with `file` in it.
fn lent(memory: &mut Fenced, file: &[u8], front: bool, canary: u8) -> &'static mut [u8] {
    let lent = memory.lend(file.len(), front, canary);
    lent.copy_from_slice(file);
    lent
}

/// Random and damaged archives and second files.
#[test]
fn hostile_pairs() {
    let tries = ArchiveTries::new();
    let mut memory = [Fenced::new(), Fenced::new(), Fenced::new()];
    let mut tally: BTreeMap<u32, u64> = BTreeMap::new();
    for seed in 0..CALLS {
        let mut random = Random::new(seed);
        let number = one_pair(&tries, &mut random, &mut memory)
            .unwrap_or_else(|text| panic!("seed {seed}: {text}"));
        *tally.entry(number).or_default() += 1;
    }
    println!("pull_archive_test: {CALLS} calls, by number returned: {tally:?}");
    for number in [0, 1, 2, 4, 5, 8, 10, 12] {
        assert!(tally.get(&number).is_some_and(|&n| n >= 20), "{number} was hardly met: {tally:?}");
    }
}

fn one_pair(
    tries: &ArchiveTries,
    random: &mut Random,
    memory: &mut [Fenced; 3],
) -> Result<u32, String> {
    let (archive, tests) = tries.pair(random);
    let stated = KENWARD_ROGER_BYTES;
    let length = if random.once_in(32) { random.below(2 * stated) } else { stated };
    let (canary, before) = (random.bits() as u8, random.bits() as u8);
    let ends = random.below(8);
    let lent_archive = lent(&mut memory[0], &archive, ends & 1 == 0, canary);
    let lent_tests = lent(&mut memory[1], &tests, ends & 2 == 0, canary);
    let answer = lent(&mut memory[2], &vec![before; length], ends & 4 == 0, canary);

    let number = archive_test_fill(lent_archive, lent_tests, answer);

    let text = |what: &str| {
        let files = format!("{},{}", hex(&archive), hex(&tests));
        Err(format!("{what}; returned {number}, {length} answer bytes, files {files}"))
    };
    if lent_archive != archive || lent_tests != tests {
        return text("a file was changed");
    }
    let verdict = read_both(&archive, &tests);
    let expected = match &verdict {
        _ if length != stated => number == 1,
        Err(refusal) => number == *refusal,
        Ok(_) => number == 0 || number == 10,
    };
    if !expected {
        return text(&format!("the reader says {:?}", verdict.err()));
    }
    match (number, verdict) {
        (0, Ok((archive, tests))) => {
            let used = |i: usize| match i {
                6 => tests.contrast.is_some(),
                _ => i < archive.coefficients(),
            };
            if let Err(what) = form::check(answer, used) {
                return text(&format!("{what}: {}", hex(answer)));
            }
        }
        _ if answer.iter().any(|&b| b != before) => return text("a refusal wrote answer bytes"),
        _ => {}
    }
    if !memory.iter().all(Fenced::whole) {
        return text("a canary byte was changed");
    }
    Ok(number)
}

/// Random and damaged series through the writer; an archive that it writes is
/// read by the reader and tested as the direct call tests the series.
#[test]
fn hostile_series() {
    let tries = Tries::new(Call::KenwardRoger);
    let mut memory = [Fenced::new(), Fenced::new()];
    let mut tally: BTreeMap<u32, u64> = BTreeMap::new();
    let (mut torn, mut torn_archived) = (0, 0);
    for seed in 0..CALLS {
        let mut random = Random::new(seed);
        let file = tries.file(&mut random);
        let number = one_series(&file, &mut random, &mut memory)
            .unwrap_or_else(|text| panic!("seed {seed}: {text}"));
        *tally.entry(number).or_default() += 1;
        if Torn::of(&file).is_some() {
            torn += 1;
            torn_archived += u64::from(number as usize >= SHORTEST_ARCHIVE);
        }
    }
    println!("pull_archive: {CALLS} calls, by number returned or length: {tally:?}");
    println!("  {torn} series with torn specimens, {torn_archived} of them archived");
    assert!(torn_archived > 1_000, "{torn_archived} archived");
    for number in [1, 2, 3, 4, 5, 6, 7, 8, 9, 12, 13, SHORTEST_ARCHIVE as u32] {
        assert!(tally.get(&number).is_some_and(|&n| n >= 20), "{number} was hardly met: {tally:?}");
    }
}

/// The stored series between the same fences: these have the longest archive,
/// which fills what is lent to its end.
#[test]
fn stored_series_between_fences() {
    let mut memory = [Fenced::new(), Fenced::new()];
    let mut longest = 0;
    for case in vectors::load(vectors::ARCHIVE) {
        for seed in 0..FENCES {
            let number = one_series(&case.file, &mut Random::new(seed), &mut memory)
                .unwrap_or_else(|text| panic!("line {}, seed {seed}: {text}", case.line));
            longest += u64::from(number as usize == ARCHIVE_BYTES);
        }
    }
    println!("archive between fences: {longest} archives of {ARCHIVE_BYTES} bytes");
    assert!(longest > FENCES / 2);
}

fn one_series(file: &[u8], random: &mut Random, memory: &mut [Fenced; 2]) -> Result<u32, String> {
    let length = if random.once_in(32) { random.below(2 * ARCHIVE_BYTES) } else { ARCHIVE_BYTES };
    let (canary, before) = (random.bits() as u8, random.bits() as u8);
    let ends = random.below(4);
    let records = lent(&mut memory[0], file, ends & 1 == 0, canary);
    let archive = lent(&mut memory[1], &vec![before; length], ends & 2 == 0, canary);

    let number = archive_fill(records, archive);

    let text =
        |what: &str| Err(format!("{what}; returned {number}, {length} bytes, file {}", hex(file)));
    if records != file {
        return text("the records were changed");
    }
    if !memory.iter().all(Fenced::whole) {
        return text("a canary byte was changed");
    }
    let verdict = Call::KenwardRoger.verdict(file);
    let accepted = number as usize >= SHORTEST_ARCHIVE;
    let expected = match verdict {
        _ if length != ARCHIVE_BYTES => number == 1,
        Err(refusal) => number == refusal,
        Ok(_) => accepted || Call::KenwardRoger.later_refusals().contains(&number),
    };
    if !expected {
        return text(&format!("the reader says {verdict:?}"));
    }
    let end = if accepted { number as usize } else { 0 };
    if archive.get(end..).is_none_or(|rest| rest.iter().any(|&b| b != before)) {
        return text("bytes behind the archive were written");
    }
    if accepted {
        let archive = &archive[..end];
        if read_archive(archive).map(|a| a.to_bytes()).as_deref() != Ok(archive) {
            return text(&format!("no archive: {}", hex(archive)));
        }
        if tested(archive, &test_records(file)) != direct(file) {
            return text("the test from the archive is not the direct call's");
        }
    }
    Ok(number)
}
