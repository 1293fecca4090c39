//! The archive's cases in the list of calls: series with their archives, and archives with
//! second files.

use crate::archive::archive;
use crate::known_archive::{pairs, series};
use crate::make::line;
use crate::print::{archive_lines, archive_test_lines};
use crate::random::{kr_case, Random, KR_FAMILIES, MORE_KR_FAMILIES, SHUFFLED};
use crate::reader::archive::test_records;
use crate::reader::archive_tries::{random_pair, random_tests, varied, Pair};
use ::reader::vectors::{hex, ARCHIVE, ARCHIVE_TEST};
use std::collections::BTreeMap;
use std::fmt::Write as _;

/// The bytes of a series with its archive, and of an archive beside a second
/// file: most stay below, so that the list stays short.
const SERIES_AND_ARCHIVE: usize = 2200;
const ARCHIVE_ALONE: usize = 1100;

/// One random case in so many is of any size.
const ANY_SIZE_ONE_IN: usize = 30;

/// How often each answer stands in the list, by its first words.
pub type Tally = BTreeMap<String, usize>;

/// Those of the series, `extreme` more often for the mark's sake.
fn families() -> Vec<&'static str> {
    [&KR_FAMILIES[..], &MORE_KR_FAMILIES, &["extreme", "extreme", "extreme", SHUFFLED]].concat()
}

/// A random series of a family with its archive, if it has one, mostly short.
fn short_case(r: &mut Random, family: &str) -> (Vec<u8>, Option<Vec<u8>>) {
    let any_size = r.once_in(ANY_SIZE_ONE_IN);
    loop {
        let file = kr_case(r, family);
        let archive = archive(&file).ok();
        let length = file.len() + archive.as_ref().map_or(0, Vec::len);
        if any_size || length <= SERIES_AND_ARCHIVE {
            return (file, archive);
        }
    }
}

/// A pair of files in hexadecimal, `-` for an empty one.
fn pair_text((archive, tests): &Pair) -> String {
    let text = |file: &[u8]| if file.is_empty() { "-".to_string() } else { hex(file) };
    format!("{},{}", text(archive), text(tests))
}

fn pair_line(pair: &Pair) -> String {
    let output = archive_test_lines(&pair.0, &pair.1);
    format!("{ARCHIVE_TEST} {} {}\n", pair_text(pair), output.replace('\n', "|"))
}

/// A pair for the test from an archive: the archive of a random series beside its own
/// second file or another, or any archive at all; mostly with damage.
fn random_case(r: &mut Random, family: &str) -> Pair {
    let pair = if r.once_in(3) {
        random_pair(r)
    } else {
        let (file, archive) = loop {
            if let (file, Some(archive)) = short_case(r, family) {
                break (file, archive);
            }
        };
        let p = file.chunks(16).filter(|b| b[0] == crate::reader::BETA).count();
        let tests = if r.once_in(2) { test_records(&file) } else { random_tests(r, p) };
        (archive, tests)
    };
    if pair.0.len() > ARCHIVE_ALONE && !r.once_in(ANY_SIZE_ONE_IN) {
        return random_case(r, family);
    }
    varied(r, pair)
}

fn count(tally: &mut Tally, line: &str) {
    let output = line.splitn(3, ' ').nth(2).unwrap_or("");
    let kind = match output.strip_prefix("archive ") {
        Some(rest) if rest.contains("|refused 10|") => "archived, the test refused 10",
        Some(rest) if rest.contains("outside") => "archived, some entry outside",
        Some(_) => "archived, all inside",
        None if output.starts_with("refused") => output.trim_end_matches(['|', '\n']),
        None if output.contains("outside") => "answered, some entry outside",
        None => "answered, all inside",
    };
    *tally.entry(kind.to_string()).or_default() += 1;
}

/// Lines, and what they hold.
fn tallied(lines: impl Iterator<Item = String>) -> (String, Tally) {
    let mut tally = Tally::new();
    let text = lines.inspect(|line| count(&mut tally, line)).collect();
    (text, tally)
}

/// The part of the summary that says how often each answer stands in the list.
pub fn tally_text(name: &str, tally: &Tally) -> String {
    let mut out = format!("## {name}: {} cases\n\n", tally.values().sum::<usize>());
    for (answer, cases) in tally {
        writeln!(out, "- {answer}: {cases}").expect("a String takes all");
    }
    out + "\n"
}

fn random(seed: u64, i: usize) -> Random {
    Random::new(seed.wrapping_mul(1009).wrapping_add(i as u64))
}

/// The writer's cases: so many random series behind those made by hand.
pub fn archives(seed: u64, count: usize) -> (String, Tally) {
    let families = families();
    let by_hand = series().into_iter().map(|(_, file, _)| file);
    let at_random =
        (0..count).map(|i| short_case(&mut random(seed, i), families[i % families.len()]).0);
    tallied(by_hand.chain(at_random).map(|file| line(ARCHIVE, &file, &archive_lines(&file))))
}

/// The cases of the test from an archive: so many random pairs behind those made by hand.
pub fn archive_tests(seed: u64, count: usize) -> (String, Tally) {
    let families = families();
    // `shuffled` has no archive of its own.
    let families = &families[..families.len() - 1];
    let by_hand = pairs().into_iter().map(|(_, archive, tests, _)| (archive, tests));
    let at_random = (0..count)
        .map(|i| random_case(&mut random(seed, 1_000_000 + i), families[i % families.len()]));
    tallied(by_hand.chain(at_random).map(|pair| pair_line(&pair)))
}
