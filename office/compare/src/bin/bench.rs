//! The time of a call, reading included: the panel's C function and the Rust
//! on the same files, in turns, in one program.
//!
//!     cargo run --offline --release -p compare --bin bench [ROUNDS]
//!
//! - panel: `pull_kenward_roger`.
//! - lme-rs: the office's reader, then lme-rs's adjustment and tests, each once, with
//!   document 01's algebra. It has neither the mark nor the late refusal.
//! - marked: the office's reader, then the run written from document 01, which
//!   has both, as the panel does.
//!
//! A time is the least of the rounds, in microseconds for one call, over
//! several series of the size: other programs on the machine only add to it.
//!
//! `bench --archive [ROUNDS]` has the archive's two functions beside the direct
//! call instead, by the panel alone.
//!
//! `bench --torn [ROUNDS]` has what torn specimens cost, by the panel alone: series
//! with every other specimen torn, beside the same specimens without a zero weight,
//! and beside the file of those that are left.
//!
//! `bench --season COUNT DIR` has the program `pullseason` on a season of COUNT series of
//! all sizes of the first table and on one of a tenth, its time beside that of as many
//! calls and the most memory that it had, and on one series of 100 MB. The seasons are
//! written to DIR, which should lie outside the repository.
//!
//! `bench --calls RUN SIZE COUNT` only calls one of the three (0 to 2), of the
//! archive's two (3: `pull_archive`, 4: `pull_archive_test`) or of the torn ones
//! (5: torn, 6: whole, 7: left), or `pull_kenward_roger_with` at the built-in table
//! (8), on the series of one size of the first table (0 to 9), COUNT times each: for
//! a program that counts instructions.

use oracle::calls::series_to_run;
use oracle::random::{file, kr_file, kr_records, series_of_sizes};
use oracle::{lme_run, marked};
use reader::cutoffs::Cutoffs;
use reader::random::Random;
use reader::torn::shortened;
use reader::{Block, Series};
use std::hint::black_box;
use std::time::Instant;

/// Series of each size.
const SERIES: usize = 8;
/// The least time for which a round calls one of the three, in microseconds.
const LEAST: f64 = 3_000.0;
const ROUNDS: usize = 40;

struct Size {
    n: usize,
    p: usize,
    blocks: Vec<Block>,
    rows: usize,
}

fn ones(groups: &[usize]) -> Vec<Block> {
    groups.iter().map(|&m| Block { m, k: 1 }).collect()
}

fn sizes() -> Vec<Size> {
    let size = |n, p, blocks, rows| Size { n, p, blocks, rows };
    vec![
        size(2, 1, ones(&[]), 1),
        size(6, 2, ones(&[2]), 1),
        size(6, 6, ones(&[2, 2, 2]), 5),
        size(12, 3, ones(&[4]), 2),
        size(12, 3, vec![Block { m: 4, k: 2 }], 2),
        size(12, 6, ones(&[3, 3, 3]), 5),
        size(18, 6, ones(&[6, 6, 6]), 5),
        size(24, 1, ones(&[8]), 0),
        size(24, 3, vec![Block { m: 12, k: 2 }], 2),
        size(24, 6, ones(&[8, 8, 8]), 5),
    ]
}

/// The growth with n: the same but for n.
fn growth() -> Vec<Size> {
    let size = |n| Size { n, p: 3, blocks: ones(&[2, 2, 2]), rows: 2 };
    [3, 6, 9, 12, 15, 18, 21, 24].into_iter().map(size).collect()
}

/// A series, its archive and its second file.
struct Files {
    series: Vec<u8>,
    archive: Vec<u8>,
    tests: Vec<u8>,
}

/// A file with every other specimen torn, the same file with none, and the file
/// without the torn ones, all of which the panel accepts.
struct TornFiles {
    torn: Vec<u8>,
    whole: Vec<u8>,
    left: Vec<u8>,
}

fn torn(files: &TornFiles) {
    call(&files.torn);
}

fn whole(files: &TornFiles) {
    call(&files.whole);
}

fn left(files: &TornFiles) {
    call(&files.left);
}

/// One call of the panel.
fn call(series: &[u8]) {
    let mut answer = [0; pull::KENWARD_ROGER_BYTES];
    black_box(pull::kenward_roger_fill(black_box(series), &mut answer));
    black_box(answer);
}

const TORN_RUNS: [fn(&TornFiles); 3] = [torn, whole, left];

/// Accepted series of a size with weights, and with every other one zero.
fn torn_files(size: &Size) -> Vec<TornFiles> {
    let mut random = Random::new(1000 * size.n as u64 + 10 * size.p as u64 + size.rows as u64);
    let mut out = Vec::new();
    for _ in 0..1000 {
        let series = series_of_sizes(&mut random, size.n, size.p, size.blocks.clone(), size.rows);
        let weights: Vec<f64> = (0..size.n).map(|_| random.positive()).collect();
        let zeros = weights.iter().enumerate().map(|(i, &w)| if i % 2 == 1 { 0.0 } else { w });
        let of = |weights| file(&kr_records(&Series { weights, ..series.clone() }, false));
        let torn = of(Some(zeros.collect()));
        let files = TornFiles { left: shortened(&torn), torn, whole: of(Some(weights)) };
        let accepted = |file: &[u8]| pull::kenward_roger(file).is_ok();
        if [&files.torn, &files.whole, &files.left].into_iter().all(|file| accepted(file)) {
            out.push(files);
        }
        if out.len() == SERIES {
            return out;
        }
    }
    panic!("too few accepted series of n = {}, p = {}", size.n, size.p)
}

fn panel(files: &Files) {
    call(&files.series);
}

/// The same answer, with the table read: what a table costs.
fn tabled(files: &Files) {
    let table = pull::Cutoffs::default().to_table();
    let mut answer = [0; pull::KENWARD_ROGER_BYTES];
    let series = black_box(&files.series);
    black_box(pull::kenward_roger_with_fill(black_box(&table), series, &mut answer));
    black_box(answer);
}

fn lme_rs(files: &Files) {
    let series = series_to_run(black_box(&files.series)).expect("it is accepted");
    black_box(lme_run::each_step_once(&series).expect("it is accepted"));
}

fn marked_run(files: &Files) {
    let series = series_to_run(black_box(&files.series)).expect("it is accepted");
    black_box(marked::kenward_roger_run(&Cutoffs::BUILT_IN, &series).expect("it is accepted"));
}

fn archive(files: &Files) {
    let mut lent = [0; pull::ARCHIVE_BYTES];
    black_box(pull::archive_fill(black_box(&files.series), &mut lent));
    black_box(lent);
}

fn archive_test(files: &Files) {
    let (archive, tests) = (black_box(&files.archive), black_box(&files.tests));
    let mut answer = [0; pull::KENWARD_ROGER_BYTES];
    black_box(pull::archive_test_fill(archive, tests, &mut answer));
    black_box(answer);
}

type Run = fn(&Files);

const RUNS: [Run; 3] = [panel, lme_rs, marked_run];
const ARCHIVE_RUNS: [Run; 3] = [panel, archive, archive_test];

/// Accepted series of a size.
fn files(size: &Size) -> Vec<Files> {
    let mut random = Random::new(1000 * size.n as u64 + 10 * size.p as u64 + size.rows as u64);
    let mut out = Vec::new();
    for _ in 0..1000 {
        let series = series_of_sizes(&mut random, size.n, size.p, size.blocks.clone(), size.rows);
        let file = kr_file(&mut random, &series);
        let accepted = pull::kenward_roger(&file).is_ok()
            && marked::kenward_roger_run(&Cutoffs::BUILT_IN, &series).is_ok();
        if accepted {
            let archive = pull::archive(&file).expect("it is accepted");
            out.push(Files { archive, tests: pull::test_records(&file), series: file });
        }
        if out.len() == SERIES {
            return out;
        }
    }
    panic!("too few accepted series of n = {}, p = {}", size.n, size.p)
}

/// Microseconds for one call, over all files, `times` times.
fn time<F>(run: fn(&F), files: &[F], times: usize) -> f64 {
    let began = Instant::now();
    for _ in 0..times {
        files.iter().for_each(run);
    }
    began.elapsed().as_secs_f64() * 1e6 / (times * files.len()) as f64
}

fn least(times: Vec<f64>) -> f64 {
    times.into_iter().fold(f64::INFINITY, f64::min)
}

/// The least time of each of three runs on these files.
fn measure<F>(runs: [fn(&F); 3], files: &[F], rounds: usize) -> [f64; 3] {
    // Once to warm up, and to know how often a round has to call.
    let times = runs.map(|run| {
        let once = time(run, files, 1).max(0.01) * files.len() as f64;
        (LEAST / once).ceil() as usize
    });
    let mut measured = [Vec::new(), Vec::new(), Vec::new()];
    for _ in 0..rounds {
        for (i, run) in runs.into_iter().enumerate() {
            measured[i].push(time(run, files, times[i]));
        }
    }
    measured.map(least)
}

fn columns(size: &Size) -> usize {
    size.blocks.iter().map(|b| b.m * b.k).sum()
}

fn head() {
    println!(
        "{:>3} {:>2} {:>6} {:>9} {:>4} {:>11} {:>11} {:>7} {:>11} {:>7}",
        "n",
        "p",
        "blocks",
        "Z columns",
        "rows",
        "panel µs",
        "lme-rs µs",
        "ratio",
        "marked µs",
        "ratio"
    );
}

fn line(size: &Size, [panel, lme_rs, marked]: [f64; 3]) {
    let k2 = size.blocks.iter().any(|b| b.k == 2);
    let blocks = format!("{}{}", size.blocks.len(), if k2 { " k=2" } else { "" });
    println!(
        "{:>3} {:>2} {blocks:>6} {:>9} {:>4} {panel:>11.2} {lme_rs:>11.2} {:>7.2} {marked:>11.2} {:>7.2}",
        size.n, size.p, columns(size), size.rows, panel / lme_rs, panel / marked
    );
}

/// The power of n with which the time grows from the one size to the other.
fn exponent(small: (usize, f64), large: (usize, f64)) -> f64 {
    (large.1 / small.1).ln() / (large.0 as f64 / small.0 as f64).ln()
}

/// Calls alone, for a program that counts instructions.
fn calls(words: &[String]) {
    let numbers: Vec<usize> = words.iter().filter_map(|w| w.parse().ok()).collect();
    let [run, size, count] = numbers[..] else {
        panic!("--calls RUN SIZE COUNT");
    };
    let size = &sizes()[size];
    if (5..8).contains(&run) {
        let (files, run) = (torn_files(size), TORN_RUNS[run - 5]);
        return (0..count).for_each(|_| files.iter().for_each(run));
    }
    let files = files(size);
    let runs = [RUNS[0], RUNS[1], RUNS[2], ARCHIVE_RUNS[1], ARCHIVE_RUNS[2]];
    let run = runs.get(run).copied().unwrap_or(tabled);
    (0..count).for_each(|_| files.iter().for_each(run));
}

/// The archive's two functions beside the direct call.
fn archives(rounds: usize) {
    println!(
        "One call, reading included; least of {rounds} rounds; {SERIES} series of each size.\n"
    );
    println!(
        "{:>3} {:>2} {:>8} {:>4} {:>11} {:>11} {:>11}",
        "n", "p", "archive", "rows", "direct µs", "archive µs", "test µs"
    );
    for size in sizes() {
        let files = files(&size);
        let length = files[0].archive.len();
        let [direct, archive, test] = measure(ARCHIVE_RUNS, &files, rounds);
        println!(
            "{:>3} {:>2} {length:>8} {:>4} {direct:>11.2} {archive:>11.2} {test:>11.2}",
            size.n, size.p, size.rows
        );
    }
}

/// The series of the first table that have four specimens and more.
fn torn_series(rounds: usize) {
    println!(
        "One call, reading included; least of {rounds} rounds; {SERIES} series of each size.\n"
    );
    println!(
        "{:>3} {:>4} {:>2} {:>9} {:>4} {:>11} {:>11} {:>11}",
        "n", "torn", "p", "Z columns", "rows", "torn µs", "whole µs", "left µs"
    );
    for size in sizes().into_iter().filter(|size| size.n >= 4) {
        let [torn, whole, left] = measure(TORN_RUNS, &torn_files(&size), rounds);
        println!(
            "{:>3} {:>4} {:>2} {:>9} {:>4} {torn:>11.2} {whole:>11.2} {left:>11.2}",
            size.n,
            size.n / 2,
            size.p,
            columns(&size),
            size.rows
        );
    }
}

/// A season of the series of all sizes, mixed.
fn season(words: &[String]) {
    let [count, folder] = words else {
        panic!("--season COUNT DIR");
    };
    let count = count.parse().expect("COUNT is a number");
    let all = sizes();
    let series: Vec<Vec<u8>> = all.iter().flat_map(files).map(|files| files.series).collect();
    compare::season_bench::run(&series, count, folder.as_ref()).expect("files in DIR");
}

fn main() {
    let words: Vec<String> = std::env::args().skip(1).collect();
    if words.first().is_some_and(|w| w == "--season") {
        return season(&words[1..]);
    }
    if words.first().is_some_and(|w| w == "--calls") {
        return calls(&words[1..]);
    }
    let rounds = words.last().and_then(|w| w.parse().ok()).unwrap_or(ROUNDS).max(1);
    if words.first().is_some_and(|w| w == "--archive") {
        return archives(rounds);
    }
    if words.first().is_some_and(|w| w == "--torn") {
        return torn_series(rounds);
    }
    println!("One call, reading included; least of {rounds} rounds; {SERIES} series of each size.");
    println!("The ratios are the panel's time over the other's.\n");
    head();
    for size in sizes() {
        line(&size, measure(RUNS, &files(&size), rounds));
    }
    println!("\nGrowth with n: p = 3, three blocks of two groups, two contrast rows.\n");
    head();
    let mut measured = Vec::new();
    for size in growth() {
        let times = measure(RUNS, &files(&size), rounds);
        line(&size, times);
        measured.push((size.n, times));
    }
    println!();
    for (i, name) in ["panel", "lme-rs", "marked"].iter().enumerate() {
        let at = |n: usize| {
            let found = measured.iter().find(|(m, _)| *m == n);
            (n, found.expect("a size of the list").1[i])
        };
        println!(
            "{name}: as n^{:.1} from 6 to 12, as n^{:.1} from 12 to 24",
            exponent(at(6), at(12)),
            exponent(at(12), at(24))
        );
    }
}
