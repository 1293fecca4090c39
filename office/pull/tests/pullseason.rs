//! The program `pullseason`, as the gate builds it: what it prints of the stored season,
//! of random seasons and of every stored series as a season of its own, whatever the
//! pieces are that its input arrives in; that it prints a series when it is closed; and
//! that a change of converter leaves the verdict of each inside series.
//!
//! The program is crates/pullseason/out/pullseason in the root of the repository (`rt run`
//! in crates/pullseason writes it there), or the file that PULLSEASON names. What is expected is
//! printed by the independent reader, from the answers of the C function.

use reader::order::rising;
use reader::programs::{PULLSEASON, PULLTEST};
use reader::random::Random;
use reader::season::{closing, joined, printed, split};
use reader::season_tries::{of_beta, other_21, Stock, Tally, HELD};
use reader::shift::Shift;
use reader::tries::Call;
use reader::vectors::{self, kenward_roger_text, KR_ANSWER};
use std::io::{BufRead, BufReader, Write};
use std::process::Stdio;
use std::sync::mpsc::{channel, Receiver, RecvTimeoutError};
use std::time::Duration;

/// Random seasons.
const SEASONS: usize = 300;
/// Of these in random pieces, and byte by byte.
const IN_PIECES: usize = 60;
const IN_BYTES: usize = 6;
/// Seasons in another converter's units, a unit for each series.
const CONVERTED: usize = 60;

/// The records that the program may read at a time.
const PIECE: usize = 256;

/// A line that does not come in this time does not come.
const PATIENCE: Duration = Duration::from_secs(20);
/// So long nothing may come before a series is closed.
const SILENCE: Duration = Duration::from_millis(50);

/// What `pulltest` prints of a series, by the C function.
fn text_of(series: &[u8]) -> String {
    let mut answer = [0; KR_ANSWER];
    let number = pull::kenward_roger_fill(series, &mut answer);
    kenward_roger_text(number, &answer)
}

fn expected(file: &[u8]) -> String {
    printed(file, text_of)
}

/// The first line of two that differs, since a season has hundreds.
fn same(got: &str, expected: &str, what: &str) {
    let pairs = got.lines().zip(expected.lines()).enumerate();
    for (i, (got, expected)) in pairs {
        assert_eq!(got, expected, "line {} of {what}", i + 1);
    }
    assert_eq!(got.lines().count(), expected.lines().count(), "the number of lines of {what}");
    assert_eq!(got, expected, "{what}");
}

#[test]
fn stored_season() {
    let file = vectors::of_program(PULLSEASON.name, "stdin");
    let text = vectors::text_of_program(PULLSEASON.name, "stdout");
    same(&expected(&file), &text, "the stored season by the C function");
    for part in [usize::MAX, 16_384, 4096, 1000, 17, 16] {
        let got = PULLSEASON.printed(file.chunks(part));
        same(&got, &text, &format!("the stored season in parts of {part} bytes"));
    }
}

/// A file in pieces of random lengths, many of them of one byte or of a record.
fn pieces<'a>(r: &mut Random, file: &'a [u8]) -> Vec<&'a [u8]> {
    let (mut out, mut rest) = (Vec::new(), file);
    while !rest.is_empty() {
        let length = match r.below(6) {
            0 => 1,
            1 => 16,
            2 => 1 + r.below(40),
            3 => 4096,
            _ => 1 + r.below(2000),
        };
        let (piece, after) = rest.split_at(length.min(rest.len()));
        out.push(piece);
        rest = after;
    }
    out
}

/// Random seasons, every branch of them met.
#[test]
fn random_seasons() {
    let (stock, mut random) = (Stock::new(), Random::new(1));
    let mut tally = Tally::default();
    for i in 0..SEASONS {
        let file = stock.season(&mut random);
        let text = expected(&file);
        same(&PULLSEASON.printed([&file[..]]), &text, &format!("season {i}"));
        if i < IN_PIECES {
            let got = PULLSEASON.printed(pieces(&mut random, &file));
            same(&got, &text, &format!("season {i} in pieces"));
        }
        tally.add(&file, text_of);
    }
    println!("{}", tally.lines());
    assert!(tally.rare(5).is_empty(), "rare: {:?}", tally.rare(5));
}

/// Single bytes: short seasons, since each is a write.
#[test]
fn byte_by_byte() {
    let (stock, mut random) = (Stock::new(), Random::new(2));
    let mut done = 0;
    while done < IN_BYTES {
        let file = stock.season(&mut random);
        if (1000..30_000).contains(&file.len()) {
            same(&PULLSEASON.printed(file.chunks(1)), &expected(&file), "a season in bytes");
            done += 1;
        }
    }
}

/// A series of so many records of unknown kinds between two accepted ones, which its
/// length and its order must not touch; with the records at `fall` and behind it
/// exchanged.
fn between(count: usize, fall: Option<usize>) -> Vec<u8> {
    let mut records: Vec<[u8; 16]> = rising(count).iter().map(|r| r.to_bytes()).collect();
    if let Some(at) = fall {
        records.swap(at, at + 1);
    }
    joined(&[of_beta(6.0), records.concat(), of_beta(2.0)], &[])
}

/// Series that end, and that fall, beside the end of a piece (256 records) or of what is
/// held, and one that is far longer.
#[test]
fn beside_every_end() {
    let ends = [PIECE, HELD, HELD + PIECE];
    let counts = ends.iter().flat_map(|end| end - 8..=end + 2).chain([5000]);
    for count in counts {
        let falls = ends.iter().flat_map(|end| end - 9..=end + 1);
        let falls = falls.chain([0, count - 2]).filter(|at| at + 1 < count).map(Some);
        // Every end, and some falls of each.
        for fall in falls.step_by(5).chain([None, Some(count - 2)]) {
            let file = between(count, fall);
            let number = if fall.is_some() { 12 } else { 2 };
            let text = expected(&file);
            assert!(text.contains(&format!("worst 4022000000000000\nrefused {number}\ncoef 0")));
            let got = PULLSEASON.printed([&file[..]]);
            same(&got, &text, &format!("{count} records, a fall at {fall:?}"));
        }
    }
    for fall in [None, Some(199_998)] {
        let file = between(200_000, fall);
        same(&PULLSEASON.printed(file.chunks(1000)), &expected(&file), "200,000 records");
    }
}

/// Lines as they come, from a thread of their own: a program that prints nothing must
/// not hold the test.
fn lines_of(output: impl std::io::Read + Send + 'static) -> Receiver<String> {
    let (sender, receiver) = channel();
    std::thread::spawn(move || {
        let lines = BufReader::new(output).lines();
        lines.map_while(Result::ok).all(|line| sender.send(line).is_ok())
    });
    receiver
}

/// "each series closed": its lines can be read while the program waits for the next one.
#[test]
fn a_series_is_printed_when_it_is_closed() {
    let mut run = PULLSEASON.start(Stdio::piped(), Stdio::piped());
    let mut input = run.stdin.take().expect("a pipe");
    let lines = lines_of(run.stdout.take().expect("a pipe"));
    let long = vectors::load(vectors::KENWARD_ROGER).into_iter().map(|case| case.file);
    let long = long.filter(|file| file.len() % 16 == 0).max_by_key(Vec::len).expect("a file");
    let series = [of_beta(6.0), Vec::new(), of_beta(2.0), long, of_beta(-6.0), of_beta(8.0)];
    let text = expected(&joined(&series, &[]));
    let mut left = text.lines();
    for (i, bytes) in series.iter().enumerate() {
        let file = joined(&[bytes], &[]);
        let (most, last) = file.split_at(file.len() - 1);
        input.write_all(most).expect("the program reads");
        assert_eq!(lines.recv_timeout(SILENCE), Err(RecvTimeoutError::Timeout), "series {i}");
        input.write_all(last).expect("the program reads");
        for line in left.by_ref() {
            assert_eq!(lines.recv_timeout(PATIENCE).as_deref(), Ok(line), "series {i}");
            if line.starts_with("worst") || line.starts_with("refused") {
                break;
            }
        }
    }
    assert_eq!(left.next(), None);
    input.write_all(&of_beta(1.0)).expect("the program reads");
    drop(input);
    assert_eq!(lines.recv_timeout(PATIENCE).as_deref(), Ok("refused 2"));
    assert_eq!(lines.recv_timeout(PATIENCE), Err(RecvTimeoutError::Disconnected));
    assert!(run.wait().expect("the program ends").success());
}

/// The words behind `worst` after the first series of a season.
fn own_worst(output: &str) -> String {
    let test = output.split('|').find_map(|line| line.strip_prefix("test "));
    let mut words = test.unwrap_or("F none").split(' ').skip_while(|&word| word != "F");
    words.nth(1).expect("a number or none").to_string()
}

/// Each stored series closed and alone, then all of them as one season.
#[test]
fn stored_series() {
    let cases = vectors::load(vectors::KENWARD_ROGER);
    let whole = cases.iter().filter(|case| case.file.len() % 16 == 0);
    for case in whole.clone() {
        let mut text = case.output.replace('|', "\n");
        if case.refusal().is_none() {
            text += &format!("worst {}\n", own_worst(&case.output));
        }
        let got = PULLSEASON.printed([&case.file[..], &closing()]);
        assert_eq!(got, text, "line {}", case.line);
    }
    let files: Vec<&[u8]> = whole.map(|case| &case.file[..]).collect();
    assert!(files.len() > 1000);
    let season = joined(&files, &[]);
    same(&PULLSEASON.printed([&season[..]]), &expected(&season), "all stored series");
}

/// What was printed of each series.
fn by_series(text: &str) -> Vec<Vec<&str>> {
    let ends = |line: &&str| line.starts_with("worst ") || line.starts_with("refused ");
    let lines: Vec<&str> = text.lines().collect();
    lines.split_inclusive(ends).map(<[&str]>::to_vec).collect()
}

/// A line without its mark: rank, F and df of an entry.
fn verdict(line: &str) -> &str {
    line.trim_end_matches(" inside").trim_end_matches(" outside")
}

fn verdicts<'a>(lines: &[&'a str]) -> Vec<&'a str> {
    lines.iter().filter(|line| !line.starts_with("worst")).map(|line| verdict(line)).collect()
}

/// A series' file in another unit, if it is accepted and that unit has numbers for it.
fn converted(r: &mut Random, series: &[u8]) -> Option<Vec<u8>> {
    pull::kenward_roger(series).ok()?;
    let call = Call::KenwardRoger;
    let shift = if r.once_in(2) { Shift::random(r) } else { Shift::borne(r, call) };
    shift.apply(call, series)
}

fn inside(series: &[u8]) -> bool {
    pull::kenward_roger(series).is_ok_and(|run| run.inside())
}

/// "A converter changed halfway through the season leaves each inside series' verdict as
/// before": here it changes at each series. Where only inside series are converted each
/// line is the same but for its mark, and so is every worst.
#[test]
fn a_converter_changed_at_each_series() {
    let (stock, mut random) = (Stock::new(), Random::new(3));
    let (mut kept, mut changed) = (0, 0);
    for _ in 0..CONVERTED {
        let file = stock.season(&mut random);
        let season = split(&file);
        let other = |series: &&[u8]| converted(&mut random, series).unwrap_or(series.to_vec());
        let all: Vec<Vec<u8>> = season.series.iter().map(other).collect();
        let pairs = season.series.iter().zip(&all);
        let some: Vec<&[u8]> = pairs.map(|(a, b)| if inside(a) { &b[..] } else { *a }).collect();
        let before = PULLSEASON.printed([&file[..]]);
        let with_all = PULLSEASON.printed([&joined(&all, season.rest)[..]]);
        for (i, series) in season.series.iter().enumerate().filter(|(_, series)| inside(series)) {
            let (old, new) = (&by_series(&before)[i], &by_series(&with_all)[i]);
            assert_eq!(verdicts(old), verdicts(new), "series {i}");
            kept += 1;
            changed += usize::from(all[i] != **series);
        }
        let with_some = PULLSEASON.printed([&joined(&some, season.rest)[..]]);
        let (old, new) = (before.lines().map(verdict), with_some.lines().map(verdict));
        assert!(old.eq(new), "a season whose inside series alone are converted");
    }
    println!("{kept} inside series kept their verdicts, {changed} of them in another unit");
    assert!(changed >= 300, "{changed} of {kept}");
}

/// In every other file kind 21 is a bad kind, also where it would close a series of a
/// season; 12 where it does not rise.
#[test]
fn kind_21_in_a_series() {
    let series = of_beta(6.0);
    let others = (1..16).map(|at| other_21(at, 1));
    for record in others.chain([closing()]) {
        let behind = [&series[..], &record].concat();
        let within = [&series[..16], &record, &series[16..]].concat();
        let twice = [&behind[..], &record].concat();
        for (file, number) in [(&behind, 2), (&within, 12), (&record.to_vec(), 2), (&twice, 12)] {
            let refused = pull::kenward_roger(file).expect_err("a bad kind");
            assert_eq!(refused.number(), number, "{record:?}");
            assert_eq!(pull::archive(file), Err(refused), "{record:?}");
            assert_eq!(PULLTEST.printed([&file[..]]), format!("refused {number}\n"));
        }
        let tests = [&pull::test_records(&series)[..], &record].concat();
        let archive = pull::archive(&series).expect("document 01's example");
        assert_eq!(pull::archive_test(&archive, &tests), Err(pull::Refusal::Records));
        assert_eq!(pull::satterthwaite(&record), Err(pull::Refusal::Records));
    }
}
