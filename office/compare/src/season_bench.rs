//! What a season costs: the program `pullseason` on a file of many series, its time and
//! the most memory that it had, beside as many calls of the C function on the same
//! bytes; and on one series that is longer than any that is held.

use reader::programs::PULLSEASON;
use reader::random::Random;
use reader::season::closing;
use reader::{Record, JACOBIAN};
use std::fs::File;
use std::hint::black_box;
use std::io::{self, BufRead, BufReader, BufWriter, Read, Write};
use std::path::{Path, PathBuf};
use std::process::{Child, Stdio};
use std::time::{Duration, Instant};

/// A time is the least of so many rounds.
const ROUNDS: usize = 3;

/// The memory is looked at in this distance.
const LOOK: Duration = Duration::from_millis(1);

/// The records of the long series: 100 MB.
const LONG: u32 = 100_000_000 / 16;

/// Writes a season of so many of these series, drawn with a fixed seed.
pub fn make(series: &[Vec<u8>], count: usize, path: &Path) -> io::Result<u64> {
    let mut random = Random::new(count as u64);
    let mut out = BufWriter::new(File::create(path)?);
    let mut bytes = 0;
    for _ in 0..count {
        let one = &series[random.below(series.len())];
        out.write_all(one)?;
        out.write_all(&closing())?;
        bytes += one.len() as u64 + 16;
    }
    out.flush()?;
    Ok(bytes)
}

/// What a run of the program took.
struct Taken {
    seconds: f64,
    /// The most memory that was resident, in kB.
    peak: u64,
}

/// VmHWM of a program that runs, in kB.
fn resident(run: &Child) -> Option<u64> {
    let status = std::fs::read_to_string(format!("/proc/{}/status", run.id())).ok()?;
    let line = status.lines().find_map(|line| line.strip_prefix("VmHWM:"))?;
    line.trim().trim_end_matches(" kB").parse().ok()
}

/// Waits for the program, and looks at its memory until it ends.
fn watched(mut run: Child, began: Instant) -> io::Result<Taken> {
    let mut peak = 0;
    loop {
        peak = peak.max(resident(&run).unwrap_or(0));
        if let Some(status) = run.try_wait()? {
            assert!(status.success(), "the program failed");
            return Ok(Taken { seconds: began.elapsed().as_secs_f64(), peak });
        }
        std::thread::sleep(LOOK);
    }
}

/// The program from a file to a file.
fn program(from: &Path, to: &Path) -> io::Result<Taken> {
    let (input, output) = (File::open(from)?, File::create(to)?);
    let began = Instant::now();
    watched(PULLSEASON.start(input.into(), output.into()), began)
}

/// The C function on each series of a season's file: the seconds of the calls alone.
fn calls(path: &Path) -> io::Result<f64> {
    let mut file = BufReader::new(File::open(path)?);
    let (mut series, mut record) = (Vec::new(), [0; 16]);
    let mut taken = Duration::ZERO;
    while !file.fill_buf()?.is_empty() {
        file.read_exact(&mut record)?;
        if record != closing() {
            series.extend(record);
            continue;
        }
        let mut answer = [0; pull::KENWARD_ROGER_BYTES];
        let began = Instant::now();
        black_box(pull::kenward_roger_fill(black_box(&series), &mut answer));
        taken += began.elapsed();
        black_box(answer);
        series.clear();
    }
    Ok(taken.as_secs_f64())
}

/// How many series a program's output speaks of.
fn answered(path: &Path) -> io::Result<usize> {
    let lines = BufReader::new(File::open(path)?).lines();
    let ends = |line: &String| line.starts_with("worst ") || line.starts_with("refused ");
    Ok(lines.map_while(Result::ok).filter(ends).count())
}

/// One line of the table: a season of so many series.
fn season(series: &[Vec<u8>], count: usize, folder: &Path) -> io::Result<()> {
    let file = |end: &str| -> PathBuf { folder.join(format!("season-{count}.{end}")) };
    let (from, to) = (file("rec"), file("txt"));
    let bytes = make(series, count, &from)?;
    let (mut seconds, mut called, mut peak) = (f64::INFINITY, f64::INFINITY, 0);
    for _ in 0..ROUNDS {
        let taken = program(&from, &to)?;
        seconds = seconds.min(taken.seconds);
        peak = peak.max(taken.peak);
        called = called.min(calls(&from)?);
    }
    assert_eq!(answered(&to)?, count, "the program answers every series");
    println!(
        "{count:>8} {:>9.1} {seconds:>10.3} {called:>10.3} {:>6.2} {:>11.2} {peak:>8}",
        bytes as f64 / 1e6,
        seconds / called,
        (seconds - called) * 1e6 / count as f64
    );
    Ok(())
}

/// A record of a long series that rises: a Jacobian's, whose count numbers it, or with
/// the last two exchanged one that falls at its very end.
fn long_record(i: u32, falls: bool) -> [u8; 16] {
    let last = LONG - 1;
    let count = match i {
        _ if falls && i == last => last - 1,
        _ if falls && i == last - 1 => last,
        _ => i,
    };
    Record { kind: JACOBIAN, row: 0, column: 0, zero: 0, count, bits: 0 }.to_bytes()
}

/// The long series through a pipe, made as it is written: what is printed of it.
fn long(falls: bool) -> io::Result<(Taken, String)> {
    let began = Instant::now();
    let mut run = PULLSEASON.start(Stdio::piped(), Stdio::piped());
    let input = run.stdin.take().expect("a pipe");
    let mut output = run.stdout.take().expect("a pipe");
    let writing = std::thread::spawn(move || -> io::Result<()> {
        let mut input = BufWriter::with_capacity(1 << 16, input);
        for i in 0..LONG {
            input.write_all(&long_record(i, falls))?;
        }
        input.write_all(&closing())?;
        input.flush()
    });
    let taken = watched(run, began)?;
    writing.join().expect("the writing ends")?;
    let mut text = String::new();
    output.read_to_string(&mut text)?;
    Ok((taken, text))
}

/// The table of a season of `count` of these series and of a tenth of it, with the files
/// in a folder; then the long series.
pub fn run(series: &[Vec<u8>], count: usize, folder: &Path) -> io::Result<()> {
    std::fs::create_dir_all(folder)?;
    println!(
        "The program from a file to a file, and pull_kenward_roger on each series of it; least of \
         {ROUNDS} rounds.\n"
    );
    println!(
        "{:>8} {:>9} {:>10} {:>10} {:>6} {:>11} {:>8}",
        "series", "MB", "program s", "calls s", "ratio", "more µs", "peak kB"
    );
    season(series, (count / 10).max(1), folder)?;
    season(series, count, folder)?;
    println!(
        "\nOne series of {LONG} records ({} MB), through a pipe:\n",
        u64::from(LONG) * 16 / 1_000_000
    );
    println!("{:<8} {:>10} {:>8}  printed", "records", "program s", "peak kB");
    for (name, falls) in [("rising", false), ("falling", true)] {
        let (taken, text) = long(falls)?;
        println!("{name:<8} {:>10.3} {:>8}  {}", taken.seconds, taken.peak, text.trim_end());
    }
    Ok(())
}
