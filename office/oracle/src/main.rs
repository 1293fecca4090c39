//! The command `oracle`: see the usage text.

use oracle::make::{make_vectors, Counts};
use oracle::reader::cutoffs::Cutoffs;
use std::io::{Read, Write};
use std::path::Path;
use std::process::ExitCode;
use std::str::FromStr;

const USAGE: &str = "usage:
  oracle pulltest < FILE            document 01's lines
  oracle bits < FILE                the same, and the numbers behind them
  oracle pullseason < FILE          document 02's lines of a season
  oracle satterthwaite < FILE       the Satterthwaite call, as one `test` line
  oracle archive < FILE             the archive in hexadecimal, and the test from it
                                    each of these with a lab's cutoffs: --table TABLE < FILE
  oracle places                     where each pair of indices is packed
  oracle make-vectors DIR SEED SERIES ARCHIVES TABLES
                                    the list of calls; prints a summary of it
  oracle make-season DIR SEED COUNT
                                    each writes DIR/stdin, and DIR/stdout with what is
                                    to be printed of it
  oracle replay < LIST              what is to be printed of a list of calls
";

fn main() -> ExitCode {
    let args: Vec<String> = std::env::args().skip(1).collect();
    let words: Vec<&str> = args.iter().map(String::as_str).collect();
    let done = match words.as_slice() {
        ["pulltest", table @ ..] => filter(oracle::print::pulltest_with, table),
        ["bits", table @ ..] => filter(oracle::print::bits_report_with, table),
        ["pullseason", table @ ..] => filter(oracle::print::pullseason_with, table),
        ["satterthwaite", table @ ..] => filter(oracle::print::satterthwaite_line_with, table),
        ["archive", table @ ..] => filter(oracle::print::archive_lines_with, table),
        ["places"] => write(&oracle::print::places()),
        ["make-vectors", folder, seed, counts @ ..] => make(folder, seed, counts),
        ["make-season", folder, seed, count] => make_season(folder, seed, count),
        ["replay"] => replay(),
        _ => Err(USAGE.to_string()),
    };
    match done {
        Ok(()) => ExitCode::SUCCESS,
        Err(text) => {
            eprint!("{text}");
            ExitCode::FAILURE
        }
    }
}

/// The answer on the standard input, with the built-in table or with that of
/// `--table TABLE`, which comes first: any other table is refused.
fn filter(answer: fn(&Cutoffs, &[u8]) -> String, table: &[&str]) -> Result<(), String> {
    let cutoffs = match table {
        [] => Ok(Cutoffs::BUILT_IN),
        ["--table", name] => {
            Cutoffs::read(&std::fs::read(name).map_err(|e| format!("{name}: {e}\n"))?)
        }
        _ => return Err(USAGE.to_string()),
    };
    let bytes = input()?;
    match cutoffs {
        Ok(cutoffs) => write(&answer(&cutoffs, &bytes)),
        Err(number) => write(&format!("refused {number}\n")),
    }
}

fn write(text: &str) -> Result<(), String> {
    std::io::stdout().write_all(text.as_bytes()).map_err(|e| format!("{e}\n"))
}

fn input() -> Result<Vec<u8>, String> {
    let mut bytes = Vec::new();
    std::io::stdin().read_to_end(&mut bytes).map_err(|e| format!("{e}\n"))?;
    Ok(bytes)
}

fn make(folder: &str, seed: &str, counts: &[&str]) -> Result<(), String> {
    let &[series, archives, tables] = counts else { return Err(USAGE.to_string()) };
    let counts =
        Counts { series: number(series)?, archives: number(archives)?, tables: number(tables)? };
    let summary = make_vectors(Path::new(folder), number(seed)?, counts);
    write(&summary.map_err(|e| format!("{e}\n"))?)
}

fn make_season(folder: &str, seed: &str, count: &str) -> Result<(), String> {
    let (seed, count) = (number(seed)?, number(count)?);
    let tally = oracle::make_season::make_season(Path::new(folder), seed, count)
        .map_err(|e| format!("{e}\n"))?;
    println!("{}", tally.lines());
    Ok(())
}

fn number<T: FromStr>(word: &str) -> Result<T, String> {
    word.parse().map_err(|_| USAGE.to_string())
}

fn replay() -> Result<(), String> {
    let list = String::from_utf8(input()?).map_err(|e| format!("{e}\n"))?;
    write(&oracle::replay::printed(&list))
}
