//! What the examples share: a file by its name, the cutoffs of a table's file, and an
//! answer as a table.

// No example uses all of it.
#![allow(dead_code)]

use pull::{Cutoffs, Refusal, Run, Test};
use std::io::Read;
use std::process::ExitCode;

/// The file of a name: `-` is the standard input, and none is document 01's
/// example.
pub fn bytes(name: Option<&str>) -> std::io::Result<Vec<u8>> {
    match name {
        None => Ok(pull::example::records()),
        Some("-") => {
            let mut file = Vec::new();
            std::io::stdin().read_to_end(&mut file)?;
            Ok(file)
        }
        Some(path) => std::fs::read(path),
    }
}

/// The cutoffs of a table's file, or why it is refused; without a name the built-in
/// ones.
pub fn cutoffs(name: Option<&str>) -> std::io::Result<Result<Cutoffs, Refusal>> {
    match name {
        None => Ok(Ok(Cutoffs::default())),
        Some(path) => Ok(Cutoffs::from_table(&std::fs::read(path)?)),
    }
}

/// Prints the table of a run, or its refusal; the status to end with.
pub fn answer(run: Result<Run, Refusal>) -> ExitCode {
    match run {
        Ok(run) => {
            print!("{}", table(&run));
            ExitCode::SUCCESS
        }
        Err(refusal) => {
            println!("refused {}: {refusal}", refusal.number());
            ExitCode::FAILURE
        }
    }
}

/// Says which file could not be read or written.
pub fn failed(name: Option<&str>, error: std::io::Error) -> ExitCode {
    eprintln!("{}: {error}", name.unwrap_or_default());
    ExitCode::from(2)
}

fn table(run: &Run) -> String {
    let mut out =
        format!("{:<12} {:>16} {:>16} {:>5}  {}\n", "coefficient", "F", "df", "rank", "inside");
    for (i, test) in run.coefficients.iter().enumerate() {
        out += &line(&i.to_string(), test);
    }
    if let Some(test) = &run.contrast {
        out += &line("contrast", test);
    }
    out
}

fn line(name: &str, test: &Test) -> String {
    let inside = if test.inside { "yes" } else { "no" };
    let (f, df) = (number(test.f), number(test.df));
    format!("{name:<12} {f:>16} {df:>16} {:>5}  {inside}\n", test.rank)
}

/// Six digits behind the point; very large and very small numbers with a power of ten.
pub fn number(value: Option<f64>) -> String {
    match value {
        None => "none".to_string(),
        Some(v) if v != 0.0 && v.is_finite() && !(1e-4..1e9).contains(&v.abs()) => {
            format!("{v:.6e}")
        }
        Some(v) => format!("{v:.6}"),
    }
}
