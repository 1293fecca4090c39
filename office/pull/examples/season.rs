//! Judges a season, prints a table and draws it.
//!
//!     cargo run --offline --release -p pull --example season -- FILE [SVG]
//!
//! FILE is a season's file: series, each closed by a record of kind 21 whose other bytes
//! are zero; `-` is the standard input. A line of the table has the number of a series,
//! F and df of its contrast, the number of its refusal, and after an accepted one the
//! worst, the largest F among the latest twenty series, as the program `pullseason`
//! prints it, with the series that it is of. Below stands what the early shift asks:
//! which series is the worst now, and how many of the latest twenty were refused. SVG is
//! where the picture is written. It ends with status 0, or with 2 where a file cannot be
//! read or written.

mod judged;
mod picture;
mod table;

use judged::{Entry, Season, Worst};
use std::process::ExitCode;
use table::{bytes, failed, number};

fn main() -> ExitCode {
    let names: Vec<String> = std::env::args().skip(1).collect();
    let Some(name) = names.first() else {
        eprintln!("usage: season FILE [SVG]");
        return ExitCode::from(2);
    };
    let season = match bytes(Some(name)) {
        Ok(file) => Season::of(&file),
        Err(error) => return failed(Some(name), error),
    };
    print!("{}\n{}", table_of(&season), season.summary());
    if let Some(to) = names.get(1) {
        if let Err(error) = std::fs::write(to, picture::picture(&season)) {
            return failed(Some(to), error);
        }
    }
    ExitCode::SUCCESS
}

fn table_of(season: &Season) -> String {
    let mut out = format!(
        "{:>6} {:>16} {:>16} {:>7} {:>16} {:>11}\n",
        "series", "F", "df", "refused", "worst of twenty", "its series"
    );
    for (i, entry) in season.entries.iter().enumerate() {
        out += &format!("{:>6} {}\n", i + 1, line(entry).trim_end());
    }
    if season.left_over > 0 {
        out += &format!("{:>6} {:>16} {:>16} {:>7}\n", "rest", "", "", 2);
    }
    out
}

/// A refused series has its number alone.
fn line(entry: &Entry) -> String {
    match &entry.answer {
        Err(refusal) => format!("{:>16} {:>16} {:>7}", "", "", refusal.number()),
        Ok(contrast) => {
            let f = number(contrast.and_then(|test| test.f));
            let df = number(contrast.and_then(|test| test.df));
            let worst = number(entry.worst.map(|worst| worst.f));
            let of = entry.worst.map_or(String::new(), |worst| worst.series.to_string());
            format!("{f:>16} {df:>16} {:>7} {worst:>16} {of:>11}", "")
        }
    }
}

impl Season {
    /// What the early shift asks for.
    fn summary(&self) -> String {
        let (all, refused) = (self.entries.len(), judged::refused(&self.entries));
        let mut out = format!("{all} series, {refused} of them refused");
        if self.left_over > 0 {
            out += &format!("; {} bytes left over, refused 2", self.left_over);
        }
        format!("{out}\n{}\n", self.worst_sentence())
    }

    /// The worst of the latest twenty, and how many of them were refused.
    pub fn worst_sentence(&self) -> String {
        let latest = self.latest();
        let refused = format!("{} of these {} refused", judged::refused(latest), latest.len());
        match self.entries.last().and_then(|entry| entry.worst) {
            None => format!("Worst of the latest twenty: none; {refused}"),
            Some(Worst { f, series }) => {
                let f = number(Some(f));
                format!("Worst of the latest twenty: F {f}, series {series}; {refused}")
            }
        }
    }
}

#[cfg(test)]
mod tests {
    use super::*;
    use reader::programs::PULLSEASON;
    use reader::season_tries::of_beta;
    use reader::vectors;

    /// The worst after each accepted series is what the stored season's lines say.
    #[test]
    fn the_stored_season() {
        let text = vectors::text_of_program(PULLSEASON.name, "stdout");
        let words = text.lines().filter_map(|line| line.strip_prefix("worst "));
        let season = Season::of(&vectors::of_program(PULLSEASON.name, "stdin"));
        let bits = |worst: Option<Worst>| {
            worst.map_or("none".to_string(), |worst| format!("{:016x}", worst.f.to_bits()))
        };
        let accepted = season.entries.iter().filter(|entry| entry.answer.is_ok());
        let worsts: Vec<String> = accepted.map(|entry| bits(entry.worst)).collect();
        assert_eq!(worsts, words.collect::<Vec<_>>());
        let refusals = text.lines().filter(|line| line.starts_with("refused")).count();
        let rest = usize::from(season.left_over > 0);
        assert_eq!(judged::refused(&season.entries) + rest, refusals);
    }

    /// The picture under docs/ is that of the example season.
    #[test]
    fn the_stored_picture() {
        let root = vectors::root();
        let season = Season::of(&std::fs::read(root.join("examples/season.rec")).expect("stored"));
        let stored = std::fs::read_to_string(root.join("docs/season.svg")).expect("stored");
        assert!(picture::picture(&season) == stored, "the example `season` writes another");
    }

    #[test]
    fn the_early_shift() {
        let mut series = vec![of_beta(8.0), of_beta(6.0), Vec::new()];
        series.extend((0..18).map(|_| of_beta(2.0)));
        let season = Season::of(&reader::season::joined(&series, &[0; 5]));
        assert_eq!(
            season.summary(),
            "21 series, 1 of them refused; 5 bytes left over, refused 2\n\
             Worst of the latest twenty: F 9.000000, series 2; 1 of these 20 refused\n"
        );
        let table = table_of(&season);
        assert_eq!(table.lines().count(), 23);
        assert!(table.lines().nth(3).is_some_and(|line| line.trim_end().ends_with(" 2")));
        let none = Season::of(&[]).summary();
        assert_eq!(
            none,
            "0 series, 0 of them refused\n\
             Worst of the latest twenty: none; 0 of these 0 refused\n"
        );
    }
}
