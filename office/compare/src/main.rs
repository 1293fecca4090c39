//! The command `compare`: see the usage text.

use compare::archive;
use compare::cases::{families, file, name, CALLS};
use compare::judge::{describe, manner};
use compare::live::{report, run, Plan};
use compare::{season, tables};
use reader::season_tries::Stock;
use reader::table_vectors::{TableCall, TABLE_CALLS};
use reader::tries::Call;
use std::path::{Path, PathBuf};
use std::process::ExitCode;

const USAGE: &str = "usage: compare [FLAGS]
  --files N          files for the Kenward-Roger and for the Satterthwaite call
                     (usually 27000 each), shared among the families
  --archives N       series that are archived and tested from their archives, with two
                     pairs of damaged files beside each (usually 20000)
  --tables N         cases with a table of cutoffs for each of the four calls that take
                     one (usually 10000)
  --seasons N        seasons for the program pullseason (usually 400)
  --seed S           another seed (usually 1)
  --family NAME      one family alone
  --untorn           pass over files with torn specimens (a weight of zero)
  --branches         also print in how many files each branch of document 01 was taken
  --trace            print each family and seed before its call
  --case FAMILY SEED one case again, as a difference prints it
  --archive FAMILY SEED  the same for a case of the archive
  --table-case CALL FAMILY SEED  the same for a case with a table; CALL is k, s, a or t
  --season-case SEED one season again
  --file PATH        a record file
  --satterthwaite    --case and --file: for that call
";

struct Flags {
    plan: Plan,
    branches: bool,
    case: Option<(String, u64)>,
    archive: Option<(String, u64)>,
    table_case: Option<(TableCall, String, u64)>,
    season_case: Option<u64>,
    file: Option<PathBuf>,
    call: Call,
}

fn main() -> ExitCode {
    let Some(flags) = flags(std::env::args().skip(1)) else {
        eprint!("{USAGE}");
        return ExitCode::from(2);
    };
    // A failure inside the oracle is reported with its case, and not where it occurs.
    std::panic::set_hook(Box::new(|_| {}));
    let same = match (&flags.case, &flags.file) {
        _ if flags.archive.is_some() => one_archive(&flags),
        _ if flags.table_case.is_some() => one_table(&flags),
        _ if flags.season_case.is_some() => one_season(&flags),
        (Some((family, seed)), _) => {
            single(&flags, &format!("{family}-{seed}"), &file(flags.call, family, *seed))
        }
        (None, Some(path)) => match std::fs::read(path) {
            Ok(bytes) => single(&flags, "file", &bytes),
            Err(e) => {
                eprintln!("{}: {e}", path.display());
                return ExitCode::from(2);
            }
        },
        (None, None) => all(&flags),
    };
    if same {
        ExitCode::SUCCESS
    } else {
        ExitCode::FAILURE
    }
}

/// The whole plan.
fn all(flags: &Flags) -> bool {
    let began = std::time::Instant::now();
    let summary = run(&flags.plan);
    let archives = archive::run(&flags.plan);
    let tables = tables::run(&flags.plan);
    let seasons = season::run(&flags.plan);
    let failures = summary.failures + archives.failures + tables.failures + seasons.failures;
    if flags.branches {
        println!("branches, by the number of files:");
        summary.branches.iter().for_each(|(branch, files)| println!("  {branch}: {files}"));
    }
    println!(
        "{} files ({} with torn specimens, {} refused 13), {} archives ({} of series with torn \
         specimens; {} series refused 13) and {} other pairs, {} cases with a table ({} refused \
         14), {} seasons of {} series, {} differ; seed {}, {} s",
        summary.files,
        summary.torn.files,
        summary.numbers.refused_13(),
        archives.archived,
        archives.torn.accepted(),
        archives.numbers.refused_13(),
        archives.pairs,
        tables.cases.values().sum::<usize>(),
        tables.tables()[1],
        seasons.tally.seasons,
        seasons.tally.series,
        failures,
        flags.plan.seed,
        began.elapsed().as_secs()
    );
    failures == 0
}

/// One case of the archive.
fn one_archive(flags: &Flags) -> bool {
    let (family, seed) = flags.archive.as_ref().expect("asked for");
    let same = archive::one(family, *seed, &flags.plan, &mut archive::Summary::default());
    println!("{}", if same { "the same" } else { "DIFFERENT" });
    same
}

/// One case with a table.
fn one_table(flags: &Flags) -> bool {
    let (call, family, seed) = flags.table_case.as_ref().expect("asked for");
    let same = tables::one(*call, family, *seed, &flags.plan, &mut tables::Summary::default());
    println!("{}", if same { "the same" } else { "DIFFERENT" });
    same
}

/// One season.
fn one_season(flags: &Flags) -> bool {
    let seed = flags.season_case.expect("asked for");
    let same = season::one(&Stock::new(), seed, &flags.plan, &mut season::Summary::default());
    println!("{}", if same { "the same" } else { "DIFFERENT" });
    same
}

/// One file.
fn single(flags: &Flags, title: &str, bytes: &[u8]) -> bool {
    let same = manner(flags.call, bytes).is_none();
    if same {
        print!("the same\n{}", describe(flags.call, bytes));
    } else {
        println!("DIFFERENT");
        report(flags.call, &format!("{}-{title}", name(flags.call)), bytes, &flags.plan);
    }
    same
}

fn flags(mut words: impl Iterator<Item = String>) -> Option<Flags> {
    let office = Path::new(env!("CARGO_MANIFEST_DIR")).parent().expect("compare lies in office");
    let folder = office.join("target/compare");
    let plan = Plan {
        files: 27_000,
        archives: 20_000,
        tables: 10_000,
        seasons: 400,
        seed: 1,
        family: None,
        untorn: false,
        trace: false,
        folder,
    };
    let mut flags = Flags {
        plan,
        branches: false,
        case: None,
        archive: None,
        table_case: None,
        season_case: None,
        file: None,
        call: Call::KenwardRoger,
    };
    while let Some(word) = words.next() {
        match word.as_str() {
            "--files" => flags.plan.files = words.next()?.parse().ok()?,
            "--archives" => flags.plan.archives = words.next()?.parse().ok()?,
            "--tables" => flags.plan.tables = words.next()?.parse().ok()?,
            "--seasons" => flags.plan.seasons = words.next()?.parse().ok()?,
            "--seed" => flags.plan.seed = words.next()?.parse().ok()?,
            "--family" => flags.plan.family = Some(known_family(words.next()?)?),
            "--branches" => flags.branches = true,
            "--untorn" => flags.plan.untorn = true,
            "--trace" => flags.plan.trace = true,
            "--case" => {
                flags.case = Some((known_family(words.next()?)?, words.next()?.parse().ok()?))
            }
            "--archive" => {
                flags.archive = Some((known_family(words.next()?)?, words.next()?.parse().ok()?))
            }
            "--table-case" => {
                let call = table_call(&words.next()?)?;
                let family = known_family(words.next()?)?;
                flags.table_case = Some((call, family, words.next()?.parse().ok()?))
            }
            "--season-case" => flags.season_case = Some(words.next()?.parse().ok()?),
            "--file" => flags.file = Some(words.next()?.into()),
            "--satterthwaite" => flags.call = Call::Satterthwaite,
            _ => return None,
        }
    }
    Some(flags)
}

/// The call of a letter.
fn table_call(letter: &str) -> Option<TableCall> {
    TABLE_CALLS.into_iter().find(|call| call.letter().to_string() == letter)
}

/// A name that some call has a family of.
fn known_family(name: String) -> Option<String> {
    let known = CALLS.into_iter().any(|call| families(call).contains(&name.as_str()));
    known.then_some(name)
}
