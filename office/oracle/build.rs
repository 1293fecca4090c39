//! Finds the four files of lme-rs and writes the modules that compile them, twice.
//!
//! First as they are. Three are compiled where they are. Of the fourth
//! (kr_vcov_adj.rs) a private function is wanted, so OUT_DIR gets its text,
//! unchanged, with one line behind it: a child module, which may use the private
//! items of its parent.
//!
//! Then as copies in OUT_DIR in which the small numbers that a lab may set are read
//! from the table in force. Each such number is told by the text around it, which
//! must stand in its file as often as is said here; no other number may be written
//! with an exponent, nor 3000. So the build stops if the files are others than
//! those that this was written for, and no number stays behind unseen.

use std::path::{Path, PathBuf};
use std::{env, fs};

const VARIABLE: &str = "LME_RS_SRC";
const FILES: [&str; 4] = ["kr_vcov_adj", "kr_modcomp", "ddf", "kenward_roger"];

/// A text of a file, how often it stands there, and what the copy has in its place.
struct Place {
    file: &'static str,
    text: &'static str,
    times: usize,
    copy: &'static str,
}

const fn place(file: &'static str, text: &'static str, times: usize, copy: &'static str) -> Place {
    Place { file, text, times, copy }
}

/// The numbers that are cutoffs.
const NUMBERS: [Place; 10] = [
    place("kr_modcomp", "a2.abs() > 1e-15 {", 1, "a2.abs() > crate::cutoffs::moment() {"),
    place("kr_modcomp", "denom_g.abs() > 1e-15 {", 1, "denom_g.abs() > crate::cutoffs::moment() {"),
    // Of V0 and V2, whose lines before differ.
    place(
        "kr_modcomp",
        "let x = 1.0 + c1 * b;\n        if x.abs() < 1e-10 {",
        1,
        "let x = 1.0 + c1 * b;\n        if x.abs() < crate::cutoffs::leading() {",
    ),
    place(
        "kr_modcomp",
        "let x = 1.0 - c3 * b;\n        if x.abs() < 1e-10 {",
        1,
        "let x = 1.0 - c3 * b;\n        if x.abs() < crate::cutoffs::leading() {",
    ),
    place(
        "kr_modcomp",
        "div_zero(1.0 - a2 / q, v1, 1e-10).powi(2) * div_zero(v0, v2, 1e-10);",
        1,
        "div_zero(1.0 - a2 / q, v1, crate::cutoffs::divisor()).powi(2) \
         * div_zero(v0, v2, crate::cutoffs::divisor());",
    ),
    place(
        "kr_modcomp",
        "(q * rho - 1.0).abs() > 1e-12 {",
        1,
        "(q * rho - 1.0).abs() > crate::cutoffs::excess() {",
    ),
    place(
        "kr_modcomp",
        "(df2 - 2.0).abs() < 1e-2 {",
        1,
        "(df2 - 2.0).abs() < crate::cutoffs::near() {",
    ),
    place("kr_vcov_adj", "if condi > 1e-10 {", 1, "if condi > crate::cutoffs::eigenvalue() {"),
    place("kr_vcov_adj", "ie2_r[[i, i]] += 1e-8;", 1, "ie2_r[[i, i]] += crate::cutoffs::ridge();"),
    place(
        "ddf",
        "df_m > 3000.0 {\n            df_m = 3000.0;",
        1,
        "df_m > crate::cutoffs::cap() {\n            df_m = crate::cutoffs::cap();",
    ),
];

/// The numbers that stay: `get_fstat_ddf`'s tolerance, and one of a function for
/// lme-rs's own tests.
const STAY: [Place; 2] = [
    place("ddf", "get_fstat_ddf(&nu_m, 1e-8)", 1, ""),
    place("kr_modcomp", "a.abs().max(b.abs()).max(1e-10);", 1, ""),
];

/// The copies name each other, and not the files as they are.
const NAMES: [Place; 5] = [
    place("kr_vcov_adj", "crate::kr_modcomp::", 1, "crate::alike::kr_modcomp::"),
    place("kr_vcov_adj", "crate::kenward_roger::", 1, "crate::alike::kenward_roger::"),
    place("kr_modcomp", "crate::kenward_roger::", 1, "crate::alike::kenward_roger::"),
    place("kenward_roger", "crate::kr_modcomp::", 2, "crate::alike::kr_modcomp::"),
    place("kenward_roger", "use crate::kr_vcov_adj;", 1, "use crate::alike::kr_vcov_adj;"),
];

fn main() {
    println!("cargo:rerun-if-env-changed={VARIABLE}");
    println!("cargo:rerun-if-changed=build.rs");
    let source = source_folder();
    let out = PathBuf::from(env::var_os("OUT_DIR").expect("cargo sets OUT_DIR"));
    let (mut modules, mut copies) = (String::new(), String::new());
    for name in FILES {
        let file = source.join(format!("{name}.rs"));
        println!("cargo:rerun-if-changed={}", file.display());
        let text = read(&file);
        let compiled = if name == "kr_vcov_adj" {
            written(&out, "kr_vcov_adj.rs", &format!("{text}\n{}\n", reach_line()))
        } else {
            file
        };
        modules.push_str(&module(name, &compiled));
        let copy = written(&out, &format!("alike_{name}.rs"), &with_cutoffs(name, &text));
        copies.push_str(&module(name, &copy));
    }
    written(&out, "lme_rs.rs", &format!("{modules}pub(crate) mod alike {{\n{copies}}}\n"));
}

/// The line that compiles a file as a module.
fn module(name: &str, file: &Path) -> String {
    format!(
        "#[allow(dead_code, private_interfaces)]\n#[path = {:?}]\npub(crate) mod {name};\n",
        file.display().to_string()
    )
}

fn written(out: &Path, name: &str, text: &str) -> PathBuf {
    let file = out.join(name);
    fs::write(&file, text).expect("OUT_DIR can be written");
    file
}

/// The copy of a file that reads its cutoffs from the table in force.
fn with_cutoffs(name: &str, text: &str) -> String {
    let mut copy = text.to_string();
    for place in NUMBERS.iter().chain(&NAMES).filter(|place| place.file == name) {
        need(place, &copy);
        copy = copy.replace(place.text, place.copy);
    }
    // What is left of numbers must be what is to stay.
    let mut rest = copy.clone();
    for place in STAY.iter().filter(|place| place.file == name) {
        need(place, &rest);
        rest = rest.replace(place.text, "");
    }
    let small = |i: usize| rest[i..].starts_with("e-") && digit(rest[..i].chars().next_back());
    if rest.contains("3000") || (0..rest.len()).any(|i| rest.is_char_boundary(i) && small(i)) {
        stop(&format!("{name}.rs of {VARIABLE} has a small number that is not listed in build.rs"));
    }
    copy
}

fn digit(before: Option<char>) -> bool {
    before.is_some_and(|c| c.is_ascii_digit())
}

/// Stops the build where a text does not stand as often as it should.
fn need(place: &Place, text: &str) {
    let found = text.matches(place.text).count();
    if found != place.times {
        stop(&format!(
            "{}.rs of {VARIABLE} has {:?} {found} times, and should have it {} times: it is not \
             the file of lme-rs at 8b8502d2c9",
            place.file, place.text, place.times
        ));
    }
}

/// The folder that LME_RS_SRC names, as an absolute path.
fn source_folder() -> PathBuf {
    let Some(folder) = env::var_os(VARIABLE) else {
        stop(&format!(
            "{VARIABLE} is not set. Set it to the folder `src` of lme-rs at 8b8502d2c9 \
             (kr_vcov_adj.rs, kr_modcomp.rs, ddf.rs, kenward_roger.rs)."
        ));
    };
    let folder = PathBuf::from(folder);
    fs::canonicalize(&folder)
        .unwrap_or_else(|e| stop(&format!("{VARIABLE} names {}: {e}", folder.display())))
}

/// A clear error, without a panic's backtrace.
fn stop(text: &str) -> ! {
    eprintln!("error: {text}");
    std::process::exit(1)
}

fn read(file: &Path) -> String {
    fs::read_to_string(file).unwrap_or_else(|e| {
        stop(&format!("{VARIABLE} must name the sources of lme-rs: {}: {e}", file.display()))
    })
}

fn reach_line() -> String {
    let here = PathBuf::from(env::var_os("CARGO_MANIFEST_DIR").expect("cargo sets it"));
    let reach = here.join("src").join("reach_vcov_adj.rs");
    println!("cargo:rerun-if-changed={}", reach.display());
    format!("#[path = {:?}] pub(crate) mod reach;", reach.display().to_string())
}
