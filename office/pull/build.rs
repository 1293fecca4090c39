//! Finds the panel's static library, libpanel.a: in the folder that PULL_LIB
//! names, else where `.ci/staticlib` writes it in this repository.

use std::env;
use std::path::{Path, PathBuf};

const VARIABLE: &str = "PULL_LIB";
const LIBRARY: &str = "libpanel.a";

fn main() {
    println!("cargo:rerun-if-env-changed={VARIABLE}");
    println!("cargo:rerun-if-changed=build.rs");
    let folder = folder();
    let file = folder.join(LIBRARY);
    println!("cargo:rerun-if-changed={}", file.display());
    if !file.is_file() {
        stop(&format!(
            "{} is not there. `.ci/staticlib`, run in the root of the repository, writes it \
             to target/staticlib; if it is elsewhere, set {VARIABLE} to its folder.",
            file.display()
        ));
    }
    println!("cargo:rustc-link-search=native={}", folder.display());
    println!("cargo:rustc-link-lib=static=panel");
    // For the test that compiles a C program.
    println!("cargo:rustc-env=PULL_LIB_FILE={}", file.display());
}

/// The library's folder, as an absolute path where it exists.
fn folder() -> PathBuf {
    let here = PathBuf::from(env::var_os("CARGO_MANIFEST_DIR").expect("cargo sets it"));
    let folder = match env::var_os(VARIABLE) {
        Some(folder) => PathBuf::from(folder),
        None => here.join("../../target/staticlib"),
    };
    absolute(&folder)
}

fn absolute(folder: &Path) -> PathBuf {
    folder.canonicalize().unwrap_or_else(|_| folder.to_path_buf())
}

/// A clear error, without a panic's backtrace.
fn stop(text: &str) -> ! {
    eprintln!("error: {text}");
    std::process::exit(1)
}
