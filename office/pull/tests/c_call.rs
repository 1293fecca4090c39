//! Compiles c_call.c with the machine's C compiler, against pull.h and the
//! static library, and runs it.

use std::path::Path;
use std::process::Command;

#[test]
fn header_and_library_from_c() {
    let here = Path::new(env!("CARGO_MANIFEST_DIR"));
    let program = Path::new(env!("CARGO_TARGET_TMPDIR")).join("c_call");
    let compiled = Command::new("cc")
        .args(["-std=c99", "-Wall", "-Wextra", "-Werror", "-pedantic", "-I"])
        .arg(here.join(".."))
        .arg(here.join("tests/c_call.c"))
        .arg(env!("PULL_LIB_FILE"))
        .arg("-o")
        .arg(&program)
        .output();
    let compiled = match compiled {
        Ok(output) => output,
        Err(error) => {
            println!("note: no C compiler `cc` ({error}); the C test is left out");
            return;
        }
    };
    assert!(compiled.status.success(), "cc: {}", String::from_utf8_lossy(&compiled.stderr));
    let run = Command::new(&program).output().expect("the program can be started");
    let text = String::from_utf8_lossy(&run.stdout);
    assert!(run.status.success(), "{} {text}", run.status);
    assert_eq!(text, "C calls: ok\n");
}
