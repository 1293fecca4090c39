//! The program `pulltest`, as the gate builds it: what it prints of the stored
//! vectors, and of files longer than the piece that it reads at a time and
//! than what it keeps, with a fall or an end anywhere.
//!
//! The program is crates/pulltest/out/pulltest in the root of the repository (`rt run`
//! in crates/pulltest writes it there), or the file that PULLTEST names.

use reader::tries::Call;
use reader::{order, vectors};
use std::io::Write;
use std::path::{Path, PathBuf};
use std::process::{Command, Stdio};

/// The bytes that the program reads at a time, and the most that it keeps.
const PIECE: usize = 4096;
const KEPT: usize = 16_384;

fn program() -> PathBuf {
    let built = Path::new(env!("CARGO_MANIFEST_DIR")).join("../../crates/pulltest/out/pulltest");
    std::env::var_os("PULLTEST").map_or(built, PathBuf::from)
}

/// What the program prints of a file that is written to it in parts of so many
/// bytes.
fn printed(file: &[u8], part: usize) -> String {
    let program = program();
    let mut run =
        Command::new(&program).stdin(Stdio::piped()).stdout(Stdio::piped()).spawn().unwrap_or_else(
            |e| panic!("{}: {e}. `rt run` in crates/pulltest builds it.", program.display()),
        );
    let mut input = run.stdin.take().expect("a pipe");
    for bytes in file.chunks(part) {
        input.write_all(bytes).expect("the program reads to the end");
    }
    drop(input);
    let output = run.wait_with_output().expect("the program ends");
    assert!(output.status.success());
    String::from_utf8(output.stdout).expect("plain text")
}

#[test]
fn stored_vectors() {
    for case in vectors::load(vectors::KENWARD_ROGER) {
        let text = printed(&case.file, usize::MAX).replace('\n', "|");
        assert_eq!(text, case.output, "line {}", case.line);
    }
}

/// The reader's number, which the program prints whatever the parts are.
fn refused(file: &[u8]) -> u32 {
    let number = Call::KenwardRoger.verdict(file).expect_err("no such series");
    for part in [usize::MAX, PIECE, 1000] {
        assert_eq!(printed(file, part), format!("refused {number}\n"), "parts of {part} bytes");
    }
    number
}

fn rising(count: usize) -> Vec<[u8; 16]> {
    order::rising(count).into_iter().map(|record| record.to_bytes()).collect()
}

/// One pair at a time, beside the end of a piece, of what is kept and of the
/// file.
#[test]
fn falls_beside_every_end() {
    let (piece, kept, count) = (PIECE / 16, KEPT / 16, 5000);
    let records = rising(count);
    assert_eq!(refused(&records.concat()), 2);
    for end in [1, piece, 2 * piece, kept, kept + piece, count - 1] {
        for at in [end - 1, end] {
            if at + 1 == count {
                continue;
            }
            let mut falling = records.clone();
            falling.swap(at, at + 1);
            assert_eq!(refused(&falling.concat()), 12, "pair {at}");
            falling[at] = records[at + 1];
            assert_eq!(refused(&falling.concat()), 12, "record {at} as the next one");
        }
    }
}

/// Files that end beside the end of a piece or of what is kept, byte by byte:
/// a record that is cut is 2, also where the records before it fall.
#[test]
fn ends_beside_every_end() {
    let mut falling = rising(1100);
    falling.swap(0, 1);
    let (rising, falling) = (rising(1100).concat(), falling.concat());
    for end in [PIECE, 2 * PIECE, KEPT] {
        for length in end - 17..=end + 17 {
            let number = if length % 16 == 0 { 12 } else { 2 };
            assert_eq!(refused(&rising[..length]), 2, "{length} bytes");
            assert_eq!(refused(&falling[..length]), number, "{length} falling bytes");
        }
    }
}
