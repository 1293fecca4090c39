//! The panel's programs, for the tests that run them.

use std::io::{Read, Write};
use std::path::{Path, PathBuf};
use std::process::{Child, Command, Stdio};

/// A program: crates/NAME/out/NAME in the root of the repository (`rt run` in crates/NAME,
/// and the gate's `rt ci`, write it there), or the file that its variable names.
#[derive(Debug, Clone, Copy)]
pub struct Program {
    pub name: &'static str,
    pub variable: &'static str,
}

/// Judges a series.
pub const PULLTEST: Program = Program { name: "pulltest", variable: "PULLTEST" };

/// Judges a season.
pub const PULLSEASON: Program = Program { name: "pullseason", variable: "PULLSEASON" };

impl Program {
    pub fn path(self) -> PathBuf {
        let built = Path::new(env!("CARGO_MANIFEST_DIR"))
            .join("../../crates")
            .join(self.name)
            .join("out")
            .join(self.name);
        std::env::var_os(self.variable).map_or(built, PathBuf::from)
    }

    /// The program as it starts, with this input and output. Where it is not there it
    /// panics, and says what builds it.
    pub fn start(self, input: Stdio, output: Stdio) -> Child {
        let (path, name) = (self.path(), self.name);
        let run = Command::new(&path).stdin(input).stdout(output).spawn();
        run.unwrap_or_else(|e| {
            panic!("{}: {e}. `rt run` in crates/{name} builds it.", path.display())
        })
    }

    /// What the program prints of an input that is written to it in these pieces, one
    /// after the other.
    pub fn printed<'a>(self, pieces: impl IntoIterator<Item = &'a [u8]>) -> String {
        let mut run = self.start(Stdio::piped(), Stdio::piped());
        let mut input = run.stdin.take().expect("a pipe");
        let mut output = run.stdout.take().expect("a pipe");
        // Read beside the writing, so that neither side waits for a pipe that is full.
        let reading = std::thread::spawn(move || {
            let mut text = String::new();
            output.read_to_string(&mut text).map(|_| text)
        });
        for piece in pieces {
            input.write_all(piece).expect("the program reads to the end");
        }
        drop(input);
        let text = reading.join().expect("the reading ends").expect("plain text");
        assert!(run.wait().expect("the program ends").success());
        text
    }
}
