//! The panel's C functions against the Rust oracle, on bytes: the number that
//! a call returns and every answer byte.
//!
//! - `cases`: the random files, by families and seeds.
//! - `judge`: one file through both, and how they differ.
//! - `shrink`: a smaller file that differs in the same manner.
//! - `live`: the comparison of many files, and its summary.
//! - `archive`: the same for the archive's two functions.
//! - `tables`: the same for the four functions that take a table of cutoffs.
//! - `season`: the program `pullseason` on random seasons, line by line.
//! - `season_bench`: the time and the memory of that program.
//! - `torn`: how many of the files had torn specimens.
//! - `numbers`: how many of the files had blocks, and wrong numbers in them.

pub mod archive;
pub mod cases;
pub mod judge;
pub mod live;
pub mod numbers;
pub mod season;
pub mod season_bench;
pub mod shrink;
pub mod tables;
pub mod torn;
