//! The Rust of lme-rs as the judge of the port.
//!
//! - `reader`: record files, from document 01 and the project's decisions (a
//!   crate of its own).
//! - `lme_run`: F, df and rank by lme-rs's own four files, unchanged, and by copies
//!   of them that read a lab's cutoffs from the table in force (`cutoffs`).
//! - `marked`: a run written from document 01, which also has the mark.
//! - `calls`, `archive`: the four calls on bytes, which hold the two runs
//!   together.

// The modules of lme-rs name these as `crate::..`.
pub(crate) use lme_items::{formula, math, model, model_matrix, LmeError, LmeFit, Result};
include!(concat!(env!("OUT_DIR"), "/lme_rs.rs"));

mod lme_items;

pub use ::reader;

pub mod archive;
pub mod calls;
pub mod cutoffs;
pub mod known;
pub mod known_archive;
pub mod known_numbers;
pub mod known_order;
pub mod known_tables;
pub mod known_torn;
pub mod lme_run;
pub mod make;
pub mod make_archive;
pub mod make_season;
pub mod make_tables;
pub mod marked;
pub mod numbers;
pub mod print;
pub mod random;
pub mod replay;
pub mod torn;
pub mod trace;
pub mod wrong;

#[cfg(test)]
mod bench;
#[cfg(test)]
mod table_bench;
