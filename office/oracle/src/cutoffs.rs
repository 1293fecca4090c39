//! The table in force: what the copies of lme-rs's files read in the place of their
//! own small numbers, and the factor of the stand-in's Jacobi.
//!
//! It holds for the thread and for the time of one run, so that tests at once with
//! other tables do not disturb each other.

use crate::reader::cutoffs::Cutoffs;
use ndarray_linalg::set_rotation_factor;
use std::cell::Cell;

thread_local! {
    static TABLE: Cell<Cutoffs> = const { Cell::new(Cutoffs::BUILT_IN) };
}

/// Puts another table in force, and tells the Jacobi's factor.
fn set(cutoffs: Cutoffs) {
    TABLE.with(|table| table.set(cutoffs));
    set_rotation_factor(cutoffs.rotation);
}

/// The built-in table comes back, also where a run has failed.
struct Back;

impl Drop for Back {
    fn drop(&mut self) {
        set(Cutoffs::BUILT_IN);
    }
}

/// A run with a table in force.
pub fn in_force<T>(cutoffs: &Cutoffs, run: impl FnOnce() -> T) -> T {
    let _back = Back;
    set(*cutoffs);
    run()
}

fn table() -> Cutoffs {
    TABLE.with(|table| table.get())
}

// What the copies call: see build.rs.

pub fn moment() -> f64 {
    table().moment
}

pub fn leading() -> f64 {
    table().leading
}

pub fn divisor() -> f64 {
    table().divisor
}

pub fn excess() -> f64 {
    table().excess
}

pub fn near() -> f64 {
    table().near
}

pub fn eigenvalue() -> f64 {
    table().eigenvalue
}

pub fn ridge() -> f64 {
    table().ridge
}

pub fn cap() -> f64 {
    table().cap
}
