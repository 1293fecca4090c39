//! The panel's judgement of a series of pulls, for the office application.
//!
//! A series is a record file, as the stand writes it, with its records in
//! rising order ([`Refusal::Order`] says which). [`kenward_roger`] judges it:
//! each coefficient alone, then the contrast if the file has one, by the very
//! code that runs in the stand's panel, so with its bits.
//! [`satterthwaite`] tests a contrast of a file of its own kinds.
//!
//! A block (kind 3) holds the number of its parameters, k(k+1)/2, in the first of
//! its eight value bytes; the other seven are zero ([`Refusal::ParameterCount`]).
//!
//! A specimen whose weight (kind 5) is zero is torn: its film tore outside the
//! glue. It counts as absent, in [`kenward_roger`] and in [`archive`].
//!
//! [`archive`] keeps what the tests of a series need of it: the adjusted
//! matrices, in response units and as the tests use them. [`archive_test`] makes
//! the tests from that archive later, with the series' β and contrast
//! ([`test_records`]) or with others.
//!
//! A lab's own small numbers are [`Cutoffs`]; each of the four has a form that takes
//! them ([`kenward_roger_with`] and so on), or their file (the functions that end in
//! `_with_fill`). The form without them has the built-in ones.
//!
//! A season's file holds many series, each closed by a record of kind 21 whose other
//! bytes are zero; the program `pullseason` judges it. To every function here kind 21 is
//! a bad kind ([`Refusal::Records`]): a caller lends the series one by one, without the
//! closing records, as the example `season` does.
//!
//! ```
//! # let file: Vec<u8> = pull::example::records();
//! match pull::kenward_roger(&file) {
//!     Ok(run) => {
//!         for (i, test) in run.coefficients.iter().enumerate() {
//!             println!("coefficient {i}: F {:?}, df {:?}", test.f, test.df);
//!         }
//!     }
//!     Err(refusal) => println!("refused {}: {refusal}", refusal.number()),
//! }
//! ```
//!
//! Nothing here can fail on account of the bytes that are passed: any bytes
//! give an answer or a [`Refusal`].

mod answer;
mod cutoffs;
pub mod example;
mod refusal;

pub use answer::{Run, Test};
pub use cutoffs::{Cutoffs, TABLE_BYTES};
pub use refusal::Refusal;

/// Answer bytes of one test.
pub const ENTRY_BYTES: usize = 24;

/// Answer bytes of the Kenward–Roger call and of the archive's test: six
/// coefficients and the contrast.
pub const KENWARD_ROGER_BYTES: usize = 7 * ENTRY_BYTES;

/// The bytes that the archive's writer is lent: the longest archive.
pub const ARCHIVE_BYTES: usize = 7184;

/// The shortest archive. What [`archive_fill`] returns is a length from here on,
/// and the number of a refusal below.
pub const SHORTEST_ARCHIVE: usize = 128;

mod c {
    // The header pull.h says the same in words.
    extern "C" {
        pub fn pull_kenward_roger(
            records: *const u8,
            records_length: usize,
            answer: *mut u8,
            answer_length: usize,
        ) -> u32;

        pub fn pull_satterthwaite(
            records: *const u8,
            records_length: usize,
            answer: *mut u8,
            answer_length: usize,
        ) -> u32;

        pub fn pull_archive(
            records: *const u8,
            records_length: usize,
            archive: *mut u8,
            archive_length: usize,
        ) -> u32;

        pub fn pull_archive_test(
            archive: *const u8,
            archive_length: usize,
            tests: *const u8,
            tests_length: usize,
            answer: *mut u8,
            answer_length: usize,
        ) -> u32;

        pub fn pull_kenward_roger_with(
            table: *const u8,
            table_length: usize,
            records: *const u8,
            records_length: usize,
            answer: *mut u8,
            answer_length: usize,
        ) -> u32;

        pub fn pull_satterthwaite_with(
            table: *const u8,
            table_length: usize,
            records: *const u8,
            records_length: usize,
            answer: *mut u8,
            answer_length: usize,
        ) -> u32;

        pub fn pull_archive_with(
            table: *const u8,
            table_length: usize,
            records: *const u8,
            records_length: usize,
            archive: *mut u8,
            archive_length: usize,
        ) -> u32;

        pub fn pull_archive_test_with(
            table: *const u8,
            table_length: usize,
            archive: *const u8,
            archive_length: usize,
            tests: *const u8,
            tests_length: usize,
            answer: *mut u8,
            answer_length: usize,
        ) -> u32;
    }
}

/// The run of a call that was lent 168 bytes, or its refusal.
fn run(fill: impl FnOnce(&mut [u8]) -> u32) -> Result<Run, Refusal> {
    let mut answer = [0; KENWARD_ROGER_BYTES];
    match fill(&mut answer) {
        0 => Ok(Run::from_bytes(&answer)),
        number => Err(Refusal::from_number(number)),
    }
}

/// The test of a call that was lent 24 bytes, or its refusal.
fn test(fill: impl FnOnce(&mut [u8]) -> u32) -> Result<Test, Refusal> {
    let mut answer = [0; ENTRY_BYTES];
    match fill(&mut answer) {
        0 => Ok(Test::from_bytes(&answer)),
        number => Err(Refusal::from_number(number)),
    }
}

/// The archive of a call that was lent room for the longest, or its refusal.
fn archived(fill: impl FnOnce(&mut [u8]) -> u32) -> Result<Vec<u8>, Refusal> {
    let mut archive = vec![0; ARCHIVE_BYTES];
    match fill(&mut archive) as usize {
        length @ SHORTEST_ARCHIVE..=ARCHIVE_BYTES => {
            archive.truncate(length);
            Ok(archive)
        }
        number => Err(Refusal::from_number(number as u32)),
    }
}

/// Judges a series by Kenward–Roger.
///
/// A specimen of weight 0, +0 or -0, is torn. Its records are asked for and must
/// be finite, as any other's; then its rows of X and Z and its weight are
/// dropped, and the answer is that of the specimens that are left. All sizes but
/// the number of specimens stay as sent. A weight below zero is refused
/// ([`Refusal::Weight`]), and so is a series of torn specimens alone
/// ([`Refusal::Size`]).
///
/// ```
/// use pull::example;
/// // A third pull that tore changes nothing.
/// let torn = example::records_with_a_torn_pull();
/// assert_eq!(pull::kenward_roger(&torn)?, pull::kenward_roger(&example::records())?);
/// # Ok::<(), pull::Refusal>(())
/// ```
///
/// The number of its parameters is written in each block, and another one is
/// refused, before a size is ([`Refusal::ParameterCount`]).
///
/// ```
/// use pull::{example, Refusal};
/// let mut series = example::records_with_a_block();
/// assert!(pull::kenward_roger(&series).is_ok());
/// // The block is the fifth record; byte 8 is the first of its value.
/// series[4 * 16 + 8] = 0;
/// assert_eq!(pull::kenward_roger(&series), Err(Refusal::ParameterCount));
/// ```
pub fn kenward_roger(records: &[u8]) -> Result<Run, Refusal> {
    run(|answer| kenward_roger_fill(records, answer))
}

/// The same with a lab's own cutoffs.
pub fn kenward_roger_with(cutoffs: &Cutoffs, records: &[u8]) -> Result<Run, Refusal> {
    run(|answer| kenward_roger_with_fill(&cutoffs.to_table(), records, answer))
}

/// The C function `pull_kenward_roger` on two slices: the number that it
/// returns. At 0 all of `answer` is written, otherwise nothing; a length other
/// than [`KENWARD_ROGER_BYTES`] is refused with 1.
pub fn kenward_roger_fill(records: &[u8], answer: &mut [u8]) -> u32 {
    // SAFETY: each slice gives a pointer that is not null and that many bytes,
    // and a `&mut` overlaps no other. The function reads the one, writes at
    // most the other, and keeps neither.
    unsafe {
        c::pull_kenward_roger(records.as_ptr(), records.len(), answer.as_mut_ptr(), answer.len())
    }
}

/// The C function `pull_kenward_roger_with` on three slices, the first a table as
/// [`Cutoffs::to_table`] writes it: as [`kenward_roger_fill`], and 14 for any other
/// table, after 1 and before the records are looked at.
pub fn kenward_roger_with_fill(table: &[u8], records: &[u8], answer: &mut [u8]) -> u32 {
    // SAFETY: as for [`kenward_roger_fill`]; the table is only read.
    unsafe {
        c::pull_kenward_roger_with(
            table.as_ptr(),
            table.len(),
            records.as_ptr(),
            records.len(),
            answer.as_mut_ptr(),
            answer.len(),
        )
    }
}

/// Tests a contrast by Satterthwaite, with the covariance of β, its Jacobians
/// and the covariance of the parameters from the file.
pub fn satterthwaite(records: &[u8]) -> Result<Test, Refusal> {
    test(|answer| satterthwaite_fill(records, answer))
}

/// The same with a lab's own cutoffs.
pub fn satterthwaite_with(cutoffs: &Cutoffs, records: &[u8]) -> Result<Test, Refusal> {
    test(|answer| satterthwaite_with_fill(&cutoffs.to_table(), records, answer))
}

/// The C function `pull_satterthwaite` on two slices: as
/// [`kenward_roger_fill`], with [`ENTRY_BYTES`].
pub fn satterthwaite_fill(records: &[u8], answer: &mut [u8]) -> u32 {
    // SAFETY: as for [`kenward_roger_fill`].
    unsafe {
        c::pull_satterthwaite(records.as_ptr(), records.len(), answer.as_mut_ptr(), answer.len())
    }
}

/// The C function `pull_satterthwaite_with` on three slices: as
/// [`kenward_roger_with_fill`], with [`ENTRY_BYTES`].
pub fn satterthwaite_with_fill(table: &[u8], records: &[u8], answer: &mut [u8]) -> u32 {
    // SAFETY: as for [`kenward_roger_with_fill`].
    unsafe {
        c::pull_satterthwaite_with(
            table.as_ptr(),
            table.len(),
            records.as_ptr(),
            records.len(),
            answer.as_mut_ptr(),
            answer.len(),
        )
    }
}

/// The archive of a series: Φ, Φ_A, each P and W after the adjustment, as a
/// record file (the kinds 11 to 18, which `pull.h` lists).
///
/// No test is run. A series that is refused by a test alone, by
/// [`Refusal::Pivot`], is archived, and the test from its archive is refused
/// alike. Torn specimens are dropped, as [`kenward_roger`] says, and the archive
/// knows nothing of them.
///
/// ```
/// let series = pull::example::records();
/// let archive = pull::archive(&series)?;
/// // Later, and without the specimens: the same answer, mark included.
/// let tests = pull::test_records(&series);
/// assert_eq!(pull::archive_test(&archive, &tests)?, pull::kenward_roger(&series)?);
/// # Ok::<(), pull::Refusal>(())
/// ```
pub fn archive(records: &[u8]) -> Result<Vec<u8>, Refusal> {
    archived(|archive| archive_fill(records, archive))
}

/// The same with a lab's own cutoffs. The archive does not tell them: a test from it
/// is the direct call's where both have the same ([`archive_test_with`]).
///
/// ```
/// use pull::{example, Cutoffs};
/// let series = example::records();
/// let cutoffs = Cutoffs { eigenvalue: 1.0, ..Cutoffs::default() };
/// let archive = pull::archive_with(&cutoffs, &series)?;
/// let tests = pull::test_records(&series);
/// let run = pull::archive_test_with(&cutoffs, &archive, &tests)?;
/// assert_eq!(run, pull::kenward_roger_with(&cutoffs, &series)?);
/// # Ok::<(), pull::Refusal>(())
/// ```
pub fn archive_with(cutoffs: &Cutoffs, records: &[u8]) -> Result<Vec<u8>, Refusal> {
    archived(|archive| archive_with_fill(&cutoffs.to_table(), records, archive))
}

/// The C function `pull_archive` on two slices: what it returns. From
/// [`SHORTEST_ARCHIVE`] on it is the archive's length; the archive is then at
/// the front of `archive`, and the rest is as it was. Below, it is the number of
/// a refusal, and all is as it was; a length other than [`ARCHIVE_BYTES`] is
/// refused with 1.
pub fn archive_fill(records: &[u8], archive: &mut [u8]) -> u32 {
    // SAFETY: as for [`kenward_roger_fill`].
    unsafe { c::pull_archive(records.as_ptr(), records.len(), archive.as_mut_ptr(), archive.len()) }
}

/// The C function `pull_archive_with` on three slices: as [`archive_fill`], and 14
/// for a table that is none, after 1 and before the records are looked at.
pub fn archive_with_fill(table: &[u8], records: &[u8], archive: &mut [u8]) -> u32 {
    // SAFETY: as for [`kenward_roger_with_fill`].
    unsafe {
        c::pull_archive_with(
            table.as_ptr(),
            table.len(),
            records.as_ptr(),
            records.len(),
            archive.as_mut_ptr(),
            archive.len(),
        )
    }
}

/// Judges by Kenward–Roger from an archive: each coefficient alone, then the
/// contrast if the second file has one. `tests` holds β (kind 8), the contrast
/// (9) and the hypothesis values (10), as a series does.
pub fn archive_test(archive: &[u8], tests: &[u8]) -> Result<Run, Refusal> {
    run(|answer| archive_test_fill(archive, tests, answer))
}

/// The same with a lab's own cutoffs, of which the test has the first five.
pub fn archive_test_with(cutoffs: &Cutoffs, archive: &[u8], tests: &[u8]) -> Result<Run, Refusal> {
    run(|answer| archive_test_with_fill(&cutoffs.to_table(), archive, tests, answer))
}

/// The C function `pull_archive_test` on three slices: as
/// [`kenward_roger_fill`].
pub fn archive_test_fill(archive: &[u8], tests: &[u8], answer: &mut [u8]) -> u32 {
    // SAFETY: as for [`kenward_roger_fill`]; the two files are only read.
    unsafe {
        c::pull_archive_test(
            archive.as_ptr(),
            archive.len(),
            tests.as_ptr(),
            tests.len(),
            answer.as_mut_ptr(),
            answer.len(),
        )
    }
}

/// The C function `pull_archive_test_with` on four slices: as
/// [`kenward_roger_with_fill`], 14 before either file is looked at.
pub fn archive_test_with_fill(
    table: &[u8],
    archive: &[u8],
    tests: &[u8],
    answer: &mut [u8],
) -> u32 {
    // SAFETY: as for [`kenward_roger_with_fill`]; the two files are only read.
    unsafe {
        c::pull_archive_test_with(
            table.as_ptr(),
            table.len(),
            archive.as_ptr(),
            archive.len(),
            tests.as_ptr(),
            tests.len(),
            answer.as_mut_ptr(),
            answer.len(),
        )
    }
}

/// The records of the kinds 8 to 10 of a series: β, the contrast and the
/// hypothesis values. With these as its second file [`archive_test`] answers as
/// [`kenward_roger`] does on the series.
pub fn test_records(series: &[u8]) -> Vec<u8> {
    let records = series.chunks_exact(16);
    records.filter(|record| (8..=10).contains(&record[0])).flatten().copied().collect()
}
