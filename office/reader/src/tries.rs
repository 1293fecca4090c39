//! Files for trying a call with: bytes at random, records at random, small
//! files that are right or nearly so, and stored vectors with some of their
//! bytes changed. Most of them a call must refuse. Most have their records in
//! order, since a file that does not rise is refused before they are looked at.
//! Some series have torn specimens: weights of zero, of either sign; some have
//! blocks with a wrong number.

use crate::numbers::{self, misnumbered, with_numbers};
use crate::order::{block_twice, disturbed, sorted, sorted_once};
use crate::random::Random;
use crate::torn::{spoiled, with_torn};
use crate::vectors;
use crate::{read, read_satterthwaite, Record, Refusal};

/// Which of the two direct calls. The archive's files are made by
/// `archive_tries`.
#[derive(Debug, Clone, Copy, PartialEq)]
pub enum Call {
    KenwardRoger,
    Satterthwaite,
}

/// What an accepted file's answer has: coefficients (0 for the Satterthwaite
/// call, which answers one entry) and whether a contrast is given.
#[derive(Debug, Clone, Copy, PartialEq)]
pub struct Shape {
    pub coefficients: usize,
    pub contrast: bool,
}

impl Call {
    /// The reader's verdict: the answer's shape, or a refusal from 2 to 8, 12 or
    /// 13.
    pub fn verdict(self, file: &[u8]) -> Result<Shape, Refusal> {
        match self {
            Call::KenwardRoger => read(file)
                .map(|s| Shape { coefficients: s.beta.len(), contrast: s.contrast.is_some() }),
            Call::Satterthwaite => {
                read_satterthwaite(file).map(|_| Shape { coefficients: 0, contrast: true })
            }
        }
    }

    /// What may still refuse a file that the reader accepts.
    pub fn later_refusals(self) -> &'static [Refusal] {
        match self {
            Call::KenwardRoger => &[4, 9, 10],
            Call::Satterthwaite => &[11],
        }
    }

    fn kinds(self) -> &'static [u8] {
        match self {
            Call::KenwardRoger => &[1, 2, 3, 4, 5, 6, 7, 8, 9, 10],
            Call::Satterthwaite => &[8, 9, 10, 30, 31, 32],
        }
    }

    fn vectors(self) -> &'static str {
        match self {
            Call::KenwardRoger => vectors::KENWARD_ROGER,
            Call::Satterthwaite => vectors::SATTERTHWAITE,
        }
    }
}

/// Short files only: a million calls are to be made.
const LONGEST: usize = 30 * 16;

/// One series in so many is torn before it is changed.
const TORN_ONE_IN: usize = 4;

/// Maker of files for one call.
pub struct Tries {
    call: Call,
    stored: Vec<Vec<u8>>,
}

impl Tries {
    pub fn new(call: Call) -> Tries {
        let stored = vectors::load(call.vectors()).into_iter().map(|v| v.file);
        Tries { call, stored: stored.filter(|f| f.len() <= LONGEST).collect() }
    }

    /// The next file.
    pub fn file(&self, r: &mut Random) -> Vec<u8> {
        match r.below(16) {
            0 | 1 => (0..r.below(100)).map(|_| r.bits() as u8).collect(),
            2 | 3 => self.random_records(r),
            4..=9 => {
                let small = self.small(r);
                let mut file = self.torn(r, small);
                for _ in 0..r.below(3) {
                    self.change(r, &mut file);
                }
                let file = self.numbered(r, file);
                placed(r, file)
            }
            _ => {
                let stored = self.stored[r.below(self.stored.len())].clone();
                let mut file = self.torn(r, stored);
                for _ in 0..r.below(5) {
                    self.change(r, &mut file);
                }
                let file = self.numbered(r, file);
                placed(r, file)
            }
        }
    }

    /// Records of the call's kinds with any small fields, mostly in order and
    /// none twice.
    fn random_records(&self, r: &mut Random) -> Vec<u8> {
        let mut out = Vec::new();
        for _ in 0..r.below(12) {
            let kind = r.pick(self.call.kinds());
            let index = |r: &mut Random| if r.once_in(3) { r.below(3) as u8 } else { 0 };
            let (row, column) = (index(r), index(r));
            let count = if r.once_in(4) { r.below(3) as u32 } else { 0 };
            let bits = value(r).to_bits();
            let record = Record { kind, row, column, zero: 0, count, bits };
            out.extend(if r.once_in(8) { record } else { numbers::corrected(record) }.to_bytes());
        }
        if r.once_in(8) {
            out
        } else {
            sorted_once(&out)
        }
    }

    /// A file of few specimens and coefficients, complete and in order but for
    /// what the changes do to it.
    fn small(&self, r: &mut Random) -> Vec<u8> {
        let records = match self.call {
            Call::KenwardRoger => small_kenward_roger(r),
            Call::Satterthwaite => small_satterthwaite(r),
        };
        records.into_iter().flat_map(Record::to_bytes).collect()
    }

    /// A series, now and then with torn specimens. The other call has none.
    fn torn(&self, r: &mut Random, file: Vec<u8>) -> Vec<u8> {
        if self.call == Call::Satterthwaite || !r.once_in(TORN_ONE_IN) {
            return file;
        }
        let torn = with_torn(r, &file);
        if r.once_in(6) {
            spoiled(r, &torn)
        } else {
            torn
        }
    }

    /// A changed series, the numbers in its blocks as the changes have left them,
    /// right again, or one of them wrong.
    fn numbered(&self, r: &mut Random, file: Vec<u8>) -> Vec<u8> {
        match r.below(8) {
            _ if self.call == Call::Satterthwaite => file,
            0 => misnumbered(r, &file),
            1..=4 => with_numbers(&file),
            _ => file,
        }
    }

    /// One change.
    fn change(&self, r: &mut Random, file: &mut Vec<u8>) {
        if file.len() < 16 {
            file.push(r.bits() as u8);
            return;
        }
        let records = file.len() / 16;
        let at = r.below(records) * 16;
        match r.below(16) {
            0 => file.truncate(r.below(file.len())),
            1 => file.extend((0..1 + r.below(33)).map(|_| r.bits() as u8)),
            2 => drop(file.drain(at..at + 16)),
            3 => file.extend_from_within(at..at + 16),
            4 => *file = block_twice(r, file),
            5 => file[at] = r.pick(self.call.kinds()),
            6 => file[at] = r.bits() as u8,
            // A field at or beside its limits.
            7..=9 => file[at + 1 + r.below(3)] = r.pick(&[0, 1, 2, 3, 4, 5, 6, 7, 23, 24, 25, 255]),
            10 => file[at + 4 + r.below(4)] = r.pick(&[0, 1, 2, 3, 4, 128, 255]),
            11..=13 => file[at + 8..at + 16].copy_from_slice(&value(r).to_bits().to_le_bytes()),
            14 => {
                // A kind dropped wholly.
                let kind = file[at];
                *file =
                    file.chunks(16).filter(|b| b[0] != kind).flatten().copied().collect::<Vec<_>>();
            }
            _ => {
                let any = r.below(file.len());
                file[any] ^= 1 << r.below(8);
            }
        }
    }
}

/// A changed file as it is written: mostly in order again, now and then as the
/// changes have left it, or out of order in other ways.
fn placed(r: &mut Random, file: Vec<u8>) -> Vec<u8> {
    match r.below(16) {
        0 => file,
        1 => disturbed(r, &file),
        _ => sorted(&file),
    }
}

/// Small numbers mostly; now and then one at an end of the range, a zero of
/// either sign, not finite, or of any bits.
fn value(r: &mut Random) -> f64 {
    match r.below(12) {
        0 => r.pick(&[0.0, -0.0, -1.0]),
        1 => r.pick(&[f64::INFINITY, f64::NEG_INFINITY, f64::NAN]),
        2 => r.pick(&[f64::MAX, f64::MIN_POSITIVE, f64::from_bits(1), 1e200, 1e-200, 1e10]),
        3 => f64::from_bits(r.bits()),
        4 | 5 => r.real(),
        _ => r.small(),
    }
}

/// Records that are being put together.
struct Records(Vec<Record>);

impl Records {
    fn put(&mut self, kind: u8, row: usize, column: usize, count: usize, value: f64) {
        let (row, column, count) = (row as u8, column as u8, count as u32);
        self.0.push(Record { kind, row, column, zero: 0, count, bits: value.to_bits() });
    }

    fn grid(&mut self, kind: u8, rows: usize, columns: usize, r: &mut Random) {
        for i in 0..rows {
            for j in 0..columns {
                self.put(kind, i, j, 0, r.small());
            }
        }
    }
}

fn small_kenward_roger(r: &mut Random) -> Vec<Record> {
    let (n, p) = (1 + r.below(3), 1 + r.below(2));
    let mut out = Records(Vec::new());
    out.grid(crate::X, n, p, r);
    if r.once_in(2) {
        // One block, mostly as it should be.
        let (m, k) = (1 + r.below(2), 1 + r.below(2));
        out.grid(crate::Z, n, m * k, r);
        let block = numbers::block(0, k as u8, m as u32);
        let own = numbers::parameter_count(block.column) as usize;
        out.0.push(block);
        let thetas = if r.once_in(10) { r.below(4) } else { own };
        out.grid(crate::THETA, thetas, 1, r);
    }
    if r.once_in(3) {
        (0..n).for_each(|i| out.put(crate::WEIGHTS, i, 0, 0, 0.5 + r.unit()));
    }
    out.grid(crate::PHI, p, p, r);
    out.put(crate::SIGMA, 0, 0, 0, if r.once_in(10) { r.small() } else { 0.5 + r.unit() });
    out.grid(crate::BETA, p, 1, r);
    if r.once_in(2) {
        out.grid(crate::CONTRAST, 1 + r.below(3), p, r);
        if r.once_in(3) {
            out.grid(crate::BETA_H, p, 1, r);
        }
    }
    out.0
}

fn small_satterthwaite(r: &mut Random) -> Vec<Record> {
    let (p, parameters) = (1 + r.below(2), 1 + r.below(2));
    let mut out = Records(Vec::new());
    out.grid(crate::BETA, p, 1, r);
    out.grid(crate::CONTRAST, 1 + r.below(2), p, r);
    if r.once_in(3) {
        out.grid(crate::BETA_H, p, 1, r);
    }
    // Mostly a positive v.
    for i in 0..p {
        for j in 0..p {
            let off = r.small();
            out.put(crate::V, i, j, 0, if i == j { 9.0 + off } else { off });
        }
    }
    for number in 0..parameters {
        for i in 0..p {
            (0..p).for_each(|j| out.put(crate::JACOBIAN, i, j, number, r.small()));
        }
    }
    out.grid(crate::A, parameters, parameters, r);
    out.0
}
