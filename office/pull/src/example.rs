//! Document 01's example of a series, as a record file, and the same with a pull
//! that tore, and with a block.

/// One record of 16 bytes.
pub fn record(kind: u8, row: u8, column: u8, count: u32, value: f64) -> [u8; 16] {
    let mut out = [0; 16];
    // Byte 3 is zero.
    (out[0], out[1], out[2]) = (kind, row, column);
    out[4..8].copy_from_slice(&count.to_le_bytes());
    out[8..].copy_from_slice(&value.to_bits().to_le_bytes());
    out
}

/// The record of a block of k effects and m groups. The first of its value bytes
/// holds the number of its parameters, k(k+1)/2, and the other seven are zero. A k
/// above 22, whose number no byte holds, is refused whatever is written: it panics.
pub fn block(row: u8, k: u8, m: u32) -> [u8; 16] {
    let mut out = record(3, row, k, m, 0.0);
    let number = u32::from(k) * (u32::from(k) + 1) / 2;
    out[8] = u8::try_from(number).expect("k is at most 22");
    out
}

/// Two specimens, one coefficient, no random columns: X 1,1, Φ 0.5, sigma2 8,
/// β 6, contrast 1. Each test has F 9 with 1 degree of freedom.
pub fn records() -> Vec<u8> {
    [
        record(1, 0, 0, 0, 1.0), // X
        record(1, 1, 0, 0, 1.0),
        record(6, 0, 0, 0, 0.5), // Φ
        record(7, 0, 0, 0, 8.0), // sigma2
        record(8, 0, 0, 0, 6.0), // β
        record(9, 0, 0, 0, 1.0), // contrast
    ]
    .concat()
}

/// The same with weights, and with a third pull whose film tore outside the
/// glue: its weight is 0. The others weigh 1, as specimens without a weight do,
/// so the answers are those of [`records`]. What the torn pull's row of X holds
/// does not matter, as long as it is finite.
pub fn records_with_a_torn_pull() -> Vec<u8> {
    [
        record(1, 0, 0, 0, 1.0), // X
        record(1, 1, 0, 0, 1.0),
        record(1, 2, 0, 0, -7.5),
        record(5, 0, 0, 0, 1.0), // weights
        record(5, 1, 0, 0, 1.0),
        record(5, 2, 0, 0, 0.0),
        record(6, 0, 0, 0, 0.5), // Φ
        record(7, 0, 0, 0, 8.0), // sigma2
        record(8, 0, 0, 0, 6.0), // β
        record(9, 0, 0, 0, 1.0), // contrast
    ]
    .concat()
}

/// Document 01's bench example (k): both pulls in one group, whose one theta is 0.
pub fn records_with_a_block() -> Vec<u8> {
    [
        record(1, 0, 0, 0, 1.0), // X
        record(1, 1, 0, 0, 1.0),
        record(2, 0, 0, 0, 1.0), // Z
        record(2, 1, 0, 0, 1.0),
        block(0, 1, 1),
        record(4, 0, 0, 0, 0.0), // theta
        record(6, 0, 0, 0, 0.5), // Φ
        record(7, 0, 0, 0, 8.0), // sigma2
        record(8, 0, 0, 0, 6.0), // β
        record(9, 0, 0, 0, 1.0), // contrast
    ]
    .concat()
}
