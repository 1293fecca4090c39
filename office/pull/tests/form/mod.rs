//! The form of answer bytes.

use pull::ENTRY_BYTES as ENTRY;

/// Whether each entry that is used has the form of one, and each other is zero.
pub fn check(answer: &[u8], used: impl Fn(usize) -> bool) -> Result<(), String> {
    for (i, entry) in answer.chunks(ENTRY).enumerate() {
        let form = if used(i) { used_entry(entry) } else { entry.iter().all(|&b| b == 0) };
        if !form {
            return Err(format!("entry {i} has not the form of one"));
        }
    }
    Ok(())
}

fn used_entry(entry: &[u8]) -> bool {
    let bits = |at: usize| u64::from_le_bytes(entry[at..at + 8].try_into().expect("eight bytes"));
    let number = |at: usize, given: u8| match given {
        0 => bits(at) == 0,
        1 => !f64::from_bits(bits(at)).is_nan(),
        _ => false,
    };
    (1..=6).contains(&entry[16])
        && number(0, entry[17])
        && number(8, entry[18])
        && entry[19] <= 1
        && entry[20..] == [0; 4]
}
