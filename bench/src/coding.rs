//! Coding by a table in plain Rust, as a measure.

use second_program::mfm;

/// The cells of each byte after each data bit, by the second program's clock rule: entry 256 * bit + byte.
pub fn table() -> [u16; 512] {
    std::array::from_fn(|index| mfm::code_byte(index as u8, index >= 256))
}

/// Codes all bytes into the front of a lent buffer. None where they are too many or do not fit; then nothing is written.
pub fn by_table(table: &[u16; 512], bytes: &[u8], before: bool, cells: &mut [u8]) -> Option<usize> {
    if bytes.len() > 8_192 || cells.len() < 2 * bytes.len() {
        return None;
    }
    let mut bit = usize::from(before);
    for (&byte, pair) in bytes.iter().zip(cells.chunks_exact_mut(2)) {
        pair.copy_from_slice(&table[256 * bit + usize::from(byte)].to_be_bytes());
        bit = usize::from(byte & 1);
    }
    Some(2 * bytes.len())
}
