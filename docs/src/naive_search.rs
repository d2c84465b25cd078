//! The baseline of the mark search: ordinary Rust that fetches every cell of the word one by one, at every place of the track.
//!
//! It uses no other code. Only the benchmark compiles it: `bench/run` measures the library's search beside it, and `.ci/baseline` holds
//! that both find the same places. The rules are 1.1 to 1.7 of docs/SPECIFICATION.md.

/// The sync, a word of 16 cells.
pub const SYNC: u64 = 0x4489;

/// A mark begins with three syncs in a row, a word of 48 cells.
pub const MARK: u64 = 0x4489_4489_4489;

/// Cell i of a track of n cells, counted on past n. Eight are kept in a byte, the first of them as its highest bit. A cell for which there
/// is no byte counts as 0.
fn cell(bytes: &[u8], n: usize, i: usize) -> u64 {
    if n == 0 {
        return 0;
    }
    // Most places lie below n already; a division for each of them would make the baseline slow for no reason.
    let place = if i < n { i } else { i % n };
    match bytes.get(place / 8) {
        Some(byte) => u64::from(byte >> (7 - place % 8) & 1),
        None => 0,
    }
}

/// The word from place p on, its first cell as the highest bit. No cell is kept from the place before, and none is left out because an
/// earlier one differs.
fn word_at<const LENGTH: usize>(bytes: &[u8], n: usize, p: usize) -> u64 {
    let mut word = 0;
    for i in 0..LENGTH {
        word = word << 1 | cell(bytes, n, p + i);
    }
    word
}

/// The least place from `from` on and below `to` at which the word of LENGTH cells, at most 64, stands; where there is none, the greater of
/// the two. The compiler knows LENGTH, which is the best case for it.
pub fn find_word<const LENGTH: usize>(bytes: &[u8], n: usize, word: u64, from: usize, to: usize) -> usize {
    (from..to).find(|&p| word_at::<LENGTH>(bytes, n, p) == word).unwrap_or(from.max(to))
}

/// The least place of a sync: sixteen cells at every place.
pub fn find_sync(bytes: &[u8], n: usize, from: usize, to: usize) -> usize {
    find_word::<16>(bytes, n, SYNC, from, to)
}

/// The least place of a mark's three syncs: 48 cells at every place.
pub fn find_mark(bytes: &[u8], n: usize, from: usize, to: usize) -> usize {
    find_word::<48>(bytes, n, MARK, from, to)
}
