//! Searches for a word on a track, as measures: one for a word of 48 cells that looks at eight places at a time, and all places of a word
//! by any search that gives the least one.

use second_program::cells;

/// Eight places for each byte, from 64 cells loaded at once; the last places, round the index, one by one. n is a multiple of 8 here.
pub fn word_parallel(bytes: &[u8], n: usize, word: u64) -> usize {
    let mask = (1 << 48) - 1;
    for (index, window) in bytes.windows(8).enumerate() {
        let loaded = u64::from_be_bytes(window.try_into().expect("eight bytes"));
        for shift in 0..8 {
            if (loaded >> (16 - shift)) & mask == word {
                return 8 * index + shift;
            }
        }
    }
    let from = 8 * bytes.len().saturating_sub(7);
    (from..n).find(|&p| cells::word(bytes, n, p, 48) == word).unwrap_or(n)
}

/// All places on a track of n cells that `find` gives: it is asked again from the place after each, so the whole track is gone over once.
pub fn all_places(n: usize, find: impl Fn(usize, usize) -> usize) -> Vec<usize> {
    let mut places = Vec::new();
    let mut place = find(0, n);
    while place < n {
        places.push(place);
        place = find(place + 1, n);
    }
    places
}
