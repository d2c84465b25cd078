//! The ring of packed cells (rules 1.1 to 1.7).
//!
//! In this module `n` is N. Where the bytes end too early the missing cells are 0, and
//! a track of no cells has only zeros (rule 1.5).

/// The place on the track, 0 to n - 1, of a place that may be n or more. For a track of
/// no cells it is 0.
fn reduced(n: usize, place: usize) -> usize {
    if n == 0 {
        0
    } else {
        place % n
    }
}

/// The place on the track, 0 to n - 1, that lies `further` cells after `place`. For a
/// track of no cells it is 0.
pub fn place_on_track(n: usize, place: usize, further: usize) -> usize {
    if n == 0 {
        return 0;
    }
    ((place as u128 + further as u128) % n as u128) as usize
}

/// The place after `place` on the ring (rule 1.1).
fn next_place(n: usize, place: usize) -> usize {
    if place + 1 >= n {
        0
    } else {
        place + 1
    }
}

/// The cell at a place from 0 to n - 1; 0 at any other place.
fn stored_cell(bytes: &[u8], n: usize, place: usize) -> u8 {
    if place >= n {
        return 0;
    }
    match bytes.get(place / 8) {
        Some(byte) => (byte >> (7 - place % 8)) & 1,
        None => 0,
    }
}

/// The cell at place `p`, which may be n or more (rule 1.2).
pub fn cell(bytes: &[u8], n: usize, p: usize) -> u8 {
    stored_cell(bytes, n, reduced(n, p))
}

/// The `k` cells from place `p` on as a number, the first cell as its highest bit.
/// A `k` above 64 counts as 64 (rule 1.6).
pub fn word(bytes: &[u8], n: usize, p: usize, k: usize) -> u64 {
    let mut value = 0;
    let mut place = reduced(n, p);
    for _ in 0..k.min(64) {
        value = (value << 1) | u64::from(stored_cell(bytes, n, place));
        place = next_place(n, place);
    }
    value
}

/// The number of `k` ones, `k` being at most 64.
fn mask(k: usize) -> u64 {
    if k == 64 {
        u64::MAX
    } else {
        (1 << k) - 1
    }
}

/// The least place p with `from` <= p < `to` at which the `k` cells are `sought`, or the
/// greater of `from` and `to` where there is none (rule 1.7). Places may be n or more.
pub fn find_word(bytes: &[u8], n: usize, sought: u64, k: usize, from: usize, to: usize) -> usize {
    let none = from.max(to);
    if from >= to {
        return none;
    }
    let k = k.min(64);
    // After one turn of the track every place has been seen.
    let places = (to - from).min(n.max(1));
    let mut window = word(bytes, n, from, k);
    let mut after_window = place_on_track(n, from, k);
    for i in 0..places {
        if window == sought {
            return from + i;
        }
        let entering = u64::from(stored_cell(bytes, n, after_window));
        window = ((window << 1) | entering) & mask(k);
        after_window = next_place(n, after_window);
    }
    none
}

/// The bytes that `n` cells need (rule 1.3).
pub fn bytes_needed(n: usize) -> usize {
    n.div_ceil(8)
}

/// Packs cells that stand one to an element (rule 1.3). An element other than 0 is a
/// one. Spare bits at the end are 0.
pub fn pack(cells: &[u8]) -> Vec<u8> {
    let mut bytes = vec![0; bytes_needed(cells.len())];
    for (place, &cell) in cells.iter().enumerate() {
        if cell != 0 {
            bytes[place / 8] |= 1 << (7 - place % 8);
        }
    }
    bytes
}

/// The first `n` cells of the bytes, one to an element.
pub fn unpack(bytes: &[u8], n: usize) -> Vec<u8> {
    (0..n).map(|place| stored_cell(bytes, n, place)).collect()
}

#[cfg(test)]
mod tests {
    use super::*;

    #[test]
    fn highest_bit_is_the_first_cell() {
        let bytes = [0x80, 0x01];
        assert_eq!(cell(&bytes, 16, 0), 1);
        assert_eq!(cell(&bytes, 16, 1), 0);
        assert_eq!(cell(&bytes, 16, 15), 1);
        assert_eq!(unpack(&bytes, 9), [1, 0, 0, 0, 0, 0, 0, 0, 0]);
    }

    #[test]
    fn places_go_round_the_track() {
        let bytes = [0b1010_0000];
        for p in 0..30 {
            assert_eq!(cell(&bytes, 3, p), [1, 0, 1][p % 3]);
        }
        assert_eq!(cell(&bytes, 3, usize::MAX), [1, 0, 1][usize::MAX % 3]);
        assert_eq!(word(&bytes, 3, 1, 6), 0b011_011);
    }

    #[test]
    fn cells_past_the_bytes_are_zeros() {
        assert_eq!(word(&[0xFF], 16, 4, 12), 0xF00);
        assert_eq!(unpack(&[0xFF], 10), [1, 1, 1, 1, 1, 1, 1, 1, 0, 0]);
    }

    #[test]
    fn a_track_of_no_cells_has_only_zeros() {
        assert_eq!(cell(&[0xFF], 0, 0), 0);
        assert_eq!(cell(&[0xFF], 0, 17), 0);
        assert_eq!(word(&[0xFF], 0, 5, 8), 0);
        assert_eq!(find_word(&[0xFF], 0, 0, 8, 3, 9), 3);
        assert_eq!(find_word(&[0xFF], 0, 1, 8, 3, usize::MAX), usize::MAX);
    }

    #[test]
    fn a_word_has_at_most_64_cells() {
        let bytes = [0xFF; 9];
        assert_eq!(word(&bytes, 72, 0, 64), u64::MAX);
        assert_eq!(word(&bytes, 72, 0, 1_000), u64::MAX);
        assert_eq!(word(&bytes, 72, usize::MAX, 3), 7);
        assert_eq!(word(&bytes, 72, 7, 0), 0);
    }

    #[test]
    fn a_word_is_found_at_its_least_place() {
        let bytes = [0x44, 0x89, 0x44, 0x89];
        assert_eq!(find_word(&bytes, 32, 0x4489, 16, 0, 32), 0);
        assert_eq!(find_word(&bytes, 32, 0x4489, 16, 1, 32), 16);
        assert_eq!(find_word(&bytes, 32, 0x4489, 16, 1, 16), 16);
        assert_eq!(find_word(&bytes, 32, 0x4489, 16, 17, 32), 32);
        assert_eq!(find_word(&bytes, 32, 0x4489, 16, 17, 33), 32);
        assert_eq!(find_word(&bytes, 32, 0x4489, 16, 17, 99), 32);
        assert_eq!(find_word(&bytes, 32, 0x4488, 16, 0, usize::MAX), usize::MAX);
        assert_eq!(find_word(&bytes, 32, 0x1_4489, 16, 0, 32), 32);
    }

    #[test]
    fn where_there_is_no_place_the_greater_end_is_given() {
        let bytes = [0x44, 0x89];
        assert_eq!(find_word(&bytes, 16, 0x4489, 16, 0, 0), 0);
        assert_eq!(find_word(&bytes, 16, 0x4489, 16, 9, 4), 9);
        assert_eq!(find_word(&bytes, 16, 0x4489, 16, 1, 9), 9);
    }

    #[test]
    fn finding_agrees_with_looking_at_each_place() {
        let bytes = [0x44, 0x89, 0x12, 0x24, 0x48, 0x91];
        for n in 1..=48 {
            for k in [1, 3, 4, 16, 33, 64, 65] {
                for aim in 0..n {
                    let sought = word(&bytes, n, aim, k);
                    for from in [0, 1, n - 1, n, n + 5, 3 * n] {
                        for to in [0, n, 2 * n, 5 * n] {
                            let plain = (from..to).find(|&p| word(&bytes, n, p, k) == sought);
                            assert_eq!(
                                find_word(&bytes, n, sought, k, from, to),
                                plain.unwrap_or(from.max(to))
                            );
                        }
                    }
                }
            }
        }
    }

    #[test]
    fn packing_leaves_spare_bits_zero() {
        assert_eq!(pack(&[0, 0, 1, 0, 1]), [0b0010_1000]);
        assert_eq!(pack(&[1; 9]), [0xFF, 0x80]);
        assert!(pack(&[]).is_empty());
        assert_eq!(
            unpack(&pack(&[0, 1, 1, 0, 1, 0, 0, 0, 1, 1]), 10),
            [0, 1, 1, 0, 1, 0, 0, 0, 1, 1]
        );
    }
}
