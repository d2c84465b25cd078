//! MFM coding and decoding (rules 1.10 to 1.19).
//!
//! Coding puts a clock before every data bit (rules 1.10 to 1.13). Decoding drops all
//! clocks (rules 1.14 and 1.15).

use crate::refusal::{Refusal, MOST_BYTES_TO_CODE, MOST_BYTES_TO_DECODE};

/// The cells of the sync (rule 1.18).
pub const SYNC_A1: u16 = 0x4489;
/// The cells of C2 with a missing clock, for which no rule looks (rule 1.19).
pub const SYNC_C2: u16 = 0x5224;

/// The 16 cells of one byte, `before` being the data bit before it (rule 1.12).
pub fn code_byte(byte: u8, before: bool) -> u16 {
    let mut cells = 0;
    let mut bit_before = before;
    for bit in (0..8).rev() {
        let data_bit = (byte >> bit) & 1 == 1;
        let clock = !bit_before && !data_bit;
        cells = (cells << 1) | u16::from(clock);
        cells = (cells << 1) | u16::from(data_bit);
        bit_before = data_bit;
    }
    cells
}

/// The byte whose data cells these 16 cells hold, whatever their clocks are (rule 1.14).
pub fn decode_cells(cells: u16) -> u8 {
    let mut byte = 0;
    for bit in (0..8).rev() {
        let data_cell = (cells >> (2 * bit)) & 1;
        byte = (byte << 1) | data_cell as u8;
    }
    byte
}

/// Coding (rules 1.13 and 9.8): the cells of all bytes. `before` is the data bit ahead of
/// them, `room` how many bytes of cells the caller has room for. Refusals in order: 14,
/// 13.
pub fn code(bytes: &[u8], before: bool, room: usize) -> Result<Vec<u8>, Refusal> {
    if bytes.len() > MOST_BYTES_TO_CODE {
        return Err(Refusal::too_many_bytes(bytes.len()));
    }
    let needed = 2 * bytes.len();
    if room < needed {
        return Err(Refusal::too_little_room_for_bytes(needed));
    }
    let mut cells = Vec::with_capacity(needed);
    let mut bit_before = before;
    for &byte in bytes {
        cells.extend(code_byte(byte, bit_before).to_be_bytes());
        bit_before = byte & 1 == 1;
    }
    Ok(cells)
}

/// Decoding (rules 1.15 and 9.9). `room` is the room for the bytes. Refusals in order:
/// 14, 13.
pub fn decode(cells: &[u8], room: usize) -> Result<Vec<u8>, Refusal> {
    if cells.len() > MOST_BYTES_TO_DECODE {
        return Err(Refusal::too_many_bytes(cells.len()));
    }
    let needed = cells.len() / 2;
    if room < needed {
        return Err(Refusal::too_little_room_for_bytes(needed));
    }
    let mut bytes = Vec::with_capacity(needed);
    for pair in cells.chunks_exact(2) {
        bytes.push(decode_cells(u16::from_be_bytes([pair[0], pair[1]])));
    }
    Ok(bytes)
}

#[cfg(test)]
mod tests {
    use super::*;
    use crate::cells;

    #[test]
    fn the_codings_of_rule_1_17() {
        assert_eq!(code_byte(0x4E, false), 0x9254);
        assert_eq!(code_byte(0x00, false), 0xAAAA);
        assert_eq!(code_byte(0x00, true), 0x2AAA);
        for before in [false, true] {
            assert_eq!(code_byte(0xFF, before), 0x5555);
            assert_eq!(code_byte(0xA1, before), 0x44A9);
            assert_eq!(code_byte(0xC2, before), 0x52A4);
        }
        assert_eq!(code(&[0x4E], false, 2), Ok(vec![0x92, 0x54]));
        assert_eq!(code(&[0x00], false, 2), Ok(vec![0xAA, 0xAA]));
        assert_eq!(code(&[0x00], true, 2), Ok(vec![0x2A, 0xAA]));
    }

    #[test]
    fn the_data_bit_before_goes_over_from_byte_to_byte() {
        assert_eq!(
            code(&[0xFF, 0x00, 0x00], false, 6),
            Ok(vec![0x55, 0x55, 0x2A, 0xAA, 0xAA, 0xAA])
        );
    }

    #[test]
    fn the_syncs_lack_one_clock() {
        assert_eq!(decode_cells(SYNC_A1), 0xA1);
        assert_eq!(decode_cells(SYNC_C2), 0xC2);
        assert_eq!((code_byte(0xA1, false) ^ SYNC_A1).count_ones(), 1);
        assert_eq!((code_byte(0xC2, false) ^ SYNC_C2).count_ones(), 1);
        assert_eq!(code_byte(0xA1, false) & SYNC_A1, SYNC_A1);
        assert_eq!(code_byte(0xC2, false) & SYNC_C2, SYNC_C2);
    }

    #[test]
    fn one_cell_off_the_sync_c2_is_lawful() {
        // The example of rule 1.19.
        let coded = code(&[0b0001_0100, 0xFF], false, 4).unwrap();
        assert_eq!(cells::find_word(&coded, 32, 0x5224, 16, 0, 16), 1);
    }

    #[test]
    fn every_byte_comes_back() {
        let bytes: Vec<u8> = (0..=255).collect();
        for before in [false, true] {
            let coded = code(&bytes, before, 512).unwrap();
            assert_eq!(decode(&coded, 256), Ok(bytes.clone()));
        }
    }

    #[test]
    fn an_odd_last_byte_is_not_read() {
        assert_eq!(decode(&[0x44, 0x89, 0xFF], 1), Ok(vec![0xA1]));
        assert_eq!(decode(&[0xFF], 0), Ok(vec![]));
        assert_eq!(decode(&[], 0), Ok(vec![]));
        assert_eq!(code(&[], true, 0), Ok(vec![]));
    }

    #[test]
    fn refusals_14_then_13() {
        let refused = |number, value| Err(Refusal { number, value });
        assert_eq!(code(&[0; 8_192], false, 16_384).unwrap().len(), 16_384);
        assert_eq!(code(&[0; 8_193], false, 0), refused(14, 8_193));
        assert_eq!(code(&[0; 8_192], false, 16_383), refused(13, 16_384));
        assert_eq!(code(&[0; 1], false, 1), refused(13, 2));
        assert_eq!(decode(&[0; 16_384], 8_192).unwrap().len(), 8_192);
        assert_eq!(decode(&[0; 16_385], 0), refused(14, 16_385));
        assert_eq!(decode(&[0; 16_384], 8_191), refused(13, 8_192));
        assert_eq!(decode(&[0; 5], 1), refused(13, 2));
    }
}
