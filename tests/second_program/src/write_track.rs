//! Write Track: the cells that a controller writes when it is given a list of bytes to
//! format a track with.
//!
//! Three bytes of the list are commands. F5 and F6 write a sync, F7 writes the check word.
//! Any other byte is written as it is. A command means the same wherever it stands: a byte
//! behind F7 is no exception.

use crate::cells;
use crate::check_word::{check_word_from, START};
use crate::mfm::{code_byte, SYNC_A1, SYNC_C2};
use crate::refusal::{Refusal, MOST_CELLS};

/// Writes the sync A1.
pub const WRITE_SYNC_A1: u8 = 0xF5;
/// Writes the sync C2.
pub const WRITE_SYNC_C2: u8 = 0xF6;
/// Writes the two check bytes.
pub const WRITE_CHECK: u8 = 0xF7;

/// The cells of one byte on the track.
const BYTE_LENGTH: usize = 16;

/// What the controller has written, and what it keeps in mind.
struct Writer {
    /// The cells, 16 to an element.
    words: Vec<u16>,
    /// The check word.
    check: u16,
    /// The data bit before the next byte.
    bit_before: bool,
}

impl Writer {
    /// Writes the cells of a byte. Each byte on the track counts for the check word.
    fn write(&mut self, byte: u8, cells: u16) {
        self.words.push(cells);
        self.check = check_word_from(self.check, &[byte]);
        self.bit_before = byte & 1 == 1;
    }

    /// Writes a byte by the clock rule.
    fn write_coded(&mut self, byte: u8) {
        self.write(byte, code_byte(byte, self.bit_before));
    }
}

/// The cells of a list, 16 to an element.
fn words_of(list: &[u8]) -> Vec<u16> {
    let mut writer = Writer {
        words: Vec::new(),
        check: START,
        bit_before: false,
    };
    let mut byte_before = None;
    for &byte in list {
        match byte {
            WRITE_SYNC_A1 => {
                if byte_before != Some(WRITE_SYNC_A1) {
                    writer.check = START;
                }
                writer.write(0xA1, SYNC_A1);
            }
            WRITE_SYNC_C2 => writer.write(0xC2, SYNC_C2),
            WRITE_CHECK => {
                // Both bytes are of the check word as it stands before them.
                for check_byte in writer.check.to_be_bytes() {
                    writer.write_coded(check_byte);
                }
            }
            _ => writer.write_coded(byte),
        }
        byte_before = Some(byte);
    }
    writer.words
}

/// How many cells a list gives: F7 stands for two bytes.
pub fn cells_of(list: &[u8]) -> usize {
    let checks = list.iter().filter(|&&byte| byte == WRITE_CHECK).count();
    BYTE_LENGTH * (list.len() + checks)
}

/// Writes the cells of a list to the front of `packed`, whose other bytes stay, and gives
/// their number. Refusals in order: 20, 10; beside them nothing is written.
pub fn write_track(list: &[u8], packed: &mut [u8]) -> Result<usize, Refusal> {
    let count = cells_of(list);
    if count > MOST_CELLS {
        return Err(Refusal::too_many_cells_to_write());
    }
    let needed = cells::bytes_needed(count);
    if packed.len() < needed {
        return Err(Refusal::too_little_room_for_cells(needed));
    }
    for (pair, word) in packed.chunks_exact_mut(2).zip(words_of(list)) {
        pair.copy_from_slice(&word.to_be_bytes());
    }
    Ok(count)
}

/// The packed cells of a list. Refusal: 20.
pub fn written_cells(list: &[u8]) -> Result<Vec<u8>, Refusal> {
    let needed = cells::bytes_needed(cells_of(list).min(MOST_CELLS));
    let mut packed = vec![0; needed];
    write_track(list, &mut packed)?;
    Ok(packed)
}

/// The data of a standard track's nine sectors in the order of their numbers.
pub type StandardData = [[u8; 512]; 9];

/// The bytes 4E before the first sector of the standard track.
const GAP_AT_START: usize = 60;
/// The bytes 4E behind its last sector.
const GAP_AT_END: usize = 664;
/// The bytes 00 before each three syncs.
const ZEROS: usize = 12;
/// The bytes 4E between ID and data.
const GAP_BEHIND_ID: usize = 22;
/// The bytes 4E behind data.
const GAP_BEHIND_DATA: usize = 40;
/// The size code of 512 bytes.
const SIZE_CODE: u8 = 2;

/// The part of the list for an ID or for data: zeros, three syncs, the mark, the bytes and
/// the command for their check.
fn marked(mark: u8, bytes: &[u8]) -> Vec<u8> {
    let mut list = vec![0x00; ZEROS];
    list.extend([WRITE_SYNC_A1; 3]);
    list.push(mark);
    list.extend(bytes);
    list.push(WRITE_CHECK);
    list
}

/// The list of the standard track: nine sectors with the numbers 1 to 9, with this track and
/// side in their IDs, each with its data. Data bytes F5 to F7 are commands here too.
pub fn standard_list(track: u8, side: u8, data: &StandardData) -> Vec<u8> {
    let mut list = vec![0x4E; GAP_AT_START];
    for (number, of_sector) in (1..).zip(data) {
        list.extend(marked(0xFE, &[track, side, number, SIZE_CODE]));
        list.extend([0x4E; GAP_BEHIND_ID]);
        list.extend(marked(0xFB, of_sector));
        list.extend([0x4E; GAP_BEHIND_DATA]);
    }
    list.extend([0x4E; GAP_AT_END]);
    list
}

/// The list of the standard track with two bytes instead of the command for the data check of
/// the sector with this number, 1 to 9. Bytes F5 to F7 are commands here too.
pub fn standard_list_with_check(
    track: u8,
    side: u8,
    data: &StandardData,
    number: u8,
    check_bytes: [u8; 2],
) -> Vec<u8> {
    let mut list = standard_list(track, side, data);
    let record = (list.len() - GAP_AT_START - GAP_AT_END) / data.len();
    let end_of_record = GAP_AT_START + record * usize::from(number);
    let check_at = end_of_record - GAP_BEHIND_DATA - 1;
    list.splice(check_at..=check_at, check_bytes);
    list
}
