//! FM tracks (single density), sound and odd, one cell to an element.
//!
//! The standard FM track is laid out as an 8-bit Atari drive such as the 810 formats a
//! disk, with bytes FF between sectors and bytes 00 before each mark: 20 of FF, eighteen
//! records of 171 bytes, 27 of FF, together 3,125 bytes or 50,000 cells. A record is 6 of
//! 00, FE, four ID bytes, check, 11 of FF, 6 of 00, FB, 128 bytes, check, 10 of FF. The ID
//! marks stand at 416 and every 2,736 cells after it, the data marks 384 cells behind them.

mod border_tracks;
mod odd_tracks;

use second_program::cells;
use second_program::check_word::check_word;
use second_program::mfm::decode_cells;
use second_program::single_density::{DATA_MARK, ID_MARK};

pub use border_tracks::{
    count_tracks, distance_tracks, fault_tracks, index_tracks, length_tracks, mark_tracks,
    nested_tracks, size_code_tracks,
};
pub use odd_tracks::{fm_tracks, odd_fm_sector, odd_fm_track, sprinkled_track};

/// How many cells the standard FM track has.
pub const STANDARD_FM_TRACK_CELLS: usize = 50_000;
/// p of the first sector of the standard FM track.
pub const FIRST_PLACE: usize = 416;
/// From one sector of the standard FM track to the next.
pub const RECORD_CELLS: usize = 2_736;
/// From the ID's end to the data mark on the standard FM track.
pub const STANDARD_GAP_CELLS: usize = 16 * (11 + 6);

/// A track and the place it was read from.
#[derive(Clone, Debug, PartialEq, Eq)]
pub struct FmTrack {
    /// What the track tries, in a few words.
    pub name: String,
    /// T.
    pub drive_track: u32,
    /// H.
    pub drive_side: u32,
    /// The cells, one to an element; their number is N.
    pub cells: Vec<u8>,
}

impl FmTrack {
    /// The cells eight to a byte.
    pub fn packed(&self) -> Vec<u8> {
        cells::pack(&self.cells)
    }
}

/// The 16 cells of one FM byte: before each data bit stands a clock, and every clock is 1.
pub fn code_fm_byte(byte: u8) -> u16 {
    let mut cells = 0;
    for bit in (0..8).rev() {
        let data_bit = u16::from((byte >> bit) & 1);
        cells = (cells << 2) | 0b10 | data_bit;
    }
    cells
}

/// Writes FM cells one after the other, one cell to an element.
#[derive(Clone, Debug, Default)]
pub struct FmTrackBuilder {
    cells: Vec<u8>,
}

impl FmTrackBuilder {
    /// A builder without cells.
    pub fn new() -> FmTrackBuilder {
        FmTrackBuilder::default()
    }

    /// The cells written so far.
    pub fn cells(&self) -> &[u8] {
        &self.cells
    }

    /// The cells written so far, eight to a byte.
    pub fn packed(&self) -> Vec<u8> {
        cells::pack(&self.cells)
    }

    /// Writes the lowest `count` bits of a word (at most 64) as cells, the highest first.
    pub fn write_cells(&mut self, word: u64, count: usize) {
        for bit in (0..count.min(64)).rev() {
            self.cells.push(((word >> bit) & 1) as u8);
        }
    }

    /// Writes the same cell so many times.
    pub fn write_repeated_cell(&mut self, cell: u8, count: usize) {
        self.cells.extend(std::iter::repeat_n(cell, count));
    }

    /// Writes one byte with all its clocks.
    pub fn write_byte(&mut self, byte: u8) {
        self.write_cells(u64::from(code_fm_byte(byte)), 16);
    }

    /// Writes bytes with all their clocks.
    pub fn write_bytes(&mut self, bytes: &[u8]) {
        for &byte in bytes {
            self.write_byte(byte);
        }
    }

    /// Writes the same byte so many times with all its clocks.
    pub fn write_repeated(&mut self, byte: u8, count: usize) {
        for _ in 0..count {
            self.write_byte(byte);
        }
    }

    /// Writes a mark by its cells, the bytes behind it and the check word of all. A bit set
    /// in `check_error` is written wrong.
    fn write_marked(&mut self, mark: u16, bytes: &[u8], check_error: u16) {
        let mut covered = vec![decode_cells(mark)];
        covered.extend(bytes);
        let check = check_word(&covered) ^ check_error;
        self.write_cells(u64::from(mark), 16);
        self.write_bytes(bytes);
        self.write_bytes(&check.to_be_bytes());
    }

    /// Writes an ID: the mark of these cells, track, side, number, size code, check.
    pub fn write_id(&mut self, mark: u16, id: [u8; 4], check_error: u16) {
        self.write_marked(mark, &id, check_error);
    }

    /// Writes data: the mark of these cells, bytes, check.
    pub fn write_data(&mut self, mark: u16, data: &[u8], check_error: u16) {
        self.write_marked(mark, data, check_error);
    }

    /// Writes so many cells of gap: first, where the count is no multiple of 16, some ones,
    /// then bytes FF, the last six of them 00.
    pub fn write_gap_cells(&mut self, count: usize) {
        self.write_repeated_cell(1, count % 16);
        let gap_bytes = count / 16;
        let zeros = gap_bytes.min(6);
        self.write_repeated(0xFF, gap_bytes - zeros);
        self.write_repeated(0x00, zeros);
    }

    /// Writes a sector from its ID mark to its data check.
    pub fn write_sector(&mut self, plan: &FmSectorPlan) {
        let id = [plan.track, plan.side, plan.number, plan.size_code];
        self.write_id(plan.id_mark, id, plan.id_check_error);
        self.write_gap_cells(plan.gap_cells);
        if let Some(data_mark) = plan.data_mark {
            self.write_data(data_mark, &plan.data, plan.data_check_error);
        }
    }

    /// The cells written so far, then ones up to n cells, or cut at n.
    pub fn filled(&self, n: usize) -> Vec<u8> {
        let mut track_cells = self.cells.clone();
        track_cells.resize(n, 1);
        track_cells
    }
}

/// What a made FM sector holds. A mark is given by its cells, so that cells near to those
/// of a mark can be tried as well.
#[derive(Clone, Debug, PartialEq, Eq)]
pub struct FmSectorPlan {
    /// The cells of the ID mark.
    pub id_mark: u16,
    /// The ID's track.
    pub track: u8,
    /// The ID's side.
    pub side: u8,
    /// The ID's number.
    pub number: u8,
    /// The ID's size code.
    pub size_code: u8,
    /// The bits of the ID check that are written wrong.
    pub id_check_error: u16,
    /// The cells between the ID's end and the data mark.
    pub gap_cells: usize,
    /// The cells of the data mark; none for a sector without data.
    pub data_mark: Option<u16>,
    /// The data.
    pub data: Vec<u8>,
    /// The bits of the data check that are written wrong.
    pub data_check_error: u16,
}

impl FmSectorPlan {
    /// A sector of the standard FM track, its data filled with one byte.
    pub fn standard(track: u8, side: u8, number: u8, filler: u8) -> FmSectorPlan {
        FmSectorPlan {
            id_mark: ID_MARK,
            track,
            side,
            number,
            size_code: 0,
            id_check_error: 0,
            gap_cells: STANDARD_GAP_CELLS,
            data_mark: Some(DATA_MARK),
            data: vec![filler; 128],
            data_check_error: 0,
        }
    }
}

/// The standard FM track with this track and side in its IDs and this byte as all its
/// data. The numbers are 1 to 18.
pub fn standard_fm_track(track: u8, side: u8, filler: u8) -> Vec<u8> {
    fm_track_with(track, side, filler, |_| {})
}

/// The standard FM track, each of whose sectors `change` may change; 50,000 cells all the
/// same.
pub fn fm_track_with(
    track: u8,
    side: u8,
    filler: u8,
    mut change: impl FnMut(&mut FmSectorPlan),
) -> Vec<u8> {
    let mut builder = FmTrackBuilder::new();
    builder.write_repeated(0xFF, 20);
    for number in 1..=18 {
        let mut plan = FmSectorPlan::standard(track, side, number, filler);
        change(&mut plan);
        builder.write_repeated(0x00, 6);
        builder.write_sector(&plan);
        builder.write_repeated(0xFF, 10);
    }
    builder.filled(STANDARD_FM_TRACK_CELLS)
}

/// The track with the lowest `count` bits of a word as its cells from a place on, round
/// the track.
pub fn with_cells_at(track_cells: &[u8], place: usize, word: u64, count: usize) -> Vec<u8> {
    let mut changed = track_cells.to_vec();
    for bit in 0..count {
        let cell = (word >> (count - 1 - bit)) & 1;
        changed[(place + bit) % track_cells.len()] = cell as u8;
    }
    changed
}

#[cfg(test)]
mod tests {
    use super::*;
    use second_program::single_density;

    #[test]
    fn bytes_have_all_their_clocks() {
        assert_eq!(code_fm_byte(0x00), 0xAAAA);
        assert_eq!(code_fm_byte(0xFF), 0xFFFF);
        // FE, FB and F8 with the clocks that their marks lack.
        assert_eq!(code_fm_byte(0xFE), 0xFFFE);
        assert_eq!(code_fm_byte(0xFB), 0xFFEF);
        assert_eq!(code_fm_byte(0xF8), 0xFFEA);
        assert_eq!(code_fm_byte(0x01), 0xAAAB);
        for byte in 0..=255 {
            assert_eq!(decode_cells(code_fm_byte(byte)), byte);
            assert_eq!(code_fm_byte(byte) & 0xAAAA, 0xAAAA);
        }
    }

    #[test]
    fn the_standard_track_has_3125_bytes() {
        assert_eq!(6 + 7 + 11 + 6 + 131 + 10, 171);
        assert_eq!(20 + 18 * 171 + 27, 3_125);
        let track_cells = standard_fm_track(0, 0, 0x00);
        assert_eq!(track_cells.len(), STANDARD_FM_TRACK_CELLS);
        let places = single_density::id_mark_places(&cells::pack(&track_cells), 50_000);
        let expected: Vec<usize> = (0..18).map(|i| FIRST_PLACE + RECORD_CELLS * i).collect();
        assert_eq!(places, expected);
        assert_eq!(track_cells[50_000 - 27 * 16..], [1; 27 * 16]);
    }

    #[test]
    fn gaps_have_the_cells_asked_for() {
        for count in [0, 1, 15, 16, 17, 272, 464, 465] {
            let mut builder = FmTrackBuilder::new();
            builder.write_gap_cells(count);
            assert_eq!(builder.cells().len(), count);
        }
        let mut builder = FmTrackBuilder::new();
        builder.write_gap_cells(16 * 17);
        let mut expected = FmTrackBuilder::new();
        expected.write_repeated(0xFF, 11);
        expected.write_repeated(0x00, 6);
        assert_eq!(builder.cells(), expected.cells());
    }

    #[test]
    fn cells_are_written_over_the_index() {
        assert_eq!(
            with_cells_at(&[0, 0, 0, 0, 0], 3, 0b1011, 4),
            [1, 1, 0, 1, 0]
        );
    }
}
