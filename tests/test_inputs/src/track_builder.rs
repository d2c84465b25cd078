//! Tracks made as cells, among them the standard track (rule 6.19).

use crate::random::Random;
use second_program::cells;
use second_program::check_word::check_word;
use second_program::mfm::{code_byte, SYNC_A1, SYNC_C2};

/// How many cells the standard track has (rule 6.19).
pub const STANDARD_TRACK_CELLS: usize = 100_000;

/// Writes cells one after the other, one cell to an element.
#[derive(Clone, Debug, Default)]
pub struct TrackBuilder {
    cells: Vec<u8>,
    /// The data bit before the next byte.
    bit_before: bool,
}

impl TrackBuilder {
    /// A builder without cells, the data bit before them being 0.
    pub fn new() -> TrackBuilder {
        TrackBuilder::default()
    }

    /// The cells written so far.
    pub fn cells(&self) -> &[u8] {
        &self.cells
    }

    /// The cells written so far, eight to a byte.
    pub fn packed(&self) -> Vec<u8> {
        cells::pack(&self.cells)
    }

    /// Writes the lowest `count` bits of a word (at most 64) as cells, the highest
    /// first. The last cell counts as the data bit before the next byte.
    pub fn write_cells(&mut self, word: u64, count: usize) {
        for bit in (0..count.min(64)).rev() {
            self.cells.push(((word >> bit) & 1) as u8);
        }
        if count > 0 {
            self.bit_before = word & 1 == 1;
        }
    }

    /// Writes the same cell so many times.
    pub fn write_repeated_cell(&mut self, cell: u8, count: usize) {
        for _ in 0..count {
            self.write_cells(u64::from(cell), 1);
        }
    }

    /// Removes the last `count` cells; the data bit before the next byte stays.
    pub fn remove_last(&mut self, count: usize) {
        self.cells.truncate(self.cells.len().saturating_sub(count));
    }

    /// Writes one byte by the clock rule.
    pub fn write_byte(&mut self, byte: u8) {
        self.write_cells(u64::from(code_byte(byte, self.bit_before)), 16);
    }

    /// Writes bytes by the clock rule.
    pub fn write_bytes(&mut self, bytes: &[u8]) {
        for &byte in bytes {
            self.write_byte(byte);
        }
    }

    /// Writes the same byte so many times by the clock rule.
    pub fn write_repeated(&mut self, byte: u8, count: usize) {
        for _ in 0..count {
            self.write_byte(byte);
        }
    }

    /// Writes the sync A1: 4489.
    pub fn write_sync_a1(&mut self) {
        self.write_cells(u64::from(SYNC_A1), 16);
    }

    /// Writes the sync C2: 5224.
    pub fn write_sync_c2(&mut self) {
        self.write_cells(u64::from(SYNC_C2), 16);
    }

    /// Writes three syncs A1.
    pub fn write_three_syncs(&mut self) {
        for _ in 0..3 {
            self.write_sync_a1();
        }
    }

    /// Writes three syncs, the mark, the bytes and their check word. A bit set in
    /// `check_error` is written wrong.
    fn write_marked(&mut self, mark: u8, bytes: &[u8], check_error: u16) {
        let mut covered = vec![0xA1, 0xA1, 0xA1, mark];
        covered.extend(bytes);
        let check = check_word(&covered) ^ check_error;
        self.write_three_syncs();
        self.write_byte(mark);
        self.write_bytes(bytes);
        self.write_bytes(&check.to_be_bytes());
    }

    /// Writes an ID: three syncs, mark, track, side, number, size code, check.
    pub fn write_id(&mut self, mark: u8, id: [u8; 4], check_error: u16) {
        self.write_marked(mark, &id, check_error);
    }

    /// Writes data: three syncs, mark, bytes, check.
    pub fn write_data(&mut self, mark: u8, data: &[u8], check_error: u16) {
        self.write_marked(mark, data, check_error);
    }

    /// Writes so many cells of gap: first, where the count is no multiple of 16,
    /// some cells without meaning, then bytes 4E, the last twelve of them 00.
    pub fn write_gap_cells(&mut self, count: usize) {
        for place in 0..count % 16 {
            // A one in every third cell keeps to the distances of lawful cells.
            self.write_cells(u64::from(place % 3 == 2), 1);
        }
        let gap_bytes = count / 16;
        let zeros = gap_bytes.min(12);
        self.write_repeated(0x4E, gap_bytes - zeros);
        self.write_repeated(0x00, zeros);
    }

    /// Writes a sector from its ID's syncs to its data check.
    pub fn write_sector(&mut self, plan: &SectorPlan) {
        let id = [plan.track, plan.side, plan.number, plan.size_code];
        self.write_id(plan.id_mark, id, plan.id_check_error);
        self.write_gap_cells(plan.gap_cells);
        if let Some(data_mark) = plan.data_mark {
            self.write_data(data_mark, &plan.data, plan.data_check_error);
        }
    }
}

/// What a made sector holds.
#[derive(Clone, Debug, PartialEq, Eq)]
pub struct SectorPlan {
    /// The byte of the ID mark.
    pub id_mark: u8,
    /// The ID's track.
    pub track: u8,
    /// The ID's side.
    pub side: u8,
    /// The ID's number.
    pub number: u8,
    /// The ID's size code.
    pub size_code: u8,
    /// The bits of the ID check that are written wrong.
    pub id_check_error: u16,
    /// The cells between the ID's end and the data's syncs.
    pub gap_cells: usize,
    /// The byte of the data mark; none for a sector without data.
    pub data_mark: Option<u8>,
    /// The data.
    pub data: Vec<u8>,
    /// The bits of the data check that are written wrong.
    pub data_check_error: u16,
}

impl SectorPlan {
    /// A sector of the standard track, its data filled with one byte.
    pub fn standard(track: u8, side: u8, number: u8, filler: u8) -> SectorPlan {
        SectorPlan {
            id_mark: 0xFE,
            track,
            side,
            number,
            size_code: 2,
            id_check_error: 0,
            gap_cells: 16 * (22 + 12),
            data_mark: Some(0xFB),
            data: vec![filler; 512],
            data_check_error: 0,
        }
    }
}

/// The standard track (rule 6.19) with this track and side in its IDs and this byte as
/// all its data. The numbers are 1 to 9. One cell to an element.
pub fn standard_track(track: u8, side: u8, filler: u8) -> Vec<u8> {
    let mut builder = nine_sectors(track, side, filler, |_| {});
    builder.write_repeated(0x4E, 664);
    builder.cells
}

/// The standard track up to its nine records, each of which `change` may change.
pub fn nine_sectors(
    track: u8,
    side: u8,
    filler: u8,
    change: impl Fn(&mut SectorPlan),
) -> TrackBuilder {
    let mut builder = TrackBuilder::new();
    builder.write_repeated(0x4E, 60);
    for number in 1..=9 {
        let mut plan = SectorPlan::standard(track, side, number, filler);
        change(&mut plan);
        builder.write_repeated(0x00, 12);
        builder.write_sector(&plan);
        builder.write_repeated(0x4E, 40);
    }
    builder
}

/// Cells followed by those of bytes 4E up to n cells, or cut at n.
pub fn filled(mut track_cells: Vec<u8>, n: usize) -> Vec<u8> {
    let mut filling = TrackBuilder::new();
    filling.write_byte(0x4E);
    while track_cells.len() < n {
        track_cells.push(filling.cells()[track_cells.len() % 16]);
    }
    track_cells.truncate(n);
    track_cells
}

/// The track turned: the cell at place i goes to place i + `by`, round the track.
pub fn turn(track_cells: &[u8], by: usize) -> Vec<u8> {
    let mut turned = track_cells.to_vec();
    if !turned.is_empty() {
        let places = by % turned.len();
        turned.rotate_right(places);
    }
    turned
}

/// A random sector plan, for the most part standard, with some odd part now and
/// then: enough of them bring every finding about sectors.
pub fn odd_sector(random: &mut Random, drive_track: u8, number: u8) -> SectorPlan {
    let mut plan = SectorPlan::standard(drive_track, random.below(2) as u8, number, random.byte());
    if random.one_in(3) {
        plan.size_code = random.below(4) as u8;
    }
    plan.data = vec![random.byte(); 128 << plan.size_code.min(3)];
    if random.one_in(2) {
        for byte in &mut plan.data {
            *byte = random.byte();
        }
    }
    if random.one_in(10) {
        plan.size_code = random.byte();
    }
    if random.one_in(8) {
        plan.id_mark = 0xFC + random.below(4) as u8;
    }
    if random.one_in(10) {
        plan.track = random.byte();
    }
    if random.one_in(10) {
        plan.side = random.byte();
    }
    if random.one_in(10) {
        plan.number = 243 + random.below(7) as u8;
    }
    if random.one_in(10) {
        plan.id_check_error = 1 << random.below(16);
    }
    if random.one_in(10) {
        plan.data_check_error = 1 << random.below(16);
    }
    if random.one_in(6) {
        plan.gap_cells = random.below(640) as usize;
    }
    if random.one_in(20) {
        plan.gap_cells = [0, 1, 623, 624, 625, 626][random.below(6) as usize];
    }
    if random.one_in(8) {
        plan.data_mark = Some(0xF7 + random.below(6) as u8);
    }
    if random.one_in(12) {
        plan.data_mark = None;
    }
    plan
}

/// A random track with odd sectors, stray syncs, runs of zeros and single wrong
/// cells, turned by a random number of cells. One cell to an element. Its length is
/// for the most part one that is not refused.
pub fn odd_track(random: &mut Random, drive_track: u8) -> Vec<u8> {
    let mut builder = TrackBuilder::new();
    let length = match random.below(8) {
        0 => random.between(19_990, 24_000) as usize,
        1 => random.between(96_990, 97_010) as usize,
        2 => random.between(102_990, 103_010) as usize,
        3 => random.between(126_000, 131_080) as usize,
        _ => random.between(99_000, 101_000) as usize,
    };
    let sectors_wanted = match random.below(8) {
        0 => random.below(2) as usize,
        1 => random.between(60, 70) as usize,
        _ => random.between(7, 12) as usize,
    };
    builder.write_repeated(0x4E, random.below(80) as usize);
    for index in 0..sectors_wanted {
        let number = if random.one_in(6) {
            random.below(12) as u8
        } else {
            index as u8 + 1
        };
        builder.write_repeated(0x00, random.below(14) as usize);
        let mut plan = odd_sector(random, drive_track, number);
        if sectors_wanted > 20 {
            // Many sectors find room only where few of them have data, and little.
            plan.data.truncate(128);
            plan.gap_cells = random.below(700) as usize;
            if !random.one_in(5) {
                plan.data_mark = None;
            }
        }
        builder.write_sector(&plan);
        builder.write_repeated(0x4E, random.below(60) as usize);
        if random.one_in(12) {
            builder.write_sync_a1();
        }
        if random.one_in(12) {
            builder.write_sync_c2();
        }
        if random.one_in(20) {
            builder.write_repeated_cell(0, random.between(900, 1_200) as usize);
        }
    }
    let mut track_cells = builder.cells;
    while track_cells.len() < length {
        let gap = u64::from(code_byte(0x4E, false));
        let bit = (gap >> (15 - track_cells.len() % 16)) & 1;
        track_cells.push(bit as u8);
    }
    track_cells.truncate(length);
    if random.one_in(3) {
        for _ in 0..random.between(1, 20) {
            let place = random.below(track_cells.len() as u64) as usize;
            track_cells[place] ^= 1;
        }
    }
    let by = random.below(track_cells.len() as u64) as usize;
    turn(&track_cells, by)
}

#[cfg(test)]
mod tests {
    use super::*;
    use second_program::sectors;

    #[test]
    fn the_standard_track_has_6250_bytes_of_data() {
        assert_eq!(60 + 9 * 614 + 664, 6_250);
        let track_cells = standard_track(0, 0, 0x00);
        assert_eq!(track_cells.len(), STANDARD_TRACK_CELLS);
        let bytes = cells::pack(&track_cells);
        assert_eq!(bytes[..2], [0x92, 0x54]);
        assert_eq!(
            cells::word(&bytes, STANDARD_TRACK_CELLS, 1_152, 48),
            0x4489_4489_4489
        );
        assert_eq!(
            cells::word(&bytes, STANDARD_TRACK_CELLS, 99_984, 16),
            0x9254
        );
    }

    #[test]
    fn turning_moves_each_cell_on() {
        assert_eq!(turn(&[1, 2, 3, 4], 1), [4, 1, 2, 3]);
        assert_eq!(turn(&[1, 2, 3, 4], 4), [1, 2, 3, 4]);
        assert_eq!(turn(&[1, 2, 3, 4], 7), [2, 3, 4, 1]);
        assert!(turn(&[], 3).is_empty());
    }

    #[test]
    fn gaps_have_the_cells_asked_for() {
        for count in [0, 1, 15, 16, 17, 544, 624, 625] {
            let mut builder = TrackBuilder::new();
            builder.write_gap_cells(count);
            assert_eq!(builder.cells().len(), count);
        }
        let mut builder = TrackBuilder::new();
        builder.write_gap_cells(544);
        let mut expected = TrackBuilder::new();
        expected.write_repeated(0x4E, 22);
        expected.write_repeated(0x00, 12);
        assert_eq!(builder.cells(), expected.cells());
    }

    #[test]
    fn cells_and_syncs_are_written_highest_first() {
        let mut builder = TrackBuilder::new();
        builder.write_sync_a1();
        builder.write_byte(0x00);
        builder.write_sync_c2();
        builder.write_cells(0b101, 3);
        builder.write_repeated_cell(0, 5);
        assert_eq!(builder.packed(), [0x44, 0x89, 0x2A, 0xAA, 0x52, 0x24, 0xA0]);
        builder.remove_last(6);
        assert_eq!(builder.cells().len(), 50);
    }

    #[test]
    fn odd_tracks_have_many_kinds_of_sectors() {
        let mut random = Random::new(21);
        let mut sectors_seen = 0;
        for _ in 0..10 {
            let track_cells = odd_track(&mut random, 5);
            let n = track_cells.len();
            let sectors = sectors::list(&cells::pack(&track_cells), n);
            sectors_seen += sectors.len();
        }
        assert!(sectors_seen > 40);
    }
}
