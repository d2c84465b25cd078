//! The refusals, each with what is given beside it: rule 8.K is refusal K.
//!
//! The order in which a routine judges them stands in the routine itself.

/// Rule 8.1: the highest track of the drive.
pub const HIGHEST_TRACK: u32 = 83;
/// Rule 8.1: the highest side of the drive.
pub const HIGHEST_SIDE: u32 = 1;
/// Rule 8.2: the fewest cells of a track.
pub const FEWEST_CELLS: usize = 20_000;
/// Rules 8.2 and 8.9: the most cells of a track.
pub const MOST_CELLS: usize = 131_072;
/// The most tracks of a disk: 84 on each of two sides.
pub const MOST_TRACKS: usize = 168;
/// Rule 8.4: the most sectors of a track.
pub const MOST_SECTORS: usize = 64;
/// Rule 8.7: the most timings of a list.
pub const MOST_TIMINGS: usize = 65_536;
/// Rule 8.14: the most bytes to code.
pub const MOST_BYTES_TO_CODE: usize = 8_192;
/// Rule 8.14: the most bytes of cells to decode.
pub const MOST_BYTES_TO_DECODE: usize = 16_384;

/// A refused call: the number of the refusal, and what is given beside it.
#[derive(Clone, Copy, Debug, PartialEq, Eq)]
pub struct Refusal {
    /// The number, 1 to 29.
    pub number: u32,
    /// What is given beside it.
    pub value: u64,
}

impl Refusal {
    fn new(number: u32, value: usize) -> Refusal {
        Refusal {
            number,
            value: value as u64,
        }
    }

    /// 1: the drive has no such track or side. Beside it: 0.
    pub fn drive_place_out_of_range() -> Refusal {
        Refusal::new(1, 0)
    }

    /// 2: too few or too many cells. Beside it: N.
    pub fn cell_count_out_of_range(cells: usize) -> Refusal {
        Refusal::new(2, cells)
    }

    /// 3: bytes of the cells are missing. Beside it: how many N cells need.
    pub fn too_few_bytes_of_cells(bytes_needed: usize) -> Refusal {
        Refusal::new(3, bytes_needed)
    }

    /// 4: too many sectors. Beside it: how many there are.
    pub fn too_many_sectors(sectors: usize) -> Refusal {
        Refusal::new(4, sectors)
    }

    /// 5: the list cannot hold the findings. Beside it: how many there are.
    pub fn findings_list_too_short(findings: usize) -> Refusal {
        Refusal::new(5, findings)
    }

    /// 6: there is no timing. Beside it: 0.
    pub fn no_timings() -> Refusal {
        Refusal::new(6, 0)
    }

    /// 7: too many timings. Beside it: how many there are.
    pub fn too_many_timings(timings: usize) -> Refusal {
        Refusal::new(7, timings)
    }

    /// 8: a timing is out of range. Beside it: the least index of such a one.
    pub fn timing_out_of_range(index: usize) -> Refusal {
        Refusal::new(8, index)
    }

    /// 9: the timings give too many cells. Beside it: how many.
    pub fn too_many_cells(cells: usize) -> Refusal {
        Refusal::new(9, cells)
    }

    /// 10: the buffer cannot hold the cells. Beside it: how many bytes they need.
    pub fn too_little_room_for_cells(bytes_needed: usize) -> Refusal {
        Refusal::new(10, bytes_needed)
    }

    /// 10 of the converter: the buffer cannot hold the new file. Beside it: its length.
    pub fn too_little_room_for_a_file(bytes_needed: usize) -> Refusal {
        Refusal::new(10, bytes_needed)
    }

    /// 10 of a track block: the list cannot hold the timings. Beside it: how many they are.
    pub fn too_little_room_for_timings(timings_needed: usize) -> Refusal {
        Refusal::new(10, timings_needed)
    }

    /// 11: the index is too high. Beside it: how many sectors there are.
    pub fn no_such_sector(sectors: usize) -> Refusal {
        Refusal::new(11, sectors)
    }

    /// 12: the sector has no data. Beside it: 0.
    pub fn no_data() -> Refusal {
        Refusal::new(12, 0)
    }

    /// 13: the buffer cannot hold the bytes. Beside it: how many they are.
    pub fn too_little_room_for_bytes(bytes_needed: usize) -> Refusal {
        Refusal::new(13, bytes_needed)
    }

    /// 14: too many bytes to code or decode. Beside it: how many were handed over.
    pub fn too_many_bytes(bytes_given: usize) -> Refusal {
        Refusal::new(14, bytes_given)
    }

    /// 15: the bytes are no track file. Beside it: 0.
    pub fn not_a_track_file() -> Refusal {
        Refusal::new(15, 0)
    }

    /// 16: the bytes are no track block. Beside it: 0.
    pub fn not_a_track_block() -> Refusal {
        Refusal::new(16, 0)
    }

    /// 17: the block has no such revolution. Beside it: 0.
    pub fn no_such_revolution() -> Refusal {
        Refusal::new(17, 0)
    }

    /// 18: two reads of one sector are not equally long. Beside it: 0.
    pub fn reads_differ_in_length() -> Refusal {
        Refusal::new(18, 0)
    }

    /// 19: both reads have a length that no size code gives. Beside it: 0.
    pub fn no_length_of_a_read() -> Refusal {
        Refusal::new(19, 0)
    }

    /// 20: the list to write gives too many cells. Beside it: 0.
    pub fn too_many_cells_to_write() -> Refusal {
        Refusal::new(20, 0)
    }

    /// 21: a track and side are given twice. Beside it: 0.
    pub fn place_given_twice() -> Refusal {
        Refusal::new(21, 0)
    }

    /// 22: a disk has not so many tracks. Beside it: 0.
    pub fn too_many_tracks() -> Refusal {
        Refusal::new(22, 0)
    }

    /// 23: a track file has a flux section. Beside it: 0.
    pub fn flux_section() -> Refusal {
        Refusal::new(23, 0)
    }

    /// 24: the sectors make no plain image. Beside it: the first number from 1 to 9 that
    /// is at fault, or 0 where only sectors of other numbers are.
    pub fn no_plain_image(number_at_fault: u8) -> Refusal {
        Refusal::new(24, usize::from(number_at_fault))
    }

    /// 25: the findings of a disk are not such as its tracks can have. Beside it: 0.
    pub fn not_findings_of_a_disk() -> Refusal {
        Refusal::new(25, 0)
    }

    /// 26: the bytes are no image. Beside it: 0.
    pub fn not_an_image() -> Refusal {
        Refusal::new(26, 0)
    }

    /// 27: a byte of an image's header is not one that is taken. Beside it: its place.
    pub fn header_byte_not_taken(place: usize) -> Refusal {
        Refusal::new(27, place)
    }

    /// 28: a block of an image is not where one can stand. Beside it: its entry.
    pub fn no_place_for_a_block(entry: usize) -> Refusal {
        Refusal::new(28, entry)
    }

    /// 29: the header of an image has another check sum. Beside it: the sum of the bytes.
    pub fn other_check_sum(sum: u32) -> Refusal {
        Refusal::new(29, sum as usize)
    }
}

#[cfg(test)]
mod tests {
    use super::*;

    #[test]
    fn numbers_and_values_of_the_table() {
        let rows = [
            (Refusal::drive_place_out_of_range(), 1, 0),
            (Refusal::cell_count_out_of_range(19_999), 2, 19_999),
            (Refusal::too_few_bytes_of_cells(12_500), 3, 12_500),
            (Refusal::too_many_sectors(65), 4, 65),
            (Refusal::findings_list_too_short(7), 5, 7),
            (Refusal::no_timings(), 6, 0),
            (Refusal::too_many_timings(65_537), 7, 65_537),
            (Refusal::timing_out_of_range(3), 8, 3),
            (Refusal::too_many_cells(131_073), 9, 131_073),
            (Refusal::too_little_room_for_cells(2), 10, 2),
            (Refusal::too_little_room_for_a_file(15), 10, 15),
            (Refusal::too_little_room_for_timings(4), 10, 4),
            (Refusal::no_such_sector(9), 11, 9),
            (Refusal::no_data(), 12, 0),
            (Refusal::too_little_room_for_bytes(512), 13, 512),
            (Refusal::too_many_bytes(8_193), 14, 8_193),
            (Refusal::not_a_track_file(), 15, 0),
            (Refusal::not_a_track_block(), 16, 0),
            (Refusal::no_such_revolution(), 17, 0),
            (Refusal::reads_differ_in_length(), 18, 0),
            (Refusal::no_length_of_a_read(), 19, 0),
            (Refusal::too_many_cells_to_write(), 20, 0),
            (Refusal::place_given_twice(), 21, 0),
            (Refusal::too_many_tracks(), 22, 0),
            (Refusal::flux_section(), 23, 0),
            (Refusal::no_plain_image(0), 24, 0),
            (Refusal::no_plain_image(9), 24, 9),
            (Refusal::not_findings_of_a_disk(), 25, 0),
            (Refusal::not_an_image(), 26, 0),
            (Refusal::header_byte_not_taken(11), 27, 11),
            (Refusal::no_place_for_a_block(167), 28, 167),
            (Refusal::other_check_sum(u32::MAX), 29, 4_294_967_295),
        ];
        for (refusal, number, value) in rows {
            assert_eq!(refusal, Refusal { number, value });
        }
    }
}
