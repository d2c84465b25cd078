//! The sectors of a track.

use crate::boundary::SECTOR_NUMBERS;
use crate::track::TrackInDensity;

/// The longest data of a sector, in bytes.
pub const LONGEST_SECTOR: usize = 1_024;

/// A sector's record, its fields in the order of rule 6.16.
#[derive(Clone, Copy, Debug, PartialEq, Eq, Hash)]
pub struct Sector {
    /// The cell of the ID mark.
    pub place: u32,
    /// The byte of the ID mark, FC to FF; in single density FE.
    pub mark: u8,
    /// The track that the ID names.
    pub track: u8,
    /// The side that the ID names.
    pub side: u8,
    /// The sector's number.
    pub number: u8,
    /// The size code. Its remainder by 4 says how long the data is: 128 bytes, 256, 512 or 1,024 (rule 6.11).
    pub size_code: u8,
    /// Whether the ID's check is good.
    pub id_check_good: bool,
    /// The cell of the data mark, counted on where it lies behind the index; 0 where there is none.
    pub data_place: u32,
    /// The byte of the data mark, F8 to FB, in single density FB or F8; 0 where there is none.
    pub data_mark: u8,
    /// How many data bytes there are; 0 where there is no data.
    pub data_length: usize,
    /// Whether the data's check is good; no where there is no data.
    pub data_check_good: bool,
    /// The cell where the data with its check bytes ends, counted on where that is behind the index; 0 where there is no data (rule 6.14).
    pub end: u32,
    /// The number of the [`Density`](crate::Density) that the track was read in: 1 or 2 (rule 6.20).
    pub density: u8,
}

impl Sector {
    /// The record of its thirteen numbers. The library gives bytes, checks of 0 and 1 and lengths up to 1,024, so that nothing is cut off.
    pub(crate) fn from_numbers(numbers: [u32; SECTOR_NUMBERS]) -> Sector {
        let [place, mark, track, side, number, size_code, id_check, data_place, data_mark, data_length, data_check, end, density] =
            numbers;
        Sector {
            place,
            mark: mark as u8,
            track: track as u8,
            side: side as u8,
            number: number as u8,
            size_code: size_code as u8,
            id_check_good: id_check == 1,
            data_place,
            data_mark: data_mark as u8,
            data_length: data_length as usize,
            data_check_good: data_check == 1,
            end,
            density: density as u8,
        }
    }

    /// Whether the sector has data, which can be read out: a data mark was found (rule 6.12).
    pub const fn has_data(&self) -> bool {
        self.data_mark != 0
    }
}

/// The sectors of a track, in the order of their places.
///
/// Each is looked up by its index, for which the library goes over the whole track.
#[derive(Clone, Debug)]
pub struct Sectors<'a> {
    track: TrackInDensity<'a>,
    next: usize,
    count: usize,
}

impl<'a> Sectors<'a> {
    pub(crate) fn new(track: TrackInDensity<'a>, count: usize) -> Sectors<'a> {
        Sectors { track, next: 0, count }
    }
}

impl Iterator for Sectors<'_> {
    type Item = Sector;

    fn next(&mut self) -> Option<Sector> {
        if self.next == self.count {
            return None;
        }
        // The track was accepted and is lent unchanged, so that an index below its sectors is not refused.
        let sector = self.track.sector(self.next).ok()?;
        self.next += 1;
        Some(sector)
    }

    fn size_hint(&self) -> (usize, Option<usize>) {
        let left = self.count - self.next;
        (left, Some(left))
    }
}

impl ExactSizeIterator for Sectors<'_> {}

impl std::iter::FusedIterator for Sectors<'_> {}

/// What reading out gives, beside the bytes.
#[derive(Clone, Copy, Debug, PartialEq, Eq)]
pub struct ReadOut {
    /// The bytes read out.
    pub length: usize,
    /// Whether their check is good.
    pub check_good: bool,
}

/// A sector's data.
#[derive(Clone, Debug, PartialEq, Eq)]
pub struct SectorData {
    /// The bytes.
    pub bytes: Vec<u8>,
    /// Whether their check is good.
    pub check_good: bool,
}
