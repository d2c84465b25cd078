//! The refusals.

use std::error::Error;
use std::fmt;

/// Why a call was refused, with what is given beside it: rule 8.K is refusal K.
#[derive(Clone, Copy, Debug, PartialEq, Eq, Hash)]
pub enum Refusal {
    /// 1: the track is more than 83, or the side more than 1.
    TrackOrSide,
    /// 2: how many cells there are, less than 20,000 or more than 131,072.
    CellCount(usize),
    /// 3: how many bytes the cells need, some of which are missing.
    TooFewBytes(usize),
    /// 4: how many sectors there are, more than 64.
    TooManySectors(usize),
    /// 5: how many findings there are, more than the list holds.
    ListTooShort(usize),
    /// 6: there is no timing.
    NoTimings,
    /// 7: how many timings there are, more than 65,536.
    TooManyTimings(usize),
    /// 8: the least index of a timing that is not 1 to 10,000,000.
    TimingOutOfRange(usize),
    /// 9: how many cells come of the timings, more than 131,072.
    TooManyCells(usize),
    /// 10: how many bytes the cells or the new file need, or how many timings there are, for which there is no room.
    NoRoom(usize),
    /// 11: how many sectors there are, none of which has the index asked for.
    NoSuchSector(usize),
    /// 12: the sector has no data (rule 6.12).
    NoData,
    /// 13: how many bytes there are, for which there is no room.
    NoRoomForBytes(usize),
    /// 14: how many bytes were handed over, more than 8,192 to code or 16,384 to decode.
    TooManyBytes(usize),
    /// 15: the bytes are no track file (rules 10.4 and 10.7).
    NotATrackFile,
    /// 16: the bytes are no track block (rule 12.8).
    NotATrackBlock,
    /// 17: the block has no revolution of that index (rule 12.12).
    NoSuchRevolution,
    /// 18: two reads of a sector differ in length (rule 14.2).
    LengthsDiffer,
    /// 19: the reads have not 130, 258, 514 or 1,026 bytes (rule 14.2).
    NotASectorLength,
    /// 20: the cells of the list come to more than 131,072 (rule 17.8).
    TooLongATrack,
    /// 21: a disk has the same track and side twice (rule 16.5).
    TrackGivenTwice,
    /// 22: a disk of more than 168 tracks (rule 16.3).
    TooManyTracks,
    /// 23: the track file has a flux section (rule 10.4), so it is an old one to [convert](crate::convert_file_to_vec).
    FluxSection,
    /// 24: the track has no plain image (rule 15.2). The first number from 1 to 9 that stands in the way, or 0 where only a number besides
    /// these does (rule 15.4).
    NoPlainImage(usize),
    /// 25: the findings of a disk are not as many as its tracks say, or none that these tracks can have (rules 16.6 to 16.8).
    NotTheirFindings,
    /// 26: the bytes are not the beginning of a SuperCard Pro image (rule 19.5).
    NotAnImage,
    /// 27: the place of the first byte of the image's header that is not taken, 5 to 11 (rule 19.6).
    ImageHeader(usize),
    /// 28: the first entry of the image whose block cannot stand where it is said to begin, 0 to 167 (rule 19.9).
    ImageEntry(usize),
    /// 29: the sum of the image's bytes, where its header says another one (rule 19.14).
    ImageCheckSum(usize),
}

impl Refusal {
    /// Its number: 1 to 29.
    pub const fn number(self) -> u32 {
        match self {
            Refusal::TrackOrSide => 1,
            Refusal::CellCount(_) => 2,
            Refusal::TooFewBytes(_) => 3,
            Refusal::TooManySectors(_) => 4,
            Refusal::ListTooShort(_) => 5,
            Refusal::NoTimings => 6,
            Refusal::TooManyTimings(_) => 7,
            Refusal::TimingOutOfRange(_) => 8,
            Refusal::TooManyCells(_) => 9,
            Refusal::NoRoom(_) => 10,
            Refusal::NoSuchSector(_) => 11,
            Refusal::NoData => 12,
            Refusal::NoRoomForBytes(_) => 13,
            Refusal::TooManyBytes(_) => 14,
            Refusal::NotATrackFile => 15,
            Refusal::NotATrackBlock => 16,
            Refusal::NoSuchRevolution => 17,
            Refusal::LengthsDiffer => 18,
            Refusal::NotASectorLength => 19,
            Refusal::TooLongATrack => 20,
            Refusal::TrackGivenTwice => 21,
            Refusal::TooManyTracks => 22,
            Refusal::FluxSection => 23,
            Refusal::NoPlainImage(_) => 24,
            Refusal::NotTheirFindings => 25,
            Refusal::NotAnImage => 26,
            Refusal::ImageHeader(_) => 27,
            Refusal::ImageEntry(_) => 28,
            Refusal::ImageCheckSum(_) => 29,
        }
    }

    /// What is given beside it; 0 where that is nothing.
    pub const fn value(self) -> usize {
        match self {
            Refusal::CellCount(value)
            | Refusal::TooFewBytes(value)
            | Refusal::TooManySectors(value)
            | Refusal::ListTooShort(value)
            | Refusal::TooManyTimings(value)
            | Refusal::TimingOutOfRange(value)
            | Refusal::TooManyCells(value)
            | Refusal::NoRoom(value)
            | Refusal::NoSuchSector(value)
            | Refusal::NoRoomForBytes(value)
            | Refusal::TooManyBytes(value)
            | Refusal::NoPlainImage(value)
            | Refusal::ImageHeader(value)
            | Refusal::ImageEntry(value)
            | Refusal::ImageCheckSum(value) => value,
            Refusal::TrackOrSide
            | Refusal::NoTimings
            | Refusal::NoData
            | Refusal::NotATrackFile
            | Refusal::NotATrackBlock
            | Refusal::NoSuchRevolution
            | Refusal::LengthsDiffer
            | Refusal::NotASectorLength
            | Refusal::TooLongATrack
            | Refusal::TrackGivenTwice
            | Refusal::TooManyTracks
            | Refusal::FluxSection
            | Refusal::NotTheirFindings
            | Refusal::NotAnImage => 0,
        }
    }
}

/// A number and a value that are no refusal.
#[derive(Clone, Copy, Debug, PartialEq, Eq)]
pub struct NotARefusal {
    /// The number.
    pub number: u32,
    /// The value.
    pub value: usize,
}

/// The refusal of a number and a value. A row whose value is 0 has no other.
impl TryFrom<(u32, usize)> for Refusal {
    type Error = NotARefusal;

    fn try_from((number, value): (u32, usize)) -> Result<Refusal, NotARefusal> {
        Ok(match (number, value) {
            (1, 0) => Refusal::TrackOrSide,
            (2, _) => Refusal::CellCount(value),
            (3, _) => Refusal::TooFewBytes(value),
            (4, _) => Refusal::TooManySectors(value),
            (5, _) => Refusal::ListTooShort(value),
            (6, 0) => Refusal::NoTimings,
            (7, _) => Refusal::TooManyTimings(value),
            (8, _) => Refusal::TimingOutOfRange(value),
            (9, _) => Refusal::TooManyCells(value),
            (10, _) => Refusal::NoRoom(value),
            (11, _) => Refusal::NoSuchSector(value),
            (12, 0) => Refusal::NoData,
            (13, _) => Refusal::NoRoomForBytes(value),
            (14, _) => Refusal::TooManyBytes(value),
            (15, 0) => Refusal::NotATrackFile,
            (16, 0) => Refusal::NotATrackBlock,
            (17, 0) => Refusal::NoSuchRevolution,
            (18, 0) => Refusal::LengthsDiffer,
            (19, 0) => Refusal::NotASectorLength,
            (20, 0) => Refusal::TooLongATrack,
            (21, 0) => Refusal::TrackGivenTwice,
            (22, 0) => Refusal::TooManyTracks,
            (23, 0) => Refusal::FluxSection,
            (24, _) => Refusal::NoPlainImage(value),
            (25, 0) => Refusal::NotTheirFindings,
            (26, 0) => Refusal::NotAnImage,
            (27, _) => Refusal::ImageHeader(value),
            (28, _) => Refusal::ImageEntry(value),
            (29, _) => Refusal::ImageCheckSum(value),
            _ => return Err(NotARefusal { number, value }),
        })
    }
}

impl fmt::Display for Refusal {
    fn fmt(&self, out: &mut fmt::Formatter<'_>) -> fmt::Result {
        write!(out, "refused {}: ", self.number())?;
        match self {
            Refusal::TrackOrSide => write!(out, "the track is above 83 or the side above 1"),
            Refusal::CellCount(cells) => write!(out, "{cells} cells, not 20,000 to 131,072"),
            Refusal::TooFewBytes(needed) => write!(out, "the cells need {needed} bytes"),
            Refusal::TooManySectors(sectors) => write!(out, "{sectors} sectors, more than 64"),
            Refusal::ListTooShort(findings) => write!(out, "{findings} findings, more than the list holds"),
            Refusal::NoTimings => write!(out, "no timings"),
            Refusal::TooManyTimings(timings) => write!(out, "{timings} timings, more than 65,536"),
            Refusal::TimingOutOfRange(index) => write!(out, "the timing of index {index} is not 1 to 10,000,000"),
            Refusal::TooManyCells(cells) => write!(out, "{cells} cells in all, more than 131,072"),
            Refusal::NoRoom(needed) => write!(out, "room is needed for {needed} bytes, or {needed} timings"),
            Refusal::NoSuchSector(sectors) => write!(out, "no sector of that index among {sectors}"),
            Refusal::NoData => write!(out, "the sector has no data"),
            Refusal::NoRoomForBytes(needed) => write!(out, "room is needed for {needed} bytes"),
            Refusal::TooManyBytes(given) => write!(out, "{given} bytes, more than 8,192 to code or 16,384 to decode"),
            Refusal::NotATrackFile => write!(out, "not a track file"),
            Refusal::NotATrackBlock => write!(out, "not a track block"),
            Refusal::NoSuchRevolution => write!(out, "the track block lacks that revolution"),
            Refusal::LengthsDiffer => write!(out, "the two reads differ in length"),
            Refusal::NotASectorLength => write!(out, "the reads have not 130, 258, 514 or 1,026 bytes"),
            Refusal::TooLongATrack => write!(out, "the list makes more than 131,072 cells"),
            Refusal::TrackGivenTwice => write!(out, "a track and side stands twice"),
            Refusal::TooManyTracks => write!(out, "more than 168 tracks"),
            Refusal::FluxSection => write!(out, "the track file has a flux section: it is to be converted"),
            Refusal::NoPlainImage(0) => write!(out, "no plain image: there is a sector besides 1 to 9"),
            Refusal::NoPlainImage(number) => {
                write!(out, "no plain image: sector {number} is missing, double, of another size or with a bad check")
            }
            Refusal::NotTheirFindings => write!(out, "not the findings of these tracks"),
            Refusal::NotAnImage => write!(out, "not a SuperCard Pro image"),
            Refusal::ImageHeader(place) => write!(out, "byte {place} of the image's header: {}", header_fault(*place)),
            Refusal::ImageEntry(entry) => {
                write!(out, "the block of entry {entry} (track {}, side {}) cannot stand there", entry / 2, entry % 2)
            }
            Refusal::ImageCheckSum(sum) => {
                write!(out, "the image's bytes add up to {sum}, and its header says another sum")
            }
        }
    }
}

/// What is wrong with the byte of an image's header at a place (rule 19.6).
fn header_fault(place: usize) -> &'static str {
    match place {
        5 => "there are no revolutions",
        6 => "the first track is above the last",
        7 => "the last track is above 167",
        8 => "an image of another medium than a floppy disk",
        9 => "the values have not 16 bits",
        10 => "the heads are not 0, 1 or 2",
        11 => "the unit is not 25 ns",
        _ => "not taken",
    }
}

impl Error for Refusal {}

impl fmt::Display for NotARefusal {
    fn fmt(&self, out: &mut fmt::Formatter<'_>) -> fmt::Result {
        write!(out, "{} with {} is not a refusal", self.number, self.value)
    }
}

impl Error for NotARefusal {}

#[cfg(test)]
mod tests {
    use super::*;

    #[test]
    fn numbers_and_values_are_those_of_the_table() {
        // The refusals beside which 0 is given.
        let without_value = [1, 6, 12, 15, 16, 17, 18, 19, 20, 21, 22, 23, 25, 26];
        for number in 1..=29 {
            for value in [0, 7] {
                let refusal = Refusal::try_from((number, value));
                if value != 0 && without_value.contains(&number) {
                    assert_eq!(refusal, Err(NotARefusal { number, value }));
                } else {
                    assert_eq!(refusal.map(|refusal| (refusal.number(), refusal.value())), Ok((number, value)));
                }
            }
        }
    }

    #[test]
    fn other_numbers_are_no_refusals() {
        for number in [0, 30, u32::MAX] {
            assert_eq!(Refusal::try_from((number, 0)), Err(NotARefusal { number, value: 0 }));
        }
    }
}
