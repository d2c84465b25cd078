//! A track of packed cells.

use crate::boundary::{self, FindingRecord, SECTOR_IMAGE_BYTES, SECTOR_NUMBERS};
use crate::density::Density;
use crate::finding::{Finding, MOST_FINDINGS};
use crate::refusal::Refusal;
use crate::sector::{ReadOut, Sector, SectorData, Sectors, LONGEST_SECTOR};

/// The highest track of a drive.
pub const HIGHEST_TRACK: u32 = 83;

/// The highest side of a drive.
pub const HIGHEST_SIDE: u32 = 1;

/// The fewest cells of a track.
pub const FEWEST_CELLS: usize = 20_000;

/// The most cells of a track.
pub const MOST_CELLS: usize = 131_072;

/// The bytes of [`MOST_CELLS`].
pub const MOST_CELL_BYTES: usize = MOST_CELLS / 8;

/// The most sectors of a track.
pub const MOST_SECTORS: usize = 64;

/// A track: packed cells, and the track and side of the drive. A byte holds eight cells, the first as its highest bit. The cells form a
/// ring: after the last comes cell 0, which stands at the index (rules 1.1 to 1.3). It is read in double density;
/// [`in_density`](Track::in_density) reads the same cells in another.
///
/// Nothing is judged when it is made. The calls on sectors and findings judge it, and each refuses
/// [`TrackOrSide`](Refusal::TrackOrSide), [`CellCount`](Refusal::CellCount), [`TooFewBytes`](Refusal::TooFewBytes) and
/// [`TooManySectors`](Refusal::TooManySectors), in this order, before what it names itself.
#[derive(Clone, Copy, Debug)]
pub struct Track<'a> {
    packed: &'a [u8],
    cells: usize,
    track: u32,
    side: u32,
}

impl<'a> Track<'a> {
    /// A track of `cells` cells at the front of `packed`; what stands behind them is not looked at.
    pub const fn new(packed: &'a [u8], cells: usize, track: u32, side: u32) -> Track<'a> {
        Track { packed, cells, track, side }
    }

    /// The bytes that the cells are packed in.
    pub const fn packed(&self) -> &'a [u8] {
        self.packed
    }

    /// The number of cells.
    pub const fn cells(&self) -> usize {
        self.cells
    }

    /// The drive's track.
    pub const fn track(&self) -> u32 {
        self.track
    }

    /// The drive's side.
    pub const fn side(&self) -> u32 {
        self.side
    }

    /// Whether the cell at a place, which may lie behind the index, is a one. A cell for which there is no byte is none.
    pub fn cell(&self, place: usize) -> bool {
        boundary::cell(self.packed, self.cells, place) == 1
    }

    /// The word of `length` cells from `place`, the first of them its highest bit; a length above 64 counts as 64.
    pub fn word(&self, place: usize, length: usize) -> u64 {
        boundary::word(self.packed, self.cells, place, length)
    }

    /// The least place from `from` on and before `to` at which the word of `length` cells stands. Places may lie behind the index.
    pub fn find_word(&self, word: u64, length: usize, from: usize, to: usize) -> Option<usize> {
        // Where there is none, the library gives the greater of the ends.
        let place = boundary::find_word(self.packed, self.cells, word, length, from, to);
        (place < to).then_some(place)
    }

    /// The same track, read in this density.
    ///
    /// ```
    /// use thikbromu::{Density, Track};
    ///
    /// // 50,000 ones: in single density the bytes FF, in double density no code.
    /// let track = Track::new(&[0xFF; 6_250], 50_000, 80, 0);
    /// let lines: Vec<String> = track.in_density(Density::Single).findings()?.iter().map(|finding| finding.to_string()).collect();
    /// assert_eq!(lines, ["3 NOS level 3 place 0 detail 0"]);
    /// assert_eq!(track.findings()?.len(), 3); // SHT, NOS and MTV
    /// # Ok::<(), thikbromu::Refusal>(())
    /// ```
    pub const fn in_density(self, density: Density) -> TrackInDensity<'a> {
        TrackInDensity { track: self, density }
    }

    const fn in_double_density(self) -> TrackInDensity<'a> {
        self.in_density(Density::Double)
    }

    /// The sector of an index, which counts from 0, in the order of their places. Refuses [`NoSuchSector`](Refusal::NoSuchSector).
    pub fn sector(&self, index: usize) -> Result<Sector, Refusal> {
        self.in_double_density().sector(index)
    }

    /// The number of sectors.
    pub fn sector_count(&self) -> Result<usize, Refusal> {
        self.in_double_density().sector_count()
    }

    /// The sectors, in the order of their places.
    pub fn sectors(&self) -> Result<Sectors<'a>, Refusal> {
        self.in_double_density().sectors()
    }

    /// Reads out the sector of an index to the front of `buffer`. A bad check does not refuse the call.
    ///
    /// Refuses [`NoSuchSector`](Refusal::NoSuchSector), [`NoData`](Refusal::NoData),
    /// [`NoRoomForBytes`](Refusal::NoRoomForBytes).
    pub fn read_out(&self, index: usize, buffer: &mut [u8]) -> Result<ReadOut, Refusal> {
        self.in_double_density().read_out(index, buffer)
    }

    /// As [`read_out`](Track::read_out), into a vector that has room for the longest sector.
    pub fn read_out_to_vec(&self, index: usize) -> Result<SectorData, Refusal> {
        self.in_double_density().read_out_to_vec(index)
    }

    /// The plain image, as an .ST file has it: the 512 data bytes of sector 1, then those of sector 2, and so on up to 9 (rule 15.1). Such a
    /// file has the images of side 0 and side 1 of track 0, then those of track 1, and so on.
    ///
    /// Refuses [`NoPlainImage`](Refusal::NoPlainImage) where the track has not just the sectors 1 to 9, each once, with size code 2 and both
    /// checks good. The marks, and the track and side in the IDs, do not count (rule 15.2). It is in double density; the library has none of
    /// single density.
    pub fn sector_image(&self) -> Result<[u8; SECTOR_IMAGE_BYTES], Refusal> {
        let mut image = [0; SECTOR_IMAGE_BYTES];
        self.write_sector_image(&mut image)?;
        Ok(image)
    }

    /// As [`sector_image`](Track::sector_image), to the front of `image`. Gives how many bytes that is, [`SECTOR_IMAGE_BYTES`]; those behind
    /// them keep their contents.
    ///
    /// Refuses [`NoPlainImage`](Refusal::NoPlainImage), [`NoRoomForBytes`](Refusal::NoRoomForBytes), and then writes nothing.
    pub fn write_sector_image(&self, image: &mut [u8]) -> Result<usize, Refusal> {
        boundary::sector_image(self.packed, self.cells, self.track, self.side, image)
    }

    /// The findings, in the order of their kinds, those of one kind by their places (rule 7.32). The list has room for all that a track can
    /// bring, so that [`ListTooShort`](Refusal::ListTooShort) is never given.
    pub fn findings(&self) -> Result<Vec<Finding>, Refusal> {
        self.in_double_density().findings()
    }

    /// The listing (section 11 of the specification): a header and a line for each finding, or the word `refused` and a number. It is in
    /// double density; the library has none of single density.
    pub fn listing(&self) -> String {
        crate::track_file::listing_of(|out| boundary::listing(self.packed, self.cells, self.track, self.side, out))
    }
}

/// A track as it reads in a density, which [`Track::in_density`] gives. Its calls give and refuse what those of [`Track`] do, by the rules
/// of the density (rule 9.41). It has no listing, as the library lists double density alone.
#[derive(Clone, Copy, Debug)]
pub struct TrackInDensity<'a> {
    track: Track<'a>,
    density: Density,
}

impl<'a> TrackInDensity<'a> {
    /// The track, whose own calls read it in double density.
    pub const fn track(&self) -> Track<'a> {
        self.track
    }

    /// The density.
    pub const fn density(&self) -> Density {
        self.density
    }

    /// Stores the numbers of a sector's record, as many as there is room for, and gives the number of sectors.
    fn sector_numbers(&self, index: usize, numbers: &mut [u32]) -> Result<usize, Refusal> {
        let Track { packed, cells, track, side } = self.track;
        let sector = match self.density {
            Density::Single => boundary::fm_sector,
            Density::Double => boundary::sector,
        };
        sector(packed, cells, track, side, index, numbers)
    }

    /// As [`Track::sector`].
    pub fn sector(&self, index: usize) -> Result<Sector, Refusal> {
        let mut numbers = [0; SECTOR_NUMBERS];
        self.sector_numbers(index, &mut numbers)?;
        Ok(Sector::from_numbers(numbers))
    }

    /// As [`Track::sector_count`].
    pub fn sector_count(&self) -> Result<usize, Refusal> {
        match self.sector_numbers(0, &mut []) {
            Ok(sectors) | Err(Refusal::NoSuchSector(sectors)) => Ok(sectors),
            Err(refusal) => Err(refusal),
        }
    }

    /// As [`Track::sectors`].
    pub fn sectors(&self) -> Result<Sectors<'a>, Refusal> {
        Ok(Sectors::new(*self, self.sector_count()?))
    }

    /// As [`Track::read_out`].
    pub fn read_out(&self, index: usize, buffer: &mut [u8]) -> Result<ReadOut, Refusal> {
        let Track { packed, cells, track, side } = self.track;
        let read_out = match self.density {
            Density::Single => boundary::fm_read_out,
            Density::Double => boundary::read_out,
        };
        let mut good = 0;
        let length = read_out(packed, cells, track, side, index, buffer, &mut good)?;
        Ok(ReadOut { length, check_good: good == 1 })
    }

    /// As [`Track::read_out_to_vec`].
    pub fn read_out_to_vec(&self, index: usize) -> Result<SectorData, Refusal> {
        let mut bytes = vec![0; LONGEST_SECTOR];
        let ReadOut { length, check_good } = self.read_out(index, &mut bytes)?;
        bytes.truncate(length);
        Ok(SectorData { bytes, check_good })
    }

    /// As [`Track::findings`].
    pub fn findings(&self) -> Result<Vec<Finding>, Refusal> {
        let Track { packed, cells, track, side } = self.track;
        let finding_records = match self.density {
            Density::Single => boundary::fm_finding_records,
            Density::Double => boundary::finding_records,
        };
        let mut records = vec![FindingRecord::default(); MOST_FINDINGS];
        let count = finding_records(packed, cells, track, side, &mut records)?;
        let findings = records[..count].iter().map(|&record| Finding::try_from(record));
        Ok(findings.collect::<Result<_, _>>().expect("the library gives kinds 1 to 21 alone"))
    }
}

#[cfg(test)]
mod tests {
    use super::*;

    /// Zeros at track 80: NOS and NFA.
    const ZEROS: [u8; 12_500] = [0; 12_500];

    #[test]
    fn a_record_has_twelve_bytes() {
        assert_eq!(size_of::<FindingRecord>(), 12);
        assert_eq!(std::mem::offset_of!(FindingRecord, level), 1);
        assert_eq!(std::mem::offset_of!(FindingRecord, place), 4);
        assert_eq!(std::mem::offset_of!(FindingRecord, detail), 8);
    }

    #[test]
    fn records_have_the_level_of_their_kind() {
        let mut records = [FindingRecord::default(); 2];
        assert_eq!(boundary::finding_records(&ZEROS, 100_000, 80, 0, &mut records), Ok(2));
        for record in records {
            assert_eq!(Ok(record.level), Finding::try_from(record).map(|finding| finding.level()));
        }
    }

    /// The fields of the record stand where the library writes them: the kind, the level, the place and the detail of each of these
    /// findings are four different numbers, and the library gives them once by their order alone.
    #[test]
    fn records_and_numbers_are_the_same_findings() {
        // No flux in the data of the standard track's second sector: SBD, MTV and NFA.
        let mut packed = include_bytes!("../../../samples/standard.track")[10..12_510].to_vec();
        packed[2_000..2_200].fill(0);
        let mut records = [FindingRecord::default(); 3];
        let mut numbers = [0; 12];
        assert_eq!(boundary::finding_records(&packed, 100_000, 0, 0, &mut records), Ok(3));
        assert_eq!(boundary::findings(&packed, 100_000, 0, 0, &mut numbers), Ok(3));
        for (record, numbers) in records.iter().zip(numbers.chunks(4)) {
            assert_eq!([record.kind.into(), record.level.into(), record.place, record.detail], *numbers);
            for (place, number) in numbers.iter().enumerate() {
                assert!(!numbers[..place].contains(number), "{numbers:?}");
            }
        }
        assert_eq!(records[0], FindingRecord { kind: 15, level: 1, place: 10_976, detail: 2 });
    }

    #[test]
    fn a_list_too_short_is_refused_and_kept() {
        let kept = FindingRecord { kind: 9, level: 9, place: 9, detail: 9 };
        let mut records = [kept];
        let answer = boundary::finding_records(&ZEROS, 100_000, 80, 0, &mut records);
        assert_eq!(answer, Err(Refusal::ListTooShort(2)));
        assert_eq!(records, [kept]);
        let mut numbers = [9; 7];
        assert_eq!(boundary::findings(&ZEROS, 100_000, 80, 0, &mut numbers), Err(Refusal::ListTooShort(2)));
        assert_eq!(numbers, [9; 7]);
    }
}
