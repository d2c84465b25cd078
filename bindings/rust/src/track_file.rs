//! Track files, and listings.

use crate::boundary::{self, PLACE_NUMBERS};
use crate::flux::MOST_TIMINGS;
use crate::refusal::Refusal;
use crate::track::{Track, MOST_CELL_BYTES};
use std::borrow::Cow;
use std::io::{self, Read};

/// The longest listing, in bytes.
pub const LONGEST_LISTING: usize = 65_536;

/// The bytes of the longest file: six of the place, four of each count, and the packed cells. A longer file is answered as its first
/// `LONGEST_FILE + 1` bytes are: all its counts stand before, so that what a count is refused for is the same, and bytes are left over in
/// both.
pub const LONGEST_FILE: usize = 6 + 4 + MOST_CELL_BYTES + 4;

/// The bytes of the longest old file: six of the place, four of each count, and four of each timing. A longer one is converted as its first
/// `LONGEST_OLD_FILE + 1` bytes are.
pub const LONGEST_OLD_FILE: usize = 6 + 4 + 4 + 4 * MOST_TIMINGS;

/// A track file, whole in memory (rules 10.1 to 10.3): the number 2, the track and the side; how many cells there are, and these, packed;
/// then the number 0. The track and the side have a byte, the other numbers four bytes, the lowest first. In old files the last number is
/// that of the flux timings that follow it, and there are no cells: [`convert_file_to_vec`] makes a file of today of such a one.
///
/// Nothing is judged when it is made.
///
/// ```
/// use thikbromu::{Refusal, TrackFile};
///
/// // Track 5, side 0, and 100,000 cells.
/// let place_and_count = [2, 0, 0, 0, 5, 0, 0xA0, 0x86, 1, 0];
/// let bytes = [&place_and_count[..], &[0xAA; 12_500], &[0; 4]].concat();
/// let file = TrackFile::new(&bytes);
/// let read = file.cells()?;
/// assert_eq!((read.track().cells(), read.track().track(), read.track().side()), (100_000, 5, 0));
/// assert_eq!(file.listing().lines().count(), 3);
/// // One byte is missing.
/// let short = TrackFile::new(&bytes[1..]);
/// assert_eq!(short.cells().err(), Some(Refusal::NotATrackFile));
/// assert_eq!(short.listing(), "refused 15\n");
/// # Ok::<(), Refusal>(())
/// ```
#[derive(Clone, Debug)]
pub struct TrackFile<'a> {
    bytes: Cow<'a, [u8]>,
}

impl<'a> TrackFile<'a> {
    /// The file of these bytes.
    pub const fn new(bytes: &'a [u8]) -> TrackFile<'a> {
        TrackFile { bytes: Cow::Borrowed(bytes) }
    }

    /// The file that a reader gives to its end. What it is refused for is said by the calls on it; an error here is the reader's own, and
    /// then nothing is known of the file. Of a file that is too long `LONGEST_FILE + 1` bytes are read, and no more: they have the same
    /// answers.
    ///
    /// ```
    /// use std::io;
    /// use thikbromu::TrackFile;
    ///
    /// let file = TrackFile::read_from(io::repeat(2))?;
    /// assert_eq!(file.listing(), "refused 15\n");
    /// # Ok::<(), io::Error>(())
    /// ```
    pub fn read_from(reader: impl Read) -> io::Result<TrackFile<'static>> {
        let mut bytes = Vec::new();
        reader.take(LONGEST_FILE as u64 + 1).read_to_end(&mut bytes)?;
        Ok(TrackFile { bytes: Cow::Owned(bytes) })
    }

    /// The bytes of the file.
    pub fn bytes(&self) -> &[u8] {
        &self.bytes
    }

    /// The cells, with their track and side. There is room for the most cells, so that [`NoRoom`](Refusal::NoRoom) is never given.
    ///
    /// Refuses at once, whatever follows (rule 10.4), [`NotATrackFile`](Refusal::NotATrackFile) where the place's count is not 2,
    /// [`CellCount`](Refusal::CellCount) where there are more than 131,072 cells, [`FluxSection`](Refusal::FluxSection) where the count of
    /// timings is not 0; after these [`NotATrackFile`](Refusal::NotATrackFile). What else a track can be refused for is judged by the calls
    /// on it.
    pub fn cells(&self) -> Result<TrackCells, Refusal> {
        let mut packed = vec![0; MOST_CELL_BYTES];
        let mut place = [0; PLACE_NUMBERS];
        let cells = boundary::file_cells(&self.bytes, &mut packed, &mut place)?;
        let [track, side] = place;
        packed.truncate(cells.div_ceil(8));
        Ok(TrackCells { packed, cells, track, side })
    }

    /// The listing (section 11 of the specification): a header and a line for each finding, or the word `refused` and a number.
    pub fn listing(&self) -> String {
        listing_of(|out| boundary::file_listing(&self.bytes, out))
    }
}

/// As [`convert_file`](boundary::convert_file), into a vector that has room for the longest file, so that room is never too little.
///
/// ```
/// use thikbromu::{convert_file_to_vec, Refusal, TrackFile};
///
/// // Track 5, side 0, no cells, and one timing of 4,000 ns, which makes two cells: 01.
/// let old = [2, 0, 0, 0, 5, 0, 0, 0, 0, 0, 1, 0, 0, 0, 0xA0, 0x0F, 0, 0];
/// assert_eq!(TrackFile::new(&old).cells().err(), Some(Refusal::FluxSection));
/// let new = convert_file_to_vec(&old)?;
/// assert_eq!(new, [2, 0, 0, 0, 5, 0, 2, 0, 0, 0, 0b0100_0000, 0, 0, 0, 0]);
/// assert_eq!(TrackFile::new(&new).cells()?.track().cells(), 2);
/// # Ok::<(), Refusal>(())
/// ```
pub fn convert_file_to_vec(file: &[u8]) -> Result<Vec<u8>, Refusal> {
    let mut out = vec![0; LONGEST_FILE];
    let length = boundary::convert_file(file, &mut out)?;
    out.truncate(length);
    Ok(out)
}

/// The cells that a track file gave, with their track and side.
#[derive(Clone, Debug, PartialEq, Eq)]
pub struct TrackCells {
    packed: Vec<u8>,
    cells: usize,
    track: u32,
    side: u32,
}

impl TrackCells {
    /// The track.
    pub fn track(&self) -> Track<'_> {
        Track::new(&self.packed, self.cells, self.track, self.side)
    }
}

/// A listing that `write` writes to a buffer and gives the length of. It is letters, digits, spaces and line ends.
pub(crate) fn listing_of(write: impl FnOnce(&mut [u8]) -> usize) -> String {
    let mut out = vec![0; LONGEST_LISTING];
    let length = write(&mut out);
    out.truncate(length);
    String::from_utf8(out).expect("a listing is ASCII")
}
