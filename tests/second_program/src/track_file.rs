//! Reading a whole track file (rules 10.1 to 10.7, 10.9 and 10.10).
//!
//! The whole file lies in memory here, so each part of it is looked up at its place. A file
//! with a flux section is refused; what was done with one is in `old_track_file`.

use crate::cells;
use crate::findings::{self, Finding, DSN, EXT, LGT, MTV, NFA, SID};
use crate::refusal::{Refusal, MOST_CELLS, MOST_SECTORS};
use crate::sectors::{self, SectorRecord};

/// The bytes of a count or a timing (rule 10.2).
pub(crate) const NUMBER_LENGTH: usize = 4;
/// The bytes of the place, and its count (rules 10.2 and 10.4).
pub(crate) const PLACE_LENGTH: usize = 2;
/// Where T stands in the file.
const DRIVE_TRACK_AT: usize = NUMBER_LENGTH;
/// Where H stands in the file.
const DRIVE_SIDE_AT: usize = DRIVE_TRACK_AT + 1;
/// Where the cell count stands in the file.
const CELL_COUNT_AT: usize = DRIVE_TRACK_AT + PLACE_LENGTH;
/// Where the packed bytes of cells stand in the file.
const PACKED_CELLS_AT: usize = CELL_COUNT_AT + NUMBER_LENGTH;

/// The room of the program for findings (rules 7.35 and 13.6): one of each kind about the
/// whole track, and one of each kind about sectors for each sector.
pub const ROOM_FOR_FINDINGS: usize =
    (EXT - LGT + 1) as usize + (SID - DSN + 1) as usize * MOST_SECTORS + (NFA - MTV + 1) as usize;

/// The number that the four bytes at a place of the file make, low byte first; none
/// where the file ends before it is whole.
pub(crate) fn number_at(file: &[u8], at: usize) -> Option<u32> {
    let bytes = file.get(at..at + NUMBER_LENGTH)?;
    Some(u32::from_le_bytes([bytes[0], bytes[1], bytes[2], bytes[3]]))
}

/// The place count; none where the file ends before it is whole.
pub(crate) fn place_count(file: &[u8]) -> Option<usize> {
    number_at(file, 0).map(|count| count as usize)
}

/// The cell count; none where the file ends before it is whole.
pub(crate) fn cell_count(file: &[u8]) -> Option<usize> {
    number_at(file, CELL_COUNT_AT).map(|count| count as usize)
}

/// Where the flux count stands in the file: after the packed bytes of so many cells.
pub(crate) fn flux_count_at(cell_count: usize) -> usize {
    PACKED_CELLS_AT + cells::bytes_needed(cell_count)
}

/// The flux count after so many cells; none where the file ends before it is whole.
pub(crate) fn flux_count(file: &[u8], cell_count: usize) -> Option<usize> {
    number_at(file, flux_count_at(cell_count)).map(|count| count as usize)
}

/// The packed bytes of so many cells, in a file that has them all.
pub(crate) fn packed_cells(file: &[u8], cell_count: usize) -> &[u8] {
    &file[PACKED_CELLS_AT..flux_count_at(cell_count)]
}

/// T and H, in a file that has both.
pub(crate) fn place_of(file: &[u8]) -> (u8, u8) {
    (file[DRIVE_TRACK_AT], file[DRIVE_SIDE_AT])
}

/// What a program refuses at once that has read these bytes, the first of a file (rules
/// 10.4 to 10.6): 15 by the place count, 2 by the cell count, 23 by the flux count. Four
/// bytes of a count are enough to judge it; what comes after them does not matter.
pub fn at_once(prefix: &[u8]) -> Option<Refusal> {
    if place_count(prefix)? != PLACE_LENGTH {
        return Some(Refusal::not_a_track_file());
    }
    let cell_count = cell_count(prefix)?;
    if cell_count > MOST_CELLS {
        return Some(Refusal::cell_count_out_of_range(cell_count));
    }
    if flux_count(prefix, cell_count)? != 0 {
        return Some(Refusal::flux_section());
    }
    None
}

/// The place and the cells that a track file holds (rule 10.9).
#[derive(Clone, Debug, PartialEq, Eq)]
pub struct TrackCells {
    /// T.
    pub drive_track: u32,
    /// H.
    pub drive_side: u32,
    /// N.
    pub n: usize,
    /// The packed cells, as many bytes as N cells need.
    pub bytes: Vec<u8>,
}

/// The place and the cells of a file of which nothing is refused at once; none where its
/// end brings 15 (rule 10.7): a count of no cells beside one of no timings, bytes that are
/// missing, or bytes left over.
fn sections(file: &[u8]) -> Option<TrackCells> {
    let n = cell_count(file)?;
    if n == 0 || file.len() != flux_count_at(n) + NUMBER_LENGTH {
        return None;
    }
    let (drive_track, drive_side) = place_of(file);
    Some(TrackCells {
        drive_track: u32::from(drive_track),
        drive_side: u32::from(drive_side),
        n,
        bytes: packed_cells(file, n).to_vec(),
    })
}

/// The place and the cells of a whole file. First come the refusals that are given at
/// once, then 15 (rules 10.4 to 10.7).
pub fn read_cells(file: &[u8]) -> Result<TrackCells, Refusal> {
    if let Some(refusal) = at_once(file) {
        return Err(refusal);
    }
    sections(file).ok_or_else(Refusal::not_a_track_file)
}

/// What a track that is not refused gives.
#[derive(Clone, Debug, PartialEq, Eq)]
pub struct Track {
    /// The place and the cells.
    pub cells: TrackCells,
    /// The sector list.
    pub sectors: Vec<SectorRecord>,
    /// The findings list.
    pub findings: Vec<Finding>,
}

/// A track with its sectors and findings. Refusals in order: 1 to 5. Of these 5 cannot be,
/// as there is room for all findings (rule 11.7).
pub fn analysed(cells: TrackCells) -> Result<Track, Refusal> {
    let findings = findings::findings(
        cells.drive_track,
        cells.drive_side,
        &cells.bytes,
        cells.n,
        ROOM_FOR_FINDINGS,
    )?;
    let sectors = sectors::list(&cells.bytes, cells.n);
    Ok(Track {
        cells,
        sectors,
        findings,
    })
}

/// A whole file read. After the refusals of `read_cells` come those of the track, 1 to 5
/// (rule 11.8). Of these 3 has given way to 15, since bytes were missing.
pub fn read(file: &[u8]) -> Result<Track, Refusal> {
    analysed(read_cells(file)?)
}
