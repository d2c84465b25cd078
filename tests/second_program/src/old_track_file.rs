//! What was: a track file as it was read and listed while it could have a flux section.
//!
//! Nothing reads such files any more but the converter, which takes them as they were. The
//! listing is kept to show that a converted file is listed, or refused, as the old one was.
//!
//! An old file had cells or timings, and a count of 0 for the others. It was refused with
//! 15 at once for a place count that is not 2, with 2 at once for a cell count above
//! 131,072, and with 7 at once for a flux count above 65,536; at its end with 15 where both
//! counts were 0, or none of them, or bytes were missing or left over; then with what the
//! separator refuses of the timings; then with what is refused of the track.

use crate::cells;
use crate::listing::{lines_of, refused_line};
use crate::refusal::{Refusal, MOST_CELLS, MOST_TIMINGS};
use crate::separator;
use crate::track_file::{
    analysed, cell_count, flux_count, flux_count_at, number_at, packed_cells, place_count,
    place_of, TrackCells, NUMBER_LENGTH, PLACE_LENGTH,
};

/// What was refused at once of a file that begins with these bytes.
pub fn at_once(prefix: &[u8]) -> Option<Refusal> {
    if place_count(prefix)? != PLACE_LENGTH {
        return Some(Refusal::not_a_track_file());
    }
    let cell_count = cell_count(prefix)?;
    if cell_count > MOST_CELLS {
        return Some(Refusal::cell_count_out_of_range(cell_count));
    }
    let flux_count = flux_count(prefix, cell_count)?;
    if flux_count > MOST_TIMINGS {
        return Some(Refusal::too_many_timings(flux_count));
    }
    None
}

/// The sections of an old file.
struct Sections<'a> {
    place: (u8, u8),
    cell_count: usize,
    packed_cells: &'a [u8],
    timings: Vec<u32>,
}

/// The sections of a file of which nothing was refused at once; none where its end brought
/// 15.
fn sections(file: &[u8]) -> Option<Sections<'_>> {
    // A file that is cut before a count is whole is a short file.
    let cell_count = cell_count(file)?;
    let flux_count = flux_count(file, cell_count)?;
    let timings_at = flux_count_at(cell_count) + NUMBER_LENGTH;
    let end = timings_at + NUMBER_LENGTH * flux_count;
    if file.len() != end {
        return None;
    }
    if (cell_count == 0) == (flux_count == 0) {
        return None;
    }
    let mut timings = Vec::with_capacity(flux_count);
    for index in 0..flux_count {
        timings.push(number_at(file, timings_at + NUMBER_LENGTH * index)?);
    }
    Some(Sections {
        place: place_of(file),
        cell_count,
        packed_cells: packed_cells(file, cell_count),
        timings,
    })
}

/// What an old file gave.
#[derive(Clone, Debug, PartialEq, Eq)]
pub struct OldTrackCells {
    /// The place, and the cells that the file had or that its timings gave.
    pub cells: TrackCells,
    /// The number of border pulses among the timings; none of a file without timings.
    pub border_pulses: Option<usize>,
}

/// The place and the cells of an old file, whole. Of the separator's refusals, 6 gave way
/// to 15 and 7 to 7 at once; and 10 could not be, as there was room for the most cells.
pub fn read_cells(file: &[u8]) -> Result<OldTrackCells, Refusal> {
    if let Some(refusal) = at_once(file) {
        return Err(refusal);
    }
    let Some(sections) = sections(file) else {
        return Err(Refusal::not_a_track_file());
    };
    let (n, bytes, border_pulses) = if sections.cell_count > 0 {
        (sections.cell_count, sections.packed_cells.to_vec(), None)
    } else {
        let room = cells::bytes_needed(MOST_CELLS);
        let separation = separator::separate(&sections.timings, room)?;
        (
            separation.cells,
            separation.bytes,
            Some(separation.border_pulses),
        )
    };
    let (drive_track, drive_side) = sections.place;
    Ok(OldTrackCells {
        cells: TrackCells {
            drive_track: u32::from(drive_track),
            drive_side: u32::from(drive_side),
            n,
            bytes,
        },
        border_pulses,
    })
}

/// What the line of border pulses began with.
const BORDER_LINE: &str = "FAA ";

/// All that was printed of an old file. Where its cells came from timings, a line with the
/// number of border pulses stood after the findings, also where there were none; the header
/// did not count it.
pub fn listing(file: &[u8]) -> Vec<u8> {
    let lines = read_cells(file).and_then(|old| {
        let mut lines = lines_of(&analysed(old.cells)?);
        if let Some(number) = old.border_pulses {
            lines += &format!("{BORDER_LINE}{number}\n");
        }
        Ok(lines)
    });
    lines.unwrap_or_else(refused_line).into_bytes()
}

/// The same without the line of border pulses.
pub fn listing_without_border_line(file: &[u8]) -> Vec<u8> {
    let listing = listing(file);
    let text = String::from_utf8_lossy(&listing);
    let kept = text
        .split_inclusive('\n')
        .filter(|line| !line.starts_with(BORDER_LINE));
    kept.collect::<String>().into_bytes()
}
