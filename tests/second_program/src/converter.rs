//! The converter: an old track file with a flux section becomes one with a cell section.
//!
//! Its refusals are those that the old file had, for a file whose cell count is 0: every
//! other cell count is refused with 15 as soon as it is there. T and H are not judged, and
//! of the number of cells only that it is not 0.

use crate::listing::{listing, refused_line};
use crate::old_track_file;
use crate::refusal::{Refusal, HIGHEST_SIDE, HIGHEST_TRACK, MOST_TIMINGS};
use crate::track_file::{cell_count, flux_count, place_count, TrackCells, PLACE_LENGTH};

/// What the converter refuses at once that has read these bytes, the first of a file: 15 by
/// the place count, 15 by the cell count, 7 by the flux count.
pub fn at_once(prefix: &[u8]) -> Option<Refusal> {
    if place_count(prefix)? != PLACE_LENGTH {
        return Some(Refusal::not_a_track_file());
    }
    if cell_count(prefix)? != 0 {
        return Some(Refusal::not_a_track_file());
    }
    let flux_count = flux_count(prefix, 0)?;
    if flux_count > MOST_TIMINGS {
        return Some(Refusal::too_many_timings(flux_count));
    }
    None
}

/// The track file of these cells: the place, the cells, and a flux count of 0.
fn file_of(track: &TrackCells) -> Vec<u8> {
    let mut file = (PLACE_LENGTH as u32).to_le_bytes().to_vec();
    file.push(track.drive_track as u8);
    file.push(track.drive_side as u8);
    file.extend((track.n as u32).to_le_bytes());
    file.extend(&track.bytes);
    file.extend(0u32.to_le_bytes());
    file
}

/// The new file of an old one. Refusals in order: 15 and 7 at once; 15, 8 and 9 as the old
/// file had them; 2 where the timings give no cells.
pub fn converted(file: &[u8]) -> Result<Vec<u8>, Refusal> {
    if let Some(refusal) = at_once(file) {
        return Err(refusal);
    }
    let track = old_track_file::read_cells(file)?.cells;
    if track.n == 0 {
        return Err(Refusal::cell_count_out_of_range(0));
    }
    Ok(file_of(&track))
}

/// The call on a whole file: what is written to the front of a buffer with so much room, in
/// bytes. After the refusals of `converted` comes 10, with the length of the new file.
pub fn convert_file(file: &[u8], room: usize) -> Result<Vec<u8>, Refusal> {
    let new_file = converted(file)?;
    if room < new_file.len() {
        return Err(Refusal::too_little_room_for_a_file(new_file.len()));
    }
    Ok(new_file)
}

/// All that the program writes to standard output for a whole file: the new file, or one
/// line where the old one is refused.
pub fn printed(file: &[u8]) -> Vec<u8> {
    match converted(file) {
        Ok(new_file) => new_file,
        Err(refusal) => refused_line(refusal).into_bytes(),
    }
}

/// What is printed of a file that is converted and then listed: the listing of the new file,
/// or the converter's refusal.
pub fn listed_after(file: &[u8]) -> Vec<u8> {
    match converted(file) {
        Ok(new_file) => listing(&new_file),
        Err(refusal) => refused_line(refusal).into_bytes(),
    }
}

/// Whether a cell count other than 0 stands in a file, so that it is no file of timings.
pub fn has_cells(file: &[u8]) -> bool {
    place_count(file) == Some(PLACE_LENGTH) && cell_count(file).is_some_and(|count| count > 0)
}

/// The one corner in which the converter's refusal is another than that of the old file: no
/// cells come out of the timings, and no drive has the place. There 1 went before 2, but the
/// converter does not judge the place.
pub fn is_corner(file: &[u8]) -> bool {
    old_track_file::read_cells(file).is_ok_and(|old| {
        let outside = old.cells.drive_track > HIGHEST_TRACK || old.cells.drive_side > HIGHEST_SIDE;
        old.cells.n == 0 && outside
    })
}

/// What `listed_after` has to be, by what was printed of the old file: the same without the
/// line of border pulses, but for the corner. Of a file with cells, which is none for the
/// converter, nothing is asked.
pub fn listed_before(file: &[u8]) -> Option<Vec<u8>> {
    if has_cells(file) {
        None
    } else if is_corner(file) {
        Some(b"refused 2\n".to_vec())
    } else {
        Some(old_track_file::listing_without_border_line(file))
    }
}
