//! The plain image of a disk, as emulators read it.

use crate::disk::DiskReading;
use crate::ending::{not_written, say, Ended, Status};
use crate::files::write_whole;
use crate::refusals;
use std::path::Path;
use thikbromu::Kind;

/// The tracks of a usual disk.
const USUAL_TRACKS: u32 = 80;

/// Writes the plain image of the disk, or says which track stands in the way.
pub fn write(disk: &DiskReading, out: &Path) -> Result<Status, Ended> {
    match plain_image(disk) {
        Ok(bytes) => {
            write_whole(out, &bytes).map_err(|error| not_written(out.display(), &error))?;
            Ok(Status::Listed)
        }
        Err(words) => {
            say(&format!("{} is not written: {words}", out.display()));
            Ok(Status::Refused)
        }
    }
}

/// The images of all tracks, side 0 and then side 1 of each. All tracks up to 79 are needed, or up to the last that the header names; those
/// behind 79 as far as sectors were found there. A side that the page finds empty is left out, as is one that the image does not have.
fn plain_image(disk: &DiskReading) -> Result<Vec<u8>, String> {
    let mut bytes = Vec::new();
    let sides = sides(disk);
    for track in 0..tracks(disk) {
        for &side in &sides {
            let reading = disk.tracks.iter().find(|reading| (reading.track, reading.side) == (track, side));
            let image = match reading.map(|reading| &reading.read) {
                None => Err("is not in the image".to_string()),
                Some(Err(refusal)) => Err(refusals::in_words(*refusal)),
                Some(Ok(read)) => read.cells.track(track, side).sector_image().map_err(refusals::in_words),
            };
            bytes.extend(image.map_err(|words| format!("T{track:02} H{side} {words}"))?);
        }
    }
    Ok(bytes)
}

/// How many tracks the disk has.
fn tracks(disk: &DiskReading) -> u32 {
    let named = u32::from(disk.file.image.header().last_track) / 2 + 1;
    let extra = disk.tracks.iter().filter(|reading| has(disk, reading.track, reading.side, Kind::Ext));
    named.min(USUAL_TRACKS).max(extra.map(|reading| reading.track + 1).max().unwrap_or(0))
}

/// The sides of the disk.
fn sides(disk: &DiskReading) -> Vec<u32> {
    let in_image: &[u32] = match disk.file.image.header().heads {
        1 => &[0],
        2 => &[1],
        _ => &[0, 1],
    };
    // The last line of the page says that one side, and not the other, is empty.
    if !disk.page.ends_with("single-sided\n") {
        return in_image.to_vec();
    }
    let is_empty = |side: u32| (0..USUAL_TRACKS).all(|track| has(disk, track, side, Kind::Tnf));
    in_image.iter().copied().filter(|side| !is_empty(*side)).collect()
}

/// Whether a track has a finding of a kind.
fn has(disk: &DiskReading, track: u32, side: u32, kind: Kind) -> bool {
    let reading = disk.tracks.iter().find(|reading| (reading.track, reading.side) == (track, side));
    let read = reading.and_then(|reading| reading.read.as_ref().ok());
    read.is_some_and(|read| read.findings.iter().any(|finding| finding.kind == kind))
}
