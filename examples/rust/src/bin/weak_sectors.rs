//! Compares two reads of each sector of a track, from two track files of cells, and says which sectors are weak:
//!
//!     weak_sectors samples/weak-sector-first-read.track samples/weak-sector-second-read.track

use std::error::Error;
use thikbromu::{compare_reads, decode_to_vec, good_read, Refusal, Track};

/// The track of a file of cells: the place (a count of 2, the track, the side), the count of the cells, and the cells.
fn track_of(file: &[u8]) -> Option<Track<'_>> {
    let (&[2, 0, 0, 0, track, side, a, b, c, d], packed) = file.split_first_chunk()? else {
        return None;
    };
    let cells = u32::from_le_bytes([a, b, c, d]) as usize;
    (cells != 0).then_some(Track::new(packed, cells, track.into(), side.into()))
}

/// A read of a sector: its data bytes, and the two check bytes, which are the last 32 cells before the data's end. None where it has no data.
fn read_of(track: &Track, index: usize) -> Result<Option<Vec<u8>>, Refusal> {
    let sector = track.sector(index)?;
    if !sector.has_data() {
        return Ok(None);
    }
    let mut read = track.read_out_to_vec(index)?.bytes;
    let check_cells = track.word(sector.end as usize - 32, 32) as u32;
    read.extend(decode_to_vec(&check_cells.to_be_bytes())?);
    Ok(Some(read))
}

/// What two reads of a sector say.
fn compared(first: &[u8], second: &[u8], data_mark: u8) -> Result<String, Refusal> {
    let good = good_read(first, second, data_mark)?;
    Ok(match compare_reads(first, second, data_mark)? {
        None if good.is_empty() => "the reads agree, the check is bad".to_string(),
        None => "the reads agree, the check is good".to_string(),
        Some(finding) => {
            let which = match good {
                [] => "neither read",
                // A part of a read begins where the read does.
                part if part.as_ptr() == first.as_ptr() => "the first read",
                _ => "the second read",
            };
            format!("weak from byte {} on, {} bits differ, {which} has a good check", finding.place, finding.detail)
        }
    })
}

fn main() -> Result<(), Box<dyn Error>> {
    let names: Vec<String> = std::env::args().skip(1).collect();
    let [first, second] = &names[..] else {
        eprintln!("usage: weak_sectors FIRST SECOND, two track files of cells");
        std::process::exit(2);
    };
    let (first, second) = (std::fs::read(first)?, std::fs::read(second)?);
    let first = track_of(&first).ok_or("the first is not a track file of cells")?;
    let second = track_of(&second).ok_or("the second is not a track file of cells")?;
    if first.sector_count()? != second.sector_count()? {
        return Err("the files have not the same number of sectors".into());
    }

    for (index, sector) in first.sectors()?.enumerate() {
        let says = match (read_of(&first, index)?, read_of(&second, index)?) {
            (Some(one), Some(other)) if one.len() == other.len() => compared(&one, &other, sector.data_mark)?,
            _ => "there are no two reads of one length".to_string(),
        };
        println!("sector {}: {says}", sector.number);
    }
    Ok(())
}
