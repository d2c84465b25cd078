//! The listing of a track of single density. Reads a track file of cells from standard input, and prints the lines that list_track prints of
//! a track of double density:
//!
//!     list_single_density < samples/single-density.track

use std::error::Error;
use std::io::{self, Write};
use thikbromu::{Density, Refusal, Track, TrackFile};

fn listing_of(track: Track) -> Result<String, Refusal> {
    let read = track.in_density(Density::Single);
    let (sectors, findings) = (read.sector_count()?, read.findings()?);
    let mut listing = format!("T{:02} H{} cells {} ", track.track(), track.side(), track.cells());
    listing += &format!("sectors {sectors} findings {}\n", findings.len());
    for finding in findings {
        listing += &format!("{finding}\n");
    }
    Ok(listing)
}

fn main() -> Result<(), Box<dyn Error>> {
    let file = TrackFile::read_from(io::stdin().lock())?;
    let listing = file.cells().and_then(|read| listing_of(read.track()));
    let listing = listing.unwrap_or_else(|refusal| format!("refused {}\n", refusal.number()));
    Ok(io::stdout().write_all(listing.as_bytes())?)
}
