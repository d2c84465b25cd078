//! The sectors of a track, as a table. Reads a track file of cells from standard input:
//!
//!     sector_table < samples/standard.track

use std::error::Error;
use std::io::{self, Read};
use thikbromu::{Sector, Track};

/// The track of a file of cells: the place (a count of 2, the track, the side), the count of the cells, and the cells.
fn track_of(file: &[u8]) -> Option<Track<'_>> {
    let (&[2, 0, 0, 0, track, side, a, b, c, d], packed) = file.split_first_chunk()? else {
        return None;
    };
    let cells = u32::from_le_bytes([a, b, c, d]) as usize;
    (cells != 0).then_some(Track::new(packed, cells, track.into(), side.into()))
}

fn check(good: bool) -> &'static str {
    if good {
        "good"
    } else {
        "bad"
    }
}

fn print_sector(sector: &Sector) {
    print!("{:6}  {:6}  {:5}  {:7}  ", sector.number, sector.place, check(sector.id_check_good), sector.density);
    if sector.has_data() {
        println!(
            "{:7}  {:5}  {:5}  {:6}",
            sector.data_place,
            check(sector.data_check_good),
            sector.data_length,
            sector.end
        );
    } else {
        println!("no data mark");
    }
}

fn main() -> Result<(), Box<dyn Error>> {
    let mut file = Vec::new();
    io::stdin().read_to_end(&mut file)?;
    let track = track_of(&file).ok_or("not a track file of cells")?;

    println!("number   ID at  check  density  data at  check  bytes     end");
    // The library judges the track, the side, the count and the bytes that are there; what it refuses ends this program.
    for sector in track.sectors()? {
        print_sector(&sector);
    }
    Ok(())
}
