//! The listing of a track file, from standard input to standard output. It prints what the program target/bin/track_listing prints:
//!
//!     list_track < samples/sector-numbers.track

use std::io::{self, Write};
use thikbromu::TrackFile;

fn main() -> io::Result<()> {
    // A file that cannot be read to its end has no listing, not even a refusal.
    let file = TrackFile::read_from(io::stdin().lock())?;
    io::stdout().write_all(file.listing().as_bytes())
}
