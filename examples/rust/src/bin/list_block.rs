//! The listing of a revolution of a SuperCard Pro track block, from standard input to standard output. It prints what the program
//! target/bin/scp_track prints with the same arguments: the number of revolutions in the image's header, the one to list, counted from 0,
//! and the drive's track and side:
//!
//!     list_block 2 1 0 0 < samples/standard-two-revolutions.block

use std::io::{self, Read, Write};
use thikbromu::TrackBlock;

fn main() -> io::Result<()> {
    let numbers: Result<Vec<u8>, _> = std::env::args().skip(1).map(|argument| argument.parse()).collect();
    let Ok(&[revolutions, revolution, track, side]) = numbers.as_deref() else {
        eprintln!("usage: list_block REVOLUTIONS REVOLUTION TRACK SIDE < BLOCK, each number up to 255");
        std::process::exit(2);
    };
    let mut block = Vec::new();
    io::stdin().read_to_end(&mut block)?;
    let listing = match TrackBlock::new(&block, revolutions.into()).cells(revolution.into()) {
        Ok(cells) => cells.track(track.into(), side.into()).listing(),
        Err(refusal) => format!("refused {}\n", refusal.number()),
    };
    io::stdout().write_all(listing.as_bytes())
}
