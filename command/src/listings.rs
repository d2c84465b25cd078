//! The subcommands `track` and `block`: the library's listing of a track file or of a track block.

use crate::arguments::BlockWish;
use crate::ending::{say, unreadable, Ended, Output, Status};
use crate::refusals;
use std::ffi::OsStr;
use std::fs::File;
use std::io::{self, ErrorKind, Read};
use thikbromu::{Refusal, TrackBlock, TrackFile};

/// The longest block that is read.
const MOST_BLOCK_BYTES: u64 = 4_194_304;

/// Opens a file, or standard input where it is named -.
fn open(file: &OsStr) -> io::Result<Box<dyn Read>> {
    if file == "-" {
        return Ok(Box::new(io::stdin()));
    }
    Ok(Box::new(File::open(file)?))
}

/// The name of an input as it is told.
fn name_of(file: &OsStr) -> String {
    if file == "-" {
        "standard input".to_string()
    } else {
        file.to_string_lossy().into_owned()
    }
}

pub fn track(file: &OsStr, output: &mut Output) -> Result<Status, Ended> {
    let name = name_of(file);
    let track = open(file).and_then(TrackFile::read_from).map_err(|error| unreadable(&name, &error))?;
    let refused = track.cells().and_then(|cells| cells.track().findings().map(|_| ())).err();
    list(&name, &track.listing(), refused, output)
}

pub fn block(wish: &BlockWish, output: &mut Output) -> Result<Status, Ended> {
    let name = name_of(&wish.file);
    let bytes = open(&wish.file).and_then(read_block).map_err(|error| unreadable(&name, &error))?;
    let cells = TrackBlock::new(&bytes, wish.revolutions.into()).cells(wish.revolution.into());
    match cells {
        Ok(cells) => {
            let track = cells.track(wish.track.into(), wish.side.into());
            list(&name, &track.listing(), track.findings().err(), output)
        }
        Err(refusal) => list(&name, &format!("refused {}\n", refusal.number()), Some(refusal), output),
    }
}

fn read_block(reader: Box<dyn Read>) -> io::Result<Vec<u8>> {
    let mut bytes = Vec::new();
    reader.take(MOST_BLOCK_BYTES + 1).read_to_end(&mut bytes)?;
    if bytes.len() as u64 > MOST_BLOCK_BYTES {
        return Err(io::Error::new(ErrorKind::FileTooLarge, "it is longer than 4,194,304 bytes"));
    }
    Ok(bytes)
}

/// Writes a listing, and says what its refusal means.
fn list(name: &str, listing: &str, refused: Option<Refusal>, output: &mut Output) -> Result<Status, Ended> {
    output.write(listing)?;
    match refused {
        None => Ok(Status::Listed),
        Some(refusal) => {
            say(&format!("{name}: {}", refusals::in_words(refusal)));
            Ok(Status::Refused)
        }
    }
}
