//! Reading the file of an image.

use std::fs::File;
use std::io::{self, ErrorKind, Read};
use std::path::Path;
use thikbromu::boundary::IMAGE_HEADER_BYTES;
use thikbromu::{Image, Refusal};

/// The longest image that is read. One of 168 tracks with five full revolutions has a tenth of that.
const MOST_BYTES: u64 = 1 << 30;

/// An image in memory, judged.
pub struct ImageFile<'a> {
    pub bytes: &'a [u8],
    pub image: Image,
}

/// Reads an image into a buffer, which one image after the other can use. What it is refused for by its first bytes is told before the others are
/// read.
pub fn read<'a>(path: &Path, bytes: &'a mut Vec<u8>) -> io::Result<Result<ImageFile<'a>, Refusal>> {
    bytes.clear();
    let mut file = File::open(path)?;
    let about = file.metadata()?;
    if about.is_dir() {
        return Err(ErrorKind::IsADirectory.into());
    }
    file.by_ref().take(IMAGE_HEADER_BYTES as u64).read_to_end(bytes)?;
    // Only a file tells its length. The entries of a stream are judged when all of it is there.
    let length = if about.is_file() { about.len() } else { u32::MAX.into() };
    match Image::new(bytes, length as usize) {
        Err(Refusal::ImageEntry(_)) if !about.is_file() => {}
        Err(refusal) => return Ok(Err(refusal)),
        Ok(_) => {}
    }
    let rest = if about.is_file() { length - bytes.len() as u64 } else { MOST_BYTES };
    if bytes.len() as u64 + rest <= MOST_BYTES {
        bytes.try_reserve_exact(rest as usize)?;
    }
    file.take(rest.min(MOST_BYTES)).read_to_end(bytes)?;
    if bytes.len() as u64 > MOST_BYTES {
        return Err(io::Error::new(ErrorKind::FileTooLarge, "it is longer than 1,073,741,824 bytes"));
    }
    if about.is_file() && bytes.len() as u64 != length {
        return Err(io::Error::new(ErrorKind::UnexpectedEof, "it became shorter while it was read"));
    }
    Ok(judged(bytes))
}

/// An image that is whole in memory.
fn judged(bytes: &[u8]) -> Result<ImageFile<'_>, Refusal> {
    let image = Image::whole(bytes)?;
    Ok(ImageFile { bytes, image })
}
