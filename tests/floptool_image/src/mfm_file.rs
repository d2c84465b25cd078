//! The .mfm files of the HxC floppy emulator: the cells of each track and side of a disk, packed in bytes, the first as the highest bit.
//!
//! Numbers have their low byte first. A file begins with
//!
//!     0    the letters HXCMFM and a byte 0
//!     7    how many tracks, two bytes
//!     9    how many sides, one byte
//!     10   turns in a minute, two bytes; 0 where it is not said
//!     12   thousands of bits in a second, two bytes
//!     14   the kind of drive, one byte
//!     15   where the list of tracks begins, four bytes
//!
//! and an entry of the list has
//!
//!     0    the track, two bytes
//!     2    the side, one byte
//!     3    how many bytes its cells have, four bytes
//!     7    where these begin, four bytes

/// The letters that a file begins with.
const LETTERS: &[u8] = b"HXCMFM\0";
const HEADER: usize = 19;
const ENTRY: usize = 11;

/// A file, and where the cells of each track and side stand in it.
pub struct MfmFile {
    bytes: Vec<u8>,
    tracks: usize,
    sides: usize,
    entries: Vec<Entry>,
}

struct Entry {
    track: usize,
    side: usize,
    start: usize,
    length: usize,
}

/// The number of some bytes, the low one first.
fn number(bytes: &[u8]) -> usize {
    bytes.iter().rev().fold(0, |number, &byte| number << 8 | usize::from(byte))
}

/// So many bytes from a place on, or none where some are missing.
fn part(bytes: &[u8], start: usize, length: usize) -> Option<&[u8]> {
    bytes.get(start..start.checked_add(length)?)
}

impl MfmFile {
    /// Reads the header and the list. Each entry has to lie in the file.
    pub fn new(bytes: Vec<u8>) -> Result<MfmFile, String> {
        let header = part(&bytes, 0, HEADER).filter(|header| header.starts_with(LETTERS)).ok_or("no .mfm file")?;
        let (tracks, sides, list) = (number(&header[7..9]), number(&header[9..10]), number(&header[15..19]));
        let mut entries = Vec::new();
        for index in 0..tracks * sides {
            let entry = part(&bytes, list + ENTRY * index, ENTRY).ok_or("the list of tracks is cut short")?;
            let (length, start) = (number(&entry[3..7]), number(&entry[7..11]));
            part(&bytes, start, length).ok_or_else(|| format!("the cells of entry {index} are cut short"))?;
            entries.push(Entry { track: number(&entry[..2]), side: number(&entry[2..3]), start, length });
        }
        Ok(MfmFile { bytes, tracks, sides, entries })
    }

    pub fn tracks(&self) -> usize {
        self.tracks
    }

    pub fn sides(&self) -> usize {
        self.sides
    }

    /// The packed cells of a track and side, which has to stand in the list once.
    pub fn cells(&self, track: usize, side: usize) -> Result<&[u8], String> {
        let mut found = self.entries.iter().filter(|entry| (entry.track, entry.side) == (track, side));
        match (found.next(), found.next()) {
            (Some(entry), None) => Ok(&self.bytes[entry.start..entry.start + entry.length]),
            (None, _) => Err(String::from("not in the .mfm file")),
            (Some(_), Some(_)) => Err(String::from("twice in the .mfm file")),
        }
    }
}

#[cfg(test)]
mod tests {
    use super::*;

    /// Two sides of one track, side 1 first, of two bytes and of one.
    const FILE: [u8; 44] = *b"HXCMFM\0\x01\0\x02\0\0\xFA\0\x04\x13\0\0\0\
        \0\0\x01\x02\0\0\0\x29\0\0\0\
        \0\0\0\x01\0\0\0\x2B\0\0\0\
        \x44\x89\x92";

    #[test]
    fn cells_stand_where_the_list_says() {
        let file = MfmFile::new(FILE.to_vec()).unwrap();
        assert_eq!((file.tracks(), file.sides()), (1, 2));
        assert_eq!(file.cells(0, 1), Ok(&[0x44, 0x89][..]));
        assert_eq!(file.cells(0, 0), Ok(&[0x92][..]));
        assert!(file.cells(1, 0).is_err() && file.cells(0, 2).is_err());
    }

    #[test]
    fn files_cut_short_are_refused() {
        for length in 0..FILE.len() {
            assert!(MfmFile::new(FILE[..length].to_vec()).is_err(), "{length} bytes");
        }
        let mut other_letters = FILE.to_vec();
        other_letters[6] = 1;
        assert!(MfmFile::new(other_letters).is_err());
    }

    #[test]
    fn a_track_may_not_stand_twice() {
        let mut twice = FILE.to_vec();
        twice[HEADER + 2] = 0;
        let file = MfmFile::new(twice).unwrap();
        assert!(file.cells(0, 0).is_err());
    }
}
