//! The bytes of an image: a header of 16 bytes, 168 entries of four bytes with the places of the blocks, and the blocks.
//!
//! Numbers of four bytes have the lowest first, the values of a block the highest.

use std::collections::BTreeMap;

/// How many entries an image has: two sides of 84 tracks, side 0 and side 1 of a track beside each other.
pub const ENTRIES: usize = 168;
/// The bytes of the header and the entries.
pub const HEADER_LENGTH: usize = 16 + 4 * ENTRIES;

/// One revolution of a track as the device tells it: the units of 25 ns between two indices, and those from each pulse to the next.
#[derive(Clone, Debug, Default, PartialEq, Eq)]
pub struct Revolution {
    pub index_time: u32,
    pub units: Vec<u32>,
}

/// The flag that says that the image starts at the index.
pub const INDEX: u8 = 1;
/// The flag that says that the image may be changed, so that its check sum need not be right.
pub const MAY_CHANGE: u8 = 16;

/// An image to write. Every byte of the header can be chosen.
#[derive(Clone, Debug)]
pub struct Image {
    pub version: u8,
    pub disk_type: u8,
    pub revolutions: u8,
    pub first_track: u8,
    pub last_track: u8,
    pub flags: u8,
    pub cell_width: u8,
    pub heads: u8,
    pub resolution: u8,
    /// The blocks by their entries.
    pub blocks: BTreeMap<usize, Vec<u8>>,
    /// What stands behind the last block.
    pub left_over: Vec<u8>,
}

impl Image {
    /// An image of an Atari ST disk without tracks.
    pub fn new(revolutions: u8) -> Image {
        Image {
            version: 0x22,
            disk_type: 0x15,
            revolutions,
            first_track: 0,
            last_track: 0,
            flags: INDEX,
            cell_width: 0,
            heads: 0,
            resolution: 0,
            blocks: BTreeMap::new(),
            left_over: Vec::new(),
        }
    }

    /// Puts a block at an entry, and takes that into the range of tracks.
    pub fn put(&mut self, entry: usize, revolutions: &[Revolution]) {
        let number = entry as u8;
        (self.first_track, self.last_track) = if self.blocks.is_empty() {
            (number, number)
        } else {
            (self.first_track.min(number), self.last_track.max(number))
        };
        self.blocks.insert(entry, block(number, revolutions));
    }

    /// The bytes of the image.
    pub fn bytes(&self) -> Vec<u8> {
        let mut places = [0; ENTRIES];
        let mut behind: Vec<u8> = Vec::new();
        for (&entry, block) in &self.blocks {
            places[entry] = (HEADER_LENGTH + behind.len()) as u32;
            behind.extend(block);
        }
        behind.extend(&self.left_over);
        let mut image = b"SCP".to_vec();
        image.extend([self.version, self.disk_type, self.revolutions, self.first_track, self.last_track]);
        image.extend([self.flags, self.cell_width, self.heads, self.resolution]);
        image.extend([0; 4]);
        image.extend(places.iter().flat_map(|place: &u32| place.to_le_bytes()));
        image.extend(behind);
        set_sum(&mut image);
        image
    }
}

/// Puts the check sum of an image into its header: the sum of all bytes behind the first 16.
pub fn set_sum(image: &mut [u8]) {
    let sum = image[16..].iter().fold(0, |sum: u32, &byte| sum.wrapping_add(u32::from(byte)));
    image[12..16].copy_from_slice(&sum.to_le_bytes());
}

/// A track block: its letters, its number, twelve bytes for each revolution, and the values of all revolutions in their order.
pub fn block(number: u8, revolutions: &[Revolution]) -> Vec<u8> {
    let mut block = b"TRK".to_vec();
    block.push(number);
    let mut values = Vec::new();
    for revolution in revolutions {
        let from = values.len();
        for &units in &revolution.units {
            put_units(&mut values, units);
        }
        block.extend(revolution.index_time.to_le_bytes());
        block.extend(((values.len() - from) as u32).to_le_bytes());
        block.extend(((4 + 12 * revolutions.len() + 2 * from) as u32).to_le_bytes());
    }
    block.extend(values.iter().flat_map(|value: &u16| value.to_be_bytes()));
    block
}

/// The values of so many units: a 0 for each 65,536 of them, and then the rest. A rest of 0 cannot be told, so that one unit is added.
fn put_units(values: &mut Vec<u16>, units: u32) {
    let units = if units.is_multiple_of(65_536) { units + 1 } else { units };
    values.extend((0..units / 65_536).map(|_| 0));
    values.push((units % 65_536) as u16);
}

#[cfg(test)]
mod tests {
    use super::*;

    /// An image of one track with one pulse, byte by byte.
    #[test]
    fn a_small_image() {
        let mut image = Image::new(1);
        image.put(3, &[Revolution { index_time: 0x0102_0304, units: vec![160, 65_537] }]);
        let bytes = image.bytes();
        assert_eq!(bytes[..12], *b"SCP\x22\x15\x01\x03\x03\x01\x00\x00\x00");
        assert_eq!(bytes[16..28], [0; 12]);
        assert_eq!(bytes[28..32], [0xB0, 2, 0, 0]);
        assert_eq!(bytes[32..688], [0; 656]);
        assert_eq!(bytes[688..], *b"TRK\x03\x04\x03\x02\x01\x03\0\0\0\x10\0\0\0\0\xA0\0\0\0\x01");
        let sum: u32 = bytes[16..].iter().map(|&byte| u32::from(byte)).sum();
        assert_eq!(bytes[12..16], sum.to_le_bytes());
    }

    #[test]
    fn the_range_of_tracks_is_that_of_the_blocks() {
        let mut image = Image::new(1);
        for entry in [5, 2, 9, 7] {
            image.put(entry, &[Revolution::default()]);
        }
        assert_eq!((image.first_track, image.last_track), (2, 9));
        assert_eq!(image.bytes().len(), HEADER_LENGTH + 4 * 16);
    }
}
