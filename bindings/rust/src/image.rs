//! Whole SuperCard Pro images: their header, where the track blocks are, and their check sum.

use std::ops::Range;

use crate::boundary::{self, IMAGE_HEADER_BYTES, IMAGE_HEADER_NUMBERS, IMAGE_PLACE_NUMBERS};
use crate::refusal::Refusal;

/// Where the check sum of an image begins.
const SUMMED_FROM: usize = 16;

/// The header of a SuperCard Pro image (rules 19.1 to 19.4), which is judged. Version, disk type and the flags besides bit 6 may be anything.
#[derive(Clone, Copy, Debug, PartialEq, Eq)]
pub struct ImageHeader {
    /// Byte 3: the version.
    pub version: u8,
    /// Byte 4: the maker's number for the kind of disk.
    pub disk_type: u8,
    /// Byte 5: how many revolutions each block has, at least 1. [`TrackBlock::new`](crate::TrackBlock::new) takes it.
    pub revolutions: u8,
    /// Byte 6: the first entry that may have a block, at most the last.
    pub first_track: u8,
    /// Byte 7: the last entry that may have a block, at most 167.
    pub last_track: u8,
    /// Byte 8: the flags. Bit 4 says that the image may be written to, bit 5 that it ends with a footer; bit 6 is 0.
    pub flags: u8,
    /// Byte 9: how many bits a value has, 16, or 0 which means the same.
    pub cell_width: u8,
    /// Byte 10: 0 for both sides, 1 for side 0 alone, 2 for side 1 alone.
    pub heads: u8,
    /// Byte 11: 0, for a unit of 25 ns. Others are refused.
    pub resolution: u8,
    /// Bytes 12 to 15: the sum of all bytes from byte 16 on.
    pub check_sum: u32,
}

/// A track block of an image: whose it is, where it begins and before what it has to end, counted in bytes from the image's beginning.
#[derive(Clone, Copy, Debug, PartialEq, Eq)]
pub struct ImageBlock {
    /// The track, 0 to 83.
    pub track: u32,
    /// The side, 0 or 1.
    pub side: u32,
    /// Where the block begins.
    pub start: usize,
    /// Before what it has to end: the next block, the footer, or the image's end.
    pub end: usize,
}

impl ImageBlock {
    /// The bytes of the image among which the block is. [`TrackBlock`](crate::TrackBlock) takes them, and passes over what is left at their end.
    pub fn range(self) -> Range<usize> {
        self.start..self.end
    }
}

/// What the first 688 bytes of a SuperCard Pro image say, judged (rules 19.1 to 19.12): its header, and where its track blocks are. Every block
/// lies behind the 688 bytes and within the image, has room for the letters, the number and its table, and overlaps no other.
///
/// What stands in a block is not looked at; [`TrackBlock`](crate::TrackBlock) reads that. The check sum is judged apart, since it needs all bytes.
///
/// An image of one block, that of track 1, side 1:
///
/// ```
/// use thikbromu::{Image, ImageBlock, Refusal, TrackBlock};
///
/// let mut bytes = vec![0; 688];
/// // The letters, version, disk type, one revolution, tracks 0 to 3, flags, cell width, heads, resolution; entry 3 stands at byte 28.
/// bytes[..12].copy_from_slice(b"SCP\x22\x15\x01\x00\x03\x01\x00\x00\x00");
/// bytes[28..32].copy_from_slice(&688u32.to_le_bytes());
/// bytes.extend(b"TRK\x03\0\0\0\0\x01\0\0\0\x10\0\0\0\x00\xA0");
/// let image = Image::new(&bytes, bytes.len())?;
/// let block = image.block(1, 1).expect("it is there");
/// assert_eq!(block, ImageBlock { track: 1, side: 1, start: 688, end: 706 });
/// assert_eq!(image.block(1, 0), None);
/// let revolutions = image.header().revolutions.into();
/// assert_eq!(TrackBlock::new(&bytes[block.range()], revolutions).timings(0)?.list, [4_000]);
/// // The sum of these bytes is another than 0, which the header says.
/// let sum = thikbromu::image_sum(0, &bytes[16..]);
/// assert_eq!(image.judge_sum(sum), Err(Refusal::ImageCheckSum(sum as usize)));
/// # Ok::<(), thikbromu::Refusal>(())
/// ```
#[derive(Clone, Debug, PartialEq, Eq)]
pub struct Image {
    first: [u8; IMAGE_HEADER_BYTES],
    length: usize,
    header: ImageHeader,
    places: [u32; IMAGE_PLACE_NUMBERS],
}

impl Image {
    /// Judges an image by its first 688 bytes and its length; bytes of `first` behind these are not looked at.
    ///
    /// Refuses [`NotAnImage`](Refusal::NotAnImage) where `first` or the image has fewer than 688 bytes, the image more than 4,294,967,295, or the
    /// letters are not SCP; [`ImageHeader`](Refusal::ImageHeader) with the place of the first byte of the header that is not taken;
    /// [`ImageEntry`](Refusal::ImageEntry) with the first entry whose block cannot stand where it is said to begin.
    pub fn new(first: &[u8], image_length: usize) -> Result<Image, Refusal> {
        let mut numbers = [0; IMAGE_HEADER_NUMBERS];
        boundary::image_header(first, image_length, &mut numbers)?;
        let mut places = [0; IMAGE_PLACE_NUMBERS];
        boundary::image_entries(first, image_length, &mut places)?;
        let mut kept = [0; IMAGE_HEADER_BYTES];
        kept.copy_from_slice(&first[..IMAGE_HEADER_BYTES]);
        Ok(Image { first: kept, length: image_length, header: ImageHeader::of(&numbers), places })
    }

    /// Judges an image that is whole in memory, its check sum included.
    ///
    /// Refuses what [`new`](Image::new) does, and then [`ImageCheckSum`](Refusal::ImageCheckSum) with the sum of the bytes.
    pub fn whole(bytes: &[u8]) -> Result<Image, Refusal> {
        let image = Image::new(bytes, bytes.len())?;
        image.judge_sum(boundary::image_sum(0, &bytes[SUMMED_FROM..]))?;
        Ok(image)
    }

    /// The header.
    pub fn header(&self) -> ImageHeader {
        self.header
    }

    /// The block of a track and side, where the image has one.
    pub fn block(&self, track: u32, side: u32) -> Option<ImageBlock> {
        if side > 1 {
            return None;
        }
        let entry = usize::try_from(track).ok()?.checked_mul(2)? + side as usize;
        let start = *self.places.get(entry.checked_mul(2)?)?;
        let end = self.places[2 * entry + 1];
        (start != 0).then_some(ImageBlock { track, side, start: start as usize, end: end as usize })
    }

    /// All blocks, in the order of their tracks, side 0 before side 1.
    pub fn blocks(&self) -> impl Iterator<Item = ImageBlock> + '_ {
        (0..IMAGE_PLACE_NUMBERS as u32 / 2).filter_map(|entry| self.block(entry / 2, entry % 2))
    }

    /// Judges the sum of all bytes of the image from byte 16 on, which [`image_sum`](crate::image_sum) gives. An image whose flags say that it
    /// may be written to is not judged by its sum.
    ///
    /// Refuses [`ImageCheckSum`](Refusal::ImageCheckSum) with the sum.
    pub fn judge_sum(&self, sum: u32) -> Result<(), Refusal> {
        boundary::image_check(&self.first, self.length, sum).map(|_| ())
    }
}

impl ImageHeader {
    /// The header of its numbers. All but the last are single bytes of the image.
    fn of(numbers: &[u32; IMAGE_HEADER_NUMBERS]) -> ImageHeader {
        let [version, disk_type, revolutions, first_track, last_track, flags, cell_width, heads, resolution] =
            std::array::from_fn(|index| numbers[index] as u8);
        ImageHeader {
            version,
            disk_type,
            revolutions,
            first_track,
            last_track,
            flags,
            cell_width,
            heads,
            resolution,
            check_sum: numbers[9],
        }
    }
}
