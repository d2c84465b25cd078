//! A whole SuperCard Pro image: its header, where its blocks stand, its check sum, and the
//! page of the disk in it.
//!
//! The papers that the project was given do not lay out an image's header. It was written
//! from what is generally known of the maker's format. Four points were not read so at
//! first, and were taken over from section 19 of the specification, or from the library's
//! answers, when the two were compared: the tracks and sides that a header names, the
//! footer, and the greatest length. In these it is no independent reading.
//!
//! The header has 16 bytes, and 168 entries of four bytes follow it, side 0 and side 1 of a
//! track beside each other. What the description leaves open is read so:
//! - A resolution other than 25 ns is refused, not scaled.
//! - The bytes of the header are judged in the order of their places.
//! - An entry that is 0 has no block. Any other is one of the tracks and sides that the
//!   header names, and its block stands behind the entries, and at no place where another
//!   one stands.
//! - Entries belong to their track and side also where the image has one side alone.
//! - A block ends before the next one, before the footer, or at the end of the image.
//! - Places have 32 bits, so that no image is longer than these can say.

use crate::disk_page;
use crate::findings::{self, Finding};
use crate::refusal::{Refusal, MOST_CELLS};
use crate::track_block;
use std::ops::Range;

/// The bytes of the header and the entries.
pub const HEADER_LENGTH: usize = 16 + 4 * ENTRIES;
/// The entries: two sides of 84 tracks.
pub const ENTRIES: usize = 168;
/// The flag of an image that may be changed, whose check sum is not judged.
const MAY_CHANGE: u8 = 0x10;
/// The flag of an image whose entries stand elsewhere.
const EXTENDED: u8 = 0x40;
/// The flag of an image with a footer: six places of texts, two times of eight bytes, four
/// versions of a byte and four letters.
const FOOTER: u8 = 0x20;
const FOOTER_LENGTH: u64 = 6 * 4 + 2 * 8 + 4 + 4;

/// What the header says.
#[derive(Clone, Copy, Debug, PartialEq, Eq)]
pub struct Header {
    pub version: u8,
    pub disk_type: u8,
    pub revolutions: u8,
    pub first_track: u8,
    pub last_track: u8,
    pub flags: u8,
    pub cell_width: u8,
    pub heads: u8,
    pub resolution: u8,
    pub check_sum: u32,
}

fn number_at(bytes: &[u8], place: usize) -> u32 {
    u32::from_le_bytes([
        bytes[place],
        bytes[place + 1],
        bytes[place + 2],
        bytes[place + 3],
    ])
}

/// The header of an image that has so many bytes, of its first ones. Refusals in order: 26,
/// 27.
pub fn header(first: &[u8], image_length: u64) -> Result<Header, Refusal> {
    let lengths = HEADER_LENGTH as u64..=u64::from(u32::MAX);
    let there = first.len() >= HEADER_LENGTH && lengths.contains(&image_length);
    if !there || !first.starts_with(b"SCP") {
        return Err(Refusal::not_an_image());
    }
    let header = Header {
        version: first[3],
        disk_type: first[4],
        revolutions: first[5],
        first_track: first[6],
        last_track: first[7],
        flags: first[8],
        cell_width: first[9],
        heads: first[10],
        resolution: first[11],
        check_sum: number_at(first, 12),
    };
    let taken = [
        (5, header.revolutions > 0),
        (6, header.first_track <= header.last_track),
        (7, usize::from(header.last_track) < ENTRIES),
        (8, header.flags & EXTENDED == 0),
        (9, [0, 16].contains(&header.cell_width)),
        (10, header.heads <= 2),
        (11, header.resolution == 0),
    ];
    match taken.iter().find(|(_, is_taken)| !is_taken) {
        Some(&(place, _)) => Err(Refusal::header_byte_not_taken(place)),
        None => Ok(header),
    }
}

/// Where the block of each entry stands; none where it has none. Refusals in order: 26, 27,
/// 28.
pub fn blocks(first: &[u8], image_length: u64) -> Result<Vec<Option<Range<u64>>>, Refusal> {
    let header = header(first, image_length)?;
    let starts: Vec<u64> = (0..ENTRIES)
        .map(|entry| u64::from(number_at(first, 16 + 4 * entry)))
        .collect();
    let table = 4 + 12 * u64::from(header.revolutions);
    let blocks_end = if header.flags & FOOTER != 0 {
        image_length.saturating_sub(FOOTER_LENGTH)
    } else {
        image_length
    };
    let named = usize::from(header.first_track)..=usize::from(header.last_track);
    let mut blocks = Vec::new();
    for (entry, &start) in starts.iter().enumerate() {
        if start == 0 {
            blocks.push(None);
            continue;
        }
        let others = starts
            .iter()
            .enumerate()
            .filter(|(other, _)| *other != entry);
        let mut end = blocks_end;
        let mut alone = true;
        for (_, &other) in others {
            alone &= other != start;
            if other > start {
                end = end.min(other);
            }
        }
        let side_is_there = match header.heads {
            1 => entry % 2 == 0,
            2 => entry % 2 == 1,
            _ => true,
        };
        let is_named = named.contains(&entry) && side_is_there;
        if !is_named || start < HEADER_LENGTH as u64 || start + table > end || !alone {
            return Err(Refusal::no_place_for_a_block(entry));
        }
        blocks.push(Some(start..end));
    }
    Ok(blocks)
}

/// The sum of the bytes that the check sum is of.
pub fn sum(image: &[u8]) -> u32 {
    let all = image.iter().skip(16).map(|&byte| u64::from(byte));
    (all.sum::<u64>() % (1 << 32)) as u32
}

/// Whether the sum of an image's bytes is that of its header, or need not be. Refusals in
/// order: 26, 27, 29.
pub fn judge_sum(first: &[u8], image_length: u64, sum: u32) -> Result<(), Refusal> {
    let header = header(first, image_length)?;
    if header.flags & MAY_CHANGE == 0 && sum != header.check_sum {
        return Err(Refusal::other_check_sum(sum));
    }
    Ok(())
}

/// A side of a track of an image: its cells and its findings, or why it has none.
#[derive(Clone, Debug, PartialEq, Eq)]
pub struct ImageTrack {
    pub track: u32,
    pub side: u32,
    pub read: Result<(Vec<u8>, usize, Vec<Finding>), Refusal>,
}

/// The tracks of an image in the order of its entries, each by the chosen revolution.
/// Refusals in order: 26, 27, 28, 29.
pub fn tracks(image: &[u8], revolution: Option<u32>) -> Result<Vec<ImageTrack>, Refusal> {
    let header = header(image, image.len() as u64)?;
    let blocks = blocks(image, image.len() as u64)?;
    judge_sum(image, image.len() as u64, sum(image))?;
    let revolutions = u32::from(header.revolutions);
    let revolution = revolution.unwrap_or(1.min(revolutions - 1));
    let mut tracks = Vec::new();
    for (entry, block) in blocks.into_iter().enumerate() {
        let Some(place) = block else { continue };
        let (track, side) = (entry as u32 / 2, entry as u32 % 2);
        let bytes = &image[place.start as usize..place.end as usize];
        let cells = track_block::revolution_cells(bytes, revolutions, revolution, MOST_CELLS / 8);
        let read = cells.and_then(|made| {
            let found = findings::findings(track, side, &made.bytes, made.cells, usize::MAX)?;
            Ok((made.bytes, made.cells, found))
        });
        tracks.push(ImageTrack { track, side, read });
    }
    Ok(tracks)
}

/// The page of the disk in an image, of the tracks that are not refused; and the others,
/// with why they are. Refusals in order: 26, 27, 28, 29.
pub type Page = (Vec<u8>, Vec<(u32, u32, Refusal)>);

/// The page of these tracks.
pub fn page(tracks: &[ImageTrack]) -> Page {
    let mut refused = Vec::new();
    let (mut numbers, mut all_findings) = (Vec::new(), Vec::new());
    for ImageTrack { track, side, read } in tracks {
        match read {
            Ok((_, _, found)) => {
                numbers.extend([*track, *side, found.len() as u32]);
                for finding in found {
                    let (place, detail) = (finding.place as u32, finding.detail as u32);
                    all_findings.extend([finding.kind, finding.level, place, detail]);
                }
            }
            Err(refusal) => refused.push((*track, *side, *refusal)),
        }
    }
    let page = disk_page::disk_page(&numbers, &all_findings);
    (page.expect("the findings of one disk"), refused)
}
