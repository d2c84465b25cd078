//! The plain sector image of a track: the bytes of its nine sectors in the order of their
//! numbers, as an .ST file holds them.
//!
//! Such an image keeps nothing but these bytes. So a track has one only where its sectors
//! are the usual nine and all of them read well. Which marks they have and which track and
//! side their IDs name does not matter.

use crate::refusal::Refusal;
use crate::sectors::{self, SectorRecord, MARK_LENGTH};

/// The numbers of the sectors of an image.
pub const NUMBERS: std::ops::RangeInclusive<u8> = 1..=9;
/// The size code of each of them; other codes with the same length do not count.
const SIZE_CODE: u8 = 2;
/// The bytes of each of them.
pub const SECTOR_LENGTH: usize = 512;
/// The bytes of an image.
pub const IMAGE_LENGTH: usize = 4_608;

/// Whether a sector can stand in an image. A sector without data has no good data check.
fn is_plain(sector: &SectorRecord) -> bool {
    sector.size_code == SIZE_CODE && sector.id_check_good && sector.data_check_good
}

/// What refusal 24 gives beside it; none where the sectors make an image.
fn number_at_fault(sectors: &[SectorRecord]) -> Option<u8> {
    for number in NUMBERS {
        let mut with_number = sectors.iter().filter(|sector| sector.number == number);
        match (with_number.next(), with_number.next()) {
            (Some(sector), None) if is_plain(sector) => {}
            _ => return Some(number),
        }
    }
    let outside = sectors
        .iter()
        .any(|sector| !NUMBERS.contains(&sector.number));
    outside.then_some(0)
}

/// Writes the image of a track to the front of `image`, whose other bytes stay, and gives its
/// length. Refusals in order: 1 to 4, 24, 13; beside them nothing is written.
pub fn sector_image(
    drive_track: u32,
    drive_side: u32,
    bytes: &[u8],
    n: usize,
    image: &mut [u8],
) -> Result<usize, Refusal> {
    let sectors = sectors::accepted_list(drive_track, drive_side, bytes, n)?;
    if let Some(number) = number_at_fault(&sectors) {
        return Err(Refusal::no_plain_image(number));
    }
    if image.len() < IMAGE_LENGTH {
        return Err(Refusal::too_little_room_for_bytes(IMAGE_LENGTH));
    }
    for sector in &sectors {
        let data_at = sector.data_place + MARK_LENGTH;
        let start = SECTOR_LENGTH * (usize::from(sector.number) - 1);
        image[start..start + SECTOR_LENGTH].copy_from_slice(&sectors::bytes_at(
            bytes,
            n,
            data_at,
            SECTOR_LENGTH,
        ));
    }
    Ok(IMAGE_LENGTH)
}
