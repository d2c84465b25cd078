//! What the second program makes of an image.

use second_program::image::{self, ImageTrack};
use second_program::refusal::Refusal;
use second_program::sector_image::{sector_image, IMAGE_LENGTH};
use second_program::sectors::{self, DOUBLE_DENSITY};
use second_program::two_reads;

/// What a call on an image is to print, beside words.
#[derive(Clone, Debug, PartialEq, Eq)]
pub struct Expected {
    pub page: String,
    /// What each line on standard error begins with.
    pub refused: Vec<String>,
}

impl Expected {
    /// The exit status.
    pub fn status(&self) -> Option<i32> {
        Some(i32::from(!self.refused.is_empty()))
    }
}

/// The page of an image and its refused tracks, or what is said of the image, which has this name.
pub fn page(name: &str, bytes: &[u8], revolution: Option<u32>) -> Expected {
    match image::tracks(bytes, revolution) {
        Ok(tracks) => {
            let (page, refused) = image::page(&tracks);
            let refused = refused
                .iter()
                .map(|(track, side, refusal)| format!("T{track:02} H{side} refused {}: ", refusal.number));
            Expected { page: String::from_utf8(page).expect("a page is ASCII"), refused: refused.collect() }
        }
        Err(refusal) => {
            Expected { page: String::new(), refused: vec![format!("{name}: refused {}: ", refusal.number)] }
        }
    }
}

/// Whether what was said begins, line by line, as it is to.
pub fn begins(said: &str, expected: &[String]) -> bool {
    let lines: Vec<&str> = said.lines().collect();
    lines.len() == expected.len() && lines.iter().zip(expected).all(|(line, front)| line.starts_with(front))
}

/// The plain image of tracks in this order, or the first that has none.
pub fn plain_image(tracks: &[ImageTrack], order: &[(u32, u32)]) -> Result<Vec<u8>, (u32, u32, Option<Refusal>)> {
    let mut all = Vec::new();
    for &(track, side) in order {
        let found = tracks.iter().find(|found| (found.track, found.side) == (track, side));
        let Some(found) = found else { return Err((track, side, None)) };
        let mut part = [0; IMAGE_LENGTH];
        let (packed, cells, _) = found.read.as_ref().map_err(|refusal| (track, side, Some(*refusal)))?;
        sector_image(track, side, packed, *cells, &mut part).map_err(|refusal| (track, side, Some(refusal)))?;
        all.extend(part);
    }
    Ok(all)
}

/// A read of a sector: its ID and its bytes, the two check bytes among them.
type Read = ([u8; 4], Vec<u8>);

fn reads(packed: &[u8], cells: usize) -> Vec<Read> {
    let sectors = sectors::list(packed, cells);
    let with_data = sectors.iter().filter(|sector| sector.has_data());
    with_data
        .map(|sector| {
            assert_eq!(sector.density, DOUBLE_DENSITY);
            let id = [sector.track, sector.side, sector.number, sector.size_code];
            (id, sectors::bytes_at(packed, cells, sector.data_place + sectors::MARK_LENGTH, sector.length + 2))
        })
        .collect()
}

/// The lines of weak sectors: revolution 1 beside each other one.
pub fn weak_lines(bytes: &[u8]) -> String {
    let revolutions = u32::from(bytes[5]);
    let chosen = image::tracks(bytes, Some(1)).expect("the image is taken");
    let others: Vec<(u32, Vec<ImageTrack>)> = (0..revolutions)
        .filter(|other| *other != 1)
        .map(|other| (other, image::tracks(bytes, Some(other)).expect("and so it is again")))
        .collect();
    let mut lines = String::new();
    for (index, track) in chosen.iter().enumerate() {
        let Ok((packed, cells, _)) = &track.read else { continue };
        let first = reads(packed, *cells);
        for (other, tracks) in &others {
            let Ok((packed, cells, _)) = &tracks[index].read else { continue };
            let mut left = reads(packed, *cells);
            for (id, read) in &first {
                let Some(place) = left.iter().position(|(other_id, _)| other_id == id) else { continue };
                let (_, other_read) = left.remove(place);
                let finding = two_reads::compare_reads(read, &other_read, 0).expect("two reads of one length");
                if let Some(finding) = finding {
                    lines += &format!(
                        "T{:02} H{} 22 FZD level 1 place {} detail {} sector {} revolutions 1 {other}\n",
                        track.track, track.side, finding.place, finding.detail, id[2]
                    );
                }
            }
        }
    }
    lines
}
