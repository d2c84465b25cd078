//! Write Track: tracks that are made of a list of bytes.

use crate::boundary::write_track;
use crate::refusal::Refusal;
use crate::track::{Track, MOST_CELL_BYTES};

/// A track that Write Track made.
#[derive(Clone, Debug, PartialEq, Eq)]
pub struct WrittenTrack {
    /// The packed cells (rule 1.3).
    pub packed: Vec<u8>,
    /// The number of cells, 16 for each byte on the track.
    pub count: usize,
}

impl WrittenTrack {
    /// The track of these cells, at this track and side of the drive. It has to have 20,000 cells or more to be read.
    pub fn track(&self, track: u32, side: u32) -> Track<'_> {
        Track::new(&self.packed, self.count, track, side)
    }
}

/// As [`write_track`], into a vector of the length needed. Refuses [`TooLongATrack`](Refusal::TooLongATrack).
///
/// A track with one sector, whose data check is bad: two bytes stand where F7 would give the check.
///
/// ```
/// use thikbromu::{write_track_to_vec, Kind, Refusal};
///
/// let id = [&[0; 12][..], b"\xF5\xF5\xF5\xFE", &[0, 0, 1, 2], b"\xF7"].concat();
/// let data = [&[0; 12][..], b"\xF5\xF5\xF5\xFB", &[0xE5; 512], &[0, 0]].concat();
/// let list = [&[0x4E; 60][..], &id, &[0x4E; 22], &data, &[0x4E; 5_600]].concat();
/// let written = write_track_to_vec(&list)?;
/// let track = written.track(0, 0);
/// assert_eq!(track.sectors()?.len(), 1);
/// assert_eq!(track.findings()?.last().map(|finding| finding.kind), Some(Kind::Sbd));
/// # Ok::<(), Refusal>(())
/// ```
pub fn write_track_to_vec(list: &[u8]) -> Result<WrittenTrack, Refusal> {
    // There is room for the most cells, so that a list of any length is judged without reserving more.
    let mut packed = vec![0; MOST_CELL_BYTES];
    let count = write_track(list, &mut packed)?;
    packed.truncate(count / 8);
    Ok(WrittenTrack { packed, count })
}
