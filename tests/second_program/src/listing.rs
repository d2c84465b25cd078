//! The listings of a track and of a track file (rules 11.1 to 11.8).

use crate::findings::{self, Finding};
use crate::refusal::Refusal;
use crate::track_file::{self, Track, TrackCells};

/// The line of a finding (rule 11.3).
pub(crate) fn line_of(finding: &Finding) -> String {
    format!(
        "{} {} level {} place {} detail {}\n",
        finding.kind,
        findings::name_of(finding.kind),
        finding.level,
        finding.place,
        finding.detail
    )
}

/// The listing of a track that is not refused: the header (rules 11.2 and 11.5), then a
/// line for each finding (rule 11.3).
pub(crate) fn lines_of(track: &Track) -> String {
    let mut lines = format!(
        "T{:02} H{} cells {} sectors {} findings {}\n",
        track.cells.drive_track,
        track.cells.drive_side,
        track.cells.n,
        track.sectors.len(),
        track.findings.len()
    );
    for finding in &track.findings {
        lines += &line_of(finding);
    }
    lines
}

/// All that is printed where something is refused (rule 11.4).
pub(crate) fn refused_line(refusal: Refusal) -> String {
    format!("refused {}\n", refusal.number)
}

/// What is printed of a track, or of its refusal.
fn text_of(track: Result<Track, Refusal>) -> Vec<u8> {
    let text = match track {
        Ok(track) => lines_of(&track),
        Err(refusal) => refused_line(refusal),
    };
    text.into_bytes()
}

/// The listing of a track (rule 9.12).
pub fn listing_of_cells(cells: &TrackCells) -> Vec<u8> {
    text_of(track_file::analysed(cells.clone()))
}

/// All that the program prints for a whole file.
pub fn listing(file: &[u8]) -> Vec<u8> {
    text_of(track_file::read(file))
}
