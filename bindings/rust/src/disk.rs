//! The findings of a whole disk.

use crate::boundary::{self, DISK_TRACK_NUMBERS, FINDING_NUMBERS};
use crate::finding::Finding;
use crate::refusal::Refusal;

/// The most tracks of a disk: 0 to 83 of two sides.
pub const MOST_TRACKS: usize = 168;

/// The longest line of a page: a kind of two digits on one track, and the greatest place and detail.
const LONGEST_LINE: &str = "T83 H1 20 MTV level 3 place 4294967295 detail 4294967295\n";

/// The page of a disk: the findings of its tracks, in the order of side, track, kind and place (rules 16.10 to 16.16). The
/// tracks come in any order, each as its track, its side and its findings, which [`Track::findings`](crate::Track::findings) gives.
///
/// A line has the track, the side and a finding. Tracks of a side that follow each other and have [`Tnf`](crate::Kind::Tnf) share the line of the
/// first. Where just one of the sides has it on all of the tracks 0 to 79, the last line is `single-sided`. No tracks give an empty page.
/// [`boundary::disk_page`] writes to a buffer that the caller lends.
///
/// Refuses [`TooManyTracks`](Refusal::TooManyTracks), [`TrackOrSide`](Refusal::TrackOrSide), [`TrackGivenTwice`](Refusal::TrackGivenTwice), and
/// [`NotTheirFindings`](Refusal::NotTheirFindings) where a track cannot have its findings: they are not strictly in order by kind and place, one
/// is [`Fzd`](crate::Kind::Fzd), or one is [`Tnf`](crate::Kind::Tnf) above track 79 or with another place or detail than 0. Findings that the
/// library gave for the same track and side are never refused so (rule 16.20).
///
/// ```
/// use thikbromu::{disk_page, Track};
///
/// // Nothing is written on track 78 and 79, and on side 1 of track 0.
/// let mut disk = Vec::new();
/// for (track, side) in [(79, 0), (0, 1), (78, 0)] {
///     disk.push((track, side, Track::new(&[0xAA; 12_500], 100_000, track, side).findings()?));
/// }
/// let page = "T78 H0 3 NOS level 3 place 0 detail 0\n\
///     T78-79 H0 4 TNF level 2 place 0 detail 0\n\
///     T79 H0 3 NOS level 3 place 0 detail 0\n\
///     T00 H1 3 NOS level 3 place 0 detail 0\n\
///     T00 H1 4 TNF level 2 place 0 detail 0\n";
/// assert_eq!(disk_page(&disk)?, page);
/// # Ok::<(), thikbromu::Refusal>(())
/// ```
pub fn disk_page<F: AsRef<[Finding]>>(tracks: &[(u32, u32, F)]) -> Result<String, Refusal> {
    let mut track_numbers = Vec::with_capacity(DISK_TRACK_NUMBERS * tracks.len());
    let mut finding_numbers = Vec::new();
    for (track, side, findings) in tracks {
        let findings = findings.as_ref();
        // A number that is too small for all of them does not add up, and no count can be greater.
        track_numbers.extend([*track, *side, u32::try_from(findings.len()).unwrap_or(u32::MAX)]);
        finding_numbers.extend(findings.iter().flat_map(numbers_of));
    }
    // A last line for a single-sided disk has room too, as 80 findings share a line there.
    let mut page = vec![0; LONGEST_LINE.len() * (finding_numbers.len() / FINDING_NUMBERS)];
    let length = boundary::disk_page(&track_numbers, &finding_numbers, &mut page)?;
    page.truncate(length);
    Ok(String::from_utf8(page).expect("a page is ASCII"))
}

/// A finding as the library's calls on a disk take it.
fn numbers_of(finding: &Finding) -> [u32; FINDING_NUMBERS] {
    [finding.kind.number().into(), finding.level().into(), finding.place, finding.detail]
}

#[cfg(test)]
mod tests {
    use super::*;
    use crate::finding::Kind;

    #[test]
    fn the_longest_line() {
        let longest = Finding { kind: Kind::Mtv, place: u32::MAX, detail: u32::MAX };
        assert_eq!(disk_page(&[(83, 1, [longest])]), Ok(LONGEST_LINE.to_string()));
        // A page of nothing else.
        let many: Vec<Finding> = (0..99).map(|before| Finding { place: u32::MAX - 98 + before, ..longest }).collect();
        let page: String = many.iter().map(|finding| format!("T83 H1 {finding}\n")).collect();
        assert_eq!(page.len(), 99 * LONGEST_LINE.len());
        assert_eq!(disk_page(&[(83, 1, many)]), Ok(page));
        // No level has two digits, and no kind has four letters.
        for kind in Kind::ALL {
            assert!(kind.level() <= 9 && kind.name().len() == 3);
        }
    }

    #[test]
    fn pages_that_leave_room() {
        let tnf = Finding { kind: Kind::Tnf, place: 0, detail: 0 };
        let empty_side: Vec<(u32, u32, [Finding; 1])> = (0..80).map(|track| (track, 1, [tnf])).collect();
        assert_eq!(disk_page(&empty_side), Ok(format!("T00-79 H1 {tnf}\nsingle-sided\n")));
        assert_eq!(disk_page::<&[Finding]>(&[]), Ok(String::new()));
    }
}
