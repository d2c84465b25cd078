//! The page of a whole disk: the findings of all its tracks in one list.
//!
//! Tracks and findings come as plain numbers. A track has three: its track, its side and how
//! many findings it has. A finding has four: kind, level, place and detail. The findings of
//! all tracks stand one after the other in the order of the tracks, which may be any.

use crate::findings::{level_of, Finding, KINDS, TNF};
use crate::listing;
use crate::refusal::{Refusal, HIGHEST_SIDE, HIGHEST_TRACK, MOST_TRACKS};

/// The numbers of a track.
const TRACK_NUMBERS: usize = 3;
/// The numbers of a finding.
const FINDING_NUMBERS: usize = 4;
/// The highest track that a standard disk has, and that can lack all its sectors.
const HIGHEST_STANDARD_TRACK: u32 = 79;
/// What the last line says of a disk with one empty side.
const SINGLE_SIDED: &str = "single-sided\n";

/// A track with its findings.
struct DiskTrack {
    number: u32,
    side: u32,
    findings: Vec<Finding>,
}

impl DiskTrack {
    fn has_tnf(&self) -> bool {
        self.findings.iter().any(|finding| finding.kind == TNF)
    }
}

/// Findings from their numbers; a rest of less than four is left out.
fn findings_from(numbers: &[u32]) -> Vec<Finding> {
    numbers
        .chunks_exact(FINDING_NUMBERS)
        .map(|of_finding| Finding {
            kind: of_finding[0],
            level: of_finding[1],
            place: of_finding[2] as usize,
            detail: of_finding[3] as usize,
        })
        .collect()
}

/// Whether a track can have these findings: each kind is one of a track's, each kind and
/// place comes after the one before, and TNF is as the table of findings has it. The level
/// of another kind is not judged.
fn can_be_findings_of(track: u32, findings: &[Finding]) -> bool {
    let in_order = findings
        .windows(2)
        .all(|pair| (pair[0].kind, pair[0].place) < (pair[1].kind, pair[1].place));
    let kinds = 1..=KINDS as u32;
    let usual_tnf = Finding {
        kind: TNF,
        level: level_of(TNF),
        place: 0,
        detail: 0,
    };
    in_order
        && findings.iter().all(|finding| {
            let tnf_is_right = track <= HIGHEST_STANDARD_TRACK && *finding == usual_tnf;
            kinds.contains(&finding.kind) && (finding.kind != TNF || tnf_is_right)
        })
}

/// The tracks with their findings. Refusals in order: 22, 1, 21, 25. Numbers at the end
/// that make no whole track or finding bring 25, and count for nothing before it.
fn judged(tracks: &[u32], findings: &[u32]) -> Result<Vec<DiskTrack>, Refusal> {
    let given: Vec<&[u32]> = tracks.chunks_exact(TRACK_NUMBERS).collect();
    if given.len() > MOST_TRACKS {
        return Err(Refusal::too_many_tracks());
    }
    let mut places: Vec<(u32, u32)> = given
        .iter()
        .map(|numbers| (numbers[0], numbers[1]))
        .collect();
    if places
        .iter()
        .any(|&(track, side)| track > HIGHEST_TRACK || side > HIGHEST_SIDE)
    {
        return Err(Refusal::drive_place_out_of_range());
    }
    places.sort();
    if places.windows(2).any(|pair| pair[0] == pair[1]) {
        return Err(Refusal::place_given_twice());
    }
    let all_findings = findings_from(findings);
    let counted: u64 = given.iter().map(|numbers| u64::from(numbers[2])).sum();
    if tracks.len() != TRACK_NUMBERS * given.len()
        || findings.len() != FINDING_NUMBERS * all_findings.len()
        || counted != all_findings.len() as u64
    {
        return Err(Refusal::not_findings_of_a_disk());
    }
    let mut rest = &all_findings[..];
    let mut disk = Vec::new();
    for numbers in given {
        let (of_track, after) = rest.split_at(numbers[2] as usize);
        rest = after;
        if !can_be_findings_of(numbers[0], of_track) {
            return Err(Refusal::not_findings_of_a_disk());
        }
        disk.push(DiskTrack {
            number: numbers[0],
            side: numbers[1],
            findings: of_track.to_vec(),
        });
    }
    Ok(disk)
}

/// The tracks of a side that have TNF, in order, each list a run of consecutive ones.
fn runs_of_tnf(disk: &[DiskTrack], side: u32) -> Vec<Vec<u32>> {
    let mut with_tnf: Vec<u32> = disk
        .iter()
        .filter(|track| track.side == side && track.has_tnf())
        .map(|track| track.number)
        .collect();
    with_tnf.sort();
    let mut runs: Vec<Vec<u32>> = Vec::new();
    for number in with_tnf {
        match runs.last_mut() {
            Some(run) if run[run.len() - 1] + 1 == number => run.push(number),
            _ => runs.push(vec![number]),
        }
    }
    runs
}

/// The lines of one side: by track, and in each track as its findings come. A run of tracks
/// with TNF has its line in its first track.
fn lines_of_side(disk: &[DiskTrack], side: u32) -> String {
    let runs = runs_of_tnf(disk, side);
    let mut of_side: Vec<&DiskTrack> = disk.iter().filter(|track| track.side == side).collect();
    of_side.sort_by_key(|track| track.number);
    let mut lines = String::new();
    for track in of_side {
        for finding in &track.findings {
            let mut numbers = format!("{:02}", track.number);
            if finding.kind == TNF {
                let Some(run) = runs.iter().find(|run| run[0] == track.number) else {
                    // The line of an earlier track stands for this one too.
                    continue;
                };
                if run.len() > 1 {
                    numbers += &format!("-{:02}", run[run.len() - 1]);
                }
            }
            lines += &format!("T{numbers} H{side} {}", listing::line_of(finding));
        }
    }
    lines
}

/// Whether a side has TNF on each track of a standard disk.
fn side_is_empty(disk: &[DiskTrack], side: u32) -> bool {
    let all: Vec<u32> = (0..=HIGHEST_STANDARD_TRACK).collect();
    runs_of_tnf(disk, side) == [all]
}

/// The page of a disk. Refusals in order: 22, 1, 21, 25.
pub fn disk_page(tracks: &[u32], findings: &[u32]) -> Result<Vec<u8>, Refusal> {
    let disk = judged(tracks, findings)?;
    let mut page = lines_of_side(&disk, 0) + &lines_of_side(&disk, 1);
    if side_is_empty(&disk, 0) != side_is_empty(&disk, 1) {
        page += SINGLE_SIDED;
    }
    Ok(page.into_bytes())
}

/// Writes as much of the page as `out` has room for, and gives the length of the whole page.
/// What is behind the page stays; beside a refusal nothing is written.
pub fn write_disk_page(tracks: &[u32], findings: &[u32], out: &mut [u8]) -> Result<usize, Refusal> {
    let page = disk_page(tracks, findings)?;
    let written = page.len().min(out.len());
    out[..written].copy_from_slice(&page[..written]);
    Ok(page.len())
}
