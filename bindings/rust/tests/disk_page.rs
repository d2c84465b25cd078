//! The page of a disk (section 16 of the specification), by the crate's findings and by the numbers that the caller lends.

use thikbromu::boundary::{self, DISK_TRACK_NUMBERS, FINDING_NUMBERS};
use thikbromu::*;

const TNF: Finding = Finding { kind: Kind::Tnf, place: 0, detail: 0 };

/// A disk in either way, to be compared: its tracks, and the numbers that they are.
struct Disk(Vec<(u32, u32, Vec<Finding>)>);

impl Disk {
    /// The numbers of its tracks and of its findings.
    fn numbers(&self) -> (Vec<u32>, Vec<u32>) {
        let (mut tracks, mut findings) = (Vec::new(), Vec::new());
        for (track, side, of_track) in &self.0 {
            tracks.extend([*track, *side, of_track.len() as u32]);
            for &Finding { kind, place, detail } in of_track {
                findings.extend([kind.number().into(), kind.level().into(), place, detail]);
            }
        }
        (tracks, findings)
    }

    /// The page is this text; a lent buffer has as much of it as there is room for, and is kept behind it.
    fn gives(&self, text: &str) {
        assert_eq!(disk_page(&self.0).as_deref(), Ok(text));
        let (tracks, findings) = self.numbers();
        for room in [0, 1, text.len() / 2, text.len().saturating_sub(1), text.len(), text.len() + 9] {
            let mut out = vec![7; room];
            assert_eq!(boundary::disk_page(&tracks, &findings, &mut out), Ok(text.len()));
            let written = room.min(text.len());
            assert_eq!(out[..written], text.as_bytes()[..written]);
            assert!(out[written..].iter().all(|&byte| byte == 7));
        }
    }

    /// It is refused; a lent buffer is kept.
    fn refuses(&self, refusal: Refusal) {
        assert_eq!(disk_page(&self.0), Err(refusal));
        let (tracks, findings) = self.numbers();
        refuses_numbers(&tracks, &findings, refusal);
    }
}

fn refuses_numbers(tracks: &[u32], findings: &[u32], refusal: Refusal) {
    let mut out = [7; 99];
    assert_eq!(boundary::disk_page(tracks, findings, &mut out), Err(refusal));
    assert_eq!(out, [7; 99]);
}

fn finding(kind: Kind, place: u32, detail: u32) -> Finding {
    Finding { kind, place, detail }
}

/// The places of a drive, from the last to the first.
fn all_places() -> impl Iterator<Item = (u32, u32)> {
    (0..MOST_TRACKS as u32).rev().map(|index| (index / 2, index % 2))
}

#[test]
fn lines_are_sorted_and_tracks_without_sectors_share_one() {
    Disk(vec![
        (7, 1, vec![TNF]),
        (9, 1, vec![TNF]),
        (5, 0, vec![finding(Kind::Nos, 0, 12)]),
        (6, 1, vec![finding(Kind::Nos, 0, 0), TNF]),
        (83, 0, vec![finding(Kind::Mtv, 7, 10), finding(Kind::Nfa, 0, 1_000)]),
        (5, 1, vec![TNF, finding(Kind::Ext, 8, 7)]),
        (4, 1, vec![]),
    ])
    .gives(
        "T05 H0 3 NOS level 3 place 0 detail 12\n\
         T83 H0 20 MTV level 3 place 7 detail 10\n\
         T83 H0 21 NFA level 1 place 0 detail 1000\n\
         T05-07 H1 4 TNF level 2 place 0 detail 0\n\
         T05 H1 5 EXT level 2 place 8 detail 7\n\
         T06 H1 3 NOS level 3 place 0 detail 0\n\
         T09 H1 4 TNF level 2 place 0 detail 0\n",
    );
    Disk(vec![]).gives("");
    Disk(vec![(83, 1, vec![])]).gives("");
}

#[test]
fn a_range_is_of_one_side_and_without_gaps() {
    Disk(vec![(79, 0, vec![TNF]), (0, 1, vec![TNF]), (1, 1, vec![TNF]), (3, 1, vec![TNF])]).gives(
        "T79 H0 4 TNF level 2 place 0 detail 0\n\
         T00-01 H1 4 TNF level 2 place 0 detail 0\n\
         T03 H1 4 TNF level 2 place 0 detail 0\n",
    );
}

#[test]
fn the_last_line_of_a_single_sided_disk() {
    for side in [0, 1] {
        let whole = format!("T00-79 H{side} 4 TNF level 2 place 0 detail 0\n");
        let with_tnf = |place: (u32, u32)| if place.0 < 80 && place.1 == side { vec![TNF] } else { vec![] };
        let mut disk = Disk(all_places().map(|place| (place.0, place.1, with_tnf(place))).collect());
        disk.gives(&format!("{whole}single-sided\n"));
        // All but track 0, the last one but one or two of the list.
        let of_track_0 = MOST_TRACKS - 1 - side as usize;
        disk.0[of_track_0].2.clear();
        disk.gives(&format!("T01-79 H{side} 4 TNF level 2 place 0 detail 0\n"));
        disk.0.remove(of_track_0);
        disk.gives(&format!("T01-79 H{side} 4 TNF level 2 place 0 detail 0\n"));
    }
    let both = all_places().filter(|&(track, _)| track < 80).map(|(track, side)| (track, side, vec![TNF]));
    Disk(both.collect()).gives("T00-79 H0 4 TNF level 2 place 0 detail 0\nT00-79 H1 4 TNF level 2 place 0 detail 0\n");
}

#[test]
fn refusals_in_their_order() {
    // TNF above track 79, a track twice, a side that no drive has, and one track too many: each comes before those named ahead of it.
    let mut disk = Disk(all_places().map(|(track, side)| (track, side, vec![])).collect());
    disk.gives("");
    disk.0[0].2 = vec![TNF];
    disk.refuses(Refusal::NotTheirFindings);
    disk.0[1].1 = 1;
    disk.refuses(Refusal::TrackGivenTwice);
    disk.0[2].1 = 2;
    disk.refuses(Refusal::TrackOrSide);
    disk.0[2] = (84, 0, vec![]);
    disk.refuses(Refusal::TrackOrSide);
    disk.0.push((0, 0, vec![]));
    disk.refuses(Refusal::TooManyTracks);
}

#[test]
fn findings_that_a_track_cannot_have() {
    for findings in [
        vec![finding(Kind::Fzd, 0, 1)],
        vec![finding(Kind::Tnf, 1, 0)],
        vec![finding(Kind::Tnf, 0, 1)],
        vec![TNF, TNF],
        vec![TNF, finding(Kind::Nos, 0, 0)],
        vec![finding(Kind::Sbd, 9, 0), finding(Kind::Sbd, 8, 0)],
        vec![finding(Kind::Sbd, 9, 0), finding(Kind::Sbd, 9, 1)],
    ] {
        Disk(vec![(0, 0, findings)]).refuses(Refusal::NotTheirFindings);
    }
    // The order is that of a track: a later one begins anew.
    let one = vec![finding(Kind::Sbd, 9, 0)];
    Disk(vec![(1, 0, one.clone()), (0, 0, one)]).gives(
        "T00 H0 15 SBD level 1 place 9 detail 0\n\
         T01 H0 15 SBD level 1 place 9 detail 0\n",
    );
}

#[test]
fn numbers_that_no_finding_of_this_crate_has() {
    let tracks = [5, 0, 1];
    for findings in [[0, 1, 0, 0], [23, 1, 0, 0], [u32::MAX, 0, 0, 0], [4, 1, 0, 0], [4, 3, 0, 0]] {
        refuses_numbers(&tracks, &findings, Refusal::NotTheirFindings);
    }
    // Any level of another kind is written as it is.
    let line = b"T05 H0 3 NOS level 4294967295 place 1 detail 2\n";
    let mut out = [7; 47];
    assert_eq!(boundary::disk_page(&tracks, &[3, u32::MAX, 1, 2], &mut out), Ok(line.len()));
    assert_eq!(&out, line);
    // Numbers left over, and counts that do not add up, also where they do by 32 bits.
    let tnf = [4, 2, 0, 0];
    for length in 0..FINDING_NUMBERS {
        refuses_numbers(&tracks, &tnf[..length], Refusal::NotTheirFindings);
    }
    for length in 1..DISK_TRACK_NUMBERS {
        refuses_numbers(&tracks[..length], &[], Refusal::NotTheirFindings);
    }
    refuses_numbers(&[5, 0, 1, 6], &tnf, Refusal::NotTheirFindings);
    refuses_numbers(&[5, 0, 1, 6, 0], &tnf, Refusal::NotTheirFindings);
    refuses_numbers(&[5, 0, 0], &tnf, Refusal::NotTheirFindings);
    refuses_numbers(&[5, 0, 2], &tnf, Refusal::NotTheirFindings);
    refuses_numbers(&[5, 0, 1 << 31, 6, 0, (1 << 31) + 1], &tnf, Refusal::NotTheirFindings);
    refuses_numbers(&[5, 0, 2, 6, 0, u32::MAX], &tnf, Refusal::NotTheirFindings);
}
