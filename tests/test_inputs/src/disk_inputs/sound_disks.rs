//! Disks that have a page, and random ones, of which some have none.

use super::refused_disks::{all_breaks, put, Break};
use super::{
    random_findings, random_number, Disk, DiskInput, DiskTrack, FindingNumbers, TRACK_NOT_FOUND,
};
use crate::random::Random;
use second_program::findings::{level_of, KINDS, TNF};

/// Findings of a track without sectors: TNF alone, or with NOS before it, or with NFA behind
/// it.
fn without_sectors(random: &mut Random) -> Vec<FindingNumbers> {
    let mut findings = vec![TRACK_NOT_FOUND];
    if random.one_in(2) {
        findings.insert(0, [3, 3, 0, 0]);
    }
    if random.one_in(4) {
        findings.push([21, 1, random.below(1_000) as u32, 100_000]);
    }
    findings
}

/// Findings of a track with sectors: none for the most part.
fn with_sectors(random: &mut Random) -> Vec<FindingNumbers> {
    if random.one_in(4) {
        random_findings(random, 12, false)
    } else {
        Vec::new()
    }
}

/// No track, single tracks with each kind and with all of them, and two tracks in either
/// order: at the edges of both sides, with small numbers and great ones.
pub fn line_disks(random: &mut Random) -> Vec<DiskInput> {
    let mut disks = vec![Disk::default().call("no tracks".to_string())];
    let mut add = |name: String, tracks: Vec<DiskTrack>| {
        let disk = Disk {
            tracks,
            ..Disk::default()
        };
        disks.push(disk.call(name));
    };
    let places = [
        (0, 0),
        (0, 1),
        (5, 0),
        (9, 1),
        (10, 0),
        (79, 1),
        (80, 0),
        (83, 1),
    ];
    for (track, side) in places {
        let name = format!("track {track} of side {side}");
        let one = |findings| vec![DiskTrack::new(track, side, findings)];
        add(format!("{name} without findings"), one(Vec::new()));
        for kind in 1..=KINDS as u32 {
            if kind == TNF && track > 79 {
                continue;
            }
            let findings = if kind == TNF {
                vec![TRACK_NOT_FOUND]
            } else {
                vec![
                    [kind, level_of(kind), 0, 0],
                    [kind, level_of(kind), 99_999, 512],
                    [kind, random_number(random), u32::MAX - 1, u32::MAX],
                    [kind, u32::MAX, u32::MAX, random_number(random)],
                ]
            };
            add(format!("{name} with kind {kind}"), one(findings));
        }
        let every_kind = random_findings(random, 1, track <= 79);
        add(format!("{name} with every kind"), one(every_kind));
    }
    for (one, other) in [
        ((5, 0), (5, 1)),
        ((5, 1), (6, 0)),
        ((5, 0), (6, 0)),
        ((9, 0), (10, 0)),
        ((83, 0), (0, 1)),
        ((79, 0), (0, 1)),
    ] {
        for with_tnf in [[false, false], [true, false], [false, true], [true, true]] {
            let mut tracks = Vec::new();
            for ((track, side), tnf) in [one, other].into_iter().zip(with_tnf) {
                let findings = random_findings(random, 4, tnf && track <= 79);
                tracks.push(DiskTrack::new(track, side, findings));
            }
            let name = format!("places {one:?} and {other:?}, TNF {with_tnf:?}");
            add(name.clone(), tracks.clone());
            tracks.reverse();
            add(name, tracks);
        }
    }
    disks
}

/// A run of tracks with TNF of every place and length on each side. The tracks round it have
/// sectors, or one of them or both are not given. The other side may have tracks with
/// sectors.
pub fn run_disks(random: &mut Random) -> Vec<DiskInput> {
    let mut disks = Vec::new();
    for side in [0, 1] {
        for first in 0..80_u32 {
            for last in first..80 {
                let mut disk = Disk::default();
                for track in first..=last {
                    disk.add(DiskTrack::new(track, side, without_sectors(random)));
                }
                let mut around = vec![last + 1];
                around.extend(first.checked_sub(1));
                for track in around {
                    if !random.one_in(3) {
                        disk.add(DiskTrack::new(track, side, with_sectors(random)));
                    }
                }
                if random.one_in(3) {
                    for track in 0..random.below(84) as u32 {
                        disk.add(DiskTrack::new(track, 1 - side, with_sectors(random)));
                    }
                }
                let name = format!("TNF on tracks {first} to {last} of side {side}");
                disks.push(disk.shuffled_call(random, name));
            }
        }
    }
    disks
}

/// Tracks 0 to 79 of a side with TNF on all; some of 80 to 83 may follow.
fn empty_side(random: &mut Random, side: u32) -> Vec<DiskTrack> {
    let mut tracks: Vec<DiskTrack> = (0..80)
        .map(|track| DiskTrack::new(track, side, without_sectors(random)))
        .collect();
    let end = [80, 80, 82, 84][random.below(4) as usize];
    for track in 80..end {
        tracks.push(DiskTrack::new(track, side, with_sectors(random)));
    }
    tracks
}

/// Tracks 0 to 79 of a side without TNF.
fn used_side(random: &mut Random, side: u32) -> Vec<DiskTrack> {
    (0..80)
        .map(|track| DiskTrack::new(track, side, with_sectors(random)))
        .collect()
}

/// Disks with one side empty, both or neither; with an empty side and one track of the
/// other; and with a side empty but for one track that is not given, or has sectors.
pub fn side_disks(random: &mut Random) -> Vec<DiskInput> {
    let mut disks = Vec::new();
    for side in [0, 1] {
        let other = 1 - side;
        let mut add = |random: &mut Random, name: &str, one: &[DiskTrack], two: &[DiskTrack]| {
            let mut disk = Disk {
                tracks: [one, two].concat(),
                ..Disk::default()
            };
            disks.push(disk.shuffled_call(random, format!("side {side} {name}")));
        };
        for _ in 0..3 {
            let empty = empty_side(random, side);
            let used = used_side(random, side);
            let other_empty = empty_side(random, other);
            let other_used = used_side(random, other);
            add(random, "empty, the other not given", &empty, &[]);
            add(random, "empty, the other used", &empty, &other_used);
            add(random, "empty, the other as well", &empty, &other_empty);
            add(random, "used, the other as well", &used, &other_used);
        }
        for odd_track in 0..80 {
            let empty = empty_side(random, side);
            let tnf = DiskTrack::new(odd_track as u32, other, vec![TRACK_NOT_FOUND]);
            let name = format!("empty, the other given by track {odd_track} alone");
            add(random, &name, &empty, &[tnf]);
            let beside = match random.below(3) {
                0 => empty_side(random, other),
                1 => used_side(random, other),
                _ => Vec::new(),
            };
            let mut not_given = empty.clone();
            not_given.remove(odd_track);
            let name = format!("empty but for track {odd_track}, which is not given");
            add(random, &name, &not_given, &beside);
            let mut has_sectors = empty;
            has_sectors[odd_track].set_findings(with_sectors(random));
            let name = format!("empty but for track {odd_track}, which has sectors");
            add(random, &name, &has_sectors, &beside);
        }
    }
    disks
}

/// Disks of all 168 tracks: with few findings, with many, with 40 a track, and with two
/// tracks of 64 sectors that have every finding about sectors.
pub fn full_disks(random: &mut Random) -> Vec<DiskInput> {
    let mut disks = Vec::new();
    let places: Vec<(u32, u32)> = (0..168).map(|index| (index / 2, index % 2)).collect();
    for times in [1, 2, 10, 40, 0] {
        for times_of_tnf in [0, 1, 2, 10] {
            let mut disk = Disk::default();
            for &(track, side) in &places {
                let tnf = random.one_in(times_of_tnf) && track <= 79;
                disk.add(DiskTrack::new(
                    track,
                    side,
                    random_findings(random, times, tnf),
                ));
            }
            let name = format!("168 tracks, each kind once in {times}, TNF in {times_of_tnf}");
            disks.push(disk.shuffled_call(random, name));
        }
    }
    let mut disk = Disk::default();
    let forty: Vec<FindingNumbers> = (0..40)
        .map(|index| [6 + index / 10, 1, 1_000 * index, index])
        .collect();
    for &(track, side) in &places {
        disk.add(DiskTrack::new(track, side, forty.clone()));
    }
    disks.push(disk.shuffled_call(random, "40 findings a track".to_string()));
    let mut most = vec![[1, 1, 0, 131_072], [3, 3, 0, 64], [5, 2, 0, 64]];
    for kind in 6..=19 {
        most.extend((0..64).map(|sector| [kind, level_of(kind), 1_500 * sector, sector]));
    }
    most.extend([[20, 3, 7, 9], [21, 1, 1, 1_000]]);
    for track in &mut disk.tracks {
        if track.side == 1 && (track.track == 80 || track.track == 83) {
            track.set_findings(most.clone());
        }
    }
    disks.push(disk.shuffled_call(random, "two tracks with 901 findings".to_string()));
    disks
}

/// A random disk: runs of TNF, random findings and tracks left out, in any order; now and
/// then with something that is refused.
pub fn odd_disk(random: &mut Random) -> DiskInput {
    let mut disk = Disk::default();
    let left_out = [0, 0, 2, 5, 20][random.below(5) as usize];
    let times = [5, 20, 20, 60][random.below(4) as usize];
    for side in [0, 1] {
        let end = if random.one_in(2) {
            84
        } else {
            random.below(85) as u32
        };
        // A run of TNF begins or ends once in so many tracks; 0 stands for never.
        let turns = [0, 2, 4, 12, 12, 40][random.below(6) as usize];
        let mut tnf = random.one_in(2);
        for track in 0..end {
            tnf ^= random.one_in(turns);
            if !random.one_in(left_out) {
                let findings = random_findings(random, times, tnf && track <= 79);
                disk.add(DiskTrack::new(track, side, findings));
            }
        }
    }
    let mut name = format!("random disk of {} tracks", disk.tracks.len());
    if random.one_in(10) {
        let breaks = all_breaks();
        let which = if random.one_in(6) {
            Break::GivenTwice
        } else {
            breaks[random.below(breaks.len() as u64) as usize]
        };
        put(random, &mut disk, which, 0);
        name += &format!(", {which:?}");
    }
    if random.one_in(6) {
        return disk.call(name);
    }
    disk.shuffled_call(random, name)
}
