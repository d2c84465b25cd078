//! Disks that have no page: each reason alone, and two at once.

use super::{random_findings, Disk, DiskInput, DiskTrack, TRACK_NOT_FOUND};
use crate::random::Random;
use second_program::findings::TNF;

/// One reason to refuse a disk.
#[derive(Clone, Copy, Debug, PartialEq, Eq)]
pub enum Break {
    /// So many tracks in all.
    TooManyTracks(usize),
    /// A track that no drive has.
    NoSuchTrack(u32),
    /// A side that no drive has.
    NoSuchSide(u32),
    /// A track and side two times.
    GivenTwice,
    /// A track is said to have so many findings more than it has.
    CountTooHigh(u32),
    /// A track is said to have so many findings less than it has.
    CountTooLow(u32),
    /// A track is said to have this many findings.
    Count(u32),
    /// Two tracks are said to have 2^32 findings more than they have.
    CountsTurnOver,
    /// Two findings of one kind and place.
    EqualFindings,
    /// A finding behind one of a higher kind.
    KindsDescend,
    /// A finding behind one of its kind at a later place.
    PlacesDescend,
    /// A finding of a kind that no track has.
    NoSuchKind(u32),
    /// TNF on a track that need not have sectors.
    TnfOnTrack(u32),
    /// TNF with another level.
    TnfLevel(u32),
    /// TNF at another place.
    TnfPlace(u32),
    /// TNF with another detail.
    TnfDetail(u32),
    /// So many numbers of a track behind all tracks.
    PartOfATrack(usize),
    /// So many numbers of a finding behind all findings.
    PartOfAFinding(usize),
}

impl Break {
    /// The number of the refusal that the request gives it.
    pub fn refusal_number(self) -> u32 {
        match self {
            Break::TooManyTracks(_) => 22,
            Break::NoSuchTrack(_) | Break::NoSuchSide(_) => 1,
            Break::GivenTwice => 21,
            _ => 25,
        }
    }
}

/// Every reason that the lists try.
pub fn all_breaks() -> Vec<Break> {
    let mut breaks = vec![
        Break::GivenTwice,
        // Sums and four times a count that turn over at 2^32 come out right again.
        Break::CountTooHigh(1),
        Break::CountTooHigh(1 << 30),
        Break::CountTooHigh(1 << 31),
        Break::CountTooLow(2),
        Break::Count(u32::MAX),
        Break::CountsTurnOver,
        Break::EqualFindings,
        Break::KindsDescend,
        Break::PlacesDescend,
        Break::TnfOnTrack(80),
        Break::TnfOnTrack(83),
        Break::TnfLevel(1),
        Break::TnfLevel(3),
        Break::TnfPlace(1),
        Break::TnfDetail(1),
        Break::TnfDetail(u32::MAX),
    ];
    breaks.extend([169, 170, 400].map(Break::TooManyTracks));
    breaks.extend([84, 256, u32::MAX].map(Break::NoSuchTrack));
    breaks.extend([2, 256, u32::MAX].map(Break::NoSuchSide));
    breaks.extend([0, 22, u32::MAX].map(Break::NoSuchKind));
    breaks.extend([1, 2].map(Break::PartOfATrack));
    breaks.extend([1, 2, 3].map(Break::PartOfAFinding));
    breaks
}

/// The highest track that a disk has before a break gives it another.
const HIGHEST_USED: u32 = 69;

/// Puts a break into a disk, mostly by a track of its own in place of any that was there. Two
/// breaks of one disk have the `index` 0 and 1 and so tracks of other numbers.
pub(super) fn put(random: &mut Random, disk: &mut Disk, which: Break, index: u32) {
    let own = 2 * index + HIGHEST_USED + 1;
    let side = random.below(2) as u32;
    let number = match which {
        Break::TnfOnTrack(number) => number,
        _ => own,
    };
    disk.tracks.retain(|it| it.track != number);
    let two_findings = vec![[6, 1, 10, 2], [13, 1, 500, 7]];
    let mut track = DiskTrack::new(number, side, two_findings);
    match which {
        Break::TooManyTracks(count) => {
            while disk.tracks.len() < count {
                let place = random.below(u64::from(2 * HIGHEST_USED)) as u32;
                disk.add(DiskTrack::new(place / 2, place % 2, Vec::new()));
            }
            return;
        }
        Break::NoSuchTrack(number) => track.track = number,
        Break::NoSuchSide(number) => track.side = number,
        Break::GivenTwice => {
            let findings = random_findings(random, 9, false);
            disk.add(DiskTrack::new(own, side, findings));
        }
        Break::CountTooHigh(by) => track.count += by,
        Break::CountTooLow(by) => track.count -= by,
        Break::Count(count) => track.count = count,
        Break::CountsTurnOver => {
            let mut other = DiskTrack::new(own, 1 - side, vec![[21, 1, 3, 1_000]]);
            let more = match random.below(3) {
                0 => 1 << 31,
                1 => 5,
                _ => random.between(5, i64::from(u32::MAX) - 5) as u32,
            };
            other.count += more;
            track.count += u32::MAX - more + 1;
            disk.add(other);
        }
        Break::EqualFindings => track.set_findings(vec![[6, 1, 10, 2], [6, 1, 10, 3]]),
        Break::KindsDescend => track.findings.reverse(),
        Break::PlacesDescend => track.findings[1] = [6, 1, 9, 1],
        Break::NoSuchKind(kind) => {
            // Where it would stand in the order of kinds.
            let at = if kind == 0 { 0 } else { 2 };
            track.findings.insert(at, [kind, 1, 0, 0]);
            track.count += 1;
        }
        Break::TnfOnTrack(_) => track.set_findings(vec![[3, 3, 0, 0], TRACK_NOT_FOUND]),
        Break::TnfLevel(level) => track.set_findings(vec![[TNF, level, 0, 0]]),
        Break::TnfPlace(place) => track.set_findings(vec![[TNF, 2, place, 0]]),
        Break::TnfDetail(detail) => track.set_findings(vec![[TNF, 2, 0, detail]]),
        Break::PartOfATrack(numbers) => {
            disk.part_of_a_track = [75, 0][..numbers].to_vec();
            return;
        }
        Break::PartOfAFinding(numbers) => {
            disk.part_of_a_finding = [21, 1, 5][..numbers].to_vec();
            return;
        }
    }
    disk.add(track);
}

/// A disk of a few tracks.
fn small_disk(random: &mut Random) -> Disk {
    let mut disk = Disk::default();
    let left_out = random.between(2, 5) as u64;
    for track in 0..=HIGHEST_USED {
        for side in [0, 1] {
            if random.one_in(left_out) {
                let tnf = random.one_in(3);
                disk.add(DiskTrack::new(
                    track,
                    side,
                    random_findings(random, 12, tnf),
                ));
            }
        }
    }
    disk
}

/// Three disks for each break.
pub fn single_break_disks(random: &mut Random) -> Vec<DiskInput> {
    let mut disks = Vec::new();
    for which in all_breaks() {
        // Among other tracks in any order, at the end of other tracks, and alone.
        let mut disk = small_disk(random);
        put(random, &mut disk, which, 0);
        random.shuffle(&mut disk.tracks);
        disks.push(disk.call(format!("{which:?}")));
        let mut disk = small_disk(random);
        put(random, &mut disk, which, 0);
        disks.push(disk.call(format!("{which:?} at the end")));
        let mut disk = Disk::default();
        put(random, &mut disk, which, 0);
        disks.push(disk.call(format!("{which:?} alone")));
    }
    disks
}

/// A disk for every two different breaks, in either order.
pub fn double_break_disks(random: &mut Random) -> Vec<DiskInput> {
    let mut disks = Vec::new();
    for one in all_breaks() {
        for other in all_breaks() {
            if one == other {
                continue;
            }
            let mut disk = small_disk(random);
            put(random, &mut disk, one, 0);
            put(random, &mut disk, other, 1);
            if random.one_in(2) {
                random.shuffle(&mut disk.tracks);
            }
            disks.push(disk.call(format!("{one:?} and {other:?}")));
        }
    }
    disks
}

/// All places of a drive, some that it lacks, and each of its own given twice; and numbers
/// of tracks around the most. No track has findings.
pub fn place_disks(random: &mut Random) -> Vec<DiskInput> {
    let mut places = Vec::new();
    for side in [0, 1] {
        places.extend((0..84).map(|track| (track, side)));
    }
    let mut disks = Vec::new();
    let mut add = |random: &mut Random, name: String, mut given: Vec<(u32, u32)>| {
        random.shuffle(&mut given);
        let mut disk = Disk::default();
        for (track, side) in given {
            disk.add(DiskTrack::new(track, side, Vec::new()));
        }
        disks.push(disk.call(name));
    };
    for &place in &places {
        let mut some = vec![place];
        some.extend(places.iter().filter(|&&it| it != place && random.one_in(3)));
        add(random, format!("place {place:?}"), some.clone());
        some.push(place);
        add(random, format!("place {place:?} twice"), some);
    }
    for track in [84, 85, 100, 255, 256, 1 << 31, u32::MAX] {
        for side in [0, 1, 2, u32::MAX] {
            add(
                random,
                format!("track {track} of side {side}"),
                vec![(track, side)],
            );
            let mut some = places[20..120].to_vec();
            some.push((track, side));
            add(
                random,
                format!("track {track} of side {side} among others"),
                some,
            );
        }
    }
    for side in [2, 3, 255, 256, u32::MAX] {
        for track in [0, 1, 83] {
            let mut some = places[60..].to_vec();
            some.push((track, side));
            add(random, format!("track {track} of side {side}"), some);
        }
    }
    for count in [166, 167, 168, 169, 170, 336, 1_000] {
        let some: Vec<(u32, u32)> = (0..count).map(|index| places[index % 168]).collect();
        add(random, format!("{count} tracks"), some.clone());
        // The last of them is none of a drive.
        let mut with_wrong = some;
        with_wrong[count - 1] = (84, 0);
        add(
            random,
            format!("{count} tracks, one of them 84"),
            with_wrong,
        );
    }
    disks
}

/// Numbers at the end that make no whole track or finding: behind no tracks at all, some and
/// all of a drive. As a whole track, some of them would be refused for another reason.
pub fn part_disks(random: &mut Random) -> Vec<DiskInput> {
    let mut disks = Vec::new();
    for count in [0, 1, 2, 167, 168, 169] {
        let mut whole = Disk::default();
        for index in 0..count {
            let findings = random_findings(random, 30, false);
            whole.add(DiskTrack::new(index / 2 % 84, index % 2, findings));
        }
        for part_of_a_track in [vec![0], vec![0, 1], vec![84], vec![0, 2], vec![u32::MAX; 2]] {
            let disk = Disk {
                part_of_a_track,
                ..whole.clone()
            };
            let part = &disk.part_of_a_track;
            disks.push(disk.call(format!("{count} tracks and of another {part:?}")));
        }
        for part_of_a_finding in [vec![21], vec![21, 1, 0], vec![0], vec![22, 1]] {
            let disk = Disk {
                part_of_a_finding,
                ..whole.clone()
            };
            let part = &disk.part_of_a_finding;
            disks.push(disk.call(format!("{count} tracks and of a finding {part:?}")));
        }
    }
    disks
}
