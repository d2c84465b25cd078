//! Whole disks for the page: runs of tracks without sectors, empty sides, random findings,
//! and what is refused.

mod refused_disks;
mod sound_disks;

use crate::random::Random;
use second_program::findings::{level_of, KINDS, TNF};

pub use refused_disks::{
    all_breaks, double_break_disks, part_disks, place_disks, single_break_disks, Break,
};
pub use sound_disks::{full_disks, line_disks, odd_disk, run_disks, side_disks};

/// The four numbers of a finding: kind, level, place and detail.
pub type FindingNumbers = [u32; 4];

/// The finding of a track without sectors.
pub const TRACK_NOT_FOUND: FindingNumbers = [TNF, 2, 0, 0];

/// A track of a disk as it is handed over.
#[derive(Clone, Debug, PartialEq, Eq)]
pub struct DiskTrack {
    /// The track.
    pub track: u32,
    /// The side.
    pub side: u32,
    /// How many findings it is said to have.
    pub count: u32,
    /// Its findings.
    pub findings: Vec<FindingNumbers>,
}

impl DiskTrack {
    /// A track that is said to have as many findings as it has.
    pub fn new(track: u32, side: u32, findings: Vec<FindingNumbers>) -> DiskTrack {
        DiskTrack {
            track,
            side,
            count: findings.len() as u32,
            findings,
        }
    }

    /// Gives the track other findings, and their number.
    fn set_findings(&mut self, findings: Vec<FindingNumbers>) {
        self.count = findings.len() as u32;
        self.findings = findings;
    }
}

/// A call for the page of a disk, without the room.
#[derive(Clone, Debug, PartialEq, Eq)]
pub struct DiskInput {
    /// What the disk tries, in a few words.
    pub name: String,
    /// Three numbers for each track.
    pub tracks: Vec<u32>,
    /// Four numbers for each finding.
    pub findings: Vec<u32>,
}

/// A disk in the making.
#[derive(Clone, Debug, Default, PartialEq, Eq)]
struct Disk {
    /// Its tracks in the order in which they are handed over.
    tracks: Vec<DiskTrack>,
    /// Numbers behind all tracks that make no whole track.
    part_of_a_track: Vec<u32>,
    /// Numbers behind all findings that make no whole finding.
    part_of_a_finding: Vec<u32>,
}

impl Disk {
    /// Adds a track at the end.
    fn add(&mut self, track: DiskTrack) {
        self.tracks.push(track);
    }

    /// The call for this disk.
    fn call(&self, name: String) -> DiskInput {
        let mut tracks = Vec::new();
        let mut findings = Vec::new();
        for track in &self.tracks {
            tracks.extend([track.track, track.side, track.count]);
            findings.extend(track.findings.iter().flatten());
        }
        tracks.extend(&self.part_of_a_track);
        findings.extend(&self.part_of_a_finding);
        DiskInput {
            name,
            tracks,
            findings,
        }
    }

    /// The call for this disk with its tracks in a random order.
    fn shuffled_call(&mut self, random: &mut Random, name: String) -> DiskInput {
        random.shuffle(&mut self.tracks);
        self.call(name)
    }
}

/// A number that may be small, usual for a place of a track, or any.
fn random_number(random: &mut Random) -> u32 {
    match random.below(8) {
        0 => random.below(12) as u32,
        1 => u32::MAX - random.below(3) as u32,
        2 => random.next_number() as u32,
        _ => random.below(131_072) as u32,
    }
}

/// Random findings of a track in their order, with or without TNF: each other kind once in
/// `times`, at one place or more. Now and then a level is not that of its kind.
fn random_findings(random: &mut Random, times: u64, tnf: bool) -> Vec<FindingNumbers> {
    let mut findings = Vec::new();
    for kind in 1..=KINDS as u32 {
        if kind == TNF {
            if tnf {
                findings.push(TRACK_NOT_FOUND);
            }
            continue;
        }
        if !random.one_in(times) {
            continue;
        }
        let mut places: Vec<u32> = (0..=random.below(3))
            .map(|_| random_number(random))
            .collect();
        places.sort();
        places.dedup();
        for place in places {
            let level = if random.one_in(10) {
                random_number(random)
            } else {
                level_of(kind)
            };
            findings.push([kind, level, place, random_number(random)]);
        }
    }
    findings
}

/// So many disks for a comparison, each made when it is asked for: first those of the
/// lists, which are nearly 9,000, then random ones. The same seed gives the same disks.
pub fn disk_inputs(seed: u64, count: usize) -> impl Iterator<Item = DiskInput> {
    let mut random = Random::new(seed);
    let made: [fn(&mut Random) -> Vec<DiskInput>; 8] = [
        line_disks,
        side_disks,
        place_disks,
        part_disks,
        single_break_disks,
        double_break_disks,
        full_disks,
        run_disks,
    ];
    let mut list_random = Random::new(random.next_number());
    let listed = made
        .into_iter()
        .flat_map(move |make| make(&mut list_random));
    let at_random = std::iter::repeat_with(move || odd_disk(&mut random));
    listed.chain(at_random).take(count)
}

#[cfg(test)]
mod tests {
    use super::*;
    use second_program::disk_page::disk_page;
    use second_program::refusal::Refusal;
    use std::collections::BTreeSet;

    fn refused(number: u32) -> Result<Vec<u8>, Refusal> {
        Err(Refusal { number, value: 0 })
    }

    /// The page of a disk that is not refused.
    fn page_of(disk: &DiskInput) -> String {
        let page = disk_page(&disk.tracks, &disk.findings);
        String::from_utf8(page.expect(&disk.name)).unwrap()
    }

    /// The lines of a page that stand for more than one track.
    fn ranges_of(page: &str) -> Vec<String> {
        page.lines()
            .filter(|line| line.as_bytes().get(3) == Some(&b'-'))
            .map(|line| line[..9].to_string())
            .collect()
    }

    #[test]
    fn runs_of_every_place_and_length() {
        let disks = run_disks(&mut Random::new(1));
        let mut singles = [0, 0];
        let mut ranges = BTreeSet::new();
        for disk in &disks {
            let page = page_of(disk);
            let of_disk = ranges_of(&page);
            assert!(of_disk.len() <= 1, "{}", disk.name);
            if of_disk.is_empty() {
                let side = usize::from(page.contains(" H1 4 TNF"));
                singles[side] += 1;
            }
            ranges.extend(of_disk);
        }
        // 80 runs of one track and 3,160 longer ones, on both sides.
        assert_eq!(singles, [80, 80]);
        assert_eq!(ranges.len(), 2 * 3_160);
        assert!(ranges.contains("T00-79 H0") && ranges.contains("T78-79 H1"));
    }

    #[test]
    fn some_disks_are_single_sided_and_some_nearly() {
        let disks = side_disks(&mut Random::new(2));
        let (mut single, mut other) = (0, 0);
        for disk in &disks {
            if page_of(disk).ends_with("\nsingle-sided\n") {
                single += 1;
            } else {
                other += 1;
            }
        }
        assert!(single >= 100 && other >= 160, "{single} {other}");
    }

    #[test]
    fn the_disks_of_places_are_refused_for_them_alone() {
        let disks = place_disks(&mut Random::new(3));
        let mut numbers = [0; 26];
        for disk in &disks {
            match disk_page(&disk.tracks, &disk.findings) {
                Ok(_) => numbers[0] += 1,
                Err(refusal) => numbers[refusal.number as usize] += 1,
            }
        }
        assert!(numbers[0] >= 168 && numbers[1] >= 20 && numbers[21] >= 168);
        assert!(numbers[22] >= 5);
        assert_eq!(numbers[25], 0);
    }

    #[test]
    fn parts_are_judged_after_the_whole_tracks() {
        let disks = part_disks(&mut Random::new(9));
        // The last sixth of the disks has 169 whole tracks.
        let with_169 = disks.len() / 6 * 5;
        for (index, disk) in disks.iter().enumerate() {
            let number = if index < with_169 { 25 } else { 22 };
            let answer = disk_page(&disk.tracks, &disk.findings);
            assert_eq!(answer, refused(number), "{}", disk.name);
        }
    }

    #[test]
    fn each_break_is_refused_with_its_number() {
        let disks = single_break_disks(&mut Random::new(4));
        let breaks = all_breaks();
        assert_eq!(disks.len(), 3 * breaks.len());
        for (index, disk) in disks.iter().enumerate() {
            let number = breaks[index / 3].refusal_number();
            let answer = disk_page(&disk.tracks, &disk.findings);
            assert_eq!(answer, refused(number), "{}", disk.name);
        }
    }

    #[test]
    fn of_two_breaks_the_first_in_order_counts() {
        let disks = double_break_disks(&mut Random::new(5));
        let breaks = all_breaks();
        let mut disk = disks.iter();
        for one in &breaks {
            for other in &breaks {
                if one == other {
                    continue;
                }
                let both = [one.refusal_number(), other.refusal_number()];
                let first = [22, 1, 21, 25]
                    .into_iter()
                    .find(|number| both.contains(number));
                let disk = disk.next().unwrap();
                let answer = disk_page(&disk.tracks, &disk.findings);
                assert_eq!(answer, refused(first.unwrap()), "{}", disk.name);
            }
        }
        assert!(disk.next().is_none());
    }

    #[test]
    fn full_disks_have_every_place() {
        let mut lines = Vec::new();
        for disk in full_disks(&mut Random::new(6)) {
            assert_eq!(disk.tracks.len(), 3 * 168, "{}", disk.name);
            lines.push(page_of(&disk).lines().count());
        }
        // Every track has 40, and then two of them the most that a track can have.
        assert_eq!(lines[lines.len() - 2..], [168 * 40, 166 * 40 + 2 * 901]);
    }

    #[test]
    fn the_disks_of_lines_have_every_kind() {
        let mut kinds = BTreeSet::new();
        let disks = line_disks(&mut Random::new(7));
        assert_eq!(disks.len(), 1 + 8 * 23 - 2 + 6 * 4 * 2);
        for disk in disks {
            page_of(&disk);
            kinds.extend(disk.findings.chunks(4).map(|numbers| numbers[0]));
        }
        assert_eq!(kinds, (1..=21).collect());
    }

    #[test]
    fn random_disks_are_accepted_for_the_most_part() {
        let mut random = Random::new(8);
        let mut numbers = [0; 26];
        let (mut ranges, mut single_sided, mut unsorted) = (0, 0, 0);
        for _ in 0..1_000 {
            let disk = odd_disk(&mut random);
            let order: Vec<(u32, u32)> = disk
                .tracks
                .chunks_exact(3)
                .map(|it| (it[1], it[0]))
                .collect();
            unsorted += usize::from(!order.is_sorted());
            match disk_page(&disk.tracks, &disk.findings) {
                Ok(page) => {
                    let page = String::from_utf8(page).unwrap();
                    ranges += ranges_of(&page).len();
                    single_sided += usize::from(page.ends_with("single-sided\n"));
                    numbers[0] += 1;
                }
                Err(refusal) => numbers[refusal.number as usize] += 1,
            }
        }
        assert!(numbers[0] >= 700 && ranges >= 1_000 && single_sided >= 10);
        assert!(unsorted >= 800);
        for number in [1, 21, 22, 25] {
            assert!(numbers[number] >= 3, "refusal {number}: {numbers:?}");
        }
    }

    #[test]
    fn the_same_seed_gives_the_same_disks() {
        let all: Vec<DiskInput> = disk_inputs(1, 9_000).collect();
        assert_eq!(all.len(), 9_000);
        let listed = all.iter().position(|it| it.name.starts_with("random"));
        assert_eq!(listed, Some(8_936));
        assert!(disk_inputs(1, 9_000).eq(all));
    }
}
