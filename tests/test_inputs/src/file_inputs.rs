//! Track files (section 10 of the specification): whole ones that reach every finding,
//! and files at and past each limit, cut, too long or changed, that reach every refusal
//! of the program and try the order of the refusals. Files with a flux section, as they were
//! once read, are in `old_file_inputs`.

pub(crate) mod made_tracks;
pub(crate) mod random_files;
pub(crate) mod refused_files;

use made_tracks::MadeTrack;
use second_program::cells;

pub use made_tracks::ids_on;
pub use random_files::{changed_file, file_of_any_bytes, mixed_file, odd_file};

/// The parts of a track file. Each is free, so that a file can also be broken: a count
/// need not agree with what follows it.
#[derive(Clone, Debug, PartialEq, Eq)]
pub struct FilePlan {
    /// The count of the place, 2 in a track file.
    pub place_count: u32,
    /// The place: T and H in a track file.
    pub place: Vec<u8>,
    /// The count of the cells.
    pub cell_count: u32,
    /// The packed bytes of cells.
    pub packed_cells: Vec<u8>,
    /// The count of the timings.
    pub flux_count: u32,
    /// The timings.
    pub timings: Vec<u32>,
    /// What follows the last section: nothing in a track file.
    pub left_over: Vec<u8>,
}

impl FilePlan {
    /// A file of a place and cells. The bytes are written as they are.
    pub fn of_cells(drive_track: u8, drive_side: u8, n: usize, packed_cells: &[u8]) -> FilePlan {
        FilePlan {
            place_count: 2,
            place: vec![drive_track, drive_side],
            cell_count: n as u32,
            packed_cells: packed_cells.to_vec(),
            flux_count: 0,
            timings: Vec::new(),
            left_over: Vec::new(),
        }
    }

    /// An old file of a place and timings.
    pub fn of_timings(drive_track: u8, drive_side: u8, timings: &[u32]) -> FilePlan {
        FilePlan {
            flux_count: timings.len() as u32,
            timings: timings.to_vec(),
            ..FilePlan::of_cells(drive_track, drive_side, 0, &[])
        }
    }

    /// The bytes of the file: the sections in their order, each after its count.
    pub fn bytes(&self) -> Vec<u8> {
        let mut file = self.place_count.to_le_bytes().to_vec();
        file.extend(&self.place);
        file.extend(self.cell_count.to_le_bytes());
        file.extend(&self.packed_cells);
        file.extend(self.flux_count.to_le_bytes());
        for timing in &self.timings {
            file.extend(timing.to_le_bytes());
        }
        file.extend(&self.left_over);
        file
    }
}

/// The track file of a place and cells, one cell to an element.
pub fn file_of_cells(drive_track: u8, drive_side: u8, track_cells: &[u8]) -> Vec<u8> {
    let packed = cells::pack(track_cells);
    FilePlan::of_cells(drive_track, drive_side, track_cells.len(), &packed).bytes()
}

/// The old track file of a place and timings.
pub fn file_of_timings(drive_track: u8, drive_side: u8, timings: &[u32]) -> Vec<u8> {
    FilePlan::of_timings(drive_track, drive_side, timings).bytes()
}

/// The first `length` bytes of a file.
pub fn cut(file: &[u8], length: usize) -> Vec<u8> {
    file[..length.min(file.len())].to_vec()
}

/// A file and what it tries.
#[derive(Clone, Debug, PartialEq, Eq)]
pub struct NamedFile {
    /// What the file tries, in a few words.
    pub name: String,
    /// The file.
    pub bytes: Vec<u8>,
}

pub(crate) fn named(name: impl Into<String>, bytes: Vec<u8>) -> NamedFile {
    NamedFile {
        name: name.into(),
        bytes,
    }
}

/// The files of a group, in the order in which they are made.
#[derive(Default)]
pub(crate) struct Files(pub Vec<NamedFile>);

impl Files {
    pub fn add(&mut self, name: impl Into<String>, bytes: Vec<u8>) {
        self.0.push(named(name, bytes));
    }
}

/// The files of tracks.
fn files_of_tracks(tracks: Vec<MadeTrack>) -> Vec<NamedFile> {
    let file_of =
        |track: &MadeTrack| file_of_cells(track.drive_track, track.drive_side, &track.cells);
    let named_file = |track: MadeTrack| named(track.name.clone(), file_of(&track));
    tracks.into_iter().map(named_file).collect()
}

/// A group of made files: what they try, and what makes them.
pub type FileGroup = (&'static str, fn() -> Vec<NamedFile>);

/// All groups. The same files come each time.
pub const GROUPS: [FileGroup; 16] = [
    ("the listings of rule 11.10", made_tracks::known_listings),
    ("place counts", refused_files::place_counts),
    ("cell counts at their limit", refused_files::cell_counts),
    ("flux counts other than 0", refused_files::flux_counts),
    (
        "cells and timings, or neither",
        refused_files::two_counts_or_none,
    ),
    ("files cut at any byte", refused_files::cut_files),
    ("bytes left over", refused_files::left_over_bytes),
    ("T and H", refused_files::drive_places),
    ("numbers of cells", made_tracks::numbers_of_cells),
    ("bits past the cells", made_tracks::bits_past_the_cells),
    ("many sectors", made_tracks::many_sectors),
    (
        "findings at their rules",
        made_tracks::findings_at_their_rules,
    ),
    ("odd tracks", random_files::odd_files),
    ("mixed mistakes", random_files::mixed_files),
    ("changed bytes", random_files::changed_files),
    ("any bytes", random_files::files_of_any_bytes),
];

/// The files of all groups, one group after the other; a group is made when its first
/// file is asked for.
pub fn files() -> impl Iterator<Item = NamedFile> {
    GROUPS.into_iter().flat_map(|(_, make)| make())
}

/// The listing of a track.
#[cfg(test)]
pub(crate) fn listing_of_track(drive_track: u8, drive_side: u8, track_cells: &[u8]) -> Vec<u8> {
    second_program::listing::listing(&file_of_cells(drive_track, drive_side, track_cells))
}

#[cfg(test)]
mod tests {
    use super::*;
    use second_program::findings::KINDS;
    use second_program::refusal::MOST_SECTORS;
    use second_program::track_file::{self, ROOM_FOR_FINDINGS};
    use std::collections::HashSet;

    #[test]
    fn the_sections_stand_in_their_order_low_byte_first() {
        // 20 cells, all ones, at T 5, H 1.
        assert_eq!(
            file_of_cells(5, 1, &[1; 20]),
            [2, 0, 0, 0, 5, 1, 20, 0, 0, 0, 0xFF, 0xFF, 0xF0, 0, 0, 0, 0]
        );
        // The timings 4,000 (0FA0) and 10,000,000 (989680) at T 80, H 0.
        assert_eq!(
            file_of_timings(80, 0, &[4_000, 10_000_000]),
            [2, 0, 0, 0, 80, 0, 0, 0, 0, 0, 2, 0, 0, 0, 0xA0, 0x0F, 0, 0, 0x80, 0x96, 0x98, 0]
        );
        let mut plan = FilePlan::of_cells(83, 1, 131_073, &[7]);
        plan.place_count = u32::MAX;
        plan.place.push(9);
        plan.flux_count = 65_537;
        plan.timings = vec![1];
        plan.left_over = vec![3, 4];
        assert_eq!(
            plan.bytes(),
            [0xFF, 0xFF, 0xFF, 0xFF, 83, 1, 9, 1, 0, 2, 0, 7, 1, 0, 1, 0, 1, 0, 0, 0, 3, 4]
        );
        assert_eq!(cut(&plan.bytes(), 3), [0xFF; 3]);
        assert_eq!(cut(&[1, 2], 3), [1, 2]);
    }

    #[test]
    fn the_timings_of_a_number_of_cells() {
        assert_eq!(refused_files::timings_of_count(20_000), [10_000_000; 4]);
        assert_eq!(refused_files::timings_of_count(5_003), [10_000_000, 6_000]);
        assert!(refused_files::timings_of_count(0).is_empty());
    }

    #[test]
    fn the_same_files_come_each_time() {
        for seed in 0..20 {
            assert_eq!(mixed_file(seed), mixed_file(seed));
            assert_eq!(odd_file(seed), odd_file(seed));
        }
        assert_eq!(refused_files::flux_counts(), refused_files::flux_counts());
    }

    #[test]
    fn the_groups_come_one_after_the_other() {
        let first_group = made_tracks::known_listings();
        let second_group = refused_files::place_counts();
        let expected: Vec<NamedFile> = first_group.into_iter().chain(second_group).collect();
        let files: Vec<NamedFile> = files().take(expected.len()).collect();
        assert_eq!(files, expected);
    }

    #[test]
    fn many_different_files_reach_every_finding_and_every_refusal_of_the_program() {
        let mut different = HashSet::new();
        let mut kinds_seen = [0; KINDS + 1];
        let mut refusals_seen = [0; 26];
        let mut most_findings = 0;
        for (group, make) in GROUPS {
            let mut names = HashSet::new();
            for file in make() {
                match track_file::read(&file.bytes) {
                    Ok(track) => {
                        assert!(track.sectors.len() <= MOST_SECTORS);
                        most_findings = most_findings.max(track.findings.len());
                        for finding in &track.findings {
                            kinds_seen[finding.kind as usize] += 1;
                        }
                    }
                    Err(refusal) => refusals_seen[refusal.number as usize] += 1,
                }
                different.insert(file.bytes);
                // A name finds its file again.
                assert!(names.insert(file.name.clone()), "{group}: {}", file.name);
            }
        }
        assert!(different.len() > 15_000, "{} files", different.len());
        for (kind, &seen) in kinds_seen.iter().enumerate().skip(1) {
            assert!(seen >= 20, "kind {kind}: {seen}");
        }
        // 3 gives way to 15, 5 and 10 never arise, and the others belong to other routines.
        for (number, &seen) in refusals_seen.iter().enumerate() {
            let arises = [1, 2, 4, 15, 23].contains(&number);
            assert_eq!(seen >= 20, arises, "refusal {number}: {seen}");
        }
        assert!(most_findings > 11 * MOST_SECTORS);
        assert!(most_findings <= ROOM_FOR_FINDINGS);
    }
}
