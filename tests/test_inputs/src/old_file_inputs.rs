//! Old track files, with a flux section, as the converter takes them: sound ones at real sizes
//! and short ones, and files at and past each limit, cut, too long or changed, that reach
//! every refusal of the converter and try the order of the refusals.

mod border_files;
mod flux_files;
mod random_old_files;
mod refused_old_files;

use crate::file_inputs::{refused_files, FileGroup, NamedFile};

pub use flux_files::drifting_timings;
pub use random_old_files::{odd_old_file, old_file_of_any_bytes};
pub use refused_old_files::small_old_files;

/// All groups. The same files come each time. Some of them are made for the reader of today,
/// too: what a count is refused for, the converter judges in its own way.
pub const GROUPS: [FileGroup; 22] = [
    ("known tracks as timings", flux_files::known_tracks),
    ("place counts", refused_files::place_counts),
    ("cell counts above the most", refused_files::cell_counts),
    ("cell counts other than 0", refused_old_files::cell_counts),
    ("flux counts", refused_files::flux_counts),
    ("flux counts and timings", refused_old_files::flux_counts),
    (
        "cells and timings, or neither",
        refused_files::two_counts_or_none,
    ),
    ("old files cut at any byte", refused_old_files::cut_files),
    ("bytes left over", refused_old_files::left_over_bytes),
    (
        "timings at their limits",
        refused_old_files::timings_at_their_limits,
    ),
    ("the separator's rows", refused_old_files::separator_rows),
    (
        "cells in all at their limits",
        refused_old_files::cells_in_all,
    ),
    ("no cells at all", refused_old_files::no_cells),
    ("T and H", refused_old_files::drive_places),
    ("border pulses", border_files::border_files),
    ("many sectors as timings", flux_files::crowded_tracks),
    (
        "findings at their rules as timings",
        flux_files::tracks_at_the_rules,
    ),
    ("drift and jitter", flux_files::drifting_files),
    ("odd tracks as timings", random_old_files::odd_old_files),
    ("mixed mistakes", random_old_files::mixed_old_files),
    ("changed bytes", random_old_files::changed_old_files),
    ("any bytes", random_old_files::old_files_of_any_bytes),
];

/// The files of all groups, one group after the other; a group is made when its first
/// file is asked for.
pub fn old_files() -> impl Iterator<Item = NamedFile> {
    GROUPS.into_iter().flat_map(|(_, make)| make())
}

#[cfg(test)]
mod tests {
    use super::*;
    use second_program::converter::{converted, is_corner, listed_after, listed_before};
    use second_program::findings::KINDS;
    use second_program::old_track_file;
    use second_program::refusal::Refusal;
    use second_program::track_file;
    use std::collections::HashSet;

    #[test]
    fn the_same_files_come_each_time() {
        for seed in 0..20 {
            assert_eq!(odd_old_file(seed), odd_old_file(seed));
            assert_eq!(old_file_of_any_bytes(seed), old_file_of_any_bytes(seed));
        }
        let first_group = flux_files::known_tracks();
        let first = old_files().take(first_group.len());
        assert!(first.eq(first_group));
    }

    /// How often something of each number was seen.
    fn assert_seen(what: &str, seen: &[usize], numbers: &[usize], often: usize) {
        for (number, &times) in seen.iter().enumerate() {
            let arises = numbers.contains(&number);
            assert_eq!(times >= often, arises, "{what} {number}: {times}");
            assert!(arises || times == 0, "{what} {number}: {times}");
        }
    }

    /// The files reach all that the converter can answer, and for each of them the file that
    /// comes out is listed, or the converter's refusal is, as the old file was.
    #[test]
    fn many_different_files_reach_every_refusal_and_are_listed_as_they_were() {
        let mut different = HashSet::new();
        let mut refusals_seen = [0; 26];
        let mut refusals_of_tracks = [0; 26];
        let mut kinds_seen = [0; KINDS + 1];
        let (mut corners, mut large, mut without_border_pulses, mut with_border_pulses) =
            (0, 0, 0, 0);
        for (group, make) in GROUPS {
            let mut names = HashSet::new();
            for file in make() {
                let given = || format!("{group}: {}", file.name);
                match converted(&file.bytes) {
                    Ok(new_file) => {
                        let old = old_track_file::read_cells(&file.bytes).unwrap();
                        assert_eq!(track_file::read_cells(&new_file), Ok(old.cells));
                        large += usize::from(new_file.len() > 12_000);
                        match old.border_pulses {
                            Some(0) => without_border_pulses += 1,
                            Some(_) => with_border_pulses += 1,
                            None => panic!("{} has timings", given()),
                        }
                        match track_file::read(&new_file) {
                            Ok(track) => {
                                for finding in &track.findings {
                                    kinds_seen[finding.kind as usize] += 1;
                                }
                            }
                            Err(refusal) => refusals_of_tracks[refusal.number as usize] += 1,
                        }
                    }
                    Err(refusal) => refusals_seen[refusal.number as usize] += 1,
                }
                if is_corner(&file.bytes) {
                    corners += 1;
                    assert_eq!(old_track_file::listing(&file.bytes), b"refused 1\n");
                    assert_eq!(
                        converted(&file.bytes),
                        Err(Refusal::cell_count_out_of_range(0))
                    );
                }
                if let Some(before) = listed_before(&file.bytes) {
                    assert_eq!(listed_after(&file.bytes), before, "{}", given());
                } else {
                    let refusal = Refusal::not_a_track_file();
                    assert_eq!(converted(&file.bytes), Err(refusal), "{}", given());
                }
                // A name finds its file again.
                assert!(names.insert(file.name.clone()), "{}", given());
                different.insert(file.bytes);
            }
        }
        assert!(different.len() > 20_000, "{} files", different.len());
        assert_seen("refusal", &refusals_seen, &[2, 7, 8, 9, 15], 100);
        assert_seen("refusal of a track", &refusals_of_tracks, &[1, 2, 4], 20);
        let kinds: Vec<usize> = (1..=KINDS).collect();
        assert_seen("kind", &kinds_seen, &kinds, 20);
        assert!(corners > 50 && large > 500, "{corners} and {large}");
        assert!(
            without_border_pulses > 1_000 && with_border_pulses > 1_000,
            "{without_border_pulses} and {with_border_pulses} files"
        );
    }
}
