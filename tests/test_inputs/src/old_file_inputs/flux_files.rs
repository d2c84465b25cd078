//! Old files of whole tracks: known ones, tracks at the rules of the findings, and tracks as a
//! drive gives them, with drift and jitter within the tolerance and beyond it.

use crate::file_inputs::made_tracks::{self, MadeTrack};
use crate::file_inputs::{file_of_timings, named, Files, NamedFile};
use crate::flux_inputs::{timings_of_cells, Choice, Tolerance};
use crate::random::Random;
use crate::track_builder::{odd_track, standard_track, STANDARD_TRACK_CELLS};

/// The old files of tracks, their timings without drift or shifts.
fn files_of_timings(tracks: Vec<MadeTrack>) -> Vec<NamedFile> {
    let named_file = |track: MadeTrack| {
        let timings = timings_of_cells(&track.cells);
        named(
            track.name,
            file_of_timings(track.drive_track, track.drive_side, &timings),
        )
    };
    tracks.into_iter().map(named_file).collect()
}

/// Of the track without ones there are no timings.
pub(super) fn known_tracks() -> Vec<NamedFile> {
    files_of_timings(made_tracks::known_tracks())
}

pub(super) fn crowded_tracks() -> Vec<NamedFile> {
    files_of_timings(made_tracks::crowded_tracks())
}

pub(super) fn tracks_at_the_rules() -> Vec<NamedFile> {
    files_of_timings(made_tracks::tracks_at_the_rules())
}

/// The timings of a track's cells, one cell to an element, as a drive gives them: each cell up
/// to D nanoseconds longer or shorter, each pulse up to J nanoseconds early or late. A timing
/// that would be too short for its range is 1 ns.
pub fn drifting_timings(
    random: &mut Random,
    track_cells: &[u8],
    tolerance: Tolerance,
    choice: Choice,
) -> Vec<u32> {
    let Tolerance { drift, shift } = tolerance;
    let mut high = random.one_in(2);
    let mut chosen = |random: &mut Random, most: i64| match choice {
        Choice::Any => random.between(-most, most),
        Choice::Bounds | Choice::LongDrift => {
            if choice == Choice::Bounds || random.one_in(200) {
                high = random.one_in(2);
            }
            if high {
                most
            } else {
                -most
            }
        }
    };
    let mut shift_before = chosen(random, shift);
    let mut timings = Vec::new();
    for timing in timings_of_cells(track_cells) {
        let cells = i64::from(timing) / 2_000;
        let distance = cells * (2_000 + chosen(random, drift));
        let own_shift = chosen(random, shift);
        timings.push((distance + own_shift - shift_before).max(1) as u32);
        shift_before = own_shift;
    }
    timings
}

/// The tolerances that are tried: that which was asked first, both ends of the trade, and two
/// that the separator does not promise anything for.
const TOLERANCES: [(&str, Tolerance); 5] = [
    ("the first tolerance", Tolerance::FIRST),
    (
        "no drift",
        Tolerance {
            drift: 0,
            shift: 499,
        },
    ),
    (
        "no jitter but 3 ns",
        Tolerance {
            drift: 124,
            shift: 3,
        },
    ),
    (
        "much jitter",
        Tolerance {
            drift: 20,
            shift: 800,
        },
    ),
    (
        "much drift",
        Tolerance {
            drift: 300,
            shift: 100,
        },
    ),
];

/// A track and its place, as one of these comes from a drive.
fn track_of_drifting_timings(seed: u64) -> (u8, u8, Vec<u8>) {
    let mut random = Random::new(seed);
    let drive_track = random.below(84) as u8;
    let drive_side = random.below(2) as u8;
    let track_cells = match seed % 4 {
        0 => standard_track(drive_track, drive_side, 0xE5),
        1 => odd_track(&mut random, drive_track),
        // Blank: every second cell a one, and the bytes 4E.
        2 => [1, 0].repeat(STANDARD_TRACK_CELLS / 2),
        _ => [1, 0, 0, 1, 0, 0, 1, 0, 0, 1, 0, 1, 0, 1, 0, 0].repeat(STANDARD_TRACK_CELLS / 16),
    };
    (drive_track, drive_side, track_cells)
}

pub(super) fn drifting_files() -> Vec<NamedFile> {
    let mut files = Files::default();
    for seed in 0..32 {
        let (drive_track, drive_side, track_cells) = track_of_drifting_timings(seed);
        let mut random = Random::new(seed + 1_000);
        let choices = [Choice::Any, Choice::Bounds, Choice::LongDrift];
        let choice = choices[seed as usize % 3];
        for (what, tolerance) in TOLERANCES {
            let timings = drifting_timings(&mut random, &track_cells, tolerance, choice);
            files.add(
                format!("track of seed {seed}, {what}, {choice:?}"),
                file_of_timings(drive_track, drive_side, &timings),
            );
        }
    }
    files.0
}

#[cfg(test)]
mod tests {
    use super::*;
    use second_program::cells;
    use second_program::separator;

    #[test]
    fn within_the_tolerance_the_cells_come_back() {
        let mut random = Random::new(7);
        let standard = standard_track(3, 0, 0xE5);
        // Two zeros are behind the last one.
        let packed = cells::pack(&standard[..standard.len() - 2]);
        for (what, tolerance) in TOLERANCES {
            for choice in [Choice::Any, Choice::Bounds, Choice::LongDrift] {
                let timings = drifting_timings(&mut random, &standard, tolerance, choice);
                assert_eq!(timings.len(), timings_of_cells(&standard).len());
                let separation = separator::separate(&timings, 16_384).unwrap();
                let same = separation.bytes == packed;
                let within = tolerance.taken() <= 998;
                assert!(same || !within, "{what}, {choice:?}");
                if !within && choice == Choice::Bounds {
                    assert!(!same, "{what}, {choice:?}");
                }
            }
        }
    }
}
