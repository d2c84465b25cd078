//! Section 4 of the specification: the separator on flux transitions within the tolerance.

use second_program::cells;
use second_program::refusal::Refusal;
use second_program::separator::{self, Separation};
use test_inputs::flux_inputs::{
    flux_track, flux_track_of, flux_track_within, one_sided_track, Choice, FluxTrack, Tolerance,
};
use test_inputs::random::Random;

/// Rules 4.8 to 4.11 and 4.13 of one list that is not refused, at the figures that were asked
/// first. Gives the greatest distance of a window centre from the true place.
fn assert_within_tolerance(track: &FluxTrack) -> i64 {
    assert_within(track, Tolerance::FIRST)
}

/// The same at any tolerance.
fn assert_within(track: &FluxTrack, tolerance: Tolerance) -> i64 {
    let needed = cells::bytes_needed(track.cells.len());
    let separated = separator::separate(&track.timings, needed).unwrap();
    if tolerance.taken() <= 900 {
        assert_eq!(separated.border_pulses, 0);
    }
    assert_eq!(
        separated,
        Separation {
            cells: track.cells.len(),
            border_pulses: separated.border_pulses,
            bytes: cells::pack(&track.cells)
        }
    );
    if needed > 0 {
        assert_eq!(
            separator::separate(&track.timings, needed - 1),
            Err(Refusal {
                number: 10,
                value: needed as u64
            })
        );
    }
    let rows = separator::rows(&track.timings).unwrap();
    let mut greatest = 0;
    for (index, row) in rows.iter().enumerate() {
        let window_centre = track.pulses[index + 1] - row.offset;
        let distance = (window_centre - track.true_places[index + 1]).abs();
        assert!(distance <= tolerance.farthest_centre(), "distance {distance}");
        assert!(row.offset.abs() <= tolerance.taken(), "offset {}", row.offset);
        greatest = greatest.max(distance);
    }
    greatest
}

#[test]
fn the_separator_recovers_the_cells_written() {
    let mut random = Random::new(33);
    for choice in [Choice::Any, Choice::Bounds, Choice::LongDrift] {
        for timings in [1, 2, 3, 10, 1_000, 30_000] {
            assert_within_tolerance(&flux_track(&mut random, timings, choice));
        }
        for _ in 0..100 {
            assert_within_tolerance(&flux_track(&mut random, 20, choice));
        }
    }
}

#[test]
fn slow_and_fast_drives_with_shifts_to_and_fro() {
    let mut greatest = 0;
    for for_a_cell in [1_950, 2_050] {
        for gap in [2, 3, 4] {
            for first in [-250, 250] {
                let gaps = vec![gap; 200];
                let distances = vec![for_a_cell * gap as i64; 200];
                let held = vec![first; 201];
                let distance = assert_within_tolerance(&flux_track_of(&gaps, &distances, &held));
                greatest = greatest.max(distance);
                let mut swapped = held.clone();
                for shift in swapped.iter_mut().skip(100) {
                    *shift = -*shift;
                }
                assert_within_tolerance(&flux_track_of(&gaps, &distances, &swapped));
                for shift in swapped.iter_mut().step_by(2) {
                    *shift = -*shift;
                }
                assert_within_tolerance(&flux_track_of(&gaps, &distances, &swapped));
            }
        }
    }
    // The bound of 651 is nearly reached.
    assert!(greatest >= 640, "greatest distance {greatest}");
}

#[test]
fn the_limit_of_border_pulses_is_nearly_reached() {
    // The longest gaps of a fast and of a slow drive, and a last pulse that comes off the
    // other way.
    let mut greatest = 0;
    for (for_a_cell, first) in [(1_950, 250), (2_050, -250)] {
        let gaps = [4; 60];
        let distances = [4 * for_a_cell; 60];
        let mut shifts = [first; 61];
        shifts[60] = -first;
        let track = flux_track_of(&gaps, &distances, &shifts);
        assert_within_tolerance(&track);
        for row in separator::rows(&track.timings).unwrap() {
            greatest = greatest.max(row.offset.abs());
        }
    }
    assert!(greatest >= 890, "greatest offset {greatest}");
}

/// Whether the cells of a track come out as they were written.
fn recovered(track: &FluxTrack) -> bool {
    let packed = cells::pack(&track.cells);
    separator::separate(&track.timings, packed.len() + 1_000)
        .is_ok_and(|it| it.cells == track.cells.len() && it.bytes == packed)
}

/// Whether some one-sided track within a tolerance passes a test.
fn some_track(tolerance: Tolerance, test: impl Fn(&FluxTrack) -> bool) -> bool {
    let turns = [1, 2, 3, 5, 12, 40];
    turns
        .iter()
        .any(|&turn| [-1, 1].iter().any(|&sign| test(&one_sided_track(tolerance, sign, 80, turn))))
}

/// The least that D and J take, from 900 on, at which some track passes a test, with that D
/// and J.
fn least_taken(test: impl Fn(&FluxTrack) -> bool) -> (i64, Vec<Tolerance>) {
    for taken in (900..1_100).step_by(2) {
        let found: Vec<Tolerance> = (0..=137)
            .filter_map(|drift| Tolerance::taking(drift, taken))
            .filter(|&tolerance| some_track(tolerance, &test))
            .collect();
        if !found.is_empty() {
            return (taken, found);
        }
    }
    panic!("no track was found");
}

#[test]
fn every_trade_up_to_998_recovers_the_cells() {
    let mut random = Random::new(98);
    for drift in 0..=124 {
        let tolerance = Tolerance::taking(drift, 998).unwrap();
        for choice in [Choice::Any, Choice::Bounds, Choice::LongDrift] {
            let track = flux_track_within(&mut random, tolerance, 400, choice);
            assert_within(&track, tolerance);
        }
        for turn in [1, 2, 7, 40] {
            for sign in [-1, 1] {
                assert_within(&one_sided_track(tolerance, sign, 400, turn), tolerance);
            }
        }
    }
    for drift in 0..=112 {
        let tolerance = Tolerance::taking(drift, 900).unwrap();
        for sign in [-1, 1] {
            assert_within(&one_sided_track(tolerance, sign, 400, 20), tolerance);
        }
    }
}

/// The limits are the greatest that hold (rule 4.15).
#[test]
fn no_greater_limit_of_a_trade_holds() {
    // Without drift a pulse can be 500 early and the next one 500 late: the timing between
    // them is half a window too long, and a cell too many comes out.
    let all_shaking = |shift| Tolerance { drift: 0, shift };
    let (taken, found) = least_taken(|track| !recovered(track));
    assert_eq!((taken, found), (1_000, vec![all_shaking(500)]));
    // With drift a cell is lost at the next step beyond.
    for drift in 1..=125 {
        assert!(some_track(Tolerance::taking(drift, 1_002).unwrap(), |track| !recovered(track)));
    }
    let has_border_pulse = |track: &FluxTrack| {
        separator::separate(&track.timings, 20_000).is_ok_and(|it| it.border_pulses > 0)
    };
    let (taken, found) = least_taken(has_border_pulse);
    assert_eq!((taken, found), (902, vec![all_shaking(451)]));
    for drift in 1..=112 {
        assert!(some_track(Tolerance::taking(drift, 904).unwrap(), has_border_pulse));
    }
}

#[test]
fn refusals_6_7_and_9() {
    let mut random = Random::new(4);
    let none = flux_track(&mut random, 0, Choice::Any);
    assert_eq!(separator::separate(&none.timings, 0).unwrap_err().number, 6);
    let many = flux_track(&mut random, 65_537, Choice::Any);
    assert_eq!(
        separator::separate(&many.timings, 0),
        Err(Refusal {
            number: 7,
            value: 65_537
        })
    );
    let long = flux_track(&mut random, 60_000, Choice::Any);
    assert!(long.cells.len() > 131_072);
    assert_eq!(
        separator::separate(&long.timings, 0),
        Err(Refusal {
            number: 9,
            value: long.cells.len() as u64
        })
    );
    let gaps = vec![2; 65_536];
    let distances = vec![4_000; 65_536];
    let shifts = vec![0; 65_537];
    let longest = flux_track_of(&gaps, &distances, &shifts);
    assert_eq!(longest.cells.len(), 131_072);
    assert_within_tolerance(&longest);
}
