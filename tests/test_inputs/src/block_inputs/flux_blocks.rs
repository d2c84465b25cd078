//! Blocks with the flux of the standard track as a drive gives it within the tolerance
//! (rules 4.1 to 4.5), at whole units of 25 ns.

use super::{block_of_timings, BlockCase, BlockPlan, Cases};
use crate::flux_inputs::{flux_track_of, timings_of_cells, Choice, FluxTrack};
use crate::random::Random;
use crate::track_builder::{odd_track, standard_track};

/// The nanoseconds of a unit.
pub(super) const UNIT: i64 = 25;
/// The nanoseconds between true places for each cell (rule 4.3).
const LEAST_FOR_A_CELL: i64 = 1_950;
const MOST_FOR_A_CELL: i64 = 2_050;
/// How far a pulse lies at most from its true place (rule 4.4).
const MOST_SHIFT: i64 = 250;

/// The track turned on until its last cell is a one, where a timing ends: the timings of
/// one turn of the drive then stand for all its cells. One cell to an element.
pub fn track_that_ends_in_a_one(track_cells: &[u8]) -> Vec<u8> {
    let zeros_at_end = track_cells
        .iter()
        .rev()
        .take_while(|&&cell| cell == 0)
        .count();
    let mut turned = track_cells.to_vec();
    turned.rotate_right(zeros_at_end);
    turned
}

/// The distances between true places of these gaps: for each cell anything in bounds;
/// one of the bounds; or a length that drifts slowly from one bound to the other.
fn distances(random: &mut Random, gaps: &[usize], choice: Choice) -> Vec<i64> {
    let mut for_a_cell = random.between(LEAST_FOR_A_CELL, MOST_FOR_A_CELL);
    let mut drift = 1;
    let mut distances = Vec::new();
    for (index, &gap) in gaps.iter().enumerate() {
        let gap = gap as i64;
        let (least, most) = (LEAST_FOR_A_CELL * gap, MOST_FOR_A_CELL * gap);
        distances.push(match choice {
            Choice::Any => random.between(least, most),
            Choice::Bounds if random.one_in(2) => least,
            Choice::Bounds => most,
            Choice::LongDrift => for_a_cell * gap,
        });
        if index % 50 == 49 {
            if !(LEAST_FOR_A_CELL..=MOST_FOR_A_CELL).contains(&(for_a_cell + drift)) {
                drift = -drift;
            }
            for_a_cell += drift;
        }
    }
    distances
}

/// How many cells after the one before each one of a track stands. The last cell is a one,
/// which the first one of the next turn comes after.
pub(super) fn gaps_of(track_cells: &[u8]) -> Vec<usize> {
    let mut gaps = Vec::new();
    let mut gap = 0;
    for &cell in track_cells {
        gap += 1;
        if cell != 0 {
            gaps.push(gap);
            gap = 0;
        }
    }
    assert_eq!(gap, 0, "the last cell is a one");
    gaps
}

/// Flux transitions so many cells apart as a drive gives them: each pulse at a multiple
/// of 25 ns, and not too far from its true place. `choice` says how distances and shifts
/// are chosen.
pub(super) fn reported_flux(random: &mut Random, gaps: &[usize], choice: Choice) -> FluxTrack {
    let distances = distances(random, gaps, choice);
    let true_places = flux_track_of(gaps, &distances, &vec![0; gaps.len() + 1]).true_places;
    let mut shifts = Vec::new();
    for true_place in true_places {
        // The least and the most multiple of 25 ns that lie near enough.
        let least = (true_place - MOST_SHIFT + UNIT - 1).div_euclid(UNIT);
        let most = (true_place + MOST_SHIFT).div_euclid(UNIT);
        let pulse = match choice {
            Choice::Bounds if random.one_in(2) => least,
            Choice::Bounds => most,
            Choice::Any | Choice::LongDrift => random.between(least, most),
        };
        shifts.push(UNIT * pulse - true_place);
    }
    flux_track_of(gaps, &distances, &shifts)
}

/// One turn of a track's cells as a drive reports it; the last cell is a one, and the ones
/// stand 2, 3 or 4 cells apart.
pub fn reported_revolution(random: &mut Random, track_cells: &[u8], choice: Choice) -> FluxTrack {
    reported_flux(random, &gaps_of(track_cells), choice)
}

/// The block of so many turns of the standard track, each with shifts of its own.
pub fn standard_track_block(
    seed: u64,
    track: u8,
    side: u8,
    filler: u8,
    revolutions: usize,
) -> BlockPlan {
    let mut random = Random::new(seed);
    let track_cells = track_that_ends_in_a_one(&standard_track(track, side, filler));
    let choices = [Choice::Any, Choice::Bounds, Choice::LongDrift];
    let timings: Vec<Vec<u32>> = (0..revolutions)
        .map(|index| reported_revolution(&mut random, &track_cells, choices[index % 3]).timings)
        .collect();
    let mut plan = block_of_timings(&timings);
    // The maker numbers the tracks of both sides in turn.
    plan.track = track.wrapping_mul(2).wrapping_add(side);
    plan
}

pub(super) fn flux_blocks() -> Vec<BlockCase> {
    let mut cases = Cases::default();
    for (seed, track, side, filler, revolutions) in
        [(1, 0, 0, 0xE5, 3), (2, 39, 1, 0x00, 2), (3, 79, 0, 0x6D, 5)]
    {
        let plan = standard_track_block(seed, track, side, filler, revolutions);
        cases.add_all(&format!("standard track {track}, side {side}"), &plan);
    }
    cases.0
}

/// A block of two turns of an odd track, whose listing has many findings, at 80 units
/// for each cell; each pulse of the second turn may lie some units off.
pub fn odd_track_block(seed: u64) -> BlockPlan {
    let mut random = Random::new(seed);
    let track_cells = odd_track(&mut random, 5);
    let even = timings_of_cells(&track_cells);
    let shifted = even
        .iter()
        .map(|timing| timing + 25 * random.below(20) as u32)
        .collect();
    block_of_timings(&[even, shifted])
}

pub(super) fn odd_tracks() -> Vec<BlockCase> {
    let mut cases = Cases::default();
    for seed in 0..40 {
        let name = format!("odd track of seed {seed}");
        cases.add_all(&name, &odd_track_block(seed));
    }
    cases.0
}

#[cfg(test)]
mod tests {
    use super::*;
    use crate::file_inputs::listing_of_track;
    use second_program::cells;
    use second_program::separator::separate;
    use second_program::track_block::{printed, revolution_cells, revolution_timings};

    #[test]
    fn the_track_is_turned_until_it_ends_in_a_one() {
        assert_eq!(track_that_ends_in_a_one(&[1, 0, 1, 0, 0]), [0, 0, 1, 0, 1]);
        assert_eq!(track_that_ends_in_a_one(&[0, 1]), [0, 1]);
        // The last byte of the standard track is 9254, which ends in 100.
        let standard = standard_track(0, 0, 0xE5);
        assert_eq!(track_that_ends_in_a_one(&standard)[2..], standard[..99_998]);
    }

    #[test]
    fn the_pulses_keep_to_the_tolerance_at_whole_units() {
        let mut random = Random::new(90);
        let track_cells = track_that_ends_in_a_one(&standard_track(7, 1, 0x4E));
        for choice in [Choice::Any, Choice::Bounds, Choice::LongDrift] {
            let flux = reported_revolution(&mut random, &track_cells, choice);
            assert_eq!(flux.cells, track_cells);
            let mut farthest = 0;
            for (&pulse, &true_place) in flux.pulses.iter().zip(&flux.true_places) {
                assert_eq!(pulse % 25, 0);
                farthest = farthest.max((pulse - true_place).abs());
            }
            assert!((240..=250).contains(&farthest), "{farthest}");
            for (index, &gap) in flux.gaps.iter().enumerate() {
                let gap = gap as i64;
                let apart = flux.true_places[index + 1] - flux.true_places[index];
                assert!((2..=4).contains(&gap));
                assert!((1_950 * gap..=2_050 * gap).contains(&apart));
            }
            assert!(flux.timings.iter().all(|timing| timing % 25 == 0));
            let packed = cells::pack(&track_cells);
            let separation = separate(&flux.timings, 12_500).unwrap();
            assert_eq!((separation.cells, separation.bytes), (100_000, packed));
        }
    }

    #[test]
    fn each_revolution_prints_the_listing_of_the_standard_track() {
        for (seed, track, side, filler) in [(4, 0, 0, 0xE5), (5, 79, 1, 0x00)] {
            let standard = standard_track(track, side, filler);
            let turned = track_that_ends_in_a_one(&standard);
            let block = standard_track_block(seed, track, side, filler, 3).bytes();
            let mut timings_seen = Vec::new();
            for revolution in 0..3 {
                assert_eq!(
                    printed(&block, 3, revolution, track, side),
                    listing_of_track(track, side, &standard)
                );
                // Elsewhere the sectors' places are printed, which lie two cells on.
                assert_eq!(
                    printed(&block, 3, revolution, 80, 1),
                    listing_of_track(80, 1, &turned)
                );
                let separation = revolution_cells(&block, 3, revolution.into(), 12_500).unwrap();
                assert_eq!(
                    (separation.cells, separation.bytes),
                    (100_000, cells::pack(&turned))
                );
                timings_seen
                    .push(revolution_timings(&block, 3, revolution.into(), 65_536).unwrap());
            }
            assert_ne!(timings_seen[0], timings_seen[1]);
            assert_ne!(timings_seen[1], timings_seen[2]);
            assert_eq!(printed(&block, 3, 3, track, side), b"refused 17\n");
        }
        // The listing of rule 11.10.
        let block = standard_track_block(6, 0, 0, 0xE5, 1).bytes();
        assert_eq!(
            printed(&block, 1, 0, 0, 0),
            b"T00 H0 cells 100000 sectors 9 findings 0\n"
        );
    }
}
