//! Blocks as the device writes them (the notes at the end of section 12 of the
//! specification). It starts to count at the index, and a pulse hardly ever falls there.
//! So the first value of revolution 0 runs from the index to the first flux transition,
//! which is no time between two of them. The first value of each later revolution is the
//! whole interval over the index.

use super::flux_blocks::{gaps_of, reported_flux, UNIT};
use super::{block_of_timings, track_that_ends_in_a_one, BlockCase, BlockPlan, Cases};
use crate::flux_inputs::{flux_track_of, Choice, FluxTrack};
use crate::random::Random;
use crate::track_builder::{odd_track, standard_track, turn};

/// Where the index lies in an interval between two pulses. The device counts in units of
/// 25 ns, so its times are whole units, too.
#[derive(Clone, Copy, Debug, PartialEq, Eq)]
pub enum IndexPlace {
    /// At the pulse that the interval begins with.
    AtPulse,
    /// One unit after this pulse.
    JustAfter,
    /// Anywhere inside, chosen anew at each turn.
    Inside,
    /// One unit before the pulse that the interval ends with.
    JustBefore,
}

/// All places.
const PLACES: [IndexPlace; 4] = [
    IndexPlace::AtPulse,
    IndexPlace::JustAfter,
    IndexPlace::Inside,
    IndexPlace::JustBefore,
];

/// How pulses are shifted: not at all, each 2,000 ns for each cell after the one before; or
/// within the tolerance, in any of three manners.
const JITTERS: [Option<Choice>; 4] = [
    None,
    Some(Choice::Any),
    Some(Choice::Bounds),
    Some(Choice::LongDrift),
];

/// How the device samples a track.
#[derive(Clone, Copy, Debug, PartialEq, Eq)]
pub struct Sampling {
    /// A cell in the interval that the index falls into, which ends with a one.
    pub index_cell: usize,
    /// Where in this interval.
    pub place: IndexPlace,
    /// How pulses are shifted; none where they are not.
    pub jitter: Option<Choice>,
    /// The number of revolutions.
    pub revolutions: usize,
}

impl Sampling {
    /// The cells of each whole revolution, those after the one before the index: as many as
    /// the track has, the last of them this one again.
    pub fn whole_revolution(&self, track_cells: &[u8]) -> Vec<u8> {
        let n = track_cells.len();
        track_that_ends_in_a_one(&turn(track_cells, n - self.index_cell % n))
    }

    /// The block of the track's flux, each turn with shifts of its own.
    pub fn block(&self, random: &mut Random, track_cells: &[u8]) -> BlockPlan {
        self.block_with_wander(random, track_cells, 0)
    }

    /// The same with an index that comes up to so many flux transitions late: a revolution
    /// then has a few more of them or less than a turn.
    fn block_with_wander(
        &self,
        random: &mut Random,
        track_cells: &[u8],
        most_late: usize,
    ) -> BlockPlan {
        let turn_gaps = gaps_of(&self.whole_revolution(track_cells));
        // So many turns from the pulse before the first index on, and what lies around the
        // last index.
        let mut gaps = turn_gaps.repeat(self.revolutions);
        gaps.extend(turn_gaps.iter().cycle().take(most_late + 1));
        let pulses = match self.jitter {
            None => even_flux(&gaps),
            Some(choice) => reported_flux(random, &gaps, choice),
        }
        .pulses;
        let mut indexes = Vec::new();
        for turns in 0..=self.revolutions {
            let late = random.below(most_late as u64 + 1) as usize;
            let begin = turns * turn_gaps.len() + late;
            let (before, after) = (pulses[begin], pulses[begin + 1]);
            indexes.push(match self.place {
                IndexPlace::AtPulse => before,
                IndexPlace::JustAfter => before + UNIT,
                IndexPlace::Inside => UNIT * random.between(before / UNIT + 1, after / UNIT - 1),
                IndexPlace::JustBefore => after - UNIT,
            });
        }
        sampled_block(&pulses, &indexes)
    }
}

/// Flux transitions so many cells apart, each pulse at its true place, 2,000 ns for each
/// cell.
fn even_flux(gaps: &[usize]) -> FluxTrack {
    let distances: Vec<i64> = gaps.iter().map(|&gap| 2_000 * gap as i64).collect();
    flux_track_of(gaps, &distances, &vec![0; gaps.len() + 1])
}

/// The timings of the revolutions between these indexes. A revolution has the pulses after
/// its index, up to and with the next index, each measured from the pulse before; before
/// the first of all nothing was sampled, so that it is measured from the first index.
fn sampled_revolutions(pulses: &[i64], indexes: &[i64]) -> Vec<Vec<u32>> {
    let mut before = indexes[0];
    let mut revolutions = Vec::new();
    for pair in indexes.windows(2) {
        let mut timings = Vec::new();
        for &pulse in pulses {
            if pair[0] < pulse && pulse <= pair[1] {
                timings.push((pulse - before) as u32);
                before = pulse;
            }
        }
        revolutions.push(timings);
    }
    revolutions
}

/// The block of these revolutions, with the times between the indexes in its table.
fn sampled_block(pulses: &[i64], indexes: &[i64]) -> BlockPlan {
    let mut plan = block_of_timings(&sampled_revolutions(pulses, indexes));
    for (entry, pair) in plan.entries.iter_mut().zip(indexes.windows(2)) {
        entry.index_time = ((pair[1] - pair[0]) / UNIT) as u32;
    }
    plan
}

/// Where the ID mark of the standard track's first sector stands, how far on the next one
/// is, and how far on its data ends.
const FIRST_ID: usize = 1_152;
const TO_NEXT_ID: usize = 9_824;
const TO_DATA_END: usize = 704 + 8_288;

/// Cells of the standard track between the end of some data and the next ID mark, at and
/// near both and elsewhere: an index there lies in no sector.
pub const BETWEEN_SECTORS: [usize; 6] = [
    0,
    FIRST_ID,
    FIRST_ID + 3 * TO_NEXT_ID + TO_DATA_END + 4,
    FIRST_ID + 5 * TO_NEXT_ID,
    95_000,
    99_999,
];

/// Cells of the standard track in an ID, between ID and data, and in data: the sector lies
/// over an index there.
pub const IN_A_SECTOR: [usize; 3] = [
    FIRST_ID + TO_NEXT_ID + 40,
    FIRST_ID + 4 * TO_NEXT_ID + 300,
    FIRST_ID + 8 * TO_NEXT_ID + 5_000,
];

/// Samplings with the index at each of these cells: each with all kinds of jitter, and all
/// places in the interval in turn.
pub fn samplings(index_cells: &[usize]) -> Vec<Sampling> {
    let mut all = Vec::new();
    for (cell_number, &index_cell) in index_cells.iter().enumerate() {
        for (jitter_number, jitter) in JITTERS.into_iter().enumerate() {
            all.push(Sampling {
                index_cell,
                place: PLACES[(cell_number + jitter_number) % PLACES.len()],
                jitter,
                revolutions: 2 + jitter_number % 2,
            });
        }
    }
    all
}

pub(super) fn standard_tracks() -> Vec<BlockCase> {
    let mut cases = Cases::default();
    let mut random = Random::new(83);
    let track_cells = standard_track(5, 0, 0xE5);
    for sampling in samplings(&[&BETWEEN_SECTORS[..], &IN_A_SECTOR].concat()) {
        let plan = sampling.block(&mut random, &track_cells);
        cases.add_all(&format!("{sampling:?}"), &plan);
    }
    // An index that does not keep its place.
    for sampling in samplings(&[0]) {
        let plan = sampling.block_with_wander(&mut random, &track_cells, 6);
        cases.add_all(&format!("wandering index, {sampling:?}"), &plan);
    }
    cases.0
}

/// The standard track with so many cells without a one after cell 90,000, in its last gap.
fn track_with_no_flux_area(no_flux_cells: usize) -> Vec<u8> {
    let mut track_cells = standard_track(5, 0, 0xE5);
    track_cells[90_000..90_000 + no_flux_cells].fill(0);
    track_cells
}

pub(super) fn odd_tracks() -> Vec<BlockCase> {
    let mut cases = Cases::default();
    for seed in 0..16 {
        let mut random = Random::new(1_000 + seed);
        let track_cells = odd_track(&mut random, 5);
        let sampling = Sampling {
            index_cell: random.below(track_cells.len() as u64) as usize,
            place: PLACES[seed as usize % 4],
            jitter: JITTERS[seed as usize / 4],
            revolutions: 3,
        };
        let plan = sampling.block(&mut random, &track_cells);
        cases.add_all(&format!("odd track of seed {seed}"), &plan);
    }
    // A stretch without flux may lie over the index. One of 4.3 ms is known from a disk; one
    // of 12 ms is out of range. Revolution 0 has only the part behind the index.
    let mut random = Random::new(84);
    for no_flux_cells in [2_150, 6_000] {
        let track_cells = track_with_no_flux_area(no_flux_cells);
        for place in PLACES {
            for jitter in [None, Some(Choice::Any)] {
                let sampling = Sampling {
                    index_cell: 91_000,
                    place,
                    jitter,
                    revolutions: 2,
                };
                let plan = sampling.block(&mut random, &track_cells);
                let name = format!("{no_flux_cells} cells without flux, {place:?}, {jitter:?}");
                cases.add_all(&name, &plan);
            }
        }
    }
    cases.0
}

#[cfg(test)]
mod tests {
    use super::*;
    use crate::file_inputs::listing_of_track;
    use second_program::cells;
    use second_program::track_block::{printed, revolution_cells, revolution_timings};

    /// The timings of a revolution of a plan.
    fn timings_of(plan: &BlockPlan, revolution: u32) -> Vec<u32> {
        let answer = revolution_timings(&plan.bytes(), plan.revolutions(), revolution, usize::MAX);
        answer.unwrap().timings
    }

    #[test]
    fn revolutions_written_out() {
        let pulses = [1_000, 5_000, 11_000, 15_000, 19_000, 25_000];
        // Inside the intervals before 5,000, 15,000 and 25,000.
        assert_eq!(
            sampled_revolutions(&pulses, &[2_500, 14_000, 24_975]),
            [vec![2_500, 6_000], vec![4_000, 4_000]]
        );
        // At the pulse 1,000, 11,000 and 25,000, which belong to the revolution before.
        assert_eq!(
            sampled_revolutions(&pulses, &[1_000, 11_000, 25_000]),
            [vec![4_000, 6_000], vec![4_000, 4_000, 6_000]]
        );
        // The table has the times between the indexes: 11,500 and 10,975 ns in units.
        let plan = sampled_block(&pulses, &[2_500, 14_000, 24_975]);
        let index_times: Vec<u32> = plan.entries.iter().map(|entry| entry.index_time).collect();
        assert_eq!(index_times, [460, 439]);
        assert_eq!(timings_of(&plan, 0), [2_500, 6_000]);
        assert_eq!(timings_of(&plan, 1), [4_000, 4_000]);
    }

    #[test]
    fn a_small_track_written_out() {
        // Ones at 1, 4 and 8; the index is at cell 3, in the interval from 1 to 4.
        let track_cells = [0, 1, 0, 0, 1, 0, 0, 0, 1];
        let mut sampling = Sampling {
            index_cell: 3,
            place: IndexPlace::JustBefore,
            jitter: None,
            revolutions: 2,
        };
        let whole = sampling.whole_revolution(&track_cells);
        assert_eq!(whole, [0, 0, 1, 0, 0, 0, 1, 0, 1]);
        for (place, first) in [
            (IndexPlace::AtPulse, 6_000),
            (IndexPlace::JustAfter, 5_975),
            (IndexPlace::JustBefore, 25),
        ] {
            sampling.place = place;
            let plan = sampling.block(&mut Random::new(1), &track_cells);
            assert_eq!(timings_of(&plan, 0), [first, 8_000, 4_000]);
            assert_eq!(timings_of(&plan, 1), [6_000, 8_000, 4_000]);
            // 9 cells of 80 units.
            assert!(plan.entries.iter().all(|entry| entry.index_time == 720));
        }
        // Cells 2 to 4 lie in the same interval; cell 1 does not.
        for (index_cell, same) in [(1, false), (2, true), (4, true), (5, false), (12, true)] {
            sampling.index_cell = index_cell;
            let turned = sampling.whole_revolution(&track_cells);
            assert_eq!(turned == whole, same, "{index_cell}");
        }
        sampling.place = IndexPlace::Inside;
        sampling.index_cell = 3;
        let mut firsts = Vec::new();
        for seed in 0..20 {
            let plan = sampling.block(&mut Random::new(seed), &track_cells);
            let first = timings_of(&plan, 0)[0];
            assert_eq!(first % 25, 0);
            assert!((25..=5_975).contains(&first));
            assert_eq!(timings_of(&plan, 1), [6_000, 8_000, 4_000]);
            firsts.push(first);
        }
        firsts.sort_unstable();
        firsts.dedup();
        assert!(firsts.len() > 10);
    }

    #[test]
    fn whole_revolutions_give_the_cells_of_the_track() {
        let mut random = Random::new(91);
        let track_cells = standard_track(40, 1, 0x6D);
        for sampling in samplings(&[0, 37_000]) {
            let plan = sampling.block(&mut random, &track_cells);
            let block = plan.bytes();
            let whole = sampling.whole_revolution(&track_cells);
            // At the pulse, revolution 0 is as whole as the others.
            let first = u32::from(sampling.place != IndexPlace::AtPulse);
            for revolution in first..plan.revolutions() {
                let answer = revolution_cells(&block, plan.revolutions(), revolution, 12_500);
                let separation = answer.unwrap();
                assert_eq!(
                    (separation.cells, separation.bytes),
                    (100_000, cells::pack(&whole)),
                    "{sampling:?}, revolution {revolution}"
                );
            }
            let whole_of_0 = timings_of(&plan, 0).len();
            assert_eq!(whole_of_0, timings_of(&plan, 1).len());
        }
    }

    #[test]
    fn between_sectors_the_index_brings_no_finding() {
        let track_cells = standard_track(5, 0, 0xE5);
        let clean = "T05 H0 cells 100000 sectors 9 findings 0\n";
        for (index_cells, is_clean) in [(&BETWEEN_SECTORS[..], true), (&IN_A_SECTOR, false)] {
            for &index_cell in index_cells {
                let sampling = Sampling {
                    index_cell,
                    place: IndexPlace::Inside,
                    jitter: Some(Choice::Bounds),
                    revolutions: 2,
                };
                let block = sampling.block(&mut Random::new(92), &track_cells).bytes();
                let listed = printed(&block, 2, 1, 5, 0);
                assert_eq!(listed == clean.as_bytes(), is_clean, "{index_cell}");
                let whole = sampling.whole_revolution(&track_cells);
                assert_eq!(listed, listing_of_track(5, 0, &whole));
            }
        }
    }

    #[test]
    fn a_no_flux_area_over_the_index() {
        let sampling = Sampling {
            index_cell: 91_000,
            place: IndexPlace::JustBefore,
            jitter: None,
            revolutions: 2,
        };
        // The stretch lies before the index but for one unit, which is all that revolution
        // 0 has of it. Revolution 1 has the whole stretch as its first timing.
        let plan = sampling.block(&mut Random::new(93), &track_with_no_flux_area(2_150));
        assert_eq!(timings_of(&plan, 0)[0], 25);
        assert!((4_300_000..4_310_000).contains(&timings_of(&plan, 1)[0]));
        assert_eq!(timings_of(&plan, 0)[1..], timings_of(&plan, 1)[1..]);
        // 12 ms are no timing.
        let plan = sampling.block(&mut Random::new(93), &track_with_no_flux_area(6_000));
        assert_eq!(timings_of(&plan, 0)[0], 25);
        let refusal = revolution_timings(&plan.bytes(), 2, 1, usize::MAX).unwrap_err();
        assert_eq!((refusal.number, refusal.value), (8, 0));
    }

    #[test]
    fn a_wandering_index_moves_transitions_between_revolutions() {
        let track_cells = standard_track(0, 0, 0xE5);
        let ones = track_cells.iter().filter(|&&cell| cell != 0).count();
        let sampling = Sampling {
            index_cell: 0,
            place: IndexPlace::Inside,
            jitter: None,
            revolutions: 5,
        };
        let plan = sampling.block_with_wander(&mut Random::new(94), &track_cells, 6);
        let counts: Vec<usize> = (0..5).map(|index| timings_of(&plan, index).len()).collect();
        assert!(counts.iter().any(|&count| count != ones), "{counts:?}");
        for count in counts {
            assert!(count.abs_diff(ones) <= 6);
        }
    }
}
