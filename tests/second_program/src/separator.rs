//! The separator (rules 3.1 to 3.18), which turns flux timings into cells; and the
//! histogram (rules 5.1 to 5.3).

use crate::cells;
use crate::refusal::{Refusal, MOST_CELLS, MOST_TIMINGS};

/// The shortest timing in nanoseconds (rule 3.1).
pub const SHORTEST_TIMING: u32 = 1;
/// The longest timing in nanoseconds (rule 3.1).
pub const LONGEST_TIMING: u32 = 10_000_000;
/// The nanoseconds of one cell.
const CELL: i64 = 2_000;
/// Half of the nanoseconds of one cell.
const HALF_CELL: i64 = 1_000;
/// The residuals that a step takes as they are (rule 3.6).
const LEAST_RESIDUAL: i64 = -500;
const MOST_RESIDUAL: i64 = 499;
/// How far a border pulse lies at least from the window's centre (rule 3.16). The window
/// ends 1,000 ns from it.
const BORDER: i64 = 902;

/// Whether the timing is in range.
pub fn timing_in_range(timing: u32) -> bool {
    (SHORTEST_TIMING..=LONGEST_TIMING).contains(&timing)
}

/// The separator's state (rule 3.2).
#[derive(Clone, Copy, Debug, Default, PartialEq, Eq)]
pub struct SeparatorState {
    /// The residual r.
    pub residual: i64,
}

/// What one timing gives (rules 3.3 to 3.5 and 3.15).
#[derive(Clone, Copy, Debug, PartialEq, Eq)]
pub struct Step {
    /// n, the cells of this timing.
    pub cells: i64,
    /// e, by which the pulse lies after the window's centre.
    pub offset: i64,
}

impl Step {
    /// Whether the pulse lies so near to the border of its window that another read may
    /// put it into the next one (rule 3.16).
    pub fn is_border_pulse(self) -> bool {
        self.offset <= -BORDER || self.offset >= BORDER
    }
}

impl SeparatorState {
    /// The state before the first timing.
    pub fn new() -> SeparatorState {
        SeparatorState { residual: 0 }
    }

    /// One step by value (rules 3.3 and 3.8): takes the state and one timing, hands back
    /// the next state. A timing out of range leaves the state as it came (rule 3.7).
    pub fn step(self, timing: u32) -> (SeparatorState, Result<Step, Refusal>) {
        if !timing_in_range(timing) {
            return (self, Err(Refusal::timing_out_of_range(0)));
        }
        let residual = if (LEAST_RESIDUAL..=MOST_RESIDUAL).contains(&self.residual) {
            self.residual
        } else {
            0
        };
        let u = i64::from(timing) + residual;
        let n = (u + HALF_CELL).div_euclid(CELL);
        let e = u - CELL * n;
        // The division of i64 rounds towards zero.
        let next = SeparatorState { residual: e / 2 };
        let step = Step {
            cells: n,
            offset: e,
        };
        (next, Ok(step))
    }

    /// The step on a state that the caller lends (rule 3.9). It answers like `step`.
    pub fn advance(&mut self, timing: u32) -> Result<Step, Refusal> {
        let (next, answer) = self.step(timing);
        *self = next;
        answer
    }
}

/// What a row of rule 3.13 says of one timing.
#[derive(Clone, Copy, Debug, PartialEq, Eq)]
pub struct Row {
    /// n.
    pub cells: i64,
    /// e.
    pub offset: i64,
    /// r after the timing.
    pub residual_after: i64,
}

/// Refusals 6, 7 and 8 of a list of timings, in this order.
pub(crate) fn judge_timings(timings: &[u32]) -> Result<(), Refusal> {
    if timings.is_empty() {
        return Err(Refusal::no_timings());
    }
    if timings.len() > MOST_TIMINGS {
        return Err(Refusal::too_many_timings(timings.len()));
    }
    for (index, &timing) in timings.iter().enumerate() {
        if !timing_in_range(timing) {
            return Err(Refusal::timing_out_of_range(index));
        }
    }
    Ok(())
}

/// n, e and r after each timing of a list (rule 3.10). Refusals 6 to 8.
pub fn rows(timings: &[u32]) -> Result<Vec<Row>, Refusal> {
    judge_timings(timings)?;
    let mut state = SeparatorState::new();
    let mut rows = Vec::with_capacity(timings.len());
    for &timing in timings {
        let step = state.advance(timing)?;
        rows.push(Row {
            cells: step.cells,
            offset: step.offset,
            residual_after: state.residual,
        });
    }
    Ok(rows)
}

/// The number of border pulses of a list, stepped from r = 0 (rule 3.17), however many cells
/// it gives. Refusals 6 to 8.
pub fn border_pulses(timings: &[u32]) -> Result<usize, Refusal> {
    judge_timings(timings)?;
    let mut state = SeparatorState::new();
    let mut number = 0;
    for &timing in timings {
        number += usize::from(state.advance(timing)?.is_border_pulse());
    }
    Ok(number)
}

/// What a whole list of timings gives.
#[derive(Clone, Debug, PartialEq, Eq)]
pub struct Separation {
    /// The number of cells.
    pub cells: usize,
    /// The number of border pulses (rule 3.17).
    pub border_pulses: usize,
    /// The packed cells, as many bytes as they need.
    pub bytes: Vec<u8>,
}

/// The call on a list (rules 3.10 to 3.12, 3.17 and 9.6). `room` is the room for the cells
/// in bytes. Refusals in order: 6 to 10. All timings are judged before cells are counted
/// (rule 9.21).
pub fn separate(timings: &[u32], room: usize) -> Result<Separation, Refusal> {
    judge_timings(timings)?;

    let mut state = SeparatorState::new();
    let mut cells_in_all: i64 = 0;
    let mut border_pulses = 0;
    for &timing in timings {
        let step = state.advance(timing)?;
        cells_in_all += step.cells;
        border_pulses += usize::from(step.is_border_pulse());
    }
    let cells_in_all = cells_in_all as usize;
    if cells_in_all > MOST_CELLS {
        return Err(Refusal::too_many_cells(cells_in_all));
    }
    let needed = cells::bytes_needed(cells_in_all);
    if room < needed {
        return Err(Refusal::too_little_room_for_cells(needed));
    }

    let mut state = SeparatorState::new();
    let mut bytes = vec![0; needed];
    let mut cells_written = 0;
    for &timing in timings {
        let n = state.advance(timing)?.cells as usize;
        cells_written += n;
        if n > 0 {
            // n - 1 zeros stand already; the one is the last cell written.
            let place = cells_written - 1;
            bytes[place / 8] |= 1 << (7 - place % 8);
        }
    }
    Ok(Separation {
        cells: cells_in_all,
        border_pulses,
        bytes,
    })
}

/// The histogram (rules 5.1, 5.2 and 9.7). Refusals in order: 6 to 8.
pub fn histogram(timings: &[u32]) -> Result<[u32; 256], Refusal> {
    judge_timings(timings)?;
    let mut counts = [0; 256];
    for &timing in timings {
        let i = (timing / 100).min(255);
        counts[i as usize] += 1;
    }
    Ok(counts)
}

#[cfg(test)]
mod tests {
    use super::*;

    fn refused<T>(number: u32, value: u64) -> Result<T, Refusal> {
        Err(Refusal { number, value })
    }

    fn row(cells: i64, offset: i64, residual_after: i64) -> Row {
        Row {
            cells,
            offset,
            residual_after,
        }
    }

    /// A list that is not refused.
    fn accepted(cells: usize, border_pulses: usize, bytes: Vec<u8>) -> Result<Separation, Refusal> {
        Ok(Separation {
            cells,
            border_pulses,
            bytes,
        })
    }

    /// The number of border pulses of a list that is not refused.
    fn border_pulses_of(timings: &[u32]) -> usize {
        let number = separate(timings, 16_384).unwrap().border_pulses;
        assert_eq!(border_pulses(timings), Ok(number));
        number
    }

    /// The offsets of a list's timings.
    fn offsets_of(timings: &[u32]) -> Vec<i64> {
        let rows = rows(timings).unwrap();
        rows.iter().map(|row| row.offset).collect()
    }

    #[test]
    fn the_six_rows_of_rule_3_13() {
        assert_eq!(
            rows(&[4_900, 4_000]),
            Ok(vec![row(2, 900, 450), row(2, 450, 225)])
        );
        assert_eq!(rows(&[4_999]), Ok(vec![row(2, 999, 499)]));
        assert_eq!(
            rows(&[5_000, 5_000]),
            Ok(vec![row(3, -1_000, -500), row(2, 500, 250)])
        );
        assert_eq!(rows(&[5_001]), Ok(vec![row(3, -999, -499)]));
        assert_eq!(
            rows(&[500, 3_500]),
            Ok(vec![row(0, 500, 250), row(2, -250, -125)])
        );
        assert_eq!(rows(&[10_000_000]), Ok(vec![row(5_000, 0, 0)]));
    }

    #[test]
    fn the_cells_of_5000_5000_are_00101() {
        // The first of the two is a border pulse, its offset being -1,000.
        assert_eq!(
            separate(&[5_000, 5_000], 1),
            accepted(5, 1, vec![0b0010_1000])
        );
        assert_eq!(cells::unpack(&[0b0010_1000], 5), [0, 0, 1, 0, 1]);
    }

    #[test]
    fn timings_without_cells_are_accepted() {
        assert_eq!(separate(&[500], 0), accepted(0, 0, vec![]));
        assert_eq!(separate(&[1], 0), accepted(0, 0, vec![]));
    }

    #[test]
    fn a_step_gives_its_offset() {
        for (residual, timing, cells, offset, next) in [
            (0, 4_901, 2, 901, 450),
            (0, 4_902, 2, 902, 451),
            (0, 5_098, 3, -902, -451),
            (0, 5_099, 3, -901, -450),
            (450, 4_000, 2, 450, 225),
            (-500, 1, 0, -499, -249),
            (499, 500, 0, 999, 499),
            // A residual that counts as 0 (rule 3.6).
            (500, 4_902, 2, 902, 451),
        ] {
            let expected = Ok(Step { cells, offset });
            let state = SeparatorState { residual };
            let next = SeparatorState { residual: next };
            assert_eq!(state.step(timing), (next, expected));
            let mut lent = state;
            assert_eq!(lent.advance(timing), expected);
            assert_eq!(lent, next);
        }
    }

    /// Among them those of rule 3.18.
    #[test]
    fn border_pulses_begin_902_ns_from_the_centre() {
        for offset in -1_000..1_000 {
            let step = Step { cells: 2, offset };
            assert_eq!(
                step.is_border_pulse(),
                (-1_000..=-902).contains(&offset) || (902..=999).contains(&offset)
            );
        }
        // From r = 0, where an offset is the timing less its cells.
        for (timing, offset, number) in [
            (901, 901, 0),
            (902, 902, 1),
            (999, 999, 1),
            (1_000, -1_000, 1),
            (1_098, -902, 1),
            (1_099, -901, 0),
            (4_901, 901, 0),
            (4_902, 902, 1),
            (4_903, 903, 1),
            (4_999, 999, 1),
            (5_000, -1_000, 1),
            (5_001, -999, 1),
            (5_097, -903, 1),
            (5_098, -902, 1),
            (5_099, -901, 0),
            (9_999_097, -903, 1),
            (9_999_098, -902, 1),
            (9_999_099, -901, 0),
        ] {
            assert_eq!(offsets_of(&[timing]), [offset]);
            assert_eq!(border_pulses_of(&[timing]), number, "{timing}");
        }
    }

    #[test]
    fn border_pulses_are_counted_wherever_they_stand() {
        // First, in the middle and last.
        for place in 0..5 {
            let mut timings = [4_000; 5];
            for (timing, number) in [(4_901, 0), (4_902, 1), (5_098, 1), (5_099, 0)] {
                timings[place] = timing;
                assert_eq!(border_pulses_of(&timings), number, "{timings:?}");
            }
        }
        // After an offset of 902 the residual is 451: 4,451 has the offset 902 again, and
        // 4,450 has 901, which leaves 450.
        assert_eq!(
            offsets_of(&[4_902, 4_451, 4_450, 4_452]),
            [902, 902, 901, 902]
        );
        assert_eq!(border_pulses_of(&[4_902, 4_451, 4_450, 4_452]), 3);
        // The other way: -902 leaves -451.
        assert_eq!(offsets_of(&[5_098, 5_549, 5_550]), [-902, -902, -901]);
        assert_eq!(border_pulses_of(&[5_098, 5_549, 5_550]), 2);
        // Hundreds in a row; and as many timings as a list may have.
        for count in [300, 65_536] {
            let mut timings = vec![3_549; count];
            timings[0] = 3_098;
            let separation = separate(&timings, 16_384).unwrap();
            assert_eq!(
                (separation.cells, separation.border_pulses),
                (2 * count, count)
            );
        }
    }

    #[test]
    fn border_pulses_without_cells() {
        assert_eq!(separate(&[902], 0), accepted(0, 1, vec![]));
        assert_eq!(separate(&[902, 451, 450], 0), accepted(0, 2, vec![]));
        assert_eq!(separate(&[999, 500, 500], 0), accepted(0, 3, vec![]));
        // A timing without cells among others.
        assert_eq!(separate(&[902, 3_549], 1), accepted(2, 1, vec![0x40]));
    }

    #[test]
    fn border_pulses_of_more_cells_than_a_track_has() {
        // 10,000,000 ns leave nothing, so that only the first and the last are off.
        let mut timings = vec![10_000_000; 65_536];
        timings[0] = 4_902;
        timings[65_535] = 9_999_098;
        assert_eq!(border_pulses(&timings), Ok(2));
        assert_eq!(separate(&timings, 16_384), refused(9, 65_535 * 5_000 + 2));
        assert_eq!(border_pulses(&[]), refused(6, 0));
        assert_eq!(border_pulses(&vec![0; 65_537]), refused(7, 65_537));
        assert_eq!(border_pulses(&[4_902, 10_000_001]), refused(8, 1));
    }

    #[test]
    fn refused_lists_are_refused_with_border_pulses_too() {
        assert_eq!(separate(&[4_902, 0, 4_902], 0), refused(8, 1));
        assert_eq!(separate(&[4_902], 0), refused(10, 1));
        let mut most = vec![3_549; 65_536];
        most[0] = 3_098;
        most[65_535] = 5_549;
        assert_eq!(separate(&most, 16_384), refused(9, 131_073));
    }

    #[test]
    fn refusals_6_to_10_in_order() {
        assert_eq!(separate(&[], 0), refused(6, 0));
        assert_eq!(separate(&vec![0; 65_537], 0), refused(7, 65_537));
        assert_eq!(separate(&[4_000, 0, 0], 0), refused(8, 1));
        assert_eq!(separate(&[10_000_001], 0), refused(8, 0));
        assert_eq!(separate(&[u32::MAX], 0), refused(8, 0));
        // 8 goes before 9.
        let mut long = vec![10_000_000; 27];
        assert_eq!(separate(&long, 0), refused(9, 135_000));
        long.push(0);
        assert_eq!(separate(&long, 0), refused(8, 27));
        // 131,072 cells are accepted, one more is not.
        let mut most = vec![10_000_000; 26];
        most.push(2_000 * 1_072);
        let separation = separate(&most, 16_384).unwrap();
        assert_eq!(
            (separation.cells, separation.bytes.len()),
            (131_072, 16_384)
        );
        assert_eq!(separate(&most, 16_383), refused(10, 16_384));
        most.push(2_000);
        assert_eq!(separate(&most, 0), refused(9, 131_073));
        assert_eq!(separate(&[18_000], 1), refused(10, 2));
        // The residual of 1 ns is half of it rounded towards zero: nothing adds up.
        assert_eq!(separate(&vec![1; 65_536], 0), accepted(0, 0, vec![]));
    }

    #[test]
    fn a_step_keeps_its_state_where_it_refuses() {
        for residual in [0, -500, 499, 12_345] {
            let state = SeparatorState { residual };
            for timing in [0, 10_000_001, u32::MAX] {
                assert_eq!(state.step(timing), (state, refused(8, 0)));
                let mut lent = state;
                assert_eq!(lent.advance(timing), refused(8, 0));
                assert_eq!(lent, state);
            }
        }
    }

    #[test]
    fn a_residual_out_of_range_counts_as_zero() {
        let from_zero = SeparatorState::new().step(4_900);
        for residual in [i64::MIN, -501, 500, i64::MAX] {
            assert_eq!(SeparatorState { residual }.step(4_900), from_zero);
        }
        assert_ne!(SeparatorState { residual: 499 }.step(4_900), from_zero);
        assert_ne!(SeparatorState { residual: -500 }.step(4_900), from_zero);
    }

    #[test]
    fn the_residual_stays_within_its_range() {
        for residual in [-500, -1, 0, 1, 499] {
            for timing in (1..12_000).chain(9_999_000..=10_000_000) {
                let state = SeparatorState { residual };
                let (next, answer) = state.step(timing);
                let step = answer.unwrap();
                assert!((-1_000..1_000).contains(&step.offset));
                assert!((-500..=499).contains(&next.residual));
                assert!(step.cells >= 0);
                assert_eq!(
                    i64::from(timing) + residual,
                    2_000 * step.cells + step.offset
                );
            }
        }
    }

    #[test]
    fn the_histogram_counts_each_timing_once() {
        let counts = histogram(&[1, 99, 100, 199, 200, 25_499, 25_500, 25_600, 10_000_000]);
        let counts = counts.unwrap();
        assert_eq!(counts[0], 2);
        assert_eq!(counts[1], 2);
        assert_eq!(counts[2], 1);
        assert_eq!(counts[254], 1);
        assert_eq!(counts[255], 3);
        assert_eq!(counts.iter().sum::<u32>(), 9);
        assert_eq!(histogram(&[]), refused(6, 0));
        assert_eq!(histogram(&vec![0; 65_537]), refused(7, 65_537));
        assert_eq!(histogram(&[1, 10_000_001, 0]), refused(8, 1));
        assert_eq!(histogram(&vec![4_000; 65_536]).unwrap()[40], 65_536);
    }
}
