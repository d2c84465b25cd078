//! Lists of flux transitions whose cells are known: within the tolerance (rules 4.1 to
//! 4.6), without drift or shifts, and with chosen offsets.

use crate::random::Random;

/// A tolerance: how far a cell may be from 2,000 nanoseconds (D, rule 4.3), and how far a
/// pulse from its true place (J, rule 4.4).
#[derive(Clone, Copy, Debug, PartialEq, Eq)]
pub struct Tolerance {
    /// D, in nanoseconds.
    pub drift: i64,
    /// J, in nanoseconds.
    pub shift: i64,
}

impl Tolerance {
    /// The figures that were asked first (rule 4.16).
    pub const FIRST: Tolerance = Tolerance {
        drift: 50,
        shift: 250,
    };

    /// The tolerance of a drift that takes so much of the window; none where the drift
    /// alone takes more.
    pub fn taking(drift: i64, taken: i64) -> Option<Tolerance> {
        let rest = taken - 8 * drift;
        (rest >= 0).then_some(Tolerance {
            drift,
            shift: rest / 2,
        })
    }

    /// What both take of the window (rule 4.14).
    pub fn taken(self) -> i64 {
        8 * self.drift + 2 * self.shift
    }

    /// How far a centre is off at most (rule 4.11).
    pub fn farthest_centre(self) -> i64 {
        8 * self.drift + self.shift + 1
    }
}

/// A list of flux transitions as section 4 of the specification has them.
#[derive(Clone, Debug, PartialEq, Eq)]
pub struct FluxTrack {
    /// g for each flux transition but the first.
    pub gaps: Vec<usize>,
    /// The true places, one more than the gaps.
    pub true_places: Vec<i64>,
    /// The pulses of the drive, one for each true place.
    pub pulses: Vec<i64>,
    /// The timings, one for each gap.
    pub timings: Vec<u32>,
    /// The cells written, one to an element (rule 4.6).
    pub cells: Vec<u8>,
}

/// How distances and shifts are chosen within their bounds.
#[derive(Clone, Copy, Debug, PartialEq, Eq)]
pub enum Choice {
    /// Any value within the bounds.
    Any,
    /// One of the two bounds.
    Bounds,
    /// The same bound for many flux transitions in a row, then perhaps the other:
    /// a slow or a fast drive.
    LongDrift,
}

/// The flux track of given gaps, distances between true places and shifts of the
/// pulses. There is one shift more than there are gaps and distances.
pub fn flux_track_of(gaps: &[usize], distances: &[i64], shifts: &[i64]) -> FluxTrack {
    assert_eq!(gaps.len(), distances.len());
    assert_eq!(gaps.len() + 1, shifts.len());
    let mut true_places = vec![1_000];
    let mut cells = Vec::new();
    for (index, &gap) in gaps.iter().enumerate() {
        true_places.push(true_places[index] + distances[index]);
        cells.extend(vec![0; gap - 1]);
        cells.push(1);
    }
    let mut pulses = Vec::new();
    for (true_place, shift) in true_places.iter().zip(shifts) {
        pulses.push(true_place + shift);
    }
    let mut timings = Vec::new();
    for pair in pulses.windows(2) {
        timings.push((pair[1] - pair[0]) as u32);
    }
    FluxTrack {
        gaps: gaps.to_vec(),
        true_places,
        pulses,
        timings,
        cells,
    }
}

/// Chooses values within bounds, in the manner of `Choice`.
struct Picker {
    choice: Choice,
    high: bool,
}

impl Picker {
    fn pick(&mut self, random: &mut Random, least: i64, most: i64) -> i64 {
        match self.choice {
            Choice::Any => return random.between(least, most),
            Choice::Bounds => self.high = random.one_in(2),
            Choice::LongDrift => {
                if random.one_in(200) {
                    self.high = !self.high;
                }
            }
        }
        if self.high {
            most
        } else {
            least
        }
    }
}

/// A random flux track with so many timings, within the tolerance that was asked first.
pub fn flux_track(random: &mut Random, timings: usize, choice: Choice) -> FluxTrack {
    flux_track_within(random, Tolerance::FIRST, timings, choice)
}

/// A random flux track with so many timings, within a tolerance.
pub fn flux_track_within(
    random: &mut Random,
    tolerance: Tolerance,
    timings: usize,
    choice: Choice,
) -> FluxTrack {
    let Tolerance { drift, shift } = tolerance;
    let high = random.one_in(2);
    let mut distance_picker = Picker { choice, high };
    let high = random.one_in(2);
    let mut shift_picker = Picker { choice, high };
    let mut gaps = Vec::new();
    let mut distances = Vec::new();
    let mut shifts = vec![shift_picker.pick(random, -shift, shift)];
    for _ in 0..timings {
        let gap = random.between(2, 4);
        gaps.push(gap as usize);
        let (least, most) = ((2_000 - drift) * gap, (2_000 + drift) * gap);
        distances.push(distance_picker.pick(random, least, most));
        shifts.push(shift_picker.pick(random, -shift, shift));
    }
    flux_track_of(&gaps, &distances, &shifts)
}

/// A track that drifts to one side, with gaps of four cells: all cells are as long as they
/// may be, or as short, and all pulses are off against the drift, but for the last of every
/// `turn` pulses, which is off with it. There the offset is the greatest that was found.
/// `sign` is 1 for long cells and -1 for short ones.
pub fn one_sided_track(tolerance: Tolerance, sign: i64, timings: usize, turn: usize) -> FluxTrack {
    let gaps = vec![4; timings];
    let distances = vec![8_000 + sign * 4 * tolerance.drift; timings];
    let shifts: Vec<i64> = (0..=timings)
        .map(|place| {
            if place > 0 && place % turn == 0 {
                sign * tolerance.shift
            } else {
                -sign * tolerance.shift
            }
        })
        .collect();
    flux_track_of(&gaps, &distances, &shifts)
}

/// The timings of a track's cells, one cell to an element, without drift or shifts:
/// for each one, 2,000 nanoseconds for each cell since the one before (for the first
/// one, since the index). Zeros after the last one leave no timing.
pub fn timings_of_cells(track_cells: &[u8]) -> Vec<u32> {
    let mut timings = Vec::new();
    let mut cells_since_one = 0;
    for &cell in track_cells {
        cells_since_one += 1;
        if cell != 0 {
            timings.push(2_000 * cells_since_one);
            cells_since_one = 0;
        }
    }
    timings
}

/// Offsets around the limits of border pulses (rule 3.16): the last that is none, the first
/// that is one and the next, on either side.
pub const AROUND_THE_LIMITS: [i64; 6] = [-903, -902, -901, 901, 902, 903];

/// The residual between timings that are made one after the other (rule 3.3), so that the
/// next one can be made for an offset.
#[derive(Clone, Copy, Debug, Default, PartialEq, Eq)]
pub struct Residual(i64);

impl Residual {
    /// The residual before the first timing.
    pub fn new() -> Residual {
        Residual(0)
    }

    /// The timing, in nanoseconds, that has so many cells and this offset after the timings
    /// that were passed. It may be out of range.
    pub fn timing(self, cells: i64, offset: i64) -> i64 {
        2_000 * cells + offset - self.0
    }

    /// Passes a timing of so many cells.
    pub fn pass(&mut self, cells: i64, timing: i64) {
        self.0 = (timing + self.0 - 2_000 * cells) / 2;
    }
}

/// The timings of steps, each given by its cells and its offset; none where one of them would
/// be out of range, as a step without cells cannot have every offset.
pub fn timings_of_steps(steps: &[(i64, i64)]) -> Option<Vec<u32>> {
    let mut residual = Residual::new();
    let mut timings = Vec::new();
    for &(cells, offset) in steps {
        let timing = residual.timing(cells, offset);
        if !(1..=10_000_000).contains(&timing) {
            return None;
        }
        residual.pass(cells, timing);
        timings.push(timing as u32);
    }
    Some(timings)
}

/// The timings of a track's cells, as `timings_of_cells`, but with offsets around the limits
/// of border pulses; once in `times` the offset is 0.
pub fn timings_at_the_limits(random: &mut Random, track_cells: &[u8], times: u64) -> Vec<u32> {
    let steps: Vec<(i64, i64)> = timings_of_cells(track_cells)
        .into_iter()
        .map(|timing| {
            let offset = if random.one_in(times) {
                0
            } else {
                AROUND_THE_LIMITS[random.below(6) as usize]
            };
            (i64::from(timing / 2_000), offset)
        })
        .collect();
    timings_of_steps(&steps).expect("steps of one to 4,999 cells")
}

/// A list of timings and what it tries.
#[derive(Clone, Debug, PartialEq, Eq)]
pub struct NamedTimings {
    /// What the list tries, in a few words.
    pub name: String,
    /// The timings.
    pub timings: Vec<u32>,
}

/// Lists with offsets at the limits of border pulses and at the ends of a window: alone,
/// first, between even timings and last; several in a row and hundreds; with and without
/// cells.
pub fn border_lists() -> Vec<NamedTimings> {
    let mut lists = Vec::new();
    let mut add = |name: String, steps: &[(i64, i64)]| {
        if let Some(timings) = timings_of_steps(steps) {
            lists.push(NamedTimings { name, timings });
        }
    };
    let even = (2, 0);
    let offsets = [-1_000, -904, -900, 900, 904, 999];
    for offset in offsets.into_iter().chain(AROUND_THE_LIMITS) {
        for cells in [0, 1, 2, 3, 4, 5_000] {
            let own = (cells, offset);
            let name = format!("offset {offset} of {cells} cells");
            add(format!("{name}, alone"), &[own]);
            if cells > 2 {
                continue;
            }
            add(format!("{name}, first"), &[own, even, even]);
            add(format!("{name}, in the middle"), &[even, own, even]);
            add(format!("{name}, last"), &[even, even, own]);
            add(format!("{name}, three in a row"), &[own; 3]);
            add(format!("{name}, 500 in a row"), &[own; 500]);
        }
        // From one border to the other, and back.
        let there_and_back = [(2, offset), (2, -offset.max(-999))].repeat(20);
        add(format!("offset {offset} to and fro"), &there_and_back);
    }
    // As many as a list may have, of as many cells as a track may have.
    add("65,536 border pulses".to_string(), &vec![(2, -902); 65_536]);
    lists
}

#[cfg(test)]
mod tests {
    use super::*;
    use second_program::cells;
    use second_program::separator;

    #[test]
    fn the_made_tracks_keep_to_the_tolerance() {
        let mut random = Random::new(3);
        for choice in [Choice::Any, Choice::Bounds, Choice::LongDrift] {
            let track = flux_track(&mut random, 500, choice);
            assert_eq!(track.timings.len(), 500);
            assert_eq!(track.cells.len(), track.gaps.iter().sum::<usize>());
            for (index, &gap) in track.gaps.iter().enumerate() {
                let gap = gap as i64;
                let apart = track.true_places[index + 1] - track.true_places[index];
                assert!((2..=4).contains(&gap));
                assert!((1_950 * gap..=2_050 * gap).contains(&apart));
            }
            for (pulse, true_place) in track.pulses.iter().zip(&track.true_places) {
                assert!((pulse - true_place).abs() <= 250);
            }
        }
    }

    #[test]
    fn one_sided_tracks_keep_to_their_tolerance() {
        for (drift, sign) in [(0, 1), (0, -1), (124, 1), (124, -1), (60, 1)] {
            let tolerance = Tolerance::taking(drift, 998).unwrap();
            assert_eq!(tolerance.taken(), 998);
            let track = one_sided_track(tolerance, sign, 60, 20);
            for places in track.true_places.windows(2) {
                assert_eq!(places[1] - places[0], 4 * (2_000 + sign * drift));
            }
            let mut with_the_drift = 0;
            for (pulse, true_place) in track.pulses.iter().zip(&track.true_places) {
                assert_eq!((pulse - true_place).abs(), tolerance.shift);
                if (pulse - true_place).signum() == sign {
                    with_the_drift += 1;
                }
            }
            assert_eq!(with_the_drift, 3);
        }
        assert_eq!(Tolerance::taking(125, 998), None);
    }

    #[test]
    fn the_timings_of_cells_give_the_cells_back() {
        let track_cells = [0, 0, 1, 1, 0, 0, 0, 0, 0, 1, 0, 1];
        let timings = timings_of_cells(&track_cells);
        assert_eq!(timings, [6_000, 2_000, 12_000, 4_000]);
        let packed = cells::pack(&track_cells);
        let separation = separator::separate(&timings, 2).unwrap();
        assert_eq!((separation.cells, separation.bytes), (12, packed));
        assert_eq!(timings_of_cells(&[1, 0, 0]), [2_000]);
        assert!(timings_of_cells(&[0, 0]).is_empty());
    }

    #[test]
    fn steps_come_with_their_cells_and_offsets() {
        let timings = timings_of_steps(&[(2, 902), (2, 902), (3, -902), (0, 0)]);
        assert_eq!(timings, Some(vec![4_902, 4_451, 4_647, 451]));
        // Without cells a timing would have to be 0, or less.
        assert_eq!(timings_of_steps(&[(0, 0)]), None);
        assert_eq!(timings_of_steps(&[(2, -500), (0, -500)]), None);
        assert_eq!(timings_of_steps(&[(5_000, 1)]), None);
        let mut random = Random::new(5);
        let steps: Vec<(i64, i64)> = (0..1_000)
            .map(|_| (random.between(1, 6), random.between(-1_000, 999)))
            .collect();
        let rows = separator::rows(&timings_of_steps(&steps).unwrap()).unwrap();
        for (row, step) in rows.iter().zip(steps) {
            assert_eq!((row.cells, row.offset), step);
        }
    }

    #[test]
    fn a_track_at_the_limits_has_its_cells() {
        let track_cells = [0, 0, 1, 1, 0, 0, 0, 0, 0, 1, 0, 1].repeat(100);
        let timings = timings_at_the_limits(&mut Random::new(6), &track_cells, 3);
        let separation = separator::separate(&timings, 150).unwrap();
        assert_eq!(separation.bytes, cells::pack(&track_cells));
        let rows = separator::rows(&timings).unwrap();
        for offset in AROUND_THE_LIMITS.into_iter().chain([0]) {
            let seen = rows.iter().filter(|row| row.offset == offset).count();
            assert!(seen >= 20, "offset {offset}: {seen}");
        }
    }

    #[test]
    fn the_lists_have_the_offsets_at_their_first_and_last_timings() {
        let lists = border_lists();
        assert!(lists.len() > 150, "{} lists", lists.len());
        let (mut first, mut last) = (Vec::new(), Vec::new());
        let mut most = 0;
        for list in &lists {
            let rows = separator::rows(&list.timings).unwrap();
            first.push(rows[0].offset);
            last.push(rows[rows.len() - 1].offset);
            let separation = separator::separate(&list.timings, 16_384).unwrap();
            most = most.max(separation.border_pulses);
        }
        for offset in AROUND_THE_LIMITS {
            assert!(first.contains(&offset) && last.contains(&offset));
        }
        assert_eq!(most, 65_536);
    }
}
