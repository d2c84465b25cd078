//! Flux timings for the separator of FM, whose window is 4,000 ns: lists with chosen
//! offsets, single steps from chosen residuals, and random lists.

use crate::flux_inputs::NamedTimings;
use crate::random::Random;

/// Offsets around the limits of border pulses and at the ends of a window.
pub const FM_LIMIT_OFFSETS: [i64; 12] = [
    -2_000, -1_999, -1_998, -1_805, -1_804, -1_803, 1_803, 1_804, 1_805, 1_997, 1_998, 1_999,
];

/// Residuals around the limits of those that a step takes as they are.
pub const FM_LIMIT_RESIDUALS: [i64; 14] = [
    -2_147_483_648,
    -2_000,
    -1_002,
    -1_001,
    -1_000,
    -999,
    -1,
    0,
    1,
    998,
    999,
    1_000,
    1_001,
    2_147_483_647,
];

/// The timings of steps, each given by its cells and its offset, from the residual 0 on;
/// none where one of them would be out of range, as a step without cells cannot have every
/// offset.
pub fn fm_timings_of_steps(steps: &[(i64, i64)]) -> Option<Vec<u32>> {
    let mut residual = 0;
    let mut timings = Vec::new();
    for &(cells, offset) in steps {
        let timing = 4_000 * cells + offset - residual;
        if !(1..=10_000_000).contains(&timing) {
            return None;
        }
        residual = offset / 2;
        timings.push(timing as u32);
    }
    Some(timings)
}

/// The timings of a track's cells, one cell to an element, without drift or shifts: for
/// each one, 4,000 ns for each cell since the one before (for the first one, since the
/// index). Zeros after the last one leave no timing.
pub fn fm_timings_of_cells(track_cells: &[u8]) -> Vec<u32> {
    let mut timings = Vec::new();
    let mut cells_since_one = 0;
    for &cell in track_cells {
        cells_since_one += 1;
        if cell != 0 {
            timings.push(4_000 * cells_since_one);
            cells_since_one = 0;
        }
    }
    timings
}

/// Single steps, each a residual and a timing: every residual around the limits with every
/// offset around them, and with timings at and past the ends of their range.
pub fn fm_single_steps() -> Vec<(i64, u32)> {
    let mut steps = Vec::new();
    for residual in FM_LIMIT_RESIDUALS {
        for timing in [
            0,
            1,
            2,
            999,
            1_000,
            1_001,
            9_999_999,
            10_000_000,
            10_000_001,
            u32::MAX,
        ] {
            steps.push((residual, timing));
        }
        for cells in [0, 1, 2, 3, 2_499, 2_500] {
            for offset in FM_LIMIT_OFFSETS.into_iter().chain([-1, 0, 1]) {
                // Once with the residual counted in and once without, as it may count as 0.
                for counted in [residual, 0] {
                    let timing = 4_000 * cells + offset - counted;
                    if (0..=10_000_001).contains(&timing) {
                        steps.push((residual, timing as u32));
                    }
                }
            }
        }
    }
    steps
}

/// Lists with offsets at the limits of border pulses and at the ends of a window: alone,
/// first, between even timings and last; several in a row and hundreds; with and without
/// cells.
pub fn fm_border_lists() -> Vec<NamedTimings> {
    let mut lists = Vec::new();
    let mut add = |name: String, steps: &[(i64, i64)]| {
        if let Some(timings) = fm_timings_of_steps(steps) {
            lists.push(NamedTimings { name, timings });
        }
    };
    let even = (2, 0);
    for offset in FM_LIMIT_OFFSETS.into_iter().chain([-1, 0, 1]) {
        for cells in [0, 1, 2, 3, 2_500] {
            let own = (cells, offset);
            let name = format!("offset {offset} of {cells} cells");
            add(format!("{name}, alone"), &[own]);
            add(format!("{name}, first"), &[own, even, even]);
            add(format!("{name}, in the middle"), &[even, own, even]);
            add(format!("{name}, last"), &[even, even, own]);
            add(format!("{name}, three in a row"), &[own; 3]);
            if cells < 3 {
                add(format!("{name}, 500 in a row"), &[own; 500]);
            }
        }
        // From one border to the other, and back.
        let there_and_back = [(2, offset), (2, -offset.max(-1_999))].repeat(20);
        add(format!("offset {offset} to and fro"), &there_and_back);
    }
    // As many as a list may have, of as many cells as a track may have.
    add(
        "65,536 border pulses".to_string(),
        &vec![(2, -1_804); 65_536],
    );
    lists
}

/// Lists at and past the limits of a whole list: no timing, too many, a timing out of
/// range, as many cells as are accepted and one more.
pub fn fm_refused_lists() -> Vec<NamedTimings> {
    // 52 timings of 2,500 cells are 130,000; 1,072 more are the most.
    let mut most = vec![10_000_000; 52];
    most.push(4_000 * 1_072);
    let mut one_more = most.clone();
    one_more.push(4_000);
    let mut long_and_zero = one_more.clone();
    long_and_zero.push(0);
    let rows: [(&str, Vec<u32>); 12] = [
        ("no timing", vec![]),
        ("65,536 timings", vec![4_000; 65_536]),
        ("65,537 timings", vec![4_000; 65_537]),
        ("65,537 zeros", vec![0; 65_537]),
        ("a zero", vec![0]),
        ("a zero at 2", vec![4_000, 8_000, 0, 4_000, 0]),
        ("too long at 1", vec![4_000, 10_000_001, 0]),
        ("the longest of all", vec![u32::MAX]),
        ("131,072 cells", most),
        ("131,073 cells", one_more),
        ("131,073 cells and a zero", long_and_zero),
        ("timings of 1 ns", vec![1; 3_000]),
    ];
    rows.into_iter()
        .map(|(name, timings)| NamedTimings {
            name: name.to_string(),
            timings,
        })
        .collect()
}

/// A random timing: near a window's centre, near its ends, any short one, any at all or,
/// rarely, one out of range.
fn odd_fm_timing(random: &mut Random) -> u32 {
    let cells = random.between(1, 4);
    let timing = match random.below(40) {
        0..=14 => 4_000 * cells + random.between(-600, 600),
        15..=24 => 4_000 * cells + 2_000 + random.between(-1_100, 1_100),
        25..=34 => random.between(1, 20_000),
        35..=37 => random.between(1, 2_000),
        38 => random.between(1, 10_000_000),
        _ if random.one_in(20) => [0, 10_000_001][random.below(2) as usize],
        _ => 4_000 * cells,
    };
    timing as u32
}

/// A random list of so many timings. Long lists are for the most part refused for a timing
/// or for their cells.
pub fn odd_fm_timings(random: &mut Random, count: usize) -> Vec<u32> {
    (0..count).map(|_| odd_fm_timing(random)).collect()
}

/// Random steps with offsets around the limits, turned into timings.
pub fn fm_timings_at_the_limits(random: &mut Random, count: usize) -> Vec<u32> {
    let steps: Vec<(i64, i64)> = (0..count)
        .map(|_| {
            let offset = FM_LIMIT_OFFSETS[random.below(12) as usize];
            (random.between(1, 3), offset)
        })
        .collect();
    fm_timings_of_steps(&steps).expect("steps of one to three cells")
}

/// So many lists of timings for a comparison: first those at and past the limits, then
/// random ones. The same seed gives the same lists.
pub fn fm_lists(seed: u64, count: usize) -> impl Iterator<Item = NamedTimings> {
    let mut random = Random::new(seed);
    let at_limits = fm_refused_lists().into_iter().chain(fm_border_lists());
    let at_random = (0_u64..).map(move |number| {
        let length = match random.below(50) {
            0 => random.between(1, 6_000),
            1..=9 => random.between(1, 300),
            _ => random.between(1, 30),
        };
        let (name, timings) = if random.one_in(3) {
            let timings = fm_timings_at_the_limits(&mut random, length as usize);
            ("list at the limits", timings)
        } else {
            ("odd list", odd_fm_timings(&mut random, length as usize))
        };
        NamedTimings {
            name: format!("{name} {number}"),
            timings,
        }
    });
    at_limits.chain(at_random).take(count)
}

#[cfg(test)]
mod tests {
    use super::*;
    use second_program::cells;
    use second_program::single_density;

    #[test]
    fn the_timings_of_cells_give_the_cells_back() {
        let track_cells = [0, 0, 1, 1, 0, 0, 0, 0, 0, 1, 0, 1];
        let timings = fm_timings_of_cells(&track_cells);
        assert_eq!(timings, [12_000, 4_000, 24_000, 8_000]);
        let separation = single_density::separate(&timings, 2).unwrap();
        assert_eq!(separation.cells, 12);
        assert_eq!(separation.bytes, cells::pack(&track_cells));
    }

    #[test]
    fn steps_come_with_their_cells_and_offsets() {
        // After 1,804 the residual is 902, after -1,804 it is -902.
        let timings = fm_timings_of_steps(&[(2, 1_804), (2, 1_804), (3, -1_804), (0, 0)]);
        assert_eq!(timings, Some(vec![9_804, 8_902, 9_294, 902]));
        assert_eq!(fm_timings_of_steps(&[(0, 0)]), None);
        assert_eq!(fm_timings_of_steps(&[(2_500, 1)]), None);
        let mut random = Random::new(5);
        let planned: Vec<(i64, i64)> = (0..1_000)
            .map(|_| (random.between(1, 6), random.between(-2_000, 1_999)))
            .collect();
        let timings = fm_timings_of_steps(&planned).unwrap();
        let steps = single_density::steps(&timings).unwrap();
        for (step, planned) in steps.iter().zip(planned) {
            assert_eq!((step.cells, step.offset), planned);
        }
    }

    #[test]
    fn the_lists_reach_the_limits_and_every_refusal() {
        let mut offsets = Vec::new();
        let mut refusals = [false; 11];
        let mut most = 0;
        for list in fm_lists(1, 2_000) {
            match single_density::separate(&list.timings, 16_384) {
                Ok(separation) => {
                    most = most.max(separation.border_pulses);
                    let steps = single_density::steps(&list.timings).unwrap();
                    offsets.extend(steps.iter().map(|step| step.offset));
                }
                Err(refusal) => refusals[refusal.number as usize] = true,
            }
        }
        for offset in FM_LIMIT_OFFSETS {
            assert!(offsets.contains(&offset), "offset {offset}");
        }
        assert_eq!(refusals[6..10], [true; 4]);
        assert_eq!(most, 65_536);
    }

    #[test]
    fn the_single_steps_have_every_residual_and_offset() {
        let steps = fm_single_steps();
        assert!(steps.len() > 2_000, "{} steps", steps.len());
        for residual in FM_LIMIT_RESIDUALS {
            for offset in FM_LIMIT_OFFSETS {
                let reached = steps.iter().any(|&(from, timing)| {
                    let (_, answer) = single_density::step(from, timing);
                    from == residual && answer.is_ok_and(|step| step.offset == offset)
                });
                assert!(reached, "offset {offset} from {residual}");
            }
        }
    }
}
