//! Blocks that are not refused with 16: random ones laid out in many ways, and values
//! at the limits of 6, 7, 8 and 17.

use super::{
    block_of_parts, block_of_values, bytes_of_values, values_of_units, BlockCase, BlockPlan, Cases,
};
use crate::random::Random;

/// The units of the longest timing, 10,000,000 ns: six zeros and 6,784.
pub(super) const LONGEST: u64 = 400_000;
/// The units of the shortest of the timings that are too long.
pub(super) const TOO_LONG: u64 = 400_001;

/// How the values of revolutions are laid out after the table.
#[derive(Clone, Copy, Debug, PartialEq, Eq)]
pub enum Layout {
    /// In the order of the revolutions.
    InOrder,
    /// The last revolution first.
    Backwards,
    /// In any order.
    Shuffled,
    /// In any order, with 0 to 5 bytes that belong to no revolution before each and
    /// after the last: values may start at odd bytes.
    WithGaps,
}

/// All layouts.
const LAYOUTS: [Layout; 4] = [
    Layout::InOrder,
    Layout::Backwards,
    Layout::Shuffled,
    Layout::WithGaps,
];

/// The block of revolutions with these values, laid out so.
pub fn laid_out(random: &mut Random, revolutions: &[Vec<u16>], layout: Layout) -> BlockPlan {
    let mut order: Vec<usize> = (0..revolutions.len()).collect();
    match layout {
        Layout::InOrder => {}
        Layout::Backwards => order.reverse(),
        Layout::Shuffled | Layout::WithGaps => {
            for last in (1..order.len()).rev() {
                order.swap(last, random.below(last as u64 + 1) as usize);
            }
        }
    }
    let gap = |random: &mut Random| -> Vec<u8> {
        let most = if layout == Layout::WithGaps { 5 } else { 0 };
        (0..random.between(0, most))
            .map(|_| random.byte())
            .collect()
    };
    let mut values = Vec::new();
    let mut parts = vec![(0, 0); revolutions.len()];
    for index in order {
        values.extend(gap(random));
        parts[index] = (values.len(), revolutions[index].len());
        values.extend(bytes_of_values(&revolutions[index]));
    }
    values.extend(gap(random));
    block_of_parts(values, &parts)
}

/// The units of one timing in range, most of them those of 2, 3 or 4 cells.
fn units_in_range(random: &mut Random) -> u64 {
    match random.below(8) {
        0 => random.between(1, 65_535) as u64,
        1 => {
            let zeros = random.between(1, 6);
            let most = if zeros == 6 { 6_784 } else { 65_535 };
            (65_536 * zeros + random.between(1, most)) as u64
        }
        2 => [1, 255, 256, 257, 65_280, 65_535, 65_537, LONGEST][random.below(8) as usize],
        _ => random.between(130, 350) as u64,
    }
}

/// The values of so many timings in range.
pub(super) fn values_in_range(random: &mut Random, timings: usize) -> Vec<u16> {
    (0..timings)
        .flat_map(|_| values_of_units(units_in_range(random)))
        .collect()
}

/// The values of a revolution that do not end in a 0: for the most part a few timings in
/// range, now and then none, or one out of range.
fn sound_values(random: &mut Random) -> Vec<u16> {
    let count = match random.below(12) {
        0 => 0,
        1 => random.between(10, 40),
        _ => random.between(1, 7),
    };
    let mut values = values_in_range(random, count as usize);
    if random.one_in(12) {
        let place = random.below(values.len() as u64 + 1) as usize;
        let zeros = random.between(1, 20) as usize;
        values.splice(place..place, vec![0; zeros]);
        values.push(random.between(1, 65_535) as u16);
    }
    values
}

/// A sound block of 0 to 20 revolutions, laid out in any way.
pub fn sound_block(seed: u64) -> BlockPlan {
    let mut random = Random::new(seed);
    let lists: Vec<Vec<u16>> = (0..random.below(21))
        .map(|_| sound_values(&mut random))
        .collect();
    let layout = LAYOUTS[random.below(4) as usize];
    let mut plan = laid_out(&mut random, &lists, layout);
    plan.track = random.byte();
    if random.one_in(4) {
        for entry in &mut plan.entries {
            entry.index_time = random.next_number() as u32;
        }
    }
    if random.one_in(4) {
        plan.left_over = vec![random.byte(); random.below(9) as usize];
    }
    plan
}

/// A sound block whose revolutions are parts of the same bytes, at any byte and of any
/// length: they overlap.
pub fn overlapping_block(seed: u64) -> BlockPlan {
    let mut random = Random::new(seed);
    let timings = random.between(2, 16) as usize;
    let values = bytes_of_values(&values_in_range(&mut random, timings));
    let mut parts = Vec::new();
    for _ in 0..random.between(1, 8) {
        let start = random.below(values.len() as u64 + 1) as usize;
        let mut count = random.below((values.len() - start) as u64 / 2 + 1) as usize;
        while values[start..start + 2 * count].ends_with(&[0, 0]) {
            count -= 1;
        }
        parts.push((start, count));
    }
    block_of_parts(values, &parts)
}

pub(super) fn sound_blocks() -> Vec<BlockCase> {
    let mut cases = Cases::default();
    for seed in 0..500 {
        cases.add_all(&format!("sound block of seed {seed}"), &sound_block(seed));
    }
    cases.0
}

pub(super) fn overlapping_blocks() -> Vec<BlockCase> {
    let mut cases = Cases::default();
    for seed in 0..300 {
        let name = format!("overlapping values of seed {seed}");
        cases.add_all(&name, &overlapping_block(seed));
    }
    cases.0
}

/// 6: revolutions without values, their offset anywhere between the table's and the
/// block's end. Just outside of this, the offset alone brings 16 (rule 12.11).
pub(super) fn without_values() -> Vec<BlockCase> {
    let mut cases = Cases::default();
    for empty in [vec![0], vec![1], vec![2], vec![0, 1], vec![0, 1, 2]] {
        for left_over in [0, 1, 3] {
            let mut lists = vec![vec![160, 240]; 3];
            for &index in &empty {
                lists[index].clear();
            }
            let mut plan = block_of_values(&lists);
            plan.left_over = vec![0; left_over];
            let (table_end, block_end) = (plan.table_end(), plan.block_end());
            for offset in table_end - 2..=block_end + 2 {
                for &index in &empty {
                    plan.entries[index].offset = offset as u32;
                }
                let name = format!(
                    "no values in {empty:?}, {left_over} left over, offset {offset} of {block_end}"
                );
                cases.add_all(&name, &plan);
            }
        }
    }
    cases.0
}

/// Runs of zeros of any length, before the first value, between values and before the
/// last, in the chosen revolution and beside it.
pub(super) fn runs_of_zeros() -> Vec<BlockCase> {
    let mut cases = Cases::default();
    let lengths = (0..=20).chain([100, 255, 256, 257, 1_000, 5_000]);
    for zeros in lengths {
        for last in [1, 6_783, 6_784, 6_785, 65_535] {
            for (what, before, after) in [
                ("alone", vec![], vec![]),
                ("first", vec![], vec![160]),
                ("last", vec![160, 240], vec![]),
                ("between", vec![160], vec![0, 1]),
            ] {
                let mut values: Vec<u16> = before;
                values.extend(vec![0; zeros]);
                values.push(last);
                values.extend(after);
                let plan = block_of_values(&[values, vec![160]]);
                let name = format!("{zeros} zeros and {last}, {what}");
                cases.add_all(&name, &plan);
            }
        }
    }
    // Several runs, of which the first that is too long is the one given.
    for first in 0..9 {
        for second in 0..9 {
            let mut values = vec![0; first];
            values.push(1);
            values.extend(vec![0; second]);
            values.extend([2, 3]);
            let plan = block_of_values(&[values]);
            let name = format!("{first} zeros and 1, {second} zeros and 2, then 3");
            cases.add_all(&name, &plan);
        }
    }
    cases.0
}

/// 8: timings in and out of their range at the first, a middle and the last place.
pub(super) fn timings_at_their_range() -> Vec<BlockCase> {
    let mut cases = Cases::default();
    for units in [
        1,
        2,
        39,
        40,
        41,
        255,
        256,
        65_535,
        65_537,
        131_071,
        131_073,
        393_215,
        393_217,
        LONGEST - 1,
        LONGEST,
        TOO_LONG,
        TOO_LONG + 1,
        458_751,
        458_753,
        // 2 to the power of 32 ns and 29 more: 29 ns in 32 bits.
        171_798_693,
    ] {
        for timings in [1, 2, 5] {
            let mut indexes = vec![0, timings / 2, timings - 1];
            indexes.dedup();
            for index in indexes {
                let mut values = Vec::new();
                for place in 0..timings {
                    let own = if place == index { units } else { 160 };
                    values.extend(values_of_units(own));
                }
                let plan = block_of_values(&[vec![160], values]);
                let name = format!("{units} units, timing {index} of {timings}");
                cases.add_all(&name, &plan);
            }
        }
    }
    // Two that are out of range: the first is given.
    for (first, second) in [(0, 1), (0, 4), (2, 3), (3, 4)] {
        let mut values = Vec::new();
        for place in 0..5 {
            let out = place == first || place == second;
            values.extend(values_of_units(if out { TOO_LONG } else { 160 }));
        }
        let name = format!("timings {first} and {second} of 5 out of range");
        cases.add_all(&name, &block_of_values(&[values]));
    }
    cases.0
}

/// 7: numbers of timings at their limit, also with zeros between, so that there are more
/// values than timings; and with one out of range, which 7 goes before.
pub(super) fn numbers_of_timings() -> Vec<BlockCase> {
    let mut cases = Cases::default();
    for timings in [65_535_usize, 65_536, 65_537, 65_792] {
        for (what, every, out_of_range) in [
            ("no zeros", usize::MAX, None),
            ("a zero before every fourth", 4, None),
            ("the first out of range", usize::MAX, Some(0)),
            ("the last out of range", usize::MAX, Some(timings - 1)),
        ] {
            let mut values = Vec::new();
            for index in 0..timings {
                if index % every == every - 1 {
                    values.push(0);
                }
                if out_of_range == Some(index) {
                    values.extend([0; 7]);
                }
                values.push(1 + (index % 300) as u16);
            }
            let plan = block_of_values(&[vec![160], values]);
            let name = format!("{timings} timings, {what}");
            cases.add_all(&name, &plan);
        }
    }
    // More values than 65,536 for few timings. The first is of 2 to the power of 32
    // units and 1 more: 1 in 32 bits.
    let many_zeros = [vec![0; 65_536], vec![1]].concat();
    let in_range = [0, 0, 0, 0, 0, 0, 1].repeat(10_000);
    let plan = block_of_values(&[many_zeros, in_range, vec![160, 240]]);
    cases.add_all("more values than 65,536", &plan);
    cases.0
}

/// The separator's 9 and 10: numbers of cells in all, with nothing after them, with a
/// timing that makes no cell, one that makes a cell, and one out of range.
pub(super) fn cells_in_all() -> Vec<BlockCase> {
    let mut cases = Cases::default();
    for count in [
        0, 1, 7, 8, 9, 16, 17, 19_999, 20_000, 20_001, 131_071, 131_072, 131_073, 135_000, 262_144,
        1_000_000,
    ] {
        // 80 units for each cell, at most 5,000 cells for each timing.
        let mut values = values_of_units(LONGEST).repeat(count / 5_000);
        if count % 5_000 > 0 {
            values.extend(values_of_units(80 * (count % 5_000) as u64));
        }
        for (what, units) in [
            ("nothing", None),
            ("no cell", Some(39)),
            ("a cell", Some(40)),
            ("a timing out of range", Some(TOO_LONG)),
        ] {
            let mut values = values.clone();
            if let Some(units) = units {
                values.extend(values_of_units(units));
            }
            let plan = block_of_values(&[values]);
            cases.add_all(&format!("{count} cells, then {what}"), &plan);
        }
    }
    // The most timings: two cells each; and the last of three and of four.
    for last in [160, 240, 320] {
        let mut values = vec![160; 65_536];
        values[65_535] = last;
        let plan = block_of_values(&[values]);
        cases.add_all(&format!("65,536 timings, the last of {last} units"), &plan);
    }
    cases.0
}

/// 17: a chosen revolution equal to the number of revolutions and above it, and the
/// highest that is not.
pub(super) fn chosen_revolutions() -> Vec<BlockCase> {
    let mut cases = Cases::default();
    let mut random = Random::new(81);
    for revolutions in (0..=20).chain([127, 128, 254, 255, 256, 257, 300]) {
        let lists: Vec<Vec<u16>> = (0..revolutions)
            .map(|_| values_in_range(&mut random, 1))
            .collect();
        let block = laid_out(&mut random, &lists, Layout::Shuffled).bytes();
        let highest = revolutions.max(1) - 1;
        let chosen = [
            0,
            highest,
            revolutions,
            revolutions + 1,
            255,
            256,
            // The highest revolution again where only the low bits are looked at.
            256 + highest,
            65_536 + highest,
            0x7FFF_FFFF,
            0x8000_0000 + highest,
            u32::MAX,
        ];
        cases.add_chosen("chosen", &block, revolutions, &chosen);
    }
    cases.0
}
