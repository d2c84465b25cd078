//! Blocks whose pulses lie around the limits of border pulses (rule 3.16), as near to them
//! as whole units of 25 ns come.

use super::flux_blocks::UNIT;
use super::{block_of_timings, BlockCase, BlockPlan, Cases};
use crate::flux_inputs::{Residual, AROUND_THE_LIMITS};
use crate::random::Random;

/// The timings of so many steps of two to four cells, each at the whole unit whose offset
/// lies nearest to one of the limits, or to any offset. Residuals are no whole units, so
/// after any offsets the limits themselves are met, too.
fn timings_near_the_limits(random: &mut Random, steps: usize) -> Vec<u32> {
    let mut residual = Residual::new();
    let mut timings = Vec::new();
    for _ in 0..steps {
        let cells = random.between(2, 4);
        let aim = if random.one_in(2) {
            random.between(-950, 950)
        } else {
            AROUND_THE_LIMITS[random.below(6) as usize]
        };
        let units = (residual.timing(cells, aim) + UNIT / 2) / UNIT;
        let timing = UNIT * units;
        residual.pass(cells, timing);
        timings.push(timing as u32);
    }
    timings
}

/// A block of three revolutions: few steps, about 300 cells; many, enough for a listing; the
/// many again without their first, which leaves other offsets.
pub fn border_block(seed: u64) -> BlockPlan {
    let mut random = Random::new(seed);
    let few = timings_near_the_limits(&mut random, 100);
    let many = timings_near_the_limits(&mut random, 7_500);
    let fewer = many[1..].to_vec();
    block_of_timings(&[few, many, fewer])
}

pub(super) fn border_blocks() -> Vec<BlockCase> {
    let mut cases = Cases::default();
    for seed in 0..12 {
        let name = format!("border pulses of seed {seed}");
        cases.add_all(&name, &border_block(seed));
    }
    // Short ones: on either side of both limits, alone and after a whole timing.
    for timing in [900, 925, 1_075, 1_100, 4_900, 4_925, 5_075, 5_100] {
        for (what, timings) in [
            ("alone", vec![timing]),
            ("first", vec![timing, 4_000]),
            ("last", vec![4_000, timing]),
            ("twice", vec![timing, 8_000, timing]),
        ] {
            let plan = block_of_timings(&[timings]);
            cases.add_all(&format!("{timing} ns, {what}"), &plan);
        }
    }
    cases.0
}

#[cfg(test)]
mod tests {
    use super::*;
    use second_program::separator::rows;

    #[test]
    fn the_offsets_around_the_limits_come() {
        let mut random = Random::new(1);
        let timings = timings_near_the_limits(&mut random, 7_500);
        assert!(timings.iter().all(|timing| timing % 25 == 0));
        let rows = rows(&timings).unwrap();
        for offset in AROUND_THE_LIMITS {
            let seen = rows.iter().filter(|row| row.offset == offset).count();
            assert!(seen >= 20, "offset {offset}: {seen}");
        }
        assert!(rows.iter().all(|row| (2..=4).contains(&row.cells)));
    }
}
