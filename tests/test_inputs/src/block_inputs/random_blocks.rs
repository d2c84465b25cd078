//! Blocks made at random, each by its seed: mixed mistakes, changed bytes, any bytes.

use super::{sound_block, BlockCase, BlockPlan};
use crate::random::Random;

/// A block by a seed with the number of revolutions and the chosen one.
fn case(name: String, block: Vec<u8>, revolutions: u32, revolution: u32) -> BlockCase {
    BlockCase {
        name,
        block,
        revolutions,
        revolution,
    }
}

/// A revolution that there is, for the most part; now and then one that there is not.
fn any_revolution(random: &mut Random, revolutions: u32) -> u32 {
    match random.below(12) {
        0 => revolutions,
        1 => random.next_number() as u32,
        _ => random.below(u64::from(revolutions)) as u32,
    }
}

/// A sound block of 0 to 20 revolutions; every other one has 1 to 5, so that a mistake meets
/// the chosen one often enough.
fn block_to_break(random: &mut Random) -> BlockPlan {
    let few = random.one_in(2);
    loop {
        let plan = sound_block(random.next_number());
        if !few || (1..=5).contains(&plan.revolutions()) {
            return plan;
        }
    }
}

/// A number at a border of the block, or any.
fn odd_number(random: &mut Random, plan: &BlockPlan) -> u32 {
    let border = match random.below(6) {
        0 => return random.next_number() as u32,
        1 => 1_i64 << random.below(32),
        2 => i64::from(u32::MAX),
        3 => plan.table_end() as i64,
        4 => plan.block_end() as i64,
        _ => 0,
    };
    (border + random.between(-3, 3)) as u32
}

/// A block of mixed mistakes: none, one or several.
pub fn mixed_block(seed: u64) -> BlockCase {
    let mut random = Random::new(seed);
    let mut plan = block_to_break(&mut random);
    let mut revolutions = plan.revolutions();
    let mut name = format!("mixture of seed {seed}");
    if random.one_in(20) {
        plan.letters[random.below(3) as usize] = random.byte();
        name += ", a letter";
    }
    // A table of many entries has hardly more mistakes than one of four.
    let seldom = 16.max(4 * plan.entries.len() as u64);
    for index in 0..plan.entries.len() {
        if random.one_in(seldom) {
            plan.entries[index].offset = odd_number(&mut random, &plan);
            name += ", an offset";
        }
        if random.one_in(seldom) {
            plan.entries[index].count = odd_number(&mut random, &plan);
            name += ", a number of values";
        }
        if random.one_in(seldom) {
            plan.entries[index].count = 0;
            name += ", no values";
        }
        if random.one_in(seldom) {
            let entry = &mut plan.entries[index];
            entry.count = entry.count.saturating_sub(1);
            name += ", a value less";
        }
    }
    if random.one_in(10) && !plan.values.is_empty() {
        let place = random.below(plan.values.len() as u64) as usize;
        let end = (place + 1 + random.below(16) as usize).min(plan.values.len());
        plan.values[place..end].fill(0);
        name += ", bytes 0";
    }
    if random.one_in(20) {
        revolutions = random.below(u64::from(revolutions) + 3) as u32;
        name += ", revolutions";
    }
    let mut block = plan.bytes();
    if random.one_in(12) {
        block.truncate(random.below(block.len() as u64 + 1) as usize);
        name += ", cut";
    }
    let revolution = any_revolution(&mut random, revolutions);
    case(name, block, revolutions, revolution)
}

/// A sound block of which some bytes are changed, for the most part those of the table,
/// or that is cut or made longer.
pub fn changed_block(seed: u64) -> BlockCase {
    let mut random = Random::new(seed);
    let plan = block_to_break(&mut random);
    let mut block = plan.bytes();
    for _ in 0..random.between(1, 3) {
        let first = if random.one_in(2) {
            block.len()
        } else {
            block.len().min(plan.table_end())
        };
        let place = random.below(first as u64) as usize;
        match random.below(10) {
            0 => block.truncate(place.max(1)),
            1 => block.extend(vec![random.byte(); random.between(1, 20) as usize]),
            2 => block.insert(place, random.byte()),
            3 if block.len() > 1 => drop(block.remove(place)),
            4 => block[place] = random.byte(),
            5 => block[place] = 0,
            6 => block[place] = block[place].wrapping_add(1),
            7 => block[place] = block[place].wrapping_sub(1),
            _ => block[place] ^= 1 << random.below(8),
        }
    }
    let revolutions = plan.revolutions();
    let revolution = any_revolution(&mut random, revolutions);
    let name = format!("block changed by seed {seed}");
    case(name, block, revolutions, revolution)
}

/// A block of any bytes for 0 to 20 revolutions, which may begin as a track block does, and
/// whose entries may lie in the block.
pub fn block_of_any_bytes(seed: u64) -> BlockCase {
    let mut random = Random::new(seed);
    // Few for the most part: each entry that lies wrong is a 16.
    let most = if random.one_in(3) { 20 } else { 4 };
    let revolutions = random.below(most + 1) as u32;
    let mut block = Vec::new();
    if !random.one_in(8) {
        block.extend(b"TRK");
        block.push(random.byte());
    }
    if !random.one_in(4) {
        // Low offsets and numbers, so that values lie in the block now and then.
        let table_end = 4 + 12 * i64::from(revolutions);
        let (most_values, least_offset) = if revolutions > 4 {
            (1, table_end)
        } else {
            (5, table_end - 10)
        };
        for _ in 0..revolutions {
            let count = random.between(0, most_values) as u32;
            let offset = random.between(least_offset, table_end + 60) as u32;
            block.extend([random.byte(), 0, 0, 0]);
            block.extend(count.to_le_bytes());
            block.extend(offset.to_le_bytes());
        }
    }
    for _ in 0..random.below(80) {
        // Many zeros, so that there are values that are 0.
        let byte = if random.one_in(2) { 0 } else { random.byte() };
        block.push(byte);
    }
    let revolution = any_revolution(&mut random, revolutions);
    let name = format!("any bytes of seed {seed}");
    case(name, block, revolutions, revolution)
}

pub(super) fn mixed_blocks() -> Vec<BlockCase> {
    (0..4_000).map(mixed_block).collect()
}

pub(super) fn changed_blocks() -> Vec<BlockCase> {
    (0..4_000).map(changed_block).collect()
}

pub(super) fn blocks_of_any_bytes() -> Vec<BlockCase> {
    (0..3_000).map(block_of_any_bytes).collect()
}

#[cfg(test)]
mod tests {
    use super::*;
    use second_program::track_block::revolution_bytes;

    #[test]
    fn broken_blocks_have_0_to_20_revolutions() {
        for (name, cases, most_taken) in [
            ("mixed", mixed_blocks(), 20),
            ("changed", changed_blocks(), 20),
            ("any bytes", blocks_of_any_bytes(), 4),
        ] {
            let mut taken = [0; 23];
            let mut refused = [0; 23];
            for case in cases {
                let counts = match revolution_bytes(&case.block, case.revolutions, case.revolution)
                {
                    Err(refusal) if refusal.number == 16 => &mut refused,
                    _ => &mut taken,
                };
                counts[case.revolutions as usize] += 1;
            }
            for revolutions in 0..=20 {
                assert!(refused[revolutions] >= 3, "{name}, 16 for {revolutions}");
                if revolutions <= most_taken {
                    assert!(taken[revolutions] >= 10, "{name}, {revolutions} taken");
                }
            }
        }
    }
}
