//! Track blocks (section 12 of the specification): sound ones, blocks at and past each
//! limit, cut, too long or changed, that reach every refusal and try the order of the
//! refusals; the flux of the standard track, from a pulse on and as the device samples it,
//! from the index on; and portions to hand values over in.

mod border_blocks;
mod broken_blocks;
mod flux_blocks;
mod index_blocks;
mod random_blocks;
mod sound_blocks;

use crate::random::Random;
use second_program::track_block::{
    revolution_cells, revolution_timings, Carried, Entry, ENTRY_LENGTH, LETTERS, VALUE_LENGTH,
};

pub use border_blocks::border_block;
pub use flux_blocks::{
    odd_track_block, reported_revolution, standard_track_block, track_that_ends_in_a_one,
};
pub use index_blocks::{samplings, IndexPlace, Sampling, BETWEEN_SECTORS, IN_A_SECTOR};
pub use random_blocks::{block_of_any_bytes, changed_block, mixed_block};
pub use sound_blocks::{laid_out, overlapping_block, sound_block, Layout};

/// The parts of a track block. Each is free, so that a block can also be broken: an
/// entry need not agree with the values.
#[derive(Clone, Debug, PartialEq, Eq)]
pub struct BlockPlan {
    /// The letters, TRK in a track block.
    pub letters: Vec<u8>,
    /// The track number.
    pub track: u8,
    /// The table.
    pub entries: Vec<Entry>,
    /// The bytes after the table that hold the values.
    pub values: Vec<u8>,
    /// What follows the values.
    pub left_over: Vec<u8>,
}

impl BlockPlan {
    /// The number of entries in the table.
    pub fn revolutions(&self) -> u32 {
        self.entries.len() as u32
    }

    /// Where the table ends.
    pub fn table_end(&self) -> usize {
        self.letters.len() + 1 + ENTRY_LENGTH * self.entries.len()
    }

    /// Where the block ends.
    pub fn block_end(&self) -> usize {
        self.table_end() + self.values.len() + self.left_over.len()
    }

    /// The bytes of the block.
    pub fn bytes(&self) -> Vec<u8> {
        let mut block = self.letters.clone();
        block.push(self.track);
        for entry in &self.entries {
            block.extend(entry.index_time.to_le_bytes());
            block.extend(entry.count.to_le_bytes());
            block.extend(entry.offset.to_le_bytes());
        }
        block.extend(&self.values);
        block.extend(&self.left_over);
        block
    }
}

/// The bytes of values, high byte first.
pub fn bytes_of_values(values: &[u16]) -> Vec<u8> {
    values
        .iter()
        .flat_map(|value| value.to_be_bytes())
        .collect()
}

/// The values of so many units: a 0 for each 65,536, then the rest. A rest of 0 would be
/// one more 0, so that no values make a multiple of 65,536.
pub fn values_of_units(units: u64) -> Vec<u16> {
    assert_ne!(units % 65_536, 0, "no values make {units} units");
    let mut values = vec![0; (units / 65_536) as usize];
    values.push((units % 65_536) as u16);
    values
}

/// The values of timings, which are multiples of 25 ns.
pub fn values_of_timings(timings: &[u32]) -> Vec<u16> {
    let mut values = Vec::new();
    for &timing in timings {
        assert_eq!(timing % 25, 0, "{timing} ns are no whole units");
        values.extend(values_of_units(u64::from(timing / 25)));
    }
    values
}

/// The time of values in units, as the table gives it for a revolution.
fn index_time(values: &[u8]) -> u32 {
    let units: u64 = values
        .chunks_exact(VALUE_LENGTH)
        .map(|value| match u16::from_be_bytes([value[0], value[1]]) {
            0 => 65_536,
            units => u64::from(units),
        })
        .sum();
    units.min(u64::from(u32::MAX)) as u32
}

/// The block whose revolutions are these parts of the bytes after the table, each given
/// by its first byte and its number of values. Parts may overlap.
pub fn block_of_parts(values: Vec<u8>, parts: &[(usize, usize)]) -> BlockPlan {
    let mut plan = BlockPlan {
        letters: LETTERS.to_vec(),
        track: 5,
        entries: Vec::new(),
        values: Vec::new(),
        left_over: Vec::new(),
    };
    let table_end = plan.table_end() + ENTRY_LENGTH * parts.len();
    for &(start, count) in parts {
        plan.entries.push(Entry {
            index_time: index_time(&values[start..start + VALUE_LENGTH * count]),
            count: count as u32,
            offset: (table_end + start) as u32,
        });
    }
    plan.values = values;
    plan
}

/// The block of revolutions with these values, one after the other.
pub fn block_of_values(revolutions: &[Vec<u16>]) -> BlockPlan {
    let mut values = Vec::new();
    let mut parts = Vec::new();
    for list in revolutions {
        parts.push((values.len(), list.len()));
        values.extend(bytes_of_values(list));
    }
    block_of_parts(values, &parts)
}

/// The block of revolutions with these timings, one after the other.
pub fn block_of_timings(revolutions: &[Vec<u32>]) -> BlockPlan {
    let lists: Vec<Vec<u16>> = revolutions
        .iter()
        .map(|timings| values_of_timings(timings))
        .collect();
    block_of_values(&lists)
}

/// Portions of so many bytes each, the last perhaps shorter.
pub fn equal_portions(bytes: &[u8], size: usize) -> Vec<&[u8]> {
    bytes.chunks(size).collect()
}

/// Portions of 0 to `most` bytes each; `most` is at least 1.
pub fn random_portions<'a>(random: &mut Random, bytes: &'a [u8], most: usize) -> Vec<&'a [u8]> {
    assert!(most > 0, "empty portions alone make up nothing");
    let mut portions = Vec::new();
    let mut rest = bytes;
    while !rest.is_empty() {
        let size = random.below(most as u64 + 1) as usize;
        let (portion, left) = rest.split_at(size.min(rest.len()));
        portions.push(portion);
        rest = left;
    }
    portions
}

/// The portions with an empty one before each of them and two after the last.
pub fn with_empty_portions<'a>(portions: &[&'a [u8]]) -> Vec<&'a [u8]> {
    let mut all: Vec<&[u8]> = Vec::new();
    for portion in portions {
        all.extend([&[], *portion]);
    }
    all.extend([&[][..]; 2]);
    all
}

/// A short portion: zeros, small values and any, and now and then half a value.
pub fn any_portion(random: &mut Random) -> Vec<u8> {
    let mut bytes = Vec::new();
    for _ in 0..random.below(10) {
        match random.below(8) {
            0..=3 => bytes.extend([0, 0]),
            4 | 5 => bytes.extend([0, random.byte()]),
            6 => bytes.extend([random.byte(), random.byte()]),
            _ => bytes.push(if random.one_in(2) { 0 } else { random.byte() }),
        }
    }
    bytes
}

/// The numbers of a carried state, none above 32 bits: most of them left by some calls,
/// some at and past the bounds, some any.
pub fn any_carried(random: &mut Random) -> Carried {
    let held = match random.below(4) {
        0 => Some(0),
        1 => Some(random.byte()),
        _ => None,
    };
    let zeros = match random.below(12) {
        0 => random.next_number() >> 32,
        1 => [8, 9, 255, 256, 65_536, 0xFFFF_FFFF][random.below(6) as usize],
        _ => random.below(8),
    };
    let timings = match random.below(8) {
        0 => random.next_number() >> 32,
        1 => [65_537, 65_538, 131_072, 0xFFFF_FFFF][random.below(4) as usize],
        2 | 3 => 65_536 - random.below(8),
        _ => random.below(20),
    };
    Carried {
        held,
        zeros,
        timings,
    }
}

/// A call on a block, and what it tries.
#[derive(Clone, Debug, PartialEq, Eq)]
pub struct BlockCase {
    /// What the case tries, in a few words.
    pub name: String,
    /// The block.
    pub block: Vec<u8>,
    /// How many revolutions the caller says there are (rule 12.3).
    pub revolutions: u32,
    /// The chosen revolution.
    pub revolution: u32,
}

/// The rooms to try where so much is needed: none, one short, exact and one more.
fn rooms_around(needed: usize) -> Vec<usize> {
    let mut rooms = vec![0, needed.saturating_sub(1), needed, needed + 1];
    rooms.dedup();
    rooms
}

/// The rooms to try where a call is refused whatever the room is.
const ANY_ROOMS: [usize; 2] = [0, 8];

impl BlockCase {
    /// The rooms to try for the timings.
    pub fn rooms(&self) -> Vec<usize> {
        match revolution_timings(&self.block, self.revolutions, self.revolution, usize::MAX) {
            Ok(read) => rooms_around(read.timings.len()),
            Err(_) => ANY_ROOMS.to_vec(),
        }
    }

    /// The rooms to try for the cells, in bytes.
    pub fn rooms_for_cells(&self) -> Vec<usize> {
        match revolution_cells(&self.block, self.revolutions, self.revolution, usize::MAX) {
            Ok(separation) => rooms_around(separation.bytes.len()),
            Err(_) => ANY_ROOMS.to_vec(),
        }
    }
}

/// The cases of a group, in the order in which they are made.
#[derive(Default)]
struct Cases(Vec<BlockCase>);

impl Cases {
    fn add(&mut self, name: impl Into<String>, block: &[u8], revolutions: u32, revolution: u32) {
        self.0.push(BlockCase {
            name: name.into(),
            block: block.to_vec(),
            revolutions,
            revolution,
        });
    }

    /// The block with each of these chosen revolutions.
    fn add_chosen(&mut self, name: &str, block: &[u8], revolutions: u32, chosen: &[u32]) {
        let mut chosen = chosen.to_vec();
        chosen.sort_unstable();
        chosen.dedup();
        for revolution in chosen {
            let name = format!("{name}, revolution {revolution} of {revolutions}");
            self.add(name, block, revolutions, revolution);
        }
    }

    /// The block of a plan with each of its revolutions chosen, and one that it lacks.
    fn add_all(&mut self, name: &str, plan: &BlockPlan) {
        let chosen: Vec<u32> = (0..=plan.revolutions()).collect();
        self.add_chosen(name, &plan.bytes(), plan.revolutions(), &chosen);
    }
}

/// A group of cases: what they try, and what makes them.
pub type BlockGroup = (&'static str, fn() -> Vec<BlockCase>);

/// All groups. The same cases come each time.
pub const GROUPS: [BlockGroup; 23] = [
    ("sound blocks", sound_blocks::sound_blocks),
    ("overlapping values", sound_blocks::overlapping_blocks),
    ("revolutions without values", sound_blocks::without_values),
    ("runs of zeros", sound_blocks::runs_of_zeros),
    (
        "timings at their range",
        sound_blocks::timings_at_their_range,
    ),
    ("numbers of timings", sound_blocks::numbers_of_timings),
    ("cells in all", sound_blocks::cells_in_all),
    ("chosen revolutions", sound_blocks::chosen_revolutions),
    ("blocks cut at any byte", broken_blocks::cut_blocks),
    ("letters", broken_blocks::letters),
    (
        "numbers of revolutions",
        broken_blocks::numbers_of_revolutions,
    ),
    ("offsets and counts", broken_blocks::offsets_and_counts),
    ("sums past 32 bits", broken_blocks::sums_past_32_bits),
    (
        "values that end in a 0",
        broken_blocks::values_that_end_in_a_zero,
    ),
    ("two mistakes", broken_blocks::two_mistakes),
    ("mixed mistakes", random_blocks::mixed_blocks),
    ("changed bytes", random_blocks::changed_blocks),
    ("any bytes", random_blocks::blocks_of_any_bytes),
    ("the standard track's flux", flux_blocks::flux_blocks),
    ("odd tracks", flux_blocks::odd_tracks),
    (
        "the standard track from the index on",
        index_blocks::standard_tracks,
    ),
    ("odd tracks from the index on", index_blocks::odd_tracks),
    ("border pulses", border_blocks::border_blocks),
];

/// The cases of all groups, one group after the other; a group is made when its first
/// case is asked for.
pub fn cases() -> impl Iterator<Item = BlockCase> {
    GROUPS.into_iter().flat_map(|(_, make)| make())
}

#[cfg(test)]
mod tests {
    use super::*;
    use std::collections::HashSet;

    #[test]
    fn the_parts_stand_in_their_order() {
        // 4,000 ns are 160 units, 1,638,425 ns are 0 and 1. The table ends at 28.
        let mut plan = block_of_timings(&[vec![4_000, 1_638_425], vec![25]]);
        plan.track = 9;
        plan.left_over = vec![7];
        assert_eq!((plan.table_end(), plan.block_end()), (28, 37));
        let block = [
            &b"TRK\x09"[..],
            &[0xA1, 0, 1, 0, 3, 0, 0, 0, 28, 0, 0, 0],
            &[1, 0, 0, 0, 1, 0, 0, 0, 34, 0, 0, 0],
            &[0, 160, 0, 0, 0, 1],
            &[0, 1],
            &[7],
        ];
        assert_eq!(plan.bytes(), block.concat());
        plan.letters = b"SC".to_vec();
        plan.entries.truncate(1);
        plan.entries[0] = Entry {
            index_time: u32::MAX,
            count: 0x0403_0201,
            offset: 0x0807_0605,
        };
        plan.values.clear();
        assert_eq!(
            plan.bytes(),
            b"SC\x09\xFF\xFF\xFF\xFF\x01\x02\x03\x04\x05\x06\x07\x08\x07"
        );
    }

    #[test]
    fn values_of_so_many_units() {
        assert_eq!(values_of_units(1), [1]);
        assert_eq!(values_of_units(65_535), [65_535]);
        assert_eq!(values_of_units(65_537), [0, 1]);
        assert_eq!(values_of_units(400_000), [0, 0, 0, 0, 0, 0, 6_784]);
        assert_eq!(values_of_timings(&[25, 10_000_000])[..2], [1, 0]);
        assert_eq!(bytes_of_values(&[0x1234, 0, 5]), [0x12, 0x34, 0, 0, 0, 5]);
    }

    #[test]
    fn portions_make_up_the_bytes() {
        let bytes: Vec<u8> = (0..50).collect();
        let mut random = Random::new(1);
        for size in 1..=7 {
            let portions = equal_portions(&bytes, size);
            assert_eq!(portions.len(), 50_usize.div_ceil(size));
            assert_eq!(portions.concat(), bytes);
            let with_empty = with_empty_portions(&portions);
            assert_eq!(with_empty.len(), 2 * portions.len() + 2);
            assert_eq!(with_empty.concat(), bytes);
            let at_random = random_portions(&mut random, &bytes, size);
            assert_eq!(at_random.concat(), bytes);
            assert!(at_random.iter().all(|portion| portion.len() <= size));
        }
        assert!(equal_portions(&[], 3).is_empty());
        assert!(random_portions(&mut random, &[], 3).is_empty());
        assert_eq!(with_empty_portions(&[]), [&[0_u8; 0][..]; 2]);
    }

    #[test]
    fn carried_states_of_both_kinds_come() {
        let mut random = Random::new(2);
        let states: Vec<Carried> = (0..1_000).map(|_| any_carried(&mut random)).collect();
        let left = states.iter().filter(|state| state.is_left_by_calls());
        assert!((500..900).contains(&left.count()));
    }

    #[test]
    fn the_same_cases_come_each_time() {
        for seed in 0..20 {
            assert_eq!(sound_block(seed), sound_block(seed));
            assert_eq!(mixed_block(seed), mixed_block(seed));
            assert_eq!(changed_block(seed), changed_block(seed));
        }
        let first_group = sound_blocks::sound_blocks();
        let first = cases().take(first_group.len());
        assert!(first.eq(first_group));
    }

    #[test]
    fn many_different_calls_reach_every_refusal() {
        let mut different = HashSet::new();
        let mut calls = 0;
        let mut accepted = 0;
        let mut accepted_cells = 0;
        let mut with_border_pulses = 0;
        let mut most_border_pulses = 0;
        let mut refusals_seen = [0; 18];
        let mut refusals_of_cells = [0; 18];
        for (group, make) in GROUPS {
            let mut names = HashSet::new();
            for case in make() {
                let (revolutions, revolution) = (case.revolutions, case.revolution);
                for room in case.rooms() {
                    calls += 1;
                    match revolution_timings(&case.block, revolutions, revolution, room) {
                        Ok(read) => {
                            accepted += 1;
                            assert!((1..=room).contains(&read.timings.len()));
                            with_border_pulses += usize::from(read.border_pulses > 0);
                            most_border_pulses = most_border_pulses.max(read.border_pulses);
                        }
                        Err(refusal) => refusals_seen[refusal.number as usize] += 1,
                    }
                }
                for room in case.rooms_for_cells() {
                    match revolution_cells(&case.block, revolutions, revolution, room) {
                        Ok(separation) => {
                            accepted_cells += 1;
                            assert_eq!(separation.bytes.len(), separation.cells.div_ceil(8));
                        }
                        Err(refusal) => refusals_of_cells[refusal.number as usize] += 1,
                    }
                }
                // A name finds its case again.
                assert!(names.insert(case.name.clone()), "{group}: {}", case.name);
                different.insert((case.block, revolutions, revolution));
            }
        }
        assert!(calls > 40_000, "{calls} calls");
        assert!(accepted > 10_000, "{accepted} accepted");
        assert!(accepted_cells > 10_000, "{accepted_cells} accepted");
        assert!(different.len() > 15_000, "{} cases", different.len());
        assert!(with_border_pulses > 1_000, "{with_border_pulses} of them");
        assert!(most_border_pulses > 300, "{most_border_pulses} in one");
        for (number, &seen) in refusals_seen.iter().enumerate() {
            let arises = [6, 7, 8, 10, 16, 17].contains(&number);
            assert_eq!(seen >= 20, arises, "refusal {number}: {seen}");
        }
        for (number, &seen) in refusals_of_cells.iter().enumerate() {
            let arises = [6, 7, 8, 9, 10, 16, 17].contains(&number);
            assert_eq!(seen >= 20, arises, "refusal {number} of cells: {seen}");
        }
    }
}
