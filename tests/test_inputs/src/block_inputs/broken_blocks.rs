//! Blocks at and past each limit of 16 and 17, and each order of two refusals.

use super::sound_blocks::{values_in_range, TOO_LONG};
use super::{block_of_values, values_of_units, BlockCase, BlockPlan, Cases};
use crate::random::Random;

/// A block of so many revolutions of three values each, of which no byte is 0: values
/// that start at any byte do not end in a 0.
fn block_without_zero_bytes(revolutions: u16) -> BlockPlan {
    let lists: Vec<Vec<u16>> = (0..revolutions)
        .map(|index| vec![0x0101 + index, 0x0201 + index, 0x0301 + index])
        .collect();
    block_of_values(&lists)
}

/// Blocks cut at any byte, and made longer by a few.
pub(super) fn cut_blocks() -> Vec<BlockCase> {
    let mut cases = Cases::default();
    let mut random = Random::new(82);
    for revolutions in [0, 1, 2, 3, 5, 8] {
        let lists: Vec<Vec<u16>> = (0..revolutions)
            .map(|_| values_in_range(&mut random, 2))
            .collect();
        let mut block = block_of_values(&lists).bytes();
        block.extend([1, 2, 3]);
        for length in 0..=block.len() {
            let name = format!("cut after {length} of {} bytes", block.len());
            let chosen = [0, revolutions / 2, revolutions];
            cases.add_chosen(&name, &block[..length], revolutions, &chosen);
        }
    }
    cases.0
}

/// 16 for letters that are not TRK: one of them changed, all of them, and missing ones.
pub(super) fn letters() -> Vec<BlockCase> {
    let mut cases = Cases::default();
    let plan = block_without_zero_bytes(2);
    for place in 0..3 {
        for bit in 0..8 {
            let mut changed = plan.clone();
            changed.letters[place] ^= 1 << bit;
            cases.add_all(&format!("letter {place}, bit {bit}"), &changed);
        }
        for letter in [0, b' ', b'T', b'R', b'K', 0xFF] {
            let mut changed = plan.clone();
            changed.letters[place] = letter;
            cases.add_all(&format!("letter {place} being {letter:02X}"), &changed);
        }
    }
    for letters in [
        &b""[..],
        b"T",
        b"TR",
        b"TRKK",
        b"TTRK",
        b" TRK",
        b"trk",
        b"SCP",
        b"KRT",
        b"TKR",
        b"\0\0\0",
    ] {
        let mut changed = plan.clone();
        changed.letters = letters.to_vec();
        cases.add_all(&format!("letters {}", letters.escape_ascii()), &changed);
    }
    cases.0
}

/// Numbers of revolutions from the header that are not those of the table: too many, so
/// that the table is cut short or runs on into the values, and too few.
pub(super) fn numbers_of_revolutions() -> Vec<BlockCase> {
    let mut cases = Cases::default();
    for entries in 0..=6 {
        for more_values in [0, 6, 100] {
            let mut plan = block_without_zero_bytes(entries);
            plan.left_over = vec![1; 2 * more_values];
            let block = plan.bytes();
            let others = [20, 84, 255, 256, 5_461, 5_462, 65_536, 1 << 31, u32::MAX];
            for revolutions in (0..=u32::from(entries) + 4).chain(others) {
                let name = format!("table of {entries}, {more_values} values more");
                let highest = revolutions.saturating_sub(1);
                let chosen = [0, highest, u32::from(entries), revolutions];
                cases.add_chosen(&name, &block, revolutions, &chosen);
            }
        }
    }
    cases.0
}

/// A plan with another number of values and offset in one entry, with this revolution
/// chosen and with another.
fn add_entry(cases: &mut Cases, plan: &BlockPlan, which: usize, count: u32, offset: u32) {
    let mut changed = plan.clone();
    changed.entries[which].count = count;
    changed.entries[which].offset = offset;
    let revolutions = plan.revolutions();
    let name = format!(
        "{count} values at {offset} in {which}, table to {}, block to {}",
        plan.table_end(),
        plan.block_end()
    );
    let another = (which as u32 + 1) % revolutions;
    cases.add_chosen(
        &name,
        &changed.bytes(),
        revolutions,
        &[which as u32, another],
    );
}

/// The plans whose entries are tried at their borders, and which entry.
fn plans_for_borders() -> Vec<(BlockPlan, usize)> {
    let mut odd_end = block_without_zero_bytes(2);
    odd_end.left_over = vec![9; 3];
    vec![
        (block_without_zero_bytes(1), 0),
        (block_without_zero_bytes(2), 0),
        (odd_end, 1),
        (block_without_zero_bytes(4), 2),
    ]
}

/// Offsets and numbers of values at and around every border.
pub(super) fn offsets_and_counts() -> Vec<BlockCase> {
    let mut cases = Cases::default();
    for (plan, which) in plans_for_borders() {
        let table_end = plan.table_end() as u32;
        let block_end = plan.block_end() as u32;
        let mut offsets: Vec<u32> = (0..=5).collect();
        offsets.extend(table_end - 2..=table_end + 2);
        offsets.extend(block_end - 4..=block_end + 2);
        for border in [1 << 16, 1 << 31] {
            offsets.extend([border - 1, border, border + table_end]);
        }
        offsets.extend([u32::MAX - 1, u32::MAX]);
        offsets.sort_unstable();
        offsets.dedup();
        for offset in offsets {
            // As many values as there is room for up to the block's end.
            let most = block_end.saturating_sub(offset) / 2;
            let mut counts = vec![0, 1, 2, 3, most, most + 1];
            for border in [1 << 15, 1 << 16, 1 << 30, 1 << 31] {
                counts.extend([border - 1, border, border + most]);
            }
            counts.extend([u32::MAX - 1, u32::MAX]);
            counts.sort_unstable();
            counts.dedup();
            for count in counts {
                add_entry(&mut cases, &plan, which, count, offset);
            }
        }
    }
    cases.0
}

/// Sums that pass 32 bits and then lie in the block or just outside: of an offset and
/// twice a number of values, and of the table's length.
pub(super) fn sums_past_32_bits() -> Vec<BlockCase> {
    let mut cases = Cases::default();
    for (plan, which) in plans_for_borders() {
        let table_end = plan.table_end() as u32;
        let block_end = plan.block_end() as u32;
        for offset in [
            table_end,
            table_end + 1,
            block_end - 2,
            block_end,
            1 << 31,
            u32::MAX - block_end,
            u32::MAX - 1,
            u32::MAX,
        ] {
            let ends = (0..3)
                .chain(table_end - 2..=table_end + 2)
                .chain(block_end - 2..=block_end + 2);
            for end in ends {
                let twice = end.wrapping_sub(offset);
                if twice % 2 != 0 {
                    continue;
                }
                // Both numbers of values have the same double in 32 bits.
                for count in [twice / 2, twice / 2 + (1 << 31)] {
                    if u64::from(offset) + 2 * u64::from(count) > u64::from(u32::MAX) {
                        add_entry(&mut cases, &plan, which, count, offset);
                    }
                }
            }
        }
    }
    // 12 times 357,913,942 is 2 to the power of 32 and 8; and the multiples of it.
    for number in [357_913_942_u32, 715_827_883, 1_431_655_766, 2_863_311_531] {
        for revolutions in number - 2..=number + 2 {
            for entries in [0, 1, 3] {
                let block = block_without_zero_bytes(entries).bytes();
                let name = format!("table of {entries}");
                cases.add_chosen(&name, &block, revolutions, &[0, revolutions]);
            }
        }
    }
    cases.0
}

/// 16 for values that end in a 0, in the chosen revolution and in another; and values
/// that only seem to.
pub(super) fn values_that_end_in_a_zero() -> Vec<BlockCase> {
    let mut cases = Cases::default();
    for (what, values) in [
        ("a zero", vec![0]),
        ("two zeros", vec![0, 0]),
        ("a value and a zero", vec![160, 0]),
        ("a value and seven zeros", vec![160, 0, 0, 0, 0, 0, 0, 0]),
        ("many zeros", vec![0; 3_000]),
        ("a last byte 0", vec![160, 0x0100]),
        ("a last value of one byte", vec![0x0100, 0x0001]),
        ("a zero before the last", vec![160, 0, 1]),
    ] {
        for revolutions in 1..=4 {
            for which in 0..revolutions {
                let mut lists = vec![vec![160, 240]; revolutions];
                lists[which] = values.clone();
                let plan = block_of_values(&lists);
                cases.add_all(&format!("{what} in {which}"), &plan);
            }
            let plan = block_of_values(&vec![values.clone(); revolutions]);
            cases.add_all(&format!("{what} in each"), &plan);
        }
    }
    // Bytes 0 at the end of a part that begins at any byte and has any length.
    for bytes in [
        [1, 2, 0, 0, 3, 4, 0, 0, 0, 5],
        [0, 1, 0, 0, 0, 0, 1, 0, 0, 1],
        [0, 0, 0, 0, 0, 0, 0, 0, 0, 0],
        [7, 0, 0, 7, 0, 0, 7, 0, 0, 7],
    ] {
        for start in 0..=bytes.len() {
            for count in 0..=(bytes.len() - start) / 2 {
                let plan = super::block_of_parts(bytes.to_vec(), &[(start, count), (0, 0)]);
                let name = format!("{count} values from byte {start} of {bytes:?}");
                cases.add_all(&name, &plan);
            }
        }
    }
    cases.0
}

/// What can be wrong with a call on a block of three revolutions.
#[derive(Clone, Copy, Debug, PartialEq, Eq)]
enum Mistake {
    /// A wrong letter.
    Letter,
    /// The block cut within its table.
    CutTable,
    /// A number of revolutions that the table does not hold.
    TooManyRevolutions,
    /// Values of this revolution that start inside the table.
    StartsInside(usize),
    /// Values of this revolution that end beyond the block.
    EndsBeyond(usize),
    /// Values of this revolution that end in a 0.
    EndsInZero(usize),
    /// A chosen revolution that there is not.
    NoSuchRevolution,
    /// No values in the chosen revolution.
    NoValues,
    /// Too many timings in the chosen revolution.
    TooManyTimings,
    /// A timing out of range at the front of the chosen revolution.
    FirstOutOfRange,
    /// A timing out of range at the end of the chosen revolution.
    LastOutOfRange,
}

/// The revolution that is chosen where there is no mistake about it.
const CHOSEN: usize = 1;

/// The block, the number of revolutions and the chosen one with these mistakes.
fn with_mistakes(mistakes: &[Mistake]) -> (Vec<u8>, u32, u32) {
    let mut lists = vec![vec![160, 240, 320]; 3];
    // The number of timings is settled before one of them is put out of range.
    for &mistake in mistakes {
        match mistake {
            Mistake::NoValues => lists[CHOSEN].clear(),
            Mistake::TooManyTimings => lists[CHOSEN].resize(65_537, 160),
            _ => {}
        }
    }
    for &mistake in mistakes {
        let too_long = values_of_units(TOO_LONG);
        match mistake {
            Mistake::FirstOutOfRange => drop(lists[CHOSEN].splice(0..0, too_long)),
            Mistake::LastOutOfRange => lists[CHOSEN].extend(too_long),
            _ => {}
        }
    }
    for &mistake in mistakes {
        if let Mistake::EndsInZero(which) = mistake {
            lists[which].push(0);
        }
    }
    let mut plan = block_of_values(&lists);
    let (table_end, block_end) = (plan.table_end() as u32, plan.block_end() as u32);
    for &mistake in mistakes {
        match mistake {
            Mistake::Letter => plan.letters[2] = b'k',
            Mistake::StartsInside(which) => plan.entries[which].offset = table_end - 1,
            Mistake::EndsBeyond(which) => {
                let entry = &mut plan.entries[which];
                entry.count = (block_end - entry.offset) / 2 + 1;
            }
            _ => {}
        }
    }
    let mut block = plan.bytes();
    let (mut revolutions, mut revolution) = (3, CHOSEN as u32);
    for &mistake in mistakes {
        match mistake {
            Mistake::CutTable => block.truncate(table_end as usize - 1),
            Mistake::TooManyRevolutions => revolutions = 20_000,
            Mistake::NoSuchRevolution => revolution = 20_000,
            _ => {}
        }
    }
    (block, revolutions, revolution)
}

/// Each mistake alone, and each two of them.
pub(super) fn two_mistakes() -> Vec<BlockCase> {
    let mut all = vec![
        Mistake::Letter,
        Mistake::CutTable,
        Mistake::TooManyRevolutions,
        Mistake::NoSuchRevolution,
        Mistake::NoValues,
        Mistake::TooManyTimings,
        Mistake::FirstOutOfRange,
        Mistake::LastOutOfRange,
    ];
    for which in 0..3 {
        all.extend([
            Mistake::StartsInside(which),
            Mistake::EndsBeyond(which),
            Mistake::EndsInZero(which),
        ]);
    }
    let mut cases = Cases::default();
    let mut add = |mistakes: &[Mistake]| {
        let (block, revolutions, revolution) = with_mistakes(mistakes);
        cases.add(format!("{mistakes:?}"), &block, revolutions, revolution);
    };
    add(&[]);
    for (index, &first) in all.iter().enumerate() {
        add(&[first]);
        for &second in &all[index + 1..] {
            add(&[first, second]);
        }
    }
    cases.0
}
