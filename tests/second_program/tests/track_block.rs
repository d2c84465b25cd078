//! Rules 12.1 to 12.24: blocks and portions at and past each limit, and the order of the
//! refusals.

use second_program::converter::listed_after;
use second_program::refusal::Refusal;
use second_program::separator::Separation;
use second_program::track_block::*;
use test_inputs::block_inputs::{
    any_carried, any_portion, block_of_values, equal_portions, random_portions,
    with_empty_portions, BlockPlan,
};
use test_inputs::file_inputs::file_of_timings;
use test_inputs::flux_inputs::timings_of_cells;
use test_inputs::random::Random;
use test_inputs::track_builder::standard_track;

fn refused<T>(number: u32, value: u64) -> Result<T, Refusal> {
    Err(Refusal { number, value })
}

/// The cells of a revolution that is not refused.
fn accepted(cells: usize, border_pulses: usize, bytes: Vec<u8>) -> Result<Separation, Refusal> {
    Ok(Separation {
        cells,
        border_pulses,
        bytes,
    })
}

/// The timings that a call with ample room gives.
fn timings_of(block: &[u8], revolutions: u32, revolution: u32) -> Result<Vec<u32>, Refusal> {
    revolution_timings(block, revolutions, revolution, 100_000).map(|read| read.timings)
}

/// A block of one revolution with these values.
fn one(values: &[u16]) -> Vec<u8> {
    block_of_values(&[values.to_vec()]).bytes()
}

/// Two revolutions on track 5, the first of three values at 28, where the table
/// ends, the second of two at 34. The block has 38 bytes.
const TWO: &[u8] = b"TRK\x05\
    \xD0\x02\x00\x00\x03\x00\x00\x00\x1C\x00\x00\x00\
    \x01\x00\x01\x00\x02\x00\x00\x00\x22\x00\x00\x00\
    \x00\xA0\x00\xF0\x01\x40\
    \x00\x00\x00\x01";

/// The same with another number of values and another offset for each.
fn two(first: (u32, u32), second: (u32, u32)) -> Vec<u8> {
    let mut block = TWO.to_vec();
    block[8..12].copy_from_slice(&first.0.to_le_bytes());
    block[12..16].copy_from_slice(&first.1.to_le_bytes());
    block[20..24].copy_from_slice(&second.0.to_le_bytes());
    block[24..28].copy_from_slice(&second.1.to_le_bytes());
    block
}

#[test]
fn two_revolutions_written_out() {
    // 160 times 25, 240 times 25, 320 times 25.
    assert_eq!(timings_of(TWO, 2, 0), Ok(vec![4_000, 6_000, 8_000]));
    // 25 times (65,536 + 1).
    assert_eq!(timings_of(TWO, 2, 1), Ok(vec![1_638_425]));
    assert_eq!(
        revolution_timings(TWO, 2, 0, 3),
        Ok(RevolutionTimings {
            timings: vec![4_000, 6_000, 8_000],
            border_pulses: 0
        })
    );
    assert_eq!(revolution_timings(TWO, 2, 0, 2), refused(10, 3));
    assert_eq!(revolution_timings(TWO, 2, 0, 0), refused(10, 3));
    assert_eq!(revolution_timings(TWO, 2, 1, 0), refused(10, 1));
    assert_eq!(
        revolution_bytes(TWO, 2, 0),
        Ok(&[0x00, 0xA0, 0x00, 0xF0, 0x01, 0x40][..])
    );
}

#[test]
fn the_track_number_and_the_index_times_are_not_judged() {
    for place in (3..8).chain(16..20) {
        for byte in [0, 84, 0xFF] {
            let mut block = TWO.to_vec();
            block[place] = byte;
            assert_eq!(timings_of(&block, 2, 0), Ok(vec![4_000, 6_000, 8_000]));
            assert_eq!(timings_of(&block, 2, 1), Ok(vec![1_638_425]));
        }
    }
}

#[test]
fn zeros_add_65536_units_each() {
    assert_eq!(timings_of(&one(&[1]), 1, 0), Ok(vec![25]));
    // 65,535 times 25.
    assert_eq!(timings_of(&one(&[0xFFFF]), 1, 0), Ok(vec![1_638_375]));
    // 65,537 times 25, then 2 times 25.
    assert_eq!(timings_of(&one(&[0, 1, 2]), 1, 0), Ok(vec![1_638_425, 50]));
    // (131,072 + 3) times 25; a zero adds to the next value alone.
    assert_eq!(
        timings_of(&one(&[7, 0, 0, 3, 1]), 1, 0),
        Ok(vec![175, 3_276_875, 25])
    );
    // The high byte comes first: 256 and 1.
    assert_eq!(timings_of(&one(&[0x100, 1]), 1, 0), Ok(vec![6_400, 25]));
}

#[test]
fn timings_at_their_range() {
    // 400,000 is 6 times 65,536 (393,216) and 6,784: 10,000,000 ns.
    assert_eq!(6 * 65_536 + 6_784, 400_000);
    let longest = [0, 0, 0, 0, 0, 0, 6_784];
    assert_eq!(timings_of(&one(&longest), 1, 0), Ok(vec![10_000_000]));
    let too_long = [0, 0, 0, 0, 0, 0, 6_785];
    assert_eq!(timings_of(&one(&too_long), 1, 0), refused(8, 0));
    // The index is that of the timing and not that of the value.
    let mut values = vec![0, 1, 5];
    values.extend(longest);
    values.extend(too_long);
    values.extend(too_long);
    assert_eq!(timings_of(&one(&values), 1, 0), refused(8, 3));
    // Seven zeros are too many for every value; 40 of them, and thousands.
    for zeros in [7, 8, 40, 5_000] {
        let mut values = vec![160];
        values.extend(vec![0; zeros]);
        values.push(1);
        assert_eq!(timings_of(&one(&values), 1, 0), refused(8, 1));
    }
}

#[test]
fn letters_that_are_not_trk() {
    for place in 0..3 {
        for bit in 0..8 {
            let mut block = TWO.to_vec();
            block[place] ^= 1 << bit;
            assert_eq!(timings_of(&block, 2, 0), refused(16, 0));
        }
    }
    assert_eq!(timings_of(b"", 0, 0), refused(16, 0));
    assert_eq!(timings_of(b"TR", 0, 0), refused(16, 0));
    assert_eq!(timings_of(b"SCP\0", 0, 0), refused(16, 0));
}

#[test]
fn tables_that_are_cut_short() {
    // Up to the table's end at 28; then the values end beyond the block.
    for length in 0..TWO.len() {
        assert_eq!(timings_of(&TWO[..length], 2, 0), refused(16, 0));
    }
    // No revolutions: the track number is there or not.
    assert_eq!(timings_of(b"TRK", 0, 0), refused(16, 0));
    assert_eq!(timings_of(b"TRK\0", 0, 0), refused(17, 0));
    assert_eq!(timings_of(TWO, 0, 0), refused(17, 0));
    // One revolution: its values and those of the other stay where they are.
    assert_eq!(timings_of(TWO, 1, 0), Ok(vec![4_000, 6_000, 8_000]));
    assert_eq!(timings_of(TWO, 1, 1), refused(17, 0));
    // Three need 40 bytes. 4 + 12 times 357,913,942 is 2 to the power of 32 and 12.
    for revolutions in [3, 255, 357_913_941, 357_913_942, 1 << 31, u32::MAX] {
        assert_eq!(timings_of(TWO, revolutions, 0), refused(16, 0));
    }
}

#[test]
fn values_that_start_inside_the_table() {
    for offset in 0..28 {
        assert_eq!(timings_of(&two((1, offset), (2, 34)), 2, 1), refused(16, 0));
        assert_eq!(timings_of(&two((3, 28), (1, offset)), 2, 0), refused(16, 0));
        // Judged by the offset where there are none.
        assert_eq!(timings_of(&two((0, offset), (2, 34)), 2, 1), refused(16, 0));
    }
    // At the table's end, and at odd bytes: A000, F001.
    assert_eq!(timings_of(&two((1, 28), (2, 34)), 2, 0), Ok(vec![4_000]));
    assert_eq!(
        timings_of(&two((2, 29), (2, 34)), 2, 0),
        Ok(vec![25 * 0xA000, 25 * 0xF001])
    );
}

#[test]
fn values_that_end_beyond_the_block() {
    // The block has 38 bytes: three values from 32 on, and two from 34 on.
    assert_eq!(
        timings_of(&two((3, 28), (3, 32)), 2, 1),
        Ok(vec![8_000, 1_638_425])
    );
    for (count, offset) in [(4, 32), (3, 33), (3, 34), (2, 35), (1, 37), (1, 38)] {
        assert_eq!(
            timings_of(&two((3, 28), (count, offset)), 2, 0),
            refused(16, 0)
        );
    }
    // 37 and two bytes are 39; none at 38 end at the block's end, none at 39 do not.
    assert_eq!(timings_of(&two((3, 28), (0, 38)), 2, 1), refused(6, 0));
    assert_eq!(timings_of(&two((3, 28), (0, 39)), 2, 1), refused(16, 0));
    assert_eq!(timings_of(&two((3, 28), (0, 39)), 2, 0), refused(16, 0));
}

#[test]
fn sums_that_pass_32_bits() {
    for (count, offset) in [
        // The highest numbers, alone and together.
        (1, u32::MAX),
        (u32::MAX, 28),
        (u32::MAX, u32::MAX),
        (0, u32::MAX),
        // 2 times 2 to the power of 31 is 2 to the power of 32: 0 in 32 bits.
        (1 << 31, 34),
        ((1 << 31) + 2, 34),
        // 2 to the power of 32, less 4, and 2 times 21: 38 in 32 bits.
        (21, u32::MAX - 3),
        // 2 to the power of 31 and 2 times 1,073,741,843: 38 in 32 bits.
        (1_073_741_843, 1 << 31),
        // 2 to the power of 32, less 2, and 40: 38 in 32 bits.
        (0x7FFF_FFFF, 40),
    ] {
        assert_eq!(
            timings_of(&two((3, 28), (count, offset)), 2, 0),
            refused(16, 0)
        );
        assert_eq!(
            timings_of(&two((count, offset), (2, 34)), 2, 1),
            refused(16, 0)
        );
    }
}

#[test]
fn values_that_end_in_a_zero() {
    // One value from 34 on is 0.
    assert_eq!(timings_of(&two((3, 28), (1, 34)), 2, 1), refused(16, 0));
    assert_eq!(timings_of(&two((3, 28), (1, 34)), 2, 0), refused(16, 0));
    assert_eq!(timings_of(&two((4, 28), (2, 34)), 2, 1), refused(16, 0));
    // Joined to the values after it, it would be a timing: it is not joined.
    let plan = block_of_values(&[vec![160, 0], vec![1]]);
    assert_eq!(timings_of(&plan.bytes(), 2, 0), refused(16, 0));
    assert_eq!(timings_of(&plan.bytes(), 2, 1), refused(16, 0));
    // A value that begins or ends with a byte 0 is no 0.
    let plan = block_of_values(&[vec![0x4000, 0x0040, 0x4000]]);
    assert_eq!(
        timings_of(&plan.bytes(), 1, 0),
        Ok(vec![25 * 0x4000, 25 * 0x40, 25 * 0x4000])
    );
    // 00 40 00 00 40 00: from the second byte on the values are 4000 and 0040, from
    // the first byte on they are 0040 and 0.
    let mut plan = block_of_values(&[vec![0x0040, 0x0000, 0x4000]]);
    plan.entries[0].count = 2;
    assert_eq!(timings_of(&plan.bytes(), 1, 0), refused(16, 0));
    plan.entries[0].offset += 1;
    assert_eq!(
        timings_of(&plan.bytes(), 1, 0),
        Ok(vec![25 * 0x4000, 25 * 0x40])
    );
}

#[test]
fn the_numbers_of_timings_at_their_limit() {
    let most = one(&vec![160; 65_536]);
    assert_eq!(timings_of(&most, 1, 0), Ok(vec![4_000; 65_536]));
    assert_eq!(revolution_timings(&most, 1, 0, 65_535), refused(10, 65_536));
    assert_eq!(
        timings_of(&one(&vec![160; 65_537]), 1, 0),
        refused(7, 65_537)
    );
    // 131,072 values and 65,536 timings.
    let values = [0, 160].repeat(65_536);
    assert_eq!(timings_of(&one(&values), 1, 0), Ok(vec![1_642_400; 65_536]));
    // Another revolution may have too many, or one out of range.
    let others = block_of_values(&[vec![160], vec![160; 65_537], vec![0, 0, 0, 0, 0, 0, 0, 1]]);
    assert_eq!(timings_of(&others.bytes(), 3, 0), Ok(vec![4_000]));
    assert_eq!(timings_of(&others.bytes(), 3, 1), refused(7, 65_537));
    assert_eq!(timings_of(&others.bytes(), 3, 2), refused(8, 0));
}

#[test]
fn the_order_of_the_refusals() {
    let zeros = [0, 0, 0, 0, 0, 0, 0, 1];
    let mut many_and_too_long = zeros.to_vec();
    many_and_too_long.extend(vec![1; 65_536]);
    let plan = block_of_values(&[many_and_too_long, vec![], zeros.to_vec(), vec![160]]);
    let block = plan.bytes();
    let with_room = |revolution, room| revolution_timings(&block, 4, revolution, room);
    // 7 before 8 and 10; 6 before 10; 8 before 10; 10 alone.
    assert_eq!(with_room(0, 0), refused(7, 65_537));
    assert_eq!(with_room(1, 0), refused(6, 0));
    assert_eq!(with_room(2, 0), refused(8, 0));
    assert_eq!(with_room(3, 0), refused(10, 1));
    // 17 before all of them, and 16 before 17 and all of them.
    assert_eq!(with_room(4, 0), refused(17, 0));
    assert_eq!(with_room(u32::MAX, 0), refused(17, 0));
    let mut wrong = block.clone();
    wrong[0] = b't';
    for revolution in [0, 1, 2, 3, 4, u32::MAX] {
        assert_eq!(revolution_timings(&wrong, 4, revolution, 0), refused(16, 0));
    }
    // 16 for another revolution before 6 and 17.
    let mut ends_in_zero = block_of_values(&[vec![], vec![160, 0]]);
    assert_eq!(timings_of(&ends_in_zero.bytes(), 2, 0), refused(16, 0));
    assert_eq!(timings_of(&ends_in_zero.bytes(), 2, 2), refused(16, 0));
    ends_in_zero.entries[1].count = 1;
    assert_eq!(timings_of(&ends_in_zero.bytes(), 2, 0), refused(6, 0));
    assert_eq!(timings_of(&ends_in_zero.bytes(), 2, 2), refused(17, 0));
}

#[test]
fn portions_written_out() {
    // 0, 1 and 160, cut between any two bytes: 1,638,425 and 4,000 ns.
    let (answer, state) = BytesSoFar::new().portion(&[0x00], 0);
    assert_eq!(answer, Ok((0, vec![])));
    let (answer, state) = state.portion(&[0x00, 0x00], 0);
    assert_eq!(answer, Ok((0, vec![])));
    assert_eq!(
        Carried::of(&state),
        Carried {
            held: Some(0),
            zeros: 1,
            timings: 0
        }
    );
    // No room for the timing that ends: nothing is changed.
    let (answer, same) = state.portion(&[0x01, 0x00], 0);
    assert_eq!((answer, &same), (refused(10, 1), &state));
    let (answer, state) = state.portion(&[0x01, 0x00], 1);
    assert_eq!(answer, Ok((1, vec![1_638_425])));
    // An empty portion ends nothing.
    let (answer, state) = state.portion(&[], 0);
    assert_eq!(answer, Ok((0, vec![])));
    let (answer, state) = state.portion(&[0xA0], 9);
    assert_eq!(answer, Ok((1, vec![4_000])));
    assert_eq!(
        Carried::of(&state),
        Carried {
            held: None,
            zeros: 0,
            timings: 2
        }
    );
}

#[test]
fn refusals_of_portions_are_counted_from_the_revolutions_start() {
    let (_, three) = BytesSoFar::new().portion(&[0, 160, 0, 160, 0, 160, 0, 0], 3);
    // One more in range, then (7 times 65,536 + 1) units: number 4.
    let mut portion = vec![0, 0, 0, 1];
    portion.extend([0; 14]);
    portion.extend([0, 1]);
    let (answer, same) = three.portion(&portion, 0);
    assert_eq!((answer, &same), (refused(8, 4), &three));
    // The zero that was carried is among the seven.
    let mut portion = vec![0; 12];
    portion.extend([0, 1]);
    assert_eq!(three.portion(&portion, 0).0, refused(8, 3));
    assert_eq!(BytesSoFar::new().portion(&portion, 0).0, refused(10, 1));
    // 7 before 8 before 10, 7 giving the timings up to the portion's end.
    let ones = [0, 1].repeat(65_533);
    let (answer, full) = three.portion(&ones, 65_533);
    assert_eq!(answer.unwrap().0, 65_533);
    assert_eq!(Carried::of(&full).timings, 65_536);
    assert_eq!(full.portion(&[0, 1], 0).0, refused(7, 65_537));
    assert_eq!(full.portion(&[0, 1, 0, 1], 9).0, refused(7, 65_538));
    let full_and_too_long = Carried {
        held: None,
        zeros: 7,
        timings: 65_536,
    };
    let answer = full_and_too_long.portion(&[0, 1], 0);
    assert_eq!(answer, (refused(7, 65_537), full_and_too_long));
    // What ends no timing is taken also then.
    assert_eq!(full.portion(&[0, 0, 0], 0).0, Ok((0, vec![])));
    let mut too_long = [0, 1].repeat(65_534);
    too_long.splice(0..0, [0; 14]);
    assert_eq!(three.portion(&too_long, 0).0, refused(7, 65_537));
}

#[test]
fn a_run_of_zeros_is_refused_when_a_value_ends_it() {
    let mut state = BytesSoFar::new();
    let mut carried = Carried::new();
    for zeros in 1..=40 {
        let (answer, next) = state.portion(&[0, 0], 0);
        assert_eq!(answer, Ok((0, vec![])));
        state = next;
        carried = carried.portion(&[0, 0], 0).1;
        assert_eq!(carried, Carried::of(&state));
        assert_eq!(carried.zeros, zeros.min(7));
        // Six zeros and 1 are 9,830,425 ns, seven and 1 are 11,468,825 ns.
        let expected = if zeros <= 6 {
            Ok((1, vec![(25 * (65_536 * zeros + 1)) as u32]))
        } else {
            refused(8, 0)
        };
        assert_eq!(state.portion(&[0, 1], 1).0, expected);
        assert_eq!(carried.portion(&[0, 1], 1).0, expected);
    }
}

#[test]
fn states_that_no_call_leaves_count_as_fresh_ones() {
    let fresh = Carried::new();
    let states = [
        (8, 0, false),
        (u64::MAX, 0, false),
        (0, 65_537, false),
        (0, u64::MAX, false),
        (8, 65_537, false),
        (7, 65_536, true),
        (7, 0, true),
        (0, 65_536, true),
    ];
    for held in [None, Some(0), Some(1), Some(0xFF)] {
        for (zeros, timings, left) in states {
            let state = Carried {
                held,
                zeros,
                timings,
            };
            assert_eq!(state.is_left_by_calls(), left);
            if left {
                continue;
            }
            for portion in [&[][..], &[0], &[0, 1], &[0, 160, 0, 0, 3]] {
                assert_eq!(state.portion(portion, 5), fresh.portion(portion, 5));
            }
            // A refused portion hands the state back as it came.
            let refused_portion = state.portion(&[0, 1, 0, 1], 1);
            assert_eq!(refused_portion, (refused(10, 2), state));
        }
    }
    // As bytes: more timings than 65,536, or one out of range.
    let too_long = [&[0; 14][..], &[0, 1]].concat();
    for bytes in [[0, 1].repeat(65_537), too_long] {
        let state = BytesSoFar { bytes };
        assert!(!state.is_left_by_calls());
        assert_eq!(
            state.portion(&[0, 160], 1),
            BytesSoFar::new().portion(&[0, 160], 1)
        );
        assert_eq!(state.portion(&[0, 160], 0), (refused(10, 1), state));
    }
}

#[test]
fn every_number_of_a_state_is_left_by_some_calls() {
    for held in [None, Some(0), Some(7), Some(0xFF)] {
        for zeros in 0..=7 {
            for timings in [0, 1, 65_535, 65_536] {
                let mut bytes = [0, 1].repeat(timings);
                bytes.extend(vec![0; 2 * zeros]);
                bytes.extend(held);
                let (answer, state) = BytesSoFar::new().portion(&bytes, timings);
                assert_eq!(answer.unwrap().0, timings);
                let expected = Carried {
                    held,
                    zeros: zeros as u64,
                    timings: timings as u64,
                };
                assert_eq!(Carried::of(&state), expected);
                assert!(expected.is_left_by_calls());
                assert_eq!(Carried::new().portion(&bytes, timings).1, expected);
            }
        }
    }
}

#[test]
fn both_states_answer_alike() {
    let mut random = Random::new(70);
    for _ in 0..400 {
        let mut bytes_so_far = BytesSoFar::new();
        let mut carried = Carried::new();
        for _ in 0..random.below(12) {
            let portion = any_portion(&mut random);
            let room = random.below(6) as usize;
            let (by_bytes, next_bytes) = bytes_so_far.portion(&portion, room);
            let (by_numbers, next_numbers) = carried.portion(&portion, room);
            assert_eq!(by_bytes, by_numbers);
            if by_bytes.is_err() {
                assert_eq!(next_bytes, bytes_so_far);
                assert_eq!(next_numbers, carried);
            }
            assert_eq!(next_numbers, Carried::of(&next_bytes));
            assert!(next_bytes.is_left_by_calls() && next_numbers.is_left_by_calls());
            bytes_so_far = next_bytes;
            carried = next_numbers;
        }
    }
    // A portion whose answer is a refusal leaves any state as it came.
    for _ in 0..2_000 {
        let state = any_carried(&mut random);
        let portion = any_portion(&mut random);
        let (answer, next) = state.portion(&portion, random.below(3) as usize);
        if answer.is_err() {
            assert_eq!(next, state);
        } else {
            assert!(next.is_left_by_calls());
        }
    }
}

#[test]
fn portions_give_the_timings_of_the_whole() {
    let mut random = Random::new(71);
    let plan = block_of_values(&[
        vec![160, 0, 1, 0x100, 0x1234, 0, 0, 0, 0, 0, 0, 6_784, 240],
        (1..400).collect(),
    ]);
    let block = plan.bytes();
    for revolution in 0..2 {
        let whole = timings_of(&block, 2, revolution).unwrap();
        let bytes = revolution_bytes(&block, 2, revolution).unwrap();
        let mut cuts: Vec<Vec<&[u8]>> = (1..=7).map(|size| equal_portions(bytes, size)).collect();
        for _ in 0..20 {
            cuts.push(random_portions(&mut random, bytes, 9));
        }
        for portions in cuts.clone() {
            cuts.push(with_empty_portions(&portions));
        }
        for place in 0..=bytes.len() {
            cuts.push(vec![&bytes[..place], &bytes[place..]]);
        }
        for portions in cuts {
            assert_eq!(portions.concat(), bytes);
            let mut state = Carried::new();
            let mut timings = Vec::new();
            for portion in portions {
                let (answer, next) = state.portion(portion, 400);
                timings.extend(answer.unwrap().1);
                state = next;
            }
            assert_eq!(timings, whole);
            assert_eq!(state.timings, whole.len() as u64);
            assert_eq!((state.held, state.zeros), (None, 0));
        }
    }
}

#[test]
fn from_a_block_to_cells() {
    // 2, 3 and 4 cells: 01, 001, 0001.
    let cells = accepted(9, 0, vec![0b0100_1000, 0b1000_0000]);
    assert_eq!(revolution_cells(TWO, 2, 0, 2), cells);
    assert_eq!(revolution_cells(TWO, 2, 0, 9), cells);
    // 10 is the separator's, with the bytes needed.
    assert_eq!(revolution_cells(TWO, 2, 0, 1), refused(10, 2));
    assert_eq!(revolution_cells(TWO, 2, 0, 0), refused(10, 2));
    assert_eq!(revolution_cells(TWO, 2, 2, 0), refused(17, 0));
    assert_eq!(revolution_cells(TWO, 3, 0, 0), refused(16, 0));
    assert_eq!(
        revolution_cells(&two((0, 28), (2, 34)), 2, 0, 0),
        refused(6, 0)
    );
    // 27 timings of 5,000 cells are 135,000: 9 before 10, and 8 before 9.
    let mut values = [0, 0, 0, 0, 0, 0, 6_784].repeat(27);
    assert_eq!(
        revolution_cells(&one(&values), 1, 0, 0),
        refused(9, 135_000)
    );
    values.extend([0, 0, 0, 0, 0, 0, 6_785]);
    assert_eq!(revolution_cells(&one(&values), 1, 0, 0), refused(8, 27));
    let many = one(&vec![160; 65_537]);
    assert_eq!(revolution_cells(&many, 1, 0, 0), refused(7, 65_537));
    // 20 units are 500 ns: no cell, and no room needed.
    assert_eq!(
        revolution_cells(&one(&[20]), 1, 0, 0),
        accepted(0, 0, vec![])
    );
}

#[test]
fn border_pulses_of_a_revolution() {
    // 36 and 37 units are 900 and 925 ns, 43 and 44 are 925 and 900 ns short of a cell.
    for (values, cells, number, bytes) in [
        (vec![36], 0, 0, vec![]),
        (vec![37], 0, 1, vec![]),
        (vec![43], 1, 1, vec![0x80]),
        (vec![44], 1, 0, vec![0x80]),
        (vec![196], 2, 0, vec![0x40]),
        (vec![197], 2, 1, vec![0x40]),
        (vec![203], 3, 1, vec![0x20]),
        (vec![204], 3, 0, vec![0x20]),
        // 925 leaves 462, so 4,450 ns end 912 ns off. That leaves 456, with which 4,000 ns
        // end far from the border.
        (vec![197, 178, 160], 6, 2, vec![0x54]),
    ] {
        // The revolution before it, which ends in a border pulse, leaves nothing.
        let block = block_of_values(&[vec![160, 197], values]).bytes();
        let bytes_needed = bytes.len();
        assert_eq!(
            revolution_cells(&block, 2, 1, bytes_needed),
            accepted(cells, number, bytes)
        );
        let timings = timings_of(&block, 2, 1).unwrap();
        let room = timings.len();
        assert_eq!(
            revolution_timings(&block, 2, 1, room),
            Ok(RevolutionTimings {
                timings,
                border_pulses: number
            })
        );
        assert_eq!(
            revolution_timings(&block, 2, 1, room - 1),
            refused(10, room as u64)
        );
        if bytes_needed > 0 {
            assert_eq!(
                revolution_cells(&block, 2, 1, 0),
                refused(10, bytes_needed as u64)
            );
        }
    }
}

#[test]
fn border_pulses_of_timings_that_give_too_many_cells() {
    // 925 ns more than 2 cells, then 27 times 5,000 cells: the timings are given, the cells
    // are refused. The first of the long ones ends 462 ns off, and so on: no border pulse.
    let mut values = vec![197];
    values.extend([0, 0, 0, 0, 0, 0, 6_784].repeat(27));
    let block = one(&values);
    let read = revolution_timings(&block, 1, 0, 28).unwrap();
    assert_eq!((read.timings.len(), read.border_pulses), (28, 1));
    assert_eq!(revolution_cells(&block, 1, 0, 16_384), refused(9, 135_002));
    // As many as a list has, all but the first border pulses: 3,100 ns are 900 ns short of
    // two cells, which leaves -450, and 3,525 ns then end 925 ns short, and later more.
    let mut values = vec![141; 65_536];
    values[0] = 124;
    let read = revolution_timings(&one(&values), 1, 0, 65_536).unwrap();
    assert_eq!((read.timings.len(), read.border_pulses), (65_536, 65_535));
}

fn assert_prints(plan: &BlockPlan, numbers: [u8; 4], expected: &str) {
    let [revolutions, revolution, drive_track, drive_side] = numbers;
    let bytes = printed(
        &plan.bytes(),
        revolutions,
        revolution,
        drive_track,
        drive_side,
    );
    assert_eq!(String::from_utf8(bytes).unwrap(), expected);
}

#[test]
fn what_the_program_prints() {
    let longest = [0, 0, 0, 0, 0, 0, 6_784];
    let plan = block_of_values(&[
        // Four timings of 5,000 cells; too many of them.
        longest.repeat(4),
        longest.repeat(27),
        // None; one out of range; too few cells; too many timings.
        vec![],
        vec![0, 0, 0, 0, 0, 0, 0, 1],
        vec![160],
        vec![160; 65_537],
    ]);
    assert_prints(
        &plan,
        [6, 0, 5, 1],
        "T05 H1 cells 20000 sectors 0 findings 5\n\
         2 SHT level 1 place 0 detail 20000\n\
         3 NOS level 3 place 0 detail 0\n\
         4 TNF level 2 place 0 detail 0\n\
         20 MTV level 3 place 4999 detail 4\n\
         21 NFA level 1 place 0 detail 4999\n",
    );
    for (revolution, expected) in [
        (1, "refused 9\n"),
        (2, "refused 6\n"),
        (3, "refused 8\n"),
        (4, "refused 2\n"),
        (5, "refused 7\n"),
        (6, "refused 17\n"),
        (255, "refused 17\n"),
    ] {
        assert_prints(&plan, [6, revolution, 83, 0], expected);
    }
    // The block's refusals and 9 go before 1, and 1 before 2.
    for (revolution, expected) in [
        (0, "refused 1\n"),
        (1, "refused 9\n"),
        (2, "refused 6\n"),
        (3, "refused 8\n"),
        (4, "refused 1\n"),
        (5, "refused 7\n"),
        (6, "refused 17\n"),
    ] {
        assert_prints(&plan, [6, revolution, 84, 0], expected);
        assert_prints(&plan, [6, revolution, 83, 2], expected);
        assert_prints(&plan, [255, revolution, 255, 255], "refused 16\n");
    }
}

#[test]
fn the_standard_track_at_even_distances() {
    // The standard track ends in two zeros, for which no timing stands: it is turned
    // so that its last cell is a one.
    let mut track_cells = standard_track(0, 0, 0xE5);
    track_cells.rotate_right(2);
    let timings = timings_of_cells(&track_cells);
    // 2, 3 and 4 cells are 160, 240 and 320 units.
    let values: Vec<u16> = timings.iter().map(|timing| (timing / 25) as u16).collect();
    assert_prints(
        &block_of_values(&[values]),
        [1, 0, 0, 0],
        "T00 H0 cells 100000 sectors 9 findings 0\n",
    );
}

#[test]
fn a_block_with_border_pulses() {
    // 20,000 cells: six timings of two cells that are 925 ns off, the others even.
    let mut values = vec![160; 10_000];
    for index in [0, 30, 4_000, 9_970, 9_999] {
        values[index] = 197;
    }
    values[6_000] = 123;
    let plan = block_of_values(&[vec![160; 10_000], values]);
    let listing = "T80 H0 cells 20000 sectors 0 findings 2\n\
                   2 SHT level 1 place 0 detail 20000\n\
                   3 NOS level 3 place 0 detail 0\n";
    for (revolution, number) in [(0, 0), (1, 6)] {
        let read = revolution_timings(&plan.bytes(), 2, revolution, 10_000).unwrap();
        assert_eq!(read.border_pulses, number);
        // The listing does not tell.
        assert_prints(&plan, [2, revolution as u8, 80, 0], listing);
    }
    assert_prints(&plan, [2, 1, 84, 0], "refused 1\n");
    // Too few cells, or none (rule 11.11).
    for values in [vec![197], vec![37]] {
        let plan = block_of_values(&[values]);
        assert_prints(&plan, [1, 0, 80, 0], "refused 2\n");
        assert_prints(&plan, [1, 0, 80, 2], "refused 1\n");
    }
}

/// A block's revolution lists as the old file of its timings does that is converted (rule
/// 13.13).
#[test]
fn a_revolution_lists_as_its_timings_converted() {
    let longest = [0, 0, 0, 0, 0, 0, 6_784];
    for values in [longest.repeat(4), longest.repeat(27), vec![160], vec![0, 1]] {
        let plan = block_of_values(&[values]);
        let timings = timings_of(&plan.bytes(), 1, 0).unwrap();
        for (drive_track, drive_side) in [(5, 0), (80, 1), (84, 0), (83, 2)] {
            let listed = listed_after(&file_of_timings(drive_track, drive_side, &timings));
            let listed = String::from_utf8(listed).unwrap();
            assert_prints(&plan, [1, 0, drive_track, drive_side], &listed);
        }
    }
}
