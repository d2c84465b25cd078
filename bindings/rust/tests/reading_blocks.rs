//! SuperCard Pro track blocks: the timings and the cells of a revolution, and its values in portions.

use thikbromu::boundary::{revolution_cells, revolution_portion, revolution_timings};
use thikbromu::{Cells, Refusal, RevolutionReader, TakenPortion, Timings, TrackBlock, MOST_TIMINGS};

/// Three revolutions on track 7. The table ends at 40. The first has three values there, the second none at 46, the third two at 46. The
/// block has 50 bytes.
const THREE: &[u8; 50] = b"TRK\x07\
    \x80\x1A\x06\x00\x03\x00\x00\x00\x28\x00\x00\x00\
    \x81\x1A\x06\x00\x00\x00\x00\x00\x2E\x00\x00\x00\
    \x82\x1A\x06\x00\x02\x00\x00\x00\x2E\x00\x00\x00\
    \x00\xA0\x00\xF0\x01\x40\
    \x00\x00\x00\x01";

/// The block with another number of values and another offset for a revolution.
fn with_entry(revolution: usize, count: u32, offset: u32) -> [u8; 50] {
    let mut block = *THREE;
    let entry = 4 + 12 * revolution;
    block[entry + 4..entry + 8].copy_from_slice(&count.to_le_bytes());
    block[entry + 8..entry + 12].copy_from_slice(&offset.to_le_bytes());
    block
}

/// A block of one revolution with these values, which stand at 16.
fn one(values: &[u16]) -> Vec<u8> {
    let mut block = b"TRK\0\0\0\0\0".to_vec();
    block.extend((values.len() as u32).to_le_bytes());
    block.extend(16u32.to_le_bytes());
    block.extend(values.iter().flat_map(|value| value.to_be_bytes()));
    block
}

/// The timings of a revolution without the number of their border pulses.
fn list_of(block: TrackBlock, revolution: u32) -> Result<Vec<u32>, Refusal> {
    block.timings(revolution).map(|timings| timings.list)
}

fn timings_of(values: &[u16]) -> Result<Vec<u32>, Refusal> {
    list_of(TrackBlock::new(&one(values), 1), 0)
}

#[test]
fn timings_of_each_revolution() {
    let block = TrackBlock::new(THREE, 3);
    // 160, 240 and 320 units of 25 ns; 65,536 + 1 units.
    assert_eq!(block.timings(0), Ok(Timings { list: vec![4_000, 6_000, 8_000], border_pulses: 0 }));
    assert_eq!(block.timings(1), Err(Refusal::NoTimings));
    assert_eq!(block.timings(2), Ok(Timings { list: vec![1_638_425], border_pulses: 0 }));
    assert_eq!(block.timings(3), Err(Refusal::NoSuchRevolution));
    assert_eq!(block.timings(u32::MAX), Err(Refusal::NoSuchRevolution));
    assert_eq!((block.bytes().len(), block.revolutions()), (50, 3));
}

#[test]
fn fewer_and_more_revolutions_than_the_table_has() {
    assert_eq!(list_of(TrackBlock::new(THREE, 1), 0), Ok(vec![4_000, 6_000, 8_000]));
    assert_eq!(TrackBlock::new(THREE, 1).timings(1), Err(Refusal::NoSuchRevolution));
    assert_eq!(TrackBlock::new(THREE, 0).timings(0), Err(Refusal::NoSuchRevolution));
    // Four need 52 bytes; 12 times 357,913,942 is 2 to the power of 32 and 8.
    for revolutions in [4, 255, 357_913_942, u32::MAX] {
        assert_eq!(TrackBlock::new(THREE, revolutions).timings(0), Err(Refusal::NotATrackBlock));
    }
    assert_eq!(TrackBlock::new(b"TRK\0", 0).timings(0), Err(Refusal::NoSuchRevolution));
    assert_eq!(TrackBlock::new(b"TRK", 0).timings(0), Err(Refusal::NotATrackBlock));
    assert_eq!(TrackBlock::new(b"", 0).timings(0), Err(Refusal::NotATrackBlock));
}

#[test]
fn a_list_of_any_room() {
    for room in 0..=5 {
        let mut list = vec![7; room];
        let mut border_pulses = 7;
        let answer = revolution_timings(THREE, 3, 0, &mut list, &mut border_pulses);
        if room < 3 {
            assert_eq!(answer, Err(Refusal::NoRoom(3)));
            assert_eq!((list, border_pulses), (vec![7; room], 7));
        } else {
            assert_eq!((answer, border_pulses), (Ok(3), 0));
            assert_eq!(list[..3], [4_000, 6_000, 8_000]);
            assert!(list[3..].iter().all(|&timing| timing == 7));
        }
    }
}

#[test]
fn values_and_zeros() {
    // The high byte comes first: 256 units and 1.
    assert_eq!(timings_of(&[0x0100, 0x0001]), Ok(vec![6_400, 25]));
    assert_eq!(timings_of(&[0xFFFF]), Ok(vec![1_638_375]));
    // A zero adds to the next value alone: 7, 131,072 + 3 and 1 units.
    assert_eq!(timings_of(&[7, 0, 0, 3, 1]), Ok(vec![175, 3_276_875, 25]));
    // 6 times 65,536 and 6,784 are 400,000 units, 10,000,000 ns; the index is that of a timing.
    assert_eq!(timings_of(&[0, 0, 0, 0, 0, 0, 6_784]), Ok(vec![10_000_000]));
    assert_eq!(timings_of(&[0, 1, 0, 0, 0, 0, 0, 0, 6_785]), Err(Refusal::TimingOutOfRange(1)));
    assert_eq!(timings_of(&[1, 2, 0, 0, 0, 0, 0, 0, 0, 1, 3]), Err(Refusal::TimingOutOfRange(2)));
    // At an odd byte: A000 and F001.
    let block = with_entry(0, 2, 41);
    assert_eq!(list_of(TrackBlock::new(&block, 3), 0), Ok(vec![1_024_000, 1_536_025]));
}

#[test]
fn the_most_timings() {
    assert_eq!(timings_of(&[160; MOST_TIMINGS]), Ok(vec![4_000; MOST_TIMINGS]));
    assert_eq!(timings_of(&[160; MOST_TIMINGS + 1]), Err(Refusal::TooManyTimings(65_537)));
    let mut border_pulses = 7;
    let answer = revolution_timings(&one(&[160; MOST_TIMINGS]), 1, 0, &mut [], &mut border_pulses);
    assert_eq!((answer, border_pulses), (Err(Refusal::NoRoom(65_536)), 7));
}

#[test]
fn border_pulses_of_timings() {
    // 900 and 925 ns, alone and after 2 cells; 925 ns leave 462, so that 2,450 ns then end 912 ns off.
    for (values, number) in
        [(vec![36], 0), (vec![37], 1), (vec![196], 0), (vec![197], 1), (vec![197, 98], 2), (vec![160, 98, 160], 0)]
    {
        assert_eq!(TrackBlock::new(&one(&values), 1).timings(0).unwrap().border_pulses, number, "{values:?}");
    }
    // Timings of more cells than a track has are given: 2 and 27 times 5,000.
    let block = one(&[&[197][..], &[0, 0, 0, 0, 0, 0, 6_784].repeat(27)].concat());
    let timings = TrackBlock::new(&block, 1).timings(0).unwrap();
    assert_eq!((timings.list.len(), timings.border_pulses), (28, 1));
    assert_eq!(TrackBlock::new(&block, 1).cells(0), Err(Refusal::TooManyCells(135_002)));
    // What is refused leaves the number as it was.
    let mut border_pulses = 7;
    assert!(revolution_timings(&one(&[37, 0]), 1, 0, &mut [0; 9], &mut border_pulses).is_err());
    assert!(revolution_timings(&one(&[37]), 1, 1, &mut [0; 9], &mut border_pulses).is_err());
    assert_eq!(border_pulses, 7);
}

#[test]
fn what_is_no_track_block() {
    // Every revolution is judged, whichever is chosen, and before one that is lacking.
    let refused = |block: &[u8]| {
        for revolution in 0..4 {
            assert_eq!(TrackBlock::new(block, 3).timings(revolution), Err(Refusal::NotATrackBlock));
            assert_eq!(TrackBlock::new(block, 3).cells(revolution), Err(Refusal::NotATrackBlock));
        }
    };
    let accepted = |block: &[u8]| assert!(TrackBlock::new(block, 3).timings(2).is_ok());
    // The letters, and each cut.
    for place in 0..3 {
        let mut block = *THREE;
        block[place] ^= 0x20;
        refused(&block);
    }
    for length in 0..50 {
        refused(&THREE[..length]);
    }
    // Offsets within the table, which ends at 40.
    refused(&with_entry(0, 3, 39));
    refused(&with_entry(1, 0, 39));
    accepted(&with_entry(1, 0, 40));
    // Values beyond the block's last byte, at 50; also where 32 bits do not hold twice their number.
    refused(&with_entry(0, 1, 49));
    refused(&with_entry(1, 0, 51));
    refused(&with_entry(0, 6, 40));
    refused(&with_entry(0, 0x8000_0003, 40));
    refused(&with_entry(0, 1, u32::MAX));
    accepted(&with_entry(0, 1, 48));
    accepted(&with_entry(1, 0, 50));
    // A 0 as the last value: the bytes 46 to 48 are 0.
    refused(&with_entry(0, 4, 40));
    refused(&with_entry(1, 1, 46));
    refused(&with_entry(1, 1, 47));
    accepted(&with_entry(0, 5, 40));
    accepted(&with_entry(1, 1, 48));
}

#[test]
fn cells_of_a_revolution() {
    // 2, 3 and 4 cells: 01, 001, 0001.
    let packed = [0b0100_1000, 0b1000_0000];
    let block = TrackBlock::new(THREE, 3);
    assert_eq!(block.cells(0), Ok(Cells { packed: packed.to_vec(), count: 9, border_pulses: 0 }));
    assert_eq!(block.cells(1), Err(Refusal::NoTimings));
    assert_eq!(block.cells(3), Err(Refusal::NoSuchRevolution));
    for room in 0..=3 {
        let mut cells = vec![7; room];
        let mut border_pulses = 7;
        let answer = revolution_cells(THREE, 3, 0, &mut cells, &mut border_pulses);
        if room < 2 {
            assert_eq!(answer, Err(Refusal::NoRoom(2)));
            assert_eq!((cells, border_pulses), (vec![7; room], 7));
        } else {
            assert_eq!((answer, border_pulses), (Ok(9), 0));
            assert_eq!(cells[..2], packed);
            assert!(cells[2..].iter().all(|&byte| byte == 7));
        }
    }
    // 500 ns make no cell, which needs no room; 27 timings of 5,000 cells make too many.
    let mut border_pulses = 7;
    assert_eq!(revolution_cells(&one(&[20]), 1, 0, &mut [], &mut border_pulses), Ok(0));
    assert_eq!(border_pulses, 0);
    let many = one(&[0, 0, 0, 0, 0, 0, 6_784].repeat(27));
    assert_eq!(revolution_cells(&many, 1, 0, &mut [], &mut border_pulses), Err(Refusal::TooManyCells(135_000)));
    // 4,925 ns have the offset 925, and 2,450 after them 912: both are border pulses.
    assert_eq!(TrackBlock::new(&one(&[197, 98]), 1).cells(0).unwrap().border_pulses, 2);
}

#[test]
fn a_track_of_a_revolution() {
    // Four timings of 5,000 cells each: 4,999 zeros and a one.
    let block = one(&[0, 0, 0, 0, 0, 0, 6_784].repeat(4));
    let cells = TrackBlock::new(&block, 1).cells(0).unwrap();
    assert_eq!(
        cells.track(80, 1).listing(),
        "T80 H1 cells 20000 sectors 0 findings 4\n\
         2 SHT level 1 place 0 detail 20000\n\
         3 NOS level 3 place 0 detail 0\n\
         20 MTV level 3 place 4999 detail 4\n\
         21 NFA level 1 place 0 detail 4999\n"
    );
    assert_eq!(cells.track(80, 1).findings().unwrap().len(), 4);
    assert_eq!(cells.track(84, 0).findings(), Err(Refusal::TrackOrSide));
}

/// The standard track, as two revolutions.
#[test]
fn the_sample() {
    let bytes = include_bytes!("../../../samples/standard-two-revolutions.block");
    let listing = include_str!("../../../samples/standard-two-revolutions.listing");
    let block = TrackBlock::new(bytes, 2);
    for revolution in 0..2 {
        let cells = block.cells(revolution).unwrap();
        assert_eq!((&cells.track(0, 0).listing()[..], cells.border_pulses), (listing, 0));
        assert_eq!(block.timings(revolution).unwrap().border_pulses, 0);
    }
    assert_eq!(block.timings(2), Err(Refusal::NoSuchRevolution));
    // Its values, from the offset that the table gives, in portions.
    let number_at = |place: usize| u32::from_le_bytes(bytes[place..place + 4].try_into().unwrap()) as usize;
    let (count, offset) = (number_at(20), number_at(24));
    for size in [1, 999, 4_096] {
        let mut reader = RevolutionReader::new();
        let mut timings = Vec::new();
        for portion in bytes[offset..offset + 2 * count].chunks(size) {
            let mut list = vec![0; size.div_ceil(2)];
            let taken = reader.take(portion, &mut list);
            timings.extend(&list[..taken.timings.unwrap()]);
            reader = taken.next;
        }
        assert_eq!(Ok(timings), list_of(block, 1));
    }
}

/// A reader of so many timings and zeros, and of a byte that is held.
fn reader(timings: u32, zeros: u32, held: Option<u8>) -> RevolutionReader {
    let held = held.map_or(0, |byte| u32::from(byte) + 1);
    RevolutionReader::from_number(held + 257 * (zeros + 8 * timings))
}

#[test]
fn portions_and_their_states() {
    // 0, 1, 0 and 1,537, 160: 65,537 units, 67,073 and 160. Each step has a portion, the timings that end in it, and the number after it.
    let steps: [(&[u8], &[u32], u32); 8] = [
        (&[], &[], 0),
        // The byte 0 is held.
        (&[0x00], &[], 1),
        // A zero, and the byte 0 again.
        (&[0x00, 0x00], &[], 258),
        // One timing: 8 times 257.
        (&[0x01], &[1_638_425], 2_056),
        (&[], &[], 2_056),
        // A zero and the byte 6, one timing: 7 + 257 * (1 + 8).
        (&[0x00, 0x00, 0x06], &[], 2_320),
        // Two timings, and the byte 0.
        (&[0x01, 0x00], &[1_676_825], 4_113),
        (&[0xA0], &[4_000], 6_168),
    ];
    let mut reader = RevolutionReader::new();
    let mut state = 0;
    for (portion, timings, number) in steps {
        let mut list = [7; 3];
        let taken = reader.take(portion, &mut list);
        assert_eq!(taken, TakenPortion { timings: Ok(timings.len()), next: RevolutionReader::from_number(number) });
        assert_eq!(taken.next.number(), number);
        assert_eq!(list[..timings.len()], *timings);
        assert!(list[timings.len()..].iter().all(|&timing| timing == 7));
        reader = taken.next;
        // The same over the export.
        let mut list = [7; 3];
        assert_eq!(revolution_portion(&mut state, portion, &mut list), Ok(timings.len()));
        assert_eq!(state, number);
        assert_eq!(list[..timings.len()], *timings);
    }
}

#[test]
fn refused_portions_change_nothing() {
    let refused = |before: RevolutionReader, portion: &[u8], room: usize, refusal: Refusal| {
        let mut list = vec![7; room];
        assert_eq!(before.take(portion, &mut list), TakenPortion { timings: Err(refusal), next: before });
        assert_eq!(list, vec![7; room]);
    };
    // Room for one timing of two; the number is that of this portion's alone.
    refused(reader(5, 0, None), &[0, 1, 0, 2], 1, Refusal::NoRoom(2));
    refused(reader(5, 0, Some(0)), &[1], 0, Refusal::NoRoom(1));
    // Seven zeros make every timing too long, and so do six and 6,785 units. It is counted from the revolution's start.
    refused(reader(5, 7, None), &[0, 1], 9, Refusal::TimingOutOfRange(5));
    refused(reader(5, 6, Some(0x1A)), &[0x81, 0, 1], 9, Refusal::TimingOutOfRange(5));
    refused(
        reader(5, 0, None),
        &[0, 1, 0, 0, 0, 0, 0, 0, 0, 0, 0, 0, 0, 0, 0, 0, 0, 1],
        0,
        Refusal::TimingOutOfRange(6),
    );
    // More than 65,536 timings go before one out of range and before the room.
    refused(reader(65_536, 0, None), &[0, 1], 1, Refusal::TooManyTimings(65_537));
    refused(reader(65_536, 7, None), &[0, 1, 0, 1], 0, Refusal::TooManyTimings(65_538));
    refused(reader(65_535, 0, None), &[0, 1, 0, 1], 0, Refusal::TooManyTimings(65_537));
    // With room it is taken, and so is the longest timing; what ends no timing is always taken.
    let mut list = [7; 2];
    assert_eq!(reader(5, 0, None).take(&[0, 1, 0, 2], &mut list).next, reader(7, 0, None));
    assert_eq!(list, [25, 50]);
    assert_eq!(reader(5, 6, Some(0x1A)).take(&[0x80], &mut list).next, reader(6, 0, None));
    assert_eq!(list, [10_000_000, 50]);
    assert_eq!(reader(65_536, 6, None).take(&[0; 5], &mut []).next, reader(65_536, 7, Some(0)));
}

#[test]
fn numbers_that_no_call_leaves() {
    // The highest that calls leave: 65,536 timings, seven zeros, the byte FF.
    let highest = reader(65_536, 7, Some(0xFF));
    assert_eq!(highest.number(), 134_744_071);
    assert_eq!(highest.take(&[], &mut []).next, highest);
    for number in [134_744_072, 134_744_073, 1 << 31, u32::MAX] {
        let other = RevolutionReader::from_number(number);
        let mut list = [7; 1];
        assert_eq!(other.take(&[0, 160, 0], &mut list), TakenPortion { timings: Ok(1), next: reader(1, 0, Some(0)) });
        assert_eq!(list, [4_000]);
        assert_eq!(other.take(&[], &mut []).next, RevolutionReader::new());
        // Beside a refusal it is handed back as it came.
        assert_eq!(other.take(&[0, 160], &mut []), TakenPortion { timings: Err(Refusal::NoRoom(1)), next: other });
    }
}
