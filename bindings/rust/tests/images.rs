//! Whole SuperCard Pro images (section 19 of the specification): headers, entries and check sums.

use thikbromu::boundary::{self, IMAGE_HEADER_NUMBERS, IMAGE_PLACE_NUMBERS};
use thikbromu::*;

const ENTRIES: usize = 168;

/// The first 688 bytes of an image of one revolution, with all entries at 0: tracks 0 to 167, both sides, 25 ns.
fn header() -> Vec<u8> {
    let mut first = vec![0; IMAGE_HEADER_BYTES];
    first[..12].copy_from_slice(&[b'S', b'C', b'P', 0x22, 0x15, 1, 0, 167, 1, 0, 0, 0]);
    first[12..16].copy_from_slice(&0x1234_5678u32.to_le_bytes());
    first
}

/// The same with these entries.
fn with(entries: &[(usize, u32)]) -> Vec<u8> {
    let mut first = header();
    for &(entry, start) in entries {
        first[16 + 4 * entry..20 + 4 * entry].copy_from_slice(&start.to_le_bytes());
    }
    first
}

/// The calls on an image give these numbers, in lists of any room, and keep what stands behind them.
fn gives(first: &[u8], image_length: usize, header: [u32; IMAGE_HEADER_NUMBERS], places: &[u32], tracks: usize) {
    for room in 0..=IMAGE_HEADER_NUMBERS + 2 {
        let mut numbers = vec![7; room];
        assert_eq!(boundary::image_header(first, image_length, &mut numbers), Ok(10));
        assert!(numbers.iter().zip(header.iter().chain(&[7, 7])).all(|(number, expected)| number == expected));
    }
    for room in [0, 1, 2, 3, 167, 335, 336, 337] {
        let mut numbers = vec![7; room];
        assert_eq!(boundary::image_entries(first, image_length, &mut numbers), Ok(tracks));
        assert!(numbers.iter().zip(places.iter().chain(&[7])).all(|(number, expected)| number == expected));
    }
}

/// All three calls refuse an image, and write nothing.
fn refuses(first: &[u8], image_length: usize, refusal: Refusal) {
    let mut numbers = [7; IMAGE_HEADER_NUMBERS];
    assert_eq!(boundary::image_header(first, image_length, &mut numbers), Err(refusal));
    assert_eq!(numbers, [7; IMAGE_HEADER_NUMBERS]);
    assert_eq!(boundary::image_check(first, image_length, 0x1234_5678), Err(refusal));
    refuses_entries(first, image_length, refusal);
}

/// The call on the entries does.
fn refuses_entries(first: &[u8], image_length: usize, refusal: Refusal) {
    let mut places = [7; IMAGE_PLACE_NUMBERS];
    assert_eq!(boundary::image_entries(first, image_length, &mut places), Err(refusal));
    assert_eq!(places, [7; IMAGE_PLACE_NUMBERS]);
    assert_eq!(Image::new(first, image_length), Err(refusal));
}

/// Numbers that look like random ones, the same in every run.
struct Random(u64);

impl Random {
    fn below(&mut self, limit: u64) -> u64 {
        self.0 = self.0.wrapping_mul(6_364_136_223_846_793_005).wrapping_add(1_442_695_040_888_963_407);
        (self.0 >> 33) % limit
    }
}

#[test]
fn a_header_and_its_numbers() {
    let mut first = header();
    first[3..12].copy_from_slice(&[0xFF, 0x80, 5, 4, 9, 0xBF, 16, 1, 0]);
    let numbers = [0xFF, 0x80, 5, 4, 9, 0xBF, 16, 1, 0, 0x1234_5678];
    gives(&first, 1_000_000, numbers, &[0; IMAGE_PLACE_NUMBERS], 0);
    let image = Image::new(&first, 1_000_000).unwrap();
    let expected = ImageHeader {
        version: 0xFF,
        disk_type: 0x80,
        revolutions: 5,
        first_track: 4,
        last_track: 9,
        flags: 0xBF,
        cell_width: 16,
        heads: 1,
        resolution: 0,
        check_sum: 0x1234_5678,
    };
    assert_eq!(image.header(), expected);
    assert_eq!(image.blocks().count(), 0);
}

#[test]
fn what_is_no_image() {
    let mut first = header();
    for length in [0, 3, 16, 687] {
        refuses(&first[..length], 1_000_000, Refusal::NotAnImage);
        refuses(&first, length, Refusal::NotAnImage);
    }
    gives(&first, 688, [0x22, 0x15, 1, 0, 167, 1, 0, 0, 0, 0x1234_5678], &[0; IMAGE_PLACE_NUMBERS], 0);
    gives(&first, 4_294_967_295, [0x22, 0x15, 1, 0, 167, 1, 0, 0, 0, 0x1234_5678], &[0; IMAGE_PLACE_NUMBERS], 0);
    for length in [4_294_967_296, usize::MAX] {
        refuses(&first, length, Refusal::NotAnImage);
    }
    for place in 0..3 {
        first = header();
        first[place] ^= 0x20;
        // Before what else is wrong.
        first[5] = 0;
        refuses(&first, 1_000_000, Refusal::NotAnImage);
    }
}

#[test]
fn each_byte_of_the_header() {
    for place in 3..16 {
        for byte in 0..=255 {
            let mut first = header();
            first[place] = byte;
            let taken = match place {
                5 => byte != 0,
                6 => byte <= 167,
                7 => byte <= 167,
                8 => byte & 64 == 0,
                9 => [0, 16].contains(&byte),
                10 => byte <= 2,
                11 => byte == 0,
                _ => true,
            };
            if taken {
                assert!(Image::new(&first, 1_000_000).is_ok(), "{byte} at {place}");
            } else {
                refuses(&first, 1_000_000, Refusal::ImageHeader(place));
            }
        }
    }
}

#[test]
fn the_first_byte_that_is_not_taken() {
    // From the last place to the first, each beside all behind it.
    let mut first = header();
    for (place, byte) in [(11, 1), (10, 3), (9, 8), (8, 64), (7, 168), (6, 169), (5, 0)] {
        first[place] = byte;
        refuses(&first, 1_000_000, Refusal::ImageHeader(place));
    }
    // A first track that is the last, and one above it.
    (first[5], first[6], first[7]) = (1, 9, 9);
    first[8..12].fill(0);
    assert!(Image::new(&first, 1_000_000).is_ok());
    first[7] = 8;
    refuses(&first, 1_000_000, Refusal::ImageHeader(6));
}

#[test]
fn blocks_in_any_order() {
    let first = with(&[(0, 5_000), (3, 688), (160, 704), (167, 9_000)]);
    let mut places = [0; IMAGE_PLACE_NUMBERS];
    for (entry, start, end) in [(0, 5_000, 9_000), (3, 688, 704), (160, 704, 5_000), (167, 9_000, 9_016)] {
        (places[2 * entry], places[2 * entry + 1]) = (start, end);
    }
    gives(&first, 9_016, [0x22, 0x15, 1, 0, 167, 1, 0, 0, 0, 0x1234_5678], &places, 4);
    let image = Image::new(&first, 9_016).unwrap();
    let block = |track, side, start, end| ImageBlock { track, side, start, end };
    let blocks =
        [block(0, 0, 5_000, 9_000), block(1, 1, 688, 704), block(80, 0, 704, 5_000), block(83, 1, 9_000, 9_016)];
    assert_eq!(image.blocks().collect::<Vec<_>>(), blocks);
    for present in blocks {
        assert_eq!(image.block(present.track, present.side), Some(present));
    }
    for (track, side) in [(0, 1), (1, 0), (83, 0), (84, 0), (0, 2), (1, u32::MAX), (u32::MAX, 0), (u32::MAX, 1)] {
        assert_eq!(image.block(track, side), None);
    }
}

#[test]
fn a_block_needs_room_for_its_table() {
    // Three letters, a number and twelve bytes for each revolution: 16 for one, 3,064 for 255.
    for (revolutions, room) in [(1, 16), (5, 64), (255, 3_064)] {
        let start = 100_000;
        let mut first = with(&[(7, start)]);
        first[5] = revolutions;
        let end = (start + room) as usize;
        assert!(Image::new(&first, end).is_ok());
        for length in [688, start as usize, end - 1] {
            refuses_entries(&first, length, Refusal::ImageEntry(7));
        }
        // The footer has 48 bytes.
        first[8] |= 32;
        assert_eq!(Image::new(&first, end + 48).unwrap().block(3, 1).unwrap().end, end);
        refuses_entries(&first, end + 47, Refusal::ImageEntry(7));
        // And so has the block before it.
        let mut first = with(&[(7, start), (2, start - room)]);
        first[5] = revolutions;
        assert_eq!(Image::new(&first, end).unwrap().block(1, 0).unwrap().end, start as usize);
        let mut first = with(&[(7, start), (2, start - room + 1)]);
        first[5] = revolutions;
        refuses_entries(&first, end, Refusal::ImageEntry(2));
    }
}

#[test]
fn blocks_that_cannot_stand_there() {
    for start in [1, 15, 16, 687, 1_000_000, u32::MAX] {
        refuses_entries(&with(&[(167, start), (9, 700)]), 1_000_000, Refusal::ImageEntry(167));
    }
    // The same start twice: the first of the two is named.
    refuses_entries(&with(&[(5, 4_000), (100, 4_000)]), 1_000_000, Refusal::ImageEntry(5));
    // Outside of the first and the last track.
    let mut first = with(&[(19, 4_000), (20, 5_000), (30, 6_000), (31, 7_000)]);
    (first[6], first[7]) = (19, 31);
    assert_eq!(Image::new(&first, 1_000_000).unwrap().blocks().count(), 4);
    first[7] = 30;
    refuses_entries(&first, 1_000_000, Refusal::ImageEntry(31));
    first[6] = 20;
    refuses_entries(&first, 1_000_000, Refusal::ImageEntry(19));
    // On the side that is not there.
    for (heads, entry, good) in [(0, 4, true), (0, 5, true), (1, 4, true), (1, 5, false), (2, 4, false), (2, 5, true)] {
        let mut first = with(&[(entry, 4_000)]);
        first[10] = heads;
        if good {
            assert!(Image::new(&first, 1_000_000).is_ok());
        } else {
            refuses_entries(&first, 1_000_000, Refusal::ImageEntry(entry));
        }
    }
}

/// What an image's entries give by a second way: in the order of their starts, each ends where the next one begins.
fn by_order(first: &[u8], image_length: usize) -> Result<Vec<u32>, Refusal> {
    let start = |entry: usize| u32::from_le_bytes(first[16 + 4 * entry..][..4].try_into().unwrap());
    let limit = if first[8] & 32 != 0 { image_length - 48 } else { image_length };
    let mut order: Vec<(usize, usize)> =
        (0..ENTRIES).map(|entry| (start(entry) as usize, entry)).filter(|&(start, _)| start != 0).collect();
    order.sort();
    let mut places = vec![0; IMAGE_PLACE_NUMBERS];
    let mut bad = Vec::new();
    for (at, &(start, entry)) in order.iter().enumerate() {
        // Of two with one start, both have no room.
        let twin = order[..at].last().is_some_and(|before| before.0 == start);
        let end = if twin { start } else { order.get(at + 1).map_or(limit, |next| next.0.min(limit)) };
        let side = match first[10] {
            1 => entry % 2 == 0,
            2 => entry % 2 == 1,
            _ => true,
        };
        let within = (first[6] as usize..=first[7] as usize).contains(&entry);
        if !side || !within || start < 688 || end < start + 4 + 12 * first[5] as usize {
            bad.push(entry);
        }
        (places[2 * entry], places[2 * entry + 1]) = (start as u32, end as u32);
    }
    bad.into_iter().min().map_or(Ok(places), |entry| Err(Refusal::ImageEntry(entry)))
}

#[test]
fn random_entries() {
    let mut random = Random(7);
    let (mut accepted, mut refused) = (0, 0);
    for round in 0..4_000 {
        let mut first = header();
        first[5] = 1 + random.below(5) as u8;
        first[8] = if random.below(4) == 0 { 32 } else { 0 };
        first[10] = if random.below(3) == 0 { random.below(3) as u8 } else { 0 };
        let tracks = 1 + random.below(12) as usize;
        let image_length = 1_000 + random.below(20_000) as usize;
        let mut entries = Vec::new();
        for _ in 0..tracks {
            let entry = random.below(ENTRIES as u64) as usize;
            // Near the bounds now and then.
            let start = match random.below(20) {
                0 => 680 + random.below(16),
                1 => (image_length - 100) as u64 + random.below(110),
                2 if !entries.is_empty() => entries[0],
                _ => 688 + random.below(image_length as u64 - 688),
            };
            entries.push(start);
            first[16 + 4 * entry..20 + 4 * entry].copy_from_slice(&(start as u32).to_le_bytes());
        }
        let mut places = [7; IMAGE_PLACE_NUMBERS];
        match by_order(&first, image_length) {
            Ok(expected) => {
                let count = expected.iter().step_by(2).filter(|&&start| start != 0).count();
                assert_eq!(boundary::image_entries(&first, image_length, &mut places), Ok(count), "round {round}");
                assert_eq!(places[..], expected[..]);
                accepted += 1;
            }
            Err(refusal) => {
                refuses_entries(&first, image_length, refusal);
                refused += 1;
            }
        }
    }
    assert!(accepted > 500 && refused > 500, "{accepted} and {refused}");
}

#[test]
fn sums_in_portions() {
    let mut random = Random(9);
    let bytes: Vec<u8> = (0..10_000).map(|_| random.below(256) as u8).collect();
    let whole = bytes.iter().map(|&byte| u32::from(byte)).sum();
    assert_eq!(image_sum(0, &bytes), whole);
    assert_eq!(image_sum(7, &[]), 7);
    for _ in 0..200 {
        let (mut sum, mut rest) = (0, &bytes[..]);
        while !rest.is_empty() {
            let (portion, behind) = rest.split_at((random.below(700) as usize).min(rest.len()));
            (sum, rest) = (image_sum(sum, portion), behind);
        }
        assert_eq!(sum, whole);
    }
    // It wraps.
    assert_eq!(image_sum(u32::MAX, &[1]), 0);
    assert_eq!(image_sum(0xFFFF_FF00, &[255, 255, 3]), 257);
    assert_eq!(image_sum(u32::MAX - 10, &[255; 100]), 25_500u32.wrapping_sub(11));
}

#[test]
fn a_sum_is_judged_unless_the_image_may_change() {
    for flags in 0..=255 {
        let mut first = header();
        first[8] = flags;
        for sum in [0, 0x1234_5677, 0x1234_5678, 0x1234_5679, 0x9234_5678] {
            let expected = if flags & 64 != 0 {
                Err(Refusal::ImageHeader(8))
            } else if flags & 16 != 0 || sum == 0x1234_5678 {
                Ok(sum as usize)
            } else {
                Err(Refusal::ImageCheckSum(sum as usize))
            };
            assert_eq!(boundary::image_check(&first, 10_000, sum), expected);
        }
    }
}

#[test]
fn a_whole_image_in_memory() {
    let mut bytes = with(&[(2, 688), (3, 720)]);
    bytes.extend(b"TRK\x02\0\0\0\0\x01\0\0\0\x10\0\0\0\0\xA0");
    bytes.resize(720, 0);
    bytes.extend(b"TRK\x03\0\0\0\0\x01\0\0\0\x10\0\0\0\0\xA1");
    let sum: u32 = bytes[16..].iter().map(|&byte| u32::from(byte)).sum();
    assert_eq!(Image::whole(&bytes), Err(Refusal::ImageCheckSum(sum as usize)));
    bytes[12..16].copy_from_slice(&sum.to_le_bytes());
    let image = Image::whole(&bytes).unwrap();
    let timings =
        |track, side| TrackBlock::new(&bytes[image.block(track, side).unwrap().range()], 1).timings(0).unwrap().list;
    assert_eq!(timings(1, 0), vec![4_000]);
    assert_eq!(timings(1, 1), vec![4_025]);
    // The entries are judged before the sum.
    bytes[16 + 4 * 3] -= 40;
    assert_eq!(Image::whole(&bytes), Err(Refusal::ImageEntry(3)));
    // Cut anywhere, it is refused.
    bytes[16 + 4 * 3] += 40;
    for length in 0..bytes.len() {
        let expected = match length {
            0..688 => Refusal::NotAnImage,
            688..704 => Refusal::ImageEntry(2),
            704..736 => Refusal::ImageEntry(3),
            _ => Refusal::ImageCheckSum((sum - u32::from(bytes[737])) as usize),
        };
        assert_eq!(Image::whole(&bytes[..length]), Err(expected));
    }
}

#[test]
fn refusals_in_words() {
    let words = |refusal: Refusal| refusal.to_string();
    assert_eq!(words(Refusal::NotAnImage), "refused 26: not a SuperCard Pro image");
    assert_eq!(words(Refusal::ImageHeader(11)), "refused 27: byte 11 of the image's header: the unit is not 25 ns");
    assert_eq!(words(Refusal::ImageEntry(5)), "refused 28: the block of entry 5 (track 2, side 1) cannot stand there");
    assert_eq!(
        words(Refusal::ImageCheckSum(9)),
        "refused 29: the image's bytes add up to 9, and its header says another sum"
    );
}
