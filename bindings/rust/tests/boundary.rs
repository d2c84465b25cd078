//! The exports on memory that the caller lends, where it is short and where the call is refused.

use thikbromu::boundary::*;
use thikbromu::{Refusal, HISTOGRAM_COUNTS};

/// The standard track, at track 0 and side 0, in a track file.
const STANDARD: &[u8] = include_bytes!("../../../samples/standard.track");

/// Its packed cells, 100,000.
fn standard() -> &'static [u8] {
    &STANDARD[10..STANDARD.len() - 4]
}

#[test]
fn a_record_of_any_room() {
    let record = [1152, 0xFE, 0, 0, 1, 2, 1, 1856, 0xFB, 512, 1, 10144, 2];
    for room in 0..=SECTOR_NUMBERS + 1 {
        let front = room.min(SECTOR_NUMBERS);
        let mut numbers = vec![7; room];
        assert_eq!(sector(standard(), 100_000, 0, 0, 0, &mut numbers), Ok(9));
        assert_eq!(numbers[..front], record[..front]);
        assert!(numbers[front..].iter().all(|&number| number == 7));
        // Beside a refusal it is all zeros.
        assert_eq!(sector(standard(), 100_000, 0, 0, 9, &mut numbers), Err(Refusal::NoSuchSector(9)));
        assert!(numbers[..front].iter().all(|&number| number == 0));
        assert!(numbers[front..].iter().all(|&number| number == 7));
    }
}

#[test]
fn a_refused_reading_out_writes_nothing() {
    let (mut buffer, mut good) = ([7; 512], 7);
    assert_eq!(read_out(standard(), 100_000, 0, 2, 0, &mut buffer, &mut good), Err(Refusal::TrackOrSide));
    assert_eq!((buffer, good), ([7; 512], 7));
    assert_eq!(read_out(standard(), 100_000, 0, 0, 0, &mut buffer, &mut good), Ok(512));
    assert_eq!(good, 1);
}

#[test]
fn counts_of_any_room() {
    for room in [0, 41, HISTOGRAM_COUNTS, HISTOGRAM_COUNTS + 1] {
        let mut counts = vec![7; room];
        assert_eq!(histogram(&[4000, 4099], &mut counts), Ok(2));
        let expected = |place| match place {
            40 => 2,
            HISTOGRAM_COUNTS => 7,
            _ => 0,
        };
        assert!(counts.iter().enumerate().all(|(place, &count)| count == expected(place)));
    }
}

#[test]
fn a_residual_and_an_offset_are_kept_beside_a_refusal() {
    for (residual, timing) in [(3, 0), (-500, 10_000_001), (700, 0), (i32::MIN, u32::MAX)] {
        let (mut lent, mut offset) = (residual, 7);
        assert_eq!(step(&mut lent, timing, &mut offset), Err(Refusal::TimingOutOfRange(0)));
        assert_eq!((lent, offset), (residual, 7));
    }
    // One that is out of range is stepped as 0.
    let (mut lent, mut offset) = (500, 7);
    assert_eq!(step(&mut lent, 4_900, &mut offset), Ok(2));
    assert_eq!((lent, offset), (450, 900));
}

#[test]
fn border_pulses_are_kept_beside_a_refusal() {
    let mut border_pulses = 7;
    let mut cells = [9; 1];
    assert_eq!(separate(&[], &mut cells, &mut border_pulses), Err(Refusal::NoTimings));
    assert_eq!(separate(&[4_902, 0], &mut cells, &mut border_pulses), Err(Refusal::TimingOutOfRange(1)));
    assert_eq!(separate(&[4_902], &mut [], &mut border_pulses), Err(Refusal::NoRoom(1)));
    assert_eq!((border_pulses, cells), (7, [9]));
    assert_eq!(separate(&[4_902], &mut cells, &mut border_pulses), Ok(2));
    assert_eq!((border_pulses, cells), (1, [0b0100_0000]));
}

#[test]
fn cells_and_a_place_of_any_room() {
    let mut file = STANDARD.to_vec();
    (file[4], file[5]) = (84, 2);
    let rooms = [0, 1, 12_499, 12_500, 12_501, 16_384].into_iter();
    for (room, places) in rooms.flat_map(|room| (0..4).map(move |places| (room, places))) {
        let (mut cells, mut place) = (vec![7; room], vec![7; places]);
        let read = file_cells(&file, &mut cells, &mut place);
        if room < 12_500 {
            assert_eq!(read, Err(Refusal::NoRoom(12_500)));
            assert_eq!((cells, place), (vec![7; room], vec![7; places]));
        } else {
            assert_eq!(read, Ok(100_000));
            assert_eq!(cells[..12_500], *standard());
            assert!(cells[12_500..].iter().all(|&byte| byte == 7));
            assert_eq!(place, &[84, 2, 7][..places]);
        }
    }
}

#[test]
fn a_refused_file_writes_nothing() {
    let short = &STANDARD[..STANDARD.len() - 1];
    // Too little room is judged last.
    for room in [0, 12_500, 16_384] {
        let (mut cells, mut place) = (vec![7; room], [7; PLACE_NUMBERS]);
        assert_eq!(file_cells(short, &mut cells, &mut place), Err(Refusal::NotATrackFile));
        assert_eq!((cells, place), (vec![7; room], [7; PLACE_NUMBERS]));
    }
}

#[test]
fn as_much_of_a_listing_as_there_is_room_for() {
    let whole = b"T00 H0 cells 100000 sectors 9 findings 0\n";
    for room in [0, 1, whole.len(), whole.len() + 1] {
        let front = room.min(whole.len());
        let (mut out, mut out_of_file) = (vec![7; room], vec![7; room]);
        assert_eq!(listing(standard(), 100_000, 0, 0, &mut out), whole.len());
        assert_eq!(file_listing(STANDARD, &mut out_of_file), whole.len());
        for out in [out, out_of_file] {
            assert_eq!(out[..front], whole[..front]);
            assert!(out[front..].iter().all(|&byte| byte == 7));
        }
    }
}

#[test]
fn the_finding_of_two_reads_in_any_room() {
    let first = [0; 258];
    let mut second = first;
    (second[3], second[257]) = (0x81, 0xFF);
    for room in 0..=FINDING_NUMBERS + 1 {
        let front = room.min(FINDING_NUMBERS);
        let mut numbers = vec![7; room];
        assert_eq!(compare_reads(&first, &second, 0xFB, &mut numbers), Ok(1));
        assert_eq!(numbers[..front], [22, 1, 3, 10][..front]);
        assert!(numbers[front..].iter().all(|&number| number == 7));
        // Zeros where there is none, and beside a refusal.
        assert_eq!(compare_reads(&first, &first, 0xFB, &mut numbers), Ok(0));
        assert!(numbers[..front].iter().all(|&number| number == 0));
        numbers.fill(7);
        assert_eq!(compare_reads(&first, &second[1..], 0xFB, &mut numbers), Err(Refusal::LengthsDiffer));
        assert!(numbers[..front].iter().all(|&number| number == 0));
        assert!(numbers[front..].iter().all(|&number| number == 7));
    }
}

#[test]
fn the_low_byte_of_a_data_mark_counts() {
    // 128 zeros after A1 A1 A1 FB, and their check bytes.
    let mut read = [0; 130];
    let word = check_word_from(0xE295, &read[..128]);
    read[128..].copy_from_slice(&word.to_be_bytes());
    for (data_mark, length) in [(0xFB, 128), (0x1FB, 128), (0xFFFF_FFFB, 128), (0xFA, 0), (0xFB00, 0)] {
        let mut which = 7;
        assert_eq!(good_read(&read, &read, data_mark, &mut which), Ok(length));
        assert_eq!(which, 0);
    }
    let mut which = 7;
    assert_eq!(good_read(&read, &read[..129], 0xFB, &mut which), Err(Refusal::LengthsDiffer));
    assert_eq!(which, 0);
    which = 7;
    assert_eq!(good_read(&read[..129], &read[..129], 0xFB, &mut which), Err(Refusal::NotASectorLength));
    assert_eq!(which, 0);
}
