//! The converter: new files written out, files at and past each limit, the order of the
//! refusals; and that a converted file is listed, or refused, as the old one was.

use second_program::converter::{
    at_once, convert_file, converted, has_cells, is_corner, listed_after, listed_before, printed,
};
use second_program::old_track_file;
use second_program::refusal::Refusal;
use second_program::track_file::{read_cells, TrackCells};
use test_inputs::file_inputs::{cut, file_of_cells, file_of_timings, ids_on, FilePlan};
use test_inputs::flux_inputs::timings_of_cells;
use test_inputs::track_builder::standard_track;

/// The fewest bytes that a file of timings has: its three counts and its place.
const WITHOUT_TIMINGS: usize = 14;

fn assert_refused(file: &[u8], number: u32, value: u64) {
    assert_eq!(converted(file), Err(Refusal { number, value }));
    assert_eq!(printed(file), format!("refused {number}\n").as_bytes());
    // The refusal goes before that of the room.
    assert_eq!(convert_file(file, 0), Err(Refusal { number, value }));
}

fn assert_gives(file: &[u8], new_file: &[u8]) {
    assert_eq!(converted(file).as_deref(), Ok(new_file));
    assert_eq!(printed(file), new_file);
}

/// A file whose bytes these are, one part after the other.
fn joined(parts: &[&[u8]]) -> Vec<u8> {
    parts.concat()
}

#[test]
fn files_written_out() {
    // 4,000, 6,000 and 8,000 ns: 01, 001, 0001.
    let old = [
        2, 0, 0, 0, 5, 1, 0, 0, 0, 0, 3, 0, 0, 0, //
        0xA0, 0x0F, 0, 0, 0x70, 0x17, 0, 0, 0x40, 0x1F, 0, 0,
    ];
    let new = [2, 0, 0, 0, 5, 1, 9, 0, 0, 0, 0x48, 0x80, 0, 0, 0, 0];
    assert_gives(&old, &new);
    // 5,000 and 5,000 ns: 00101 (rule 3.14).
    let new = [2, 0, 0, 0, 80, 0, 5, 0, 0, 0, 0x28, 0, 0, 0, 0];
    assert_gives(&file_of_timings(80, 0, &[5_000, 5_000]), &new);
    // One cell. T and H are kept as they are, also where no drive has them.
    for (drive_track, drive_side) in [(0, 0), (83, 1), (84, 0), (0, 2), (255, 255)] {
        let new = [
            2,
            0,
            0,
            0,
            drive_track,
            drive_side,
            1,
            0,
            0,
            0,
            0x80,
            0,
            0,
            0,
            0,
        ];
        assert_gives(&file_of_timings(drive_track, drive_side, &[2_000]), &new);
        // A timing of 999 ns makes no cell, but moves the next: 1,001 and 499 are 1,500.
        let timings = [999, 1_001];
        assert_gives(&file_of_timings(drive_track, drive_side, &timings), &new);
    }
    // Eight cells fill a byte, nine need two; 256 are in the second byte of the count.
    let new = [2, 0, 0, 0, 1, 0, 8, 0, 0, 0, 0x01, 0, 0, 0, 0];
    assert_gives(&file_of_timings(1, 0, &[16_000]), &new);
    let new = [2, 0, 0, 0, 1, 0, 9, 0, 0, 0, 0x00, 0x80, 0, 0, 0, 0];
    assert_gives(&file_of_timings(1, 0, &[18_000]), &new);
    let new = joined(&[&[2, 0, 0, 0, 1, 0, 0, 1, 0, 0], &[0x55; 32], &[0; 4]]);
    assert_gives(&file_of_timings(1, 0, &[4_000; 128]), &new);
}

#[test]
fn the_longest_files() {
    // 65,536 timings of two cells; 131,072 is 020000.
    let old = file_of_timings(7, 1, &[4_000; 65_536]);
    let new = joined(&[&[2, 0, 0, 0, 7, 1, 0, 0, 2, 0], &[0x55; 16_384], &[0; 4]]);
    assert_eq!((old.len(), new.len()), (262_158, 16_398));
    assert_gives(&old, &new);
    assert_eq!(at_once(&old), None);
}

#[test]
fn a_new_file_is_read_with_its_cells() {
    // The standard track ends in two zeros, for which no timing stands.
    let standard = standard_track(9, 1, 0xE5);
    let new_file = converted(&file_of_timings(9, 1, &timings_of_cells(&standard))).unwrap();
    assert_eq!(new_file, file_of_cells(9, 1, &standard[..99_998]));
    let cells = read_cells(&new_file).unwrap();
    assert_eq!(
        (cells.drive_track, cells.drive_side, cells.n),
        (9, 1, 99_998)
    );
    // A new file is none for the converter.
    assert_refused(&new_file, 15, 0);
}

#[test]
fn a_place_count_that_is_not_2_is_refused_at_once() {
    for count in [0, 1, 3, 0x102, 0x0200_0000, u32::MAX] {
        let mut plan = FilePlan::of_timings(0, 0, &[10_000_000; 4]);
        plan.place_count = count;
        plan.flux_count = 65_537;
        let file = plan.bytes();
        for length in 0..file.len() {
            assert_refused(&cut(&file, length), 15, 0);
            assert_eq!(at_once(&cut(&file, length)).is_some(), length >= 4);
        }
    }
}

#[test]
fn a_cell_count_other_than_0_is_refused_at_once() {
    // Also where the old file was refused with 2, and before 7.
    for count in [
        1,
        8,
        20_000,
        131_072,
        131_073,
        1 << 8,
        1 << 16,
        1 << 24,
        u32::MAX,
    ] {
        let mut plan = FilePlan::of_timings(5, 0, &[10_000_000; 4]);
        plan.cell_count = count;
        for flux_count in [0, 4, 65_537] {
            plan.flux_count = flux_count;
            let file = plan.bytes();
            for length in 0..=file.len() {
                assert_refused(&cut(&file, length), 15, 0);
                assert_eq!(at_once(&cut(&file, length)).is_some(), length >= 10);
            }
        }
    }
    assert_refused(&file_of_cells(5, 0, &[1; 20_000]), 15, 0);
}

#[test]
fn a_flux_count_above_65536_is_refused_at_once() {
    for (count, value) in [(65_537, 65_537), (u32::MAX, 4_294_967_295)] {
        for place in [[5, 0], [84, 2]] {
            let start = joined(&[&[2, 0, 0, 0], &place, &[0; 4], &u32::to_le_bytes(count)]);
            for length in 0..start.len() {
                assert_eq!(at_once(&start[..length]), None);
                assert_refused(&start[..length], 15, 0);
            }
            for rest in [vec![], vec![0], vec![0; 4 * 65_537], vec![0; 4 * 65_538]] {
                assert_refused(&joined(&[&start, &rest]), 7, value);
            }
        }
    }
}

#[test]
fn files_that_are_too_short_or_too_long() {
    for timings in [vec![4_000], vec![0, 4_000], vec![10_000_000; 27], vec![500]] {
        let file = file_of_timings(84, 0, &timings);
        for length in 0..file.len() {
            assert_refused(&file[..length], 15, 0);
            assert_eq!(at_once(&file[..length]), None);
        }
        for left_over in [&[0][..], &[0xFF], &[0; 4], &file] {
            assert_refused(&joined(&[&file, left_over]), 15, 0);
        }
    }
    // No timings, and what looks like one behind them.
    let none = file_of_timings(5, 0, &[]);
    assert_eq!(none.len(), WITHOUT_TIMINGS);
    assert_refused(&none, 15, 0);
    assert_refused(&joined(&[&none, &4_000u32.to_le_bytes()]), 15, 0);
}

#[test]
fn timings_out_of_range_then_too_many_cells_then_none() {
    for place in [(5, 0), (84, 2)] {
        let file_of = |timings: &[u32]| file_of_timings(place.0, place.1, timings);
        assert_refused(&file_of(&[0]), 8, 0);
        assert_refused(&file_of(&[4_000, 10_000_001, 0]), 8, 1);
        assert_refused(&file_of(&[4_000, 1, u32::MAX]), 8, 2);
        // After timings that make no cell, and after too many cells.
        assert_refused(&file_of(&[1, 0]), 8, 1);
        let mut timings = vec![10_000_000; 27];
        assert_refused(&file_of(&timings), 9, 135_000);
        timings.push(0);
        assert_refused(&file_of(&timings), 8, 27);
        // 131,072 cells are the most.
        let mut timings = vec![10_000_000; 26];
        timings.push(2_000 * 1_072);
        assert_eq!(converted(&file_of(&timings)).unwrap().len(), 16_398);
        timings.push(999);
        assert_eq!(converted(&file_of(&timings)).unwrap().len(), 16_398);
        timings.push(1_501);
        assert_refused(&file_of(&timings), 9, 131_073);
        // No cells.
        assert_refused(&file_of(&[500]), 2, 0);
        assert_refused(&file_of(&[1; 65_536]), 2, 0);
        assert_refused(&file_of(&[999, 500]), 2, 0);
    }
}

#[test]
fn too_little_room_is_judged_last() {
    let file = file_of_timings(84, 0, &[18_000]);
    let new_file = converted(&file).unwrap();
    assert_eq!(new_file.len(), 16);
    for room in 0..16 {
        let refusal = Refusal {
            number: 10,
            value: 16,
        };
        assert_eq!(convert_file(&file, room), Err(refusal));
    }
    for room in [16, 17, 100_000] {
        assert_eq!(convert_file(&file, room), Ok(new_file.clone()));
    }
}

fn assert_listed(file: &[u8], expected: &str) {
    assert_eq!(String::from_utf8(listed_after(file)).unwrap(), expected);
    assert_eq!(listed_before(file).as_deref(), Some(expected.as_bytes()));
    assert!(!is_corner(file));
}

#[test]
fn a_converted_file_is_listed_as_the_old_one_was() {
    // Ones at 4,999, 9,999, 14,999 and 19,999, the last one a border pulse.
    let timings = [10_000_000, 10_000_000, 10_000_000, 9_999_050];
    assert_listed(
        &file_of_timings(80, 1, &timings),
        "T80 H1 cells 20000 sectors 0 findings 4\n\
         2 SHT level 1 place 0 detail 20000\n\
         3 NOS level 3 place 0 detail 0\n\
         20 MTV level 3 place 4999 detail 4\n\
         21 NFA level 1 place 0 detail 4999\n",
    );
    let old = old_track_file::listing(&file_of_timings(80, 1, &timings));
    assert!(old.ends_with(b"\nFAA 1\n"));
    // 1, 2 and 4 of the track.
    assert_listed(&file_of_timings(84, 0, &timings), "refused 1\n");
    assert_listed(&file_of_timings(83, 2, &timings), "refused 1\n");
    assert_listed(&file_of_timings(84, 0, &[4_000]), "refused 1\n");
    assert_listed(&file_of_timings(80, 0, &timings[1..]), "refused 2\n");
    assert_listed(&file_of_timings(80, 0, &[500]), "refused 2\n");
    for (sectors, listed) in [(64, "T05 H0 "), (65, "refused 4\n")] {
        let mut track_cells = ids_on(sectors, 25_000, 0);
        track_cells.extend([0, 1]);
        let file = file_of_timings(5, 0, &timings_of_cells(&track_cells));
        let after = listed_after(&file);
        assert!(after.starts_with(listed.as_bytes()));
        assert_eq!(listed_before(&file), Some(after));
    }
    // 7, 15, 8 and 9.
    let start = [2, 0, 0, 0, 84, 0, 0, 0, 0, 0, 1, 0, 1, 0];
    assert_listed(&start, "refused 7\n");
    assert_listed(&start[..13], "refused 15\n");
    assert_listed(&[3, 0, 0, 0, 5, 0, 1, 0, 0, 0], "refused 15\n");
    assert_listed(&file_of_timings(84, 0, &[4_000, 0]), "refused 8\n");
    assert_listed(&file_of_timings(84, 0, &[10_000_000; 27]), "refused 9\n");
}

#[test]
fn the_one_corner() {
    for (drive_track, drive_side) in [(84, 0), (0, 2), (255, 255)] {
        let file = file_of_timings(drive_track, drive_side, &[902]);
        assert!(is_corner(&file));
        assert_eq!(old_track_file::listing(&file), b"refused 1\n");
        assert_eq!(listed_after(&file), b"refused 2\n");
        assert_eq!(listed_before(&file).unwrap(), b"refused 2\n");
    }
}

#[test]
fn files_with_cells_are_none_for_the_converter() {
    let file = file_of_cells(5, 0, &[1; 20_000]);
    for length in 0..file.len() {
        let known = length >= 10;
        assert_eq!(has_cells(&file[..length]), known);
        assert_eq!(listed_before(&file[..length]).is_none(), known);
    }
    // With another place count the file is refused before its cells are known.
    let mut other = file.clone();
    other[0] = 3;
    assert!(!has_cells(&other));
    assert_listed(&other, "refused 15\n");
    assert!(matches!(
        read_cells(&file),
        Ok(TrackCells { n: 20_000, .. })
    ));
}
