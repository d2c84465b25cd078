//! What was: files with a cell section or a flux section at and past each limit, the order
//! of the refusals, and the listings with their line of border pulses.

use second_program::cells;
use second_program::old_track_file::{
    at_once, listing, listing_without_border_line, read_cells, OldTrackCells,
};
use second_program::refusal::Refusal;
use second_program::track_file::{analysed, Track, TrackCells};
use test_inputs::file_inputs::{cut, file_of_cells, file_of_timings, mixed_file, FilePlan};
use test_inputs::flux_inputs::timings_of_cells;
use test_inputs::track_builder::standard_track;

/// 10,000,000, low byte first: 5,000 cells.
const LONGEST: [u8; 4] = [0x80, 0x96, 0x98, 0x00];

/// A whole file as it was read, with the sectors and findings of its track.
fn read(file: &[u8]) -> Result<Track, Refusal> {
    analysed(read_cells(file)?.cells)
}

/// The border pulses of a file that was not refused.
fn border_pulses_of(file: &[u8]) -> Option<usize> {
    read_cells(file).unwrap().border_pulses
}

fn assert_refused(file: &[u8], number: u32, value: u64) {
    assert_eq!(read(file), Err(Refusal { number, value }));
}

/// A file whose bytes these are, one part after the other.
fn joined(parts: &[&[u8]]) -> Vec<u8> {
    parts.concat()
}

#[test]
fn a_file_of_cells() {
    // 20,000 is 4E20.
    let file = joined(&[
        &[2, 0, 0, 0, 5, 1, 0x20, 0x4E, 0, 0],
        &[0xAA; 2_500],
        &[0, 0, 0, 0],
    ]);
    let expected = TrackCells {
        drive_track: 5,
        drive_side: 1,
        n: 20_000,
        bytes: vec![0xAA; 2_500],
    };
    assert_eq!(
        read_cells(&file),
        Ok(OldTrackCells {
            cells: expected.clone(),
            border_pulses: None
        })
    );
    let track = read(&file).unwrap();
    assert_eq!(track.cells, expected);
    assert_eq!(track.sectors, []);
    // SHT, NOS and TNF.
    let kinds: Vec<u32> = track.findings.iter().map(|finding| finding.kind).collect();
    assert_eq!(kinds, [2, 3, 4]);
}

#[test]
fn a_file_of_timings() {
    let file = joined(&[
        &[2, 0, 0, 0, 80, 0, 0, 0, 0, 0, 4, 0, 0, 0],
        &LONGEST.repeat(4),
    ]);
    let track = read(&file).unwrap();
    assert_eq!((track.cells.drive_track, track.cells.drive_side), (80, 0));
    assert_eq!((track.cells.n, track.cells.bytes.len()), (20_000, 2_500));
    for place in 0..20_000 {
        let one = u8::from(place % 5_000 == 4_999);
        assert_eq!(cells::cell(&track.cells.bytes, 20_000, place), one);
    }
    assert_eq!(border_pulses_of(&file), Some(0));
}

#[test]
fn the_border_pulses_of_all_timings_are_counted() {
    // Before, between and after timings of 5,000 cells; 4,902 and 5,098 are border pulses.
    for (timings, number) in [
        (vec![4_901, 10_000_000, 5_099], 0),
        (vec![4_902, 10_000_000, 10_000_000], 1),
        (vec![10_000_000, 10_000_000, 5_098], 1),
        (vec![10_000_000, 4_902, 4_451, 4_451, 10_000_000], 3),
        // Without cells of their own.
        (vec![902, 451, 10_000_000], 2),
        (
            [vec![3_098], vec![3_549; 699], vec![10_000_000]].concat(),
            700,
        ),
    ] {
        let file = file_of_timings(5, 0, &timings);
        assert_eq!(border_pulses_of(&file), Some(number));
    }
    // No cells at all: the timings are accepted, the track is not.
    let file = file_of_timings(5, 0, &[902]);
    assert_eq!(border_pulses_of(&file), Some(1));
    assert_refused(&file, 2, 0);
}

#[test]
fn border_pulses_do_not_change_what_is_refused() {
    assert_refused(&file_of_timings(5, 0, &[4_902, 0, 4_902]), 8, 1);
    assert_refused(&file_of_timings(84, 0, &[4_902]), 1, 0);
    assert_refused(&file_of_timings(5, 0, &[4_902]), 2, 2);
    let mut many = vec![10_000_000; 27];
    many[0] = 9_999_098;
    assert_refused(&file_of_timings(5, 0, &many), 9, 135_000);
    let file = file_of_timings(5, 0, &[4_902; 3]);
    assert_refused(&file[..file.len() - 1], 15, 0);
    assert_refused(&joined(&[&file, &[0]]), 15, 0);
}

#[test]
fn a_place_count_that_is_not_2_is_refused_at_once() {
    for count in [0, 1, 3, 0x102, 0x0200_0000, u32::MAX] {
        let mut plan = FilePlan::of_timings(0, 0, &[10_000_000; 4]);
        plan.place_count = count;
        // 15 goes before 2 and before 7, and nothing need follow.
        plan.cell_count = 131_073;
        plan.flux_count = 65_537;
        let file = plan.bytes();
        for length in 0..file.len() {
            assert_refused(&cut(&file, length), 15, 0);
            assert_eq!(at_once(&cut(&file, length)).is_some(), length >= 4);
        }
    }
}

#[test]
fn a_cell_count_above_131072_is_refused_at_once() {
    // 131,073 is 020001.
    let start = [2, 0, 0, 0, 84, 2, 1, 0, 2, 0];
    for length in 0..10 {
        assert_eq!(at_once(&start[..length]), None);
        assert_refused(&start[..length], 15, 0);
    }
    for rest in [
        // A short file; 15 for two counts; 7; bytes left over.
        vec![],
        vec![0],
        [&[0; 16_385][..], &[1, 0, 0, 0, 0xA0, 0x0F, 0, 0]].concat(),
        [&[0; 16_385][..], &[1, 0, 1, 0]].concat(),
        [&[0; 16_385][..], &[0; 5]].concat(),
    ] {
        assert_refused(&joined(&[&start, &rest]), 2, 131_073);
    }
    let highest = [2, 0, 0, 0, 0, 0, 0xFF, 0xFF, 0xFF, 0xFF];
    assert_refused(&highest, 2, 4_294_967_295);
    assert_eq!(
        at_once(&highest),
        Some(Refusal {
            number: 2,
            value: 4_294_967_295
        })
    );
    // 131,072 cells are accepted.
    let most = joined(&[
        &[2, 0, 0, 0, 0, 0, 0, 0, 2, 0],
        &[0xAA; 16_384],
        &[0, 0, 0, 0],
    ]);
    assert_eq!(read(&most).unwrap().cells.n, 131_072);
    assert_refused(&most[..10], 15, 0);
}

#[test]
fn a_flux_count_above_65536_is_refused_at_once() {
    // 65,537 is 010001; after no cells, and after 9 cells in two bytes.
    for start in [
        vec![2, 0, 0, 0, 84, 2, 0, 0, 0, 0, 1, 0, 1, 0],
        vec![2, 0, 0, 0, 84, 2, 9, 0, 0, 0, 0xAA, 0x80, 1, 0, 1, 0],
    ] {
        for length in 0..start.len() {
            assert_eq!(at_once(&start[..length]), None);
            assert_refused(&start[..length], 15, 0);
        }
        for rest in [vec![], vec![0], vec![0; 4 * 65_537], vec![0; 4 * 65_538]] {
            assert_refused(&joined(&[&start, &rest]), 7, 65_537);
        }
    }
    let highest = [2, 0, 0, 0, 0, 0, 0, 0, 0, 0, 0xFF, 0xFF, 0xFF, 0xFF];
    assert_refused(&highest, 7, 4_294_967_295);
    // 65,536 timings of two cells are accepted.
    let most = file_of_timings(0, 0, &vec![4_000; 65_536]);
    assert_eq!(at_once(&most), None);
    assert_eq!(read(&most).unwrap().cells.n, 131_072);
}

#[test]
fn a_file_that_is_cut_anywhere_is_a_short_file() {
    for file in [
        file_of_timings(5, 0, &[10_000_000; 4]),
        file_of_cells(5, 0, &[1, 0].repeat(10_000)),
    ] {
        assert!(read(&file).is_ok());
        for length in 0..file.len() {
            assert_refused(&file[..length], 15, 0);
            assert_eq!(at_once(&file[..length]), None);
        }
    }
}

#[test]
fn bytes_left_over_make_no_track_file() {
    for file in [
        file_of_timings(5, 0, &[10_000_000; 4]),
        file_of_cells(5, 0, &[1, 0].repeat(10_000)),
    ] {
        for left_over in [&[0][..], &[0xFF], &[0; 4], &file] {
            assert_refused(&joined(&[&file, left_over]), 15, 0);
        }
    }
}

#[test]
fn both_or_neither_of_the_counts_zero_make_no_track_file() {
    assert_refused(&[2, 0, 0, 0, 5, 0, 0, 0, 0, 0, 0, 0, 0, 0], 15, 0);
    let mut plan = FilePlan::of_cells(5, 0, 20_000, &[0xAA; 2_500]);
    plan.flux_count = 1;
    plan.timings = vec![4_000];
    assert_refused(&plan.bytes(), 15, 0);
    plan.flux_count = 65_536;
    plan.timings = vec![4_000; 65_536];
    assert_refused(&plan.bytes(), 15, 0);
    // One more gives 7, which goes before 15.
    plan.flux_count = 65_537;
    assert_refused(&plan.bytes(), 7, 65_537);
}

#[test]
fn fifteen_goes_before_every_refusal_that_is_not_given_at_once() {
    let longest = [10_000_000; 27];
    for (file, number, value) in [
        // 8, 9, 1 and 2.
        (file_of_timings(5, 0, &[4_000, 0]), 8, 1),
        (file_of_timings(5, 0, &longest), 9, 135_000),
        (file_of_timings(84, 0, &longest[..4]), 1, 0),
        (file_of_cells(5, 2, &[0; 20_000]), 1, 0),
        (file_of_cells(5, 0, &[0; 19_999]), 2, 19_999),
    ] {
        assert_refused(&file, number, value);
        assert_refused(&file[..file.len() - 1], 15, 0);
        assert_refused(&joined(&[&file, &[0]]), 15, 0);
    }
    // Two counts go before 8, 1 and 2.
    let mut plan = FilePlan::of_cells(84, 0, 8, &[0xAA]);
    plan.flux_count = 1;
    plan.timings = vec![0];
    assert_refused(&plan.bytes(), 15, 0);
}

#[test]
fn timings_out_of_range_go_before_all_but_15() {
    assert_refused(&file_of_timings(84, 0, &[0]), 8, 0);
    assert_refused(&file_of_timings(84, 2, &[4_000, 10_000_001, 0]), 8, 1);
    assert_refused(&file_of_timings(0, 0, &[4_000, 1, u32::MAX]), 8, 2);
    // Also after the cells have passed 131,072.
    let mut timings = vec![10_000_000; 27];
    timings.push(0);
    assert_refused(&file_of_timings(0, 0, &timings), 8, 27);
    // 1 and 10,000,000 are in range: 25,000 cells, and none for the 1.
    let mut timings = vec![10_000_000; 5];
    timings.push(1);
    assert_eq!(
        read(&file_of_timings(0, 0, &timings)).unwrap().cells.n,
        25_000
    );
}

#[test]
fn too_many_cells_in_all_go_before_1() {
    let mut timings = vec![10_000_000; 26];
    timings.push(2_000 * 1_072);
    assert_eq!(
        read(&file_of_timings(0, 0, &timings)).unwrap().cells.n,
        131_072
    );
    timings.push(2_000);
    assert_refused(&file_of_timings(0, 0, &timings), 9, 131_073);
    assert_refused(&file_of_timings(84, 2, &timings), 9, 131_073);
}

#[test]
fn no_cells_from_timings_are_refused_with_1_or_2() {
    assert_refused(&file_of_timings(83, 1, &[500]), 2, 0);
    assert_refused(&file_of_timings(84, 1, &[500]), 1, 0);
    assert_refused(&file_of_timings(0, 0, &vec![1; 65_536]), 2, 0);
}

#[test]
fn what_is_refused_at_once_does_not_change_with_what_follows() {
    for seed in 0..500 {
        let file = mixed_file(seed).bytes;
        let mut stopped = None;
        for length in 0..=file.len().min(60) {
            let prefix = cut(&file, length);
            if stopped.is_some() {
                assert_eq!(at_once(&prefix), stopped);
            }
            stopped = at_once(&prefix);
            if let Some(refusal) = stopped {
                assert_eq!(read(&prefix), Err(refusal));
                assert_eq!(read(&file), Err(refusal));
            }
        }
    }
}

fn assert_prints(file: &[u8], lines: &str, border_line: &str) {
    let text = |bytes: Vec<u8>| String::from_utf8(bytes).unwrap();
    assert_eq!(text(listing(file)), format!("{lines}{border_line}"));
    assert_eq!(text(listing_without_border_line(file)), lines);
}

#[test]
fn listings_of_timings() {
    // Ones at 4,999, 9,999, 14,999 and 19,999; four equal runs of 4,999 zeros.
    assert_prints(
        &file_of_timings(5, 1, &[10_000_000; 4]),
        "T05 H1 cells 20000 sectors 0 findings 5\n\
         2 SHT level 1 place 0 detail 20000\n\
         3 NOS level 3 place 0 detail 0\n\
         4 TNF level 2 place 0 detail 0\n\
         20 MTV level 3 place 4999 detail 4\n\
         21 NFA level 1 place 0 detail 4999\n",
        "FAA 0\n",
    );
}

#[test]
fn the_line_of_border_pulses() {
    // 10,000 timings of two cells: the first, the last and one in between end 902 ns off
    // the centre.
    let mut timings = vec![4_000; 10_000];
    timings[0] = 4_902;
    timings[4_000] = 3_098;
    timings[9_999] = 4_902;
    let lines = "T83 H1 cells 20000 sectors 0 findings 2\n\
                 2 SHT level 1 place 0 detail 20000\n\
                 3 NOS level 3 place 0 detail 0\n";
    assert_prints(&file_of_timings(83, 1, &timings), lines, "FAA 3\n");
    // One nanosecond less, and they are none; the cells are the same.
    for (index, timing) in [(0, 4_901), (4_000, 3_099), (9_999, 4_901)] {
        timings[index] = timing;
    }
    assert_prints(&file_of_timings(83, 1, &timings), lines, "FAA 0\n");
    // Hundreds of them.
    timings[0] = 3_098;
    timings[1..300].fill(3_549);
    assert_prints(&file_of_timings(83, 1, &timings), lines, "FAA 300\n");
    // The same cells as such had no line.
    let cells = read_cells(&file_of_timings(83, 1, &timings)).unwrap().cells;
    let file = FilePlan::of_cells(83, 1, cells.n, &cells.bytes).bytes();
    assert_prints(&file, lines, "");
}

#[test]
fn a_track_without_findings_had_the_line_as_well() {
    // The standard track ends in two zeros, for which no timing stands.
    let mut track_cells = standard_track(0, 0, 0xE5);
    track_cells.rotate_right(2);
    let mut timings = timings_of_cells(&track_cells);
    let lines = "T00 H0 cells 100000 sectors 9 findings 0\n";
    assert_prints(&file_of_timings(0, 0, &timings), lines, "FAA 0\n");
    timings[7] += 902;
    assert_prints(&file_of_timings(0, 0, &timings), lines, "FAA 1\n");
}

#[test]
fn refused_files_had_one_line() {
    for (file, line) in [
        (vec![], "refused 15\n"),
        (vec![3, 0, 0, 0], "refused 15\n"),
        (vec![2, 0, 0, 0, 0, 0, 1, 0, 2, 0], "refused 2\n"),
        (
            vec![2, 0, 0, 0, 0, 0, 0, 0, 0, 0, 1, 0, 1, 0],
            "refused 7\n",
        ),
        (file_of_timings(0, 0, &[0]), "refused 8\n"),
        (file_of_timings(0, 0, &[4_902, 0]), "refused 8\n"),
        (file_of_timings(0, 0, &[10_000_000; 27]), "refused 9\n"),
        (file_of_timings(84, 0, &[10_000_000; 4]), "refused 1\n"),
        (file_of_timings(0, 2, &[9_999_098; 4]), "refused 1\n"),
        (file_of_timings(0, 0, &[9_999_098; 3]), "refused 2\n"),
        (file_of_cells(0, 0, &[1; 19_999]), "refused 2\n"),
        // No cells at all.
        (file_of_timings(0, 0, &[902]), "refused 2\n"),
        (file_of_timings(84, 0, &[902]), "refused 1\n"),
    ] {
        assert_prints(&file, line, "");
    }
}
