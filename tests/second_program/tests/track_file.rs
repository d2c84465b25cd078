//! Rules 10.1 to 10.7, 10.9 and 10.10: files at and past each limit, and the order of the
//! refusals.

use second_program::old_track_file;
use second_program::refusal::Refusal;
use second_program::track_file::{at_once, read, read_cells, TrackCells, ROOM_FOR_FINDINGS};
use test_inputs::file_inputs::{cut, file_of_cells, file_of_timings, files, mixed_file, FilePlan};
use test_inputs::track_builder::TrackBuilder;

fn assert_refused(file: &[u8], number: u32, value: u64) {
    assert_eq!(read(file), Err(Refusal { number, value }));
}

/// A file whose bytes these are, one part after the other.
fn joined(parts: &[&[u8]]) -> Vec<u8> {
    parts.concat()
}

/// A track of n cells with so many IDs.
fn ids_on(count: usize, n: usize) -> Vec<u8> {
    let mut builder = TrackBuilder::new();
    for number in 0..count {
        builder.write_id(0xFE, [0, 0, number as u8, 2], 0);
    }
    let mut track_cells = builder.cells().to_vec();
    while track_cells.len() < n {
        track_cells.push((track_cells.len() % 2) as u8);
    }
    track_cells
}

#[test]
fn a_file_of_cells() {
    // 20,000 is 4E20.
    let file = joined(&[
        &[2, 0, 0, 0, 5, 1, 0x20, 0x4E, 0, 0],
        &[0xAA; 2_500],
        &[0, 0, 0, 0],
    ]);
    let expected = TrackCells {
        drive_track: 5,
        drive_side: 1,
        n: 20_000,
        bytes: vec![0xAA; 2_500],
    };
    assert_eq!(read_cells(&file), Ok(expected.clone()));
    let track = read(&file).unwrap();
    assert_eq!(track.cells, expected);
    assert_eq!(track.sectors, []);
    // SHT, NOS and TNF.
    let kinds: Vec<u32> = track.findings.iter().map(|finding| finding.kind).collect();
    assert_eq!(kinds, [2, 3, 4]);
}

#[test]
fn a_place_count_that_is_not_2_is_refused_at_once() {
    for count in [0, 1, 3, 0x102, 0x0200_0000, u32::MAX] {
        let mut plan = FilePlan::of_timings(0, 0, &[10_000_000; 4]);
        plan.place_count = count;
        // 15 goes before 2 and before 23, and nothing need follow.
        for cell_count in [0, 131_073] {
            plan.cell_count = cell_count;
            let file = plan.bytes();
            for length in 0..file.len() {
                assert_refused(&cut(&file, length), 15, 0);
                assert_eq!(at_once(&cut(&file, length)).is_some(), length >= 4);
            }
        }
    }
}

#[test]
fn a_cell_count_above_131072_is_refused_at_once() {
    // 131,073 is 020001.
    let start = [2, 0, 0, 0, 84, 2, 1, 0, 2, 0];
    for length in 0..10 {
        assert_eq!(at_once(&start[..length]), None);
        assert_refused(&start[..length], 15, 0);
    }
    for rest in [
        // A short file; 23 for a timing; bytes left over.
        vec![],
        vec![0],
        [&[0; 16_385][..], &[1, 0, 0, 0, 0xA0, 0x0F, 0, 0]].concat(),
        [&[0; 16_385][..], &[1, 0, 1, 0]].concat(),
        [&[0; 16_385][..], &[0; 5]].concat(),
    ] {
        assert_refused(&joined(&[&start, &rest]), 2, 131_073);
    }
    let highest = [2, 0, 0, 0, 0, 0, 0xFF, 0xFF, 0xFF, 0xFF];
    assert_refused(&highest, 2, 4_294_967_295);
    assert_eq!(
        at_once(&highest),
        Some(Refusal {
            number: 2,
            value: 4_294_967_295
        })
    );
    // 131,072 cells are accepted.
    let most = joined(&[
        &[2, 0, 0, 0, 0, 0, 0, 0, 2, 0],
        &[0xAA; 16_384],
        &[0, 0, 0, 0],
    ]);
    assert_eq!(read(&most).unwrap().cells.n, 131_072);
    assert_refused(&most[..10], 15, 0);
}

#[test]
fn a_flux_count_other_than_0_is_refused_at_once() {
    // After no cells, after 9 cells in two bytes, and after the most.
    let no_cells = vec![2, 0, 0, 0, 84, 2, 0, 0, 0, 0];
    let nine = vec![2, 0, 0, 0, 84, 2, 9, 0, 0, 0, 0xAA, 0x80];
    let most = joined(&[&[2, 0, 0, 0, 5, 0, 0, 0, 2, 0], &[0xAA; 16_384]]);
    for start in [no_cells, nine, most] {
        // 1; 256, 65,536 and 16,777,216, of which only another byte is not 0; 65,537; the
        // highest of all.
        for count in [1, 1 << 8, 1 << 16, 1 << 24, 65_537, u32::MAX] {
            let file = joined(&[&start, &count.to_le_bytes()]);
            for length in 0..file.len() {
                assert_eq!(at_once(&file[..length]), None);
                assert_refused(&file[..length], 15, 0);
            }
            for rest in [vec![], vec![0], vec![0, 0, 0, 0], vec![0; 300_000]] {
                assert_refused(&joined(&[&file, &rest]), 23, 0);
            }
        }
    }
}

#[test]
fn twenty_three_goes_before_all_but_15_and_2_at_once() {
    for timings in [
        // Sound timings, one of 0, too many cells, no cells.
        &[10_000_000; 4][..],
        &[4_000, 0],
        &[10_000_000; 27],
        &[500],
    ] {
        for (drive_track, drive_side) in [(5, 0), (84, 0), (5, 2)] {
            let file = file_of_timings(drive_track, drive_side, timings);
            assert_refused(&file, 23, 0);
            assert_refused(&file[..14], 23, 0);
            assert_refused(&file[..13], 15, 0);
            assert_refused(&joined(&[&file, &[0]]), 23, 0);
        }
    }
    // Behind cells that are too few, or on no drive.
    for (drive_track, n) in [(5, 8), (84, 8), (84, 20_000)] {
        let mut plan = FilePlan::of_cells(drive_track, 0, n, &vec![0xAA; n / 8]);
        plan.flux_count = 1;
        assert_refused(&plan.bytes(), 23, 0);
        plan.flux_count = 0;
        plan.left_over = vec![0];
        assert_refused(&plan.bytes(), 15, 0);
    }
}

#[test]
fn a_file_that_is_cut_anywhere_is_a_short_file() {
    let file = file_of_cells(5, 0, &[1, 0].repeat(10_000));
    assert!(read(&file).is_ok());
    for length in 0..file.len() {
        assert_refused(&file[..length], 15, 0);
        assert_eq!(at_once(&file[..length]), None);
    }
}

#[test]
fn bytes_left_over_make_no_track_file() {
    let file = file_of_cells(5, 0, &[1, 0].repeat(10_000));
    for left_over in [&[0][..], &[0xFF], &[0; 4], &file] {
        assert_refused(&joined(&[&file, left_over]), 15, 0);
    }
}

#[test]
fn neither_cells_nor_timings_make_no_track_file() {
    for place in [[5, 0], [84, 2]] {
        let file = joined(&[&[2, 0, 0, 0], &place, &[0; 8]]);
        assert_refused(&file, 15, 0);
        assert_eq!(at_once(&file), None);
        assert_refused(&joined(&[&file, &[0; 4]]), 15, 0);
    }
}

#[test]
fn fifteen_goes_before_every_refusal_that_is_not_given_at_once() {
    for (file, number, value) in [
        // 1, 2 and 4.
        (file_of_cells(5, 2, &[0; 20_000]), 1, 0),
        (file_of_cells(5, 0, &[0; 19_999]), 2, 19_999),
        (file_of_cells(5, 0, &ids_on(65, 20_000)), 4, 65),
    ] {
        assert_refused(&file, number, value);
        assert_refused(&file[..file.len() - 1], 15, 0);
        assert_refused(&joined(&[&file, &[0]]), 15, 0);
    }
}

#[test]
fn the_refusals_of_findings_in_order() {
    let fewest = [1, 0].repeat(10_000);
    assert!(read(&file_of_cells(83, 1, &fewest)).is_ok());
    assert_refused(&file_of_cells(84, 1, &fewest), 1, 0);
    assert_refused(&file_of_cells(83, 2, &fewest), 1, 0);
    assert_refused(&file_of_cells(255, 255, &fewest), 1, 0);
    // 1 goes before 2, and 1 and 2 before 4.
    assert_refused(&file_of_cells(83, 1, &fewest[1..]), 2, 19_999);
    assert_refused(&file_of_cells(84, 1, &fewest[1..]), 1, 0);
    assert_refused(&file_of_cells(0, 0, &[1]), 2, 1);
    assert_eq!(
        read(&file_of_cells(0, 0, &ids_on(64, 20_000)))
            .unwrap()
            .sectors
            .len(),
        64
    );
    assert_refused(&file_of_cells(0, 0, &ids_on(65, 20_000)), 4, 65);
    assert_refused(&file_of_cells(84, 0, &ids_on(65, 20_000)), 1, 0);
    assert_refused(&file_of_cells(0, 0, &ids_on(65, 19_999)), 2, 19_999);
}

#[test]
fn what_is_refused_at_once_does_not_change_with_what_follows() {
    for seed in 0..500 {
        let file = mixed_file(seed).bytes;
        let mut stopped = None;
        for length in 0..=file.len().min(60) {
            let prefix = cut(&file, length);
            if stopped.is_some() {
                assert_eq!(at_once(&prefix), stopped);
            }
            stopped = at_once(&prefix);
            if let Some(refusal) = stopped {
                assert_eq!(read(&prefix), Err(refusal));
                assert_eq!(read(&file), Err(refusal));
            }
        }
    }
}

/// What changed: a flux count other than 0 is 23 now. Every other file is read as it was.
#[test]
fn files_without_a_flux_section_are_read_as_they_were() {
    let (mut without, mut with) = (0, 0);
    for file in files() {
        let new = read_cells(&file.bytes);
        if new == Err(Refusal::flux_section()) {
            with += 1;
        } else {
            without += 1;
            let old = old_track_file::read_cells(&file.bytes);
            assert_eq!(new, old.map(|old| old.cells), "{}", file.name);
        }
    }
    assert!(without > 5_000 && with > 2_000, "{without} and {with}");
}

#[test]
fn bits_past_the_cells_are_not_looked_at() {
    // 20,001 cells: seven bits of the last byte are unused.
    let mut packed = vec![0xAA; 2_500];
    packed.push(0x00);
    let plain = read(&FilePlan::of_cells(5, 0, 20_001, &packed).bytes()).unwrap();
    packed[2_500] = 0x7F;
    let ones_past = read(&FilePlan::of_cells(5, 0, 20_001, &packed).bytes()).unwrap();
    assert_eq!(plain.findings, ones_past.findings);
    assert_eq!(plain.sectors, ones_past.sectors);
}

#[test]
fn there_is_room_for_every_finding_of_64_sectors() {
    // Kinds 1 to 5, 20 and 21 once, kinds 6 to 19 for each sector.
    assert_eq!(ROOM_FOR_FINDINGS, 7 + 14 * 64);
}
