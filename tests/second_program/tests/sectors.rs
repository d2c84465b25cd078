//! Rules 6.1 to 6.19, and the refusals of calls on sectors.

use second_program::cells;
use second_program::check_word::check_word;
use second_program::refusal::Refusal;
use second_program::sectors::{list, read_out, sector_by_index, ReadOut, SectorRecord};
use test_inputs::random::Random;
use test_inputs::track_builder::{
    standard_track, turn, SectorPlan, TrackBuilder, STANDARD_TRACK_CELLS,
};

fn refused<T>(number: u32, value: u64) -> Result<T, Refusal> {
    Err(Refusal { number, value })
}

/// The list of the cells, one cell to an element.
fn list_of(track_cells: &[u8]) -> Vec<SectorRecord> {
    list(&cells::pack(track_cells), track_cells.len())
}

/// A builder after some bytes of gap, for one sector to come.
fn builder() -> TrackBuilder {
    let mut builder = TrackBuilder::new();
    builder.write_repeated(0x4E, 60);
    builder.write_repeated(0x00, 12);
    builder
}

#[test]
fn the_standard_track() {
    let track_cells = standard_track(5, 1, 0xE5);
    assert_eq!(track_cells.len(), 100_000);
    let sectors = list_of(&track_cells);
    assert_eq!(sectors.len(), 9);
    for (index, sector) in sectors.iter().enumerate() {
        let p = 1_152 + 9_824 * index;
        let expected = SectorRecord {
            place: p,
            mark: 0xFE,
            track: 5,
            side: 1,
            number: 1 + index as u8,
            size_code: 2,
            id_check_good: true,
            data_place: p + 704,
            data_mark: 0xFB,
            length: 512,
            data_check_good: true,
            data_end: p + 704 + 8_288,
            density: 2,
        };
        assert_eq!(*sector, expected);
    }
}

#[test]
fn a_turned_track_has_the_same_sectors() {
    let n = STANDARD_TRACK_CELLS;
    let plain = list_of(&standard_track(0, 0, 0x00));
    let mut random = Random::new(11);
    let mut turns = vec![
        0,
        1,
        98_144,
        98_145,
        98_800,
        98_832,
        98_847,
        98_848,
        n - 1,
        n,
    ];
    turns.extend((0..6).map(|_| random.below(n as u64) as usize));
    for by in turns {
        let turned = list_of(&turn(&standard_track(0, 0, 0x00), by));
        let mut expected: Vec<SectorRecord> = plain
            .iter()
            .map(|sector| SectorRecord {
                place: (sector.place + by) % n,
                data_place: (sector.place + by) % n + 704,
                // Counted on past N, as the data mark's place is.
                data_end: (sector.place + by) % n + 704 + 8_288,
                ..*sector
            })
            .collect();
        expected.sort_by_key(|sector| sector.place);
        assert_eq!(turned, expected, "turned by {by}");
    }
}

#[test]
fn only_fc_to_ff_make_an_id_mark() {
    for byte in 0..=255 {
        let mut builder = builder();
        builder.write_three_syncs();
        builder.write_byte(byte);
        builder.write_repeated(0x4E, 100);
        let sectors = list_of(builder.cells());
        let expected = usize::from(byte >= 0xFC);
        assert_eq!(sectors.len(), expected);
        if expected == 1 {
            assert_eq!(sectors[0].mark, byte);
            assert_eq!(sectors[0].place, 1_152);
            assert!(!sectors[0].id_check_good);
        }
    }
}

#[test]
fn only_f8_to_fb_make_a_data_mark() {
    for byte in 0..=255 {
        let mut builder = builder();
        builder.write_sector(&SectorPlan {
            data_mark: Some(byte),
            ..SectorPlan::standard(0, 0, 1, 0x00)
        });
        builder.write_repeated(0x4E, 100);
        let sector = list_of(builder.cells())[0];
        if (0xF8..=0xFB).contains(&byte) {
            assert_eq!(sector.data_mark, byte);
            assert_eq!(sector.data_place, 1_152 + 704);
            assert_eq!(sector.length, 512);
            assert!(sector.data_check_good);
            assert_eq!(sector.data_end, 1_152 + 704 + 8_288);
        } else {
            assert_eq!(sector.data_mark, 0);
            assert_eq!(sector.data_place, 0);
            assert_eq!(sector.length, 0);
            assert!(!sector.data_check_good);
            assert_eq!(sector.data_end, 0);
        }
        assert!(sector.id_check_good);
        assert_eq!(sector.density, 2);
    }
}

#[test]
fn of_four_syncs_the_second_is_the_place() {
    let mut builder = builder();
    builder.write_sync_a1();
    builder.write_sector(&SectorPlan::standard(0, 0, 1, 0x00));
    let sectors = list_of(builder.cells());
    assert_eq!(sectors.len(), 1);
    assert_eq!(sectors[0].place, 1_152 + 16);
    assert!(sectors[0].id_check_good);
}

#[test]
fn distances_160_and_784_are_found_and_785_not() {
    for (gap_cells, found) in [(0, true), (1, true), (544, true), (624, true), (625, false)] {
        let mut builder = builder();
        builder.write_sector(&SectorPlan {
            gap_cells,
            ..SectorPlan::standard(0, 0, 1, 0x00)
        });
        builder.write_repeated(0x4E, 100);
        let sector = list_of(builder.cells())[0];
        assert_eq!(sector.has_data(), found, "gap of {gap_cells} cells");
        if found {
            assert_eq!(sector.data_place - sector.place, 160 + gap_cells);
            assert!(sector.data_check_good);
        }
    }
}

#[test]
fn distance_159_is_not_found() {
    // A number whose ID check ends in a 0, so that the sync may overlap it.
    for (cut, found) in [(0, true), (1, false)] {
        let mut builder = builder();
        let number = (1..=255).find(|&number| {
            let covered = [0xA1, 0xA1, 0xA1, 0xFE, 0, 0, number, 2];
            check_word(&covered) & 1 == 0
        });
        builder.write_id(0xFE, [0, 0, number.unwrap(), 2], 0);
        builder.remove_last(cut);
        builder.write_data(0xFB, &[0; 512], 0);
        builder.write_repeated(0x4E, 100);
        let sector = list_of(builder.cells())[0];
        assert!(sector.id_check_good);
        assert_eq!(sector.has_data(), found);
    }
}

#[test]
fn the_least_data_mark_is_taken() {
    let mut builder = builder();
    builder.write_id(0xFE, [0, 0, 1, 2], 0);
    builder.write_three_syncs();
    builder.write_byte(0xF8);
    builder.write_repeated(0x4E, 10);
    builder.write_data(0xFB, &[0; 512], 0);
    builder.write_repeated(0x4E, 1_000);
    let sector = list_of(builder.cells())[0];
    assert_eq!(sector.data_place, sector.place + 160);
    assert_eq!(sector.data_mark, 0xF8);
    assert!(!sector.data_check_good);
}

#[test]
fn an_id_mark_in_between_does_not_end_the_search() {
    let mut builder = builder();
    builder.write_id(0xFE, [0, 0, 1, 2], 0);
    builder.write_id(0xFE, [0, 0, 2, 2], 0);
    builder.write_data(0xFB, &[0; 512], 0);
    builder.write_repeated(0x4E, 100);
    let sectors = list_of(builder.cells());
    assert_eq!(sectors.len(), 2);
    assert_eq!(sectors[0].data_place, sectors[1].data_place);
    assert_eq!(sectors[0].data_place, sectors[0].place + 320);
}

#[test]
fn size_codes() {
    for (size_code, length) in [
        (0, 128),
        (1, 256),
        (2, 512),
        (3, 1_024),
        // Above 3 the remainder by 4 decides.
        (4, 128),
        (5, 256),
        (6, 512),
        (7, 1_024),
        (8, 128),
        (64, 128),
        (127, 1_024),
        (128, 128),
        (229, 256),
        (254, 512),
        (255, 1_024),
    ] {
        let mut builder = builder();
        builder.write_sector(&SectorPlan {
            size_code,
            data: vec![0x6C; length],
            ..SectorPlan::standard(0, 0, 1, 0x00)
        });
        builder.write_repeated(0x4E, 100);
        let sector = list_of(builder.cells())[0];
        assert_eq!(sector.size_code, size_code);
        assert_eq!(sector.length, length);
        assert_eq!(sector.data_mark, 0xFB);
        assert_eq!(sector.data_place, sector.place + 704);
        assert_eq!(sector.data_end, sector.data_place + 96 + 16 * length);
        assert!(sector.data_check_good);
    }
}

#[test]
fn every_size_code_reads_one_of_four_lengths() {
    let data: Vec<u8> = (0..1_024).map(|i| (i % 251) as u8).collect();
    for size_code in 0..=255 {
        // The check of one of the four lengths only is good.
        let good: Vec<usize> = [128, 256, 512, 1_024]
            .into_iter()
            .filter(|&length| {
                let mut builder = builder();
                builder.write_sector(&SectorPlan {
                    size_code,
                    data: data[..length].to_vec(),
                    ..SectorPlan::standard(0, 0, 1, 0x00)
                });
                builder.write_repeated(0x4E, 1_200);
                let bytes = builder.packed();
                let n = builder.cells().len();
                let read = read_out(0, 0, &bytes, n, 0, 1_024).unwrap();
                let front = read.length.min(length);
                assert_eq!(read.bytes[..front], data[..front]);
                read.check_good
            })
            .collect();
        assert_eq!(good, [128 << (size_code & 3)], "size code {size_code}");
    }
}

#[test]
fn bad_checks() {
    for error in [0x0001, 0x8000, 0x0100] {
        let mut builder = builder();
        builder.write_sector(&SectorPlan {
            id_check_error: error,
            ..SectorPlan::standard(0, 0, 1, 0x00)
        });
        builder.write_repeated(0x00, 12);
        builder.write_sector(&SectorPlan {
            data_check_error: error,
            ..SectorPlan::standard(0, 0, 2, 0x00)
        });
        let sectors = list_of(builder.cells());
        assert_eq!(sectors.len(), 2);
        assert!(!sectors[0].id_check_good);
        assert!(sectors[0].data_check_good);
        assert!(sectors[1].id_check_good);
        assert!(!sectors[1].data_check_good);
    }
}

#[test]
fn reading_out_goes_round_the_track() {
    let mut random = Random::new(9);
    let data: Vec<u8> = (0..512).map(|_| random.byte()).collect();
    let mut builder = builder();
    builder.write_sector(&SectorPlan {
        data: data.clone(),
        ..SectorPlan::standard(7, 1, 1, 0x00)
    });
    builder.write_repeated(0x4E, 700);
    let track_cells = builder.cells();
    let n = track_cells.len();
    for by in [0, n - 1_152, n - 1_152 - 704 - 2_001, n - 1_153, 77] {
        let bytes = cells::pack(&turn(track_cells, by));
        let expected = ReadOut {
            length: 512,
            check_good: true,
            bytes: data.clone(),
        };
        assert_eq!(read_out(7, 1, &bytes, n, 0, 512), Ok(expected));
    }
}

#[test]
fn refusals_in_order() {
    let bytes = cells::pack(&standard_track(0, 0, 0x00));
    let n = 100_000;
    assert_eq!(
        sector_by_index(84, 0, &[], 0, 99).map(|answer| answer.1),
        refused(1, 0)
    );
    assert_eq!(read_out(0, 2, &[], 0, 99, 0), refused(1, 0));
    assert_eq!(read_out(83, 1, &[], 19_999, 99, 0), refused(2, 19_999));
    assert_eq!(read_out(0, 0, &[], 131_073, 99, 0), refused(2, 131_073));
    assert_eq!(read_out(0, 0, &[], 20_000, 99, 0), refused(3, 2_500));
    assert_eq!(read_out(0, 0, &[], 131_072, 99, 0), refused(3, 16_384));
    assert_eq!(read_out(0, 0, &[0; 12_499], n, 99, 0), refused(3, 12_500));
    assert_eq!(read_out(0, 0, &[0; 12_500], n - 7, 0, 0), refused(11, 0));
    assert_eq!(
        read_out(0, 0, &[0; 12_499], n - 7, 0, 0),
        refused(3, 12_500)
    );
    assert_eq!(read_out(0, 0, &bytes, n, 9, 0), refused(11, 9));
    assert_eq!(read_out(0, 0, &bytes, n, usize::MAX, 0), refused(11, 9));
    assert_eq!(read_out(0, 0, &bytes, n, 8, 511), refused(13, 512));
    let read = read_out(83, 1, &bytes, n, 8, 512).unwrap();
    assert_eq!(read.bytes, [0; 512]);
    assert_eq!(sector_by_index(0, 0, &bytes, n, 8).unwrap().1, 9);
    assert_eq!(
        sector_by_index(0, 0, &bytes, n, 9).map(|answer| answer.1),
        refused(11, 9)
    );
}

#[test]
fn only_a_sector_without_data_mark_has_no_data() {
    for size_code in [0, 2, 3, 4, 6, 255] {
        let mut builder = builder();
        builder.write_id(0xFE, [0, 0, 1, size_code], 0);
        builder.write_repeated(0x4E, 1_200);
        let sector = list_of(builder.cells())[0];
        assert!(!sector.has_data());
        assert_eq!((sector.data_place, sector.data_mark), (0, 0));
        assert_eq!((sector.length, sector.data_check_good), (0, false));
        assert_eq!((sector.data_end, sector.density), (0, 2));
        let bytes = builder.packed();
        let n = builder.cells().len();
        for room in [0, 1_024] {
            assert_eq!(read_out(0, 0, &bytes, n, 0, room), refused(12, 0));
        }
        assert_eq!(read_out(0, 0, &bytes, n, 1, 0), refused(11, 1));
    }
}

#[test]
fn the_data_end_may_lie_at_the_index_and_past_it() {
    let standard = standard_track(0, 0, 0x00);
    let n = standard.len();
    // The last sector's data end stands at 1,152 + 8 * 9,824 + 704 + 8,288 = 88,736.
    for (by, end) in [
        (n - 88_737, n - 1),
        (n - 88_736, n),
        (n - 88_735, n + 1),
        // Its ID mark at the last cell.
        (n - 79_745, n + 8_991),
    ] {
        let sectors = list_of(&turn(&standard, by));
        assert_eq!(sectors[8].data_end, end, "turned by {by}");
    }
}

#[test]
fn the_record_of_zeros() {
    let zeros = SectorRecord::default();
    assert!(!zeros.has_data());
    assert!(!zeros.id_check_good && !zeros.data_check_good);
    assert_eq!((zeros.place, zeros.data_place, zeros.data_end), (0, 0, 0));
    assert_eq!((zeros.length, zeros.density), (0, 0));
}

#[test]
fn reading_out_by_size_codes_above_3() {
    for (size_code, length) in [(4, 128), (6, 512), (255, 1_024)] {
        let data: Vec<u8> = (0..length).map(|i| (i / 3) as u8).collect();
        for error in [0, 0x0100] {
            let mut builder = builder();
            builder.write_sector(&SectorPlan {
                size_code,
                data: data.clone(),
                data_check_error: error,
                ..SectorPlan::standard(0, 0, 1, 0x00)
            });
            builder.write_repeated(0x4E, 1_200);
            let bytes = builder.packed();
            let n = builder.cells().len();
            let short = read_out(0, 0, &bytes, n, 0, length - 1);
            assert_eq!(short, refused(13, length as u64));
            let expected = ReadOut {
                length,
                check_good: error == 0,
                bytes: data.clone(),
            };
            assert_eq!(read_out(0, 0, &bytes, n, 0, length), Ok(expected));
        }
    }
}

#[test]
fn more_than_64_sectors_are_refused() {
    for count in [64, 65, 80] {
        let mut builder = builder();
        for number in 0..count {
            builder.write_id(0xFE, [0, 0, number, 2], 0);
            builder.write_repeated(0x4E, 10);
        }
        builder.write_repeated(0x4E, 400);
        let bytes = builder.packed();
        let n = builder.cells().len();
        let answer = sector_by_index(0, 0, &bytes, n, 99).map(|answer| answer.1);
        if count > 64 {
            assert_eq!(answer, refused(4, u64::from(count)));
        } else {
            assert_eq!(answer, refused(11, 64));
        }
        assert_eq!(list(&bytes, n).len(), usize::from(count));
    }
}

#[test]
fn a_track_without_cells_has_no_sectors() {
    assert!(list(&[], 0).is_empty());
    assert!(list(&[0xFF; 4], 0).is_empty());
}
