//! FM tracks: marks, sectors, reading out, each finding just inside and just outside its
//! rule, the refusals, and the separator with its wider window.

use second_program::cells;
use second_program::check_word::check_word;
use second_program::findings::*;
use second_program::mfm::decode_cells;
use second_program::refusal::Refusal;
use second_program::sectors::{ReadOut, SectorRecord};
use second_program::separator::Separation;
use second_program::single_density::{
    findings, list, read_out, sector, sectors, separate, step, steps, Step, DATA_MARK,
    DELETED_DATA_MARK, ID_MARK,
};
use test_inputs::single_density_tracks::{
    fm_track_with, standard_fm_track, with_cells_at, FmSectorPlan, FmTrackBuilder,
};
use test_inputs::track_builder::turn;

const ROOM: usize = 1_000;

fn refused<T>(number: u32, value: u64) -> Result<T, Refusal> {
    Err(Refusal { number, value })
}

/// The list of the cells, one cell to an element.
fn list_of(track_cells: &[u8]) -> Vec<SectorRecord> {
    list(&cells::pack(track_cells), track_cells.len())
}

/// The findings as (kind, place, detail) of cells, one cell to an element.
fn found(drive_track: u32, track_cells: &[u8]) -> Vec<(u32, usize, usize)> {
    let bytes = cells::pack(track_cells);
    let answer = findings(drive_track, 0, &bytes, track_cells.len(), ROOM);
    let triples = answer.unwrap().into_iter().map(|finding| {
        assert_eq!(finding.level, level_of(finding.kind));
        (finding.kind, finding.place, finding.detail)
    });
    triples.collect()
}

/// The findings of one kind at T 0.
fn found_of(kind: u32, track_cells: &[u8]) -> Vec<(u32, usize, usize)> {
    let mut list = found(0, track_cells);
    list.retain(|finding| finding.0 == kind);
    list
}

/// A track of 20,000 cells: six bytes 00, a sector at 96 as the plan says, then ones.
fn short_track(plan: &FmSectorPlan) -> Vec<u8> {
    let mut builder = FmTrackBuilder::new();
    builder.write_repeated(0x00, 6);
    builder.write_sector(plan);
    builder.filled(20_000)
}

/// The standard sector with the number 1.
fn standard() -> FmSectorPlan {
    FmSectorPlan::standard(0, 0, 1, 0x00)
}

/// Packed cells: each word so many times, then ones up to 20,000 cells.
fn track_of_words(words: &[(u16, usize)]) -> Vec<u8> {
    let mut bytes = Vec::new();
    for &(word, times) in words {
        for _ in 0..times {
            bytes.extend(word.to_be_bytes());
        }
    }
    bytes.resize(2_500, 0xFF);
    bytes
}

#[test]
fn marks_decode_to_their_bytes() {
    assert_eq!((ID_MARK, decode_cells(0xF57E)), (0xF57E, 0xFE));
    assert_eq!((DATA_MARK, decode_cells(0xF56F)), (0xF56F, 0xFB));
    assert_eq!((DELETED_DATA_MARK, decode_cells(0xF56A)), (0xF56A, 0xF8));
}

#[test]
fn the_check_starts_anew_at_the_mark() {
    // One byte b changes FFFF to FF00 with the polynomial's multiple for FF ^ b: 1021 for
    // 1, 4084 for 4, and 1021 ^ 2042 ^ 4084 for 7.
    assert_eq!(check_word(&[0xFE]), 0xEF21);
    assert_eq!(check_word(&[0xFB]), 0xBF84);
    assert_eq!(check_word(&[0xF8]), 0x8FE7);
}

#[test]
fn a_track_written_cell_by_cell() {
    // Six bytes 00; FE 00 00 01 00 with its check D2C3; eleven FF, six 00; then FB or F8,
    // 128 bytes 00 and their check, 4829 or 1324.
    for (mark, mark_byte, check) in [
        (0xF56F, 0xFB, [0xBAEA, 0xAEEB]),
        (0xF56A, 0xF8, [0xABAF, 0xAEBA]),
    ] {
        let bytes = track_of_words(&[
            (0xAAAA, 6),
            (0xF57E, 1),
            (0xAAAA, 2),
            (0xAAAB, 1),
            (0xAAAA, 1),
            (0xFBAE, 1),
            (0xFAAF, 1),
            (0xFFFF, 11),
            (0xAAAA, 6),
            (mark, 1),
            (0xAAAA, 128),
            (check[0], 1),
            (check[1], 1),
        ]);
        let expected = SectorRecord {
            place: 96,
            mark: 0xFE,
            track: 0,
            side: 0,
            number: 1,
            size_code: 0,
            id_check_good: true,
            data_place: 480,
            data_mark: mark_byte,
            length: 128,
            data_check_good: true,
            data_end: 2_576,
            density: 1,
        };
        assert_eq!(list(&bytes, 20_000), [expected]);
        assert_eq!(sector(0, 0, &bytes, 20_000, 0), Ok((expected, 1)));
        let read = ReadOut {
            length: 128,
            check_good: true,
            bytes: vec![0; 128],
        };
        assert_eq!(read_out(0, 0, &bytes, 20_000, 0, 128), Ok(read));
    }
}

#[test]
fn the_standard_track() {
    let track_cells = standard_fm_track(5, 1, 0xE5);
    assert_eq!(track_cells.len(), 50_000);
    let expected: Vec<SectorRecord> = (0..18)
        .map(|index| {
            let p = 416 + 2_736 * index;
            SectorRecord {
                place: p,
                mark: 0xFE,
                track: 5,
                side: 1,
                number: 1 + index as u8,
                size_code: 0,
                id_check_good: true,
                data_place: p + 384,
                data_mark: 0xFB,
                length: 128,
                data_check_good: true,
                data_end: p + 384 + 2_096,
                density: 1,
            }
        })
        .collect();
    assert_eq!(list_of(&track_cells), expected);
    let bytes = cells::pack(&track_cells);
    assert_eq!(sectors(5, 1, &bytes, 50_000), Ok(expected));
    for filler in [0x00, 0xE5, 0xFF, 0xFE, 0xFB] {
        assert_eq!(found(0, &standard_fm_track(0, 0, filler)), []);
        assert_eq!(found(79, &standard_fm_track(79, 1, filler)), []);
        assert_eq!(found(80, &standard_fm_track(80, 0, filler)), [(EXT, 0, 18)]);
    }
}

#[test]
fn a_turned_track_has_the_same_sectors() {
    let track_cells = standard_fm_track(0, 0, 0x00);
    let plain = list_of(&track_cells);
    let n = 50_000;
    // Among the turns are those that put the index before, into and behind the last mark,
    // which stands at 46,928.
    for by in [
        0,
        1,
        3_071,
        3_072,
        3_073,
        3_080,
        3_087,
        3_088,
        2_688,
        9_999,
        n - 1,
        n,
    ] {
        let turned = list_of(&turn(&track_cells, by));
        let mut expected: Vec<SectorRecord> = plain
            .iter()
            .map(|sector| SectorRecord {
                place: (sector.place + by) % n,
                // Counted on past N.
                data_place: (sector.place + by) % n + 384,
                data_end: (sector.place + by) % n + 384 + 2_096,
                ..*sector
            })
            .collect();
        expected.sort_by_key(|sector| sector.place);
        assert_eq!(turned, expected, "turned by {by}");
    }
}

#[test]
fn only_whole_marks_count() {
    for cell in 0..16 {
        let plan = FmSectorPlan {
            id_mark: ID_MARK ^ (1 << cell),
            ..standard()
        };
        assert_eq!(list_of(&short_track(&plan)), []);
        for mark in [DATA_MARK, DELETED_DATA_MARK] {
            let other = mark ^ (1 << cell);
            let plan = FmSectorPlan {
                data_mark: Some(other),
                ..standard()
            };
            let sectors = list_of(&short_track(&plan));
            assert_eq!(sectors.len(), 1);
            assert_eq!(sectors[0].data_mark, 0);
            assert_eq!((sectors[0].data_place, sectors[0].data_end), (0, 0));
            assert_eq!((sectors[0].length, sectors[0].data_check_good), (0, false));
            assert_eq!(sectors[0].density, 1);
        }
    }
}

#[test]
fn distances_112_and_576_are_found_and_577_not() {
    for (gap_cells, found) in [
        (0, true),
        (1, true),
        (272, true),
        (463, true),
        (464, true),
        (465, false),
        (466, false),
    ] {
        let plan = FmSectorPlan {
            gap_cells,
            ..standard()
        };
        let sector = list_of(&short_track(&plan))[0];
        assert_eq!(sector.has_data(), found, "gap of {gap_cells} cells");
        if found {
            assert_eq!(sector.data_place, 96 + 112 + gap_cells);
            assert_eq!(sector.data_end, 96 + 112 + gap_cells + 2_096);
            assert!(sector.data_check_good);
        }
    }
}

#[test]
fn distance_111_is_not_found() {
    // The ID check of number 3 is B4A1: its last cell is a one, as is the first cell of a
    // data mark, which may so begin there and leave the ID whole.
    let plan = FmSectorPlan {
        number: 3,
        data_mark: None,
        ..standard()
    };
    let id = short_track(&plan);
    assert!(list_of(&id)[0].id_check_good);
    for (distance, found) in [(110, false), (111, false), (112, true), (113, true)] {
        let marked = with_cells_at(&id, 96 + distance, u64::from(DATA_MARK), 16);
        let sector = list_of(&marked)[0];
        assert_eq!(sector.has_data(), found, "distance {distance}");
        assert!(sector.id_check_good || distance == 110);
    }
}

#[test]
fn the_least_data_mark_is_taken() {
    let sound = short_track(&standard());
    for (mark, byte) in [(DATA_MARK, 0xFB), (DELETED_DATA_MARK, 0xF8)] {
        let word = u64::from(mark);
        let nearer = list_of(&with_cells_at(&sound, 96 + 120, word, 16))[0];
        assert_eq!((nearer.data_place, nearer.data_mark), (216, byte));
        assert!(!nearer.data_check_good);
        let farther = list_of(&with_cells_at(&sound, 96 + 500, word, 16))[0];
        assert_eq!((farther.data_place, farther.data_mark), (480, 0xFB));
    }
}

#[test]
fn every_size_code_reads_one_of_four_lengths() {
    let data: Vec<u8> = (0..1_024).map(|i| (i % 251) as u8).collect();
    for size_code in 0..=255_u8 {
        let length = [128, 256, 512, 1_024][usize::from(size_code & 3)];
        let plan = FmSectorPlan {
            size_code,
            data: data[..length].to_vec(),
            ..standard()
        };
        let track_cells = short_track(&plan);
        let sector = list_of(&track_cells)[0];
        assert_eq!((sector.size_code, sector.length), (size_code, length));
        assert_eq!(sector.data_end, 480 + 48 + 16 * length);
        assert!(sector.data_check_good);
        let read = read_out(0, 0, &cells::pack(&track_cells), 20_000, 0, length);
        assert_eq!(read.unwrap().bytes, data[..length]);
        let mut expected = vec![(SHT, 0, 20_000), (NOS, 0, 1)];
        if size_code > 3 {
            expected.push((IIF, 96, 0));
        }
        if size_code != 0 {
            expected.push((SSZ, 96, usize::from(size_code)));
        }
        assert_eq!(found(0, &track_cells), expected);
    }
}

#[test]
fn long_and_short_tracks() {
    for (n, kind) in [
        (20_000, Some(SHT)),
        (48_499, Some(SHT)),
        (48_500, None),
        (51_500, None),
        (51_501, Some(LGT)),
        (131_072, Some(LGT)),
    ] {
        let expected: Vec<_> = kind
            .map(|kind| (kind, 0, n))
            .into_iter()
            .chain([(NOS, 0, 0)])
            .collect();
        assert_eq!(found(80, &vec![1; n]), expected);
    }
    assert_eq!(found(79, &vec![1; 50_000]), [(NOS, 0, 0), (TNF, 0, 0)]);
    assert_eq!(found(80, &vec![0; 50_000]), [(NOS, 0, 0), (NFA, 0, 50_000)]);
}

#[test]
fn only_18_sectors_are_usual() {
    for count in [0, 1, 16, 17, 18, 19, 20] {
        // Twenty sectors of 2,480 cells are 49,600.
        let mut builder = FmTrackBuilder::new();
        for number in 1..=count {
            builder.write_sector(&FmSectorPlan::standard(80, 0, number, 0x00));
        }
        let list = found(80, &builder.filled(50_000));
        let mut expected = Vec::new();
        if count != 18 {
            expected.push((NOS, 0, usize::from(count)));
        }
        if count != 0 {
            expected.push((EXT, 0, usize::from(count)));
        }
        assert_eq!(list, expected);
    }
}

/// A change of one sector's plan, and the findings that it brings.
type Case = (fn(&mut FmSectorPlan), Vec<(u32, usize, usize)>);

#[test]
fn sector_kinds_6_to_15() {
    // The fifth sector.
    let place = 416 + 4 * 2_736;
    let cases: [Case; 19] = [
        (|_| {}, vec![]),
        (|plan| plan.number = 3, vec![(DSN, place, 3)]),
        // The earlier one is changed: the later one is the duplicate.
        (|plan| plan.number = 6, vec![(DSN, place + 2_736, 6)]),
        (|plan| plan.number = 244, vec![]),
        (|plan| plan.number = 245, vec![(ISN, place, 245)]),
        (|plan| plan.number = 247, vec![(ISN, place, 247)]),
        (|plan| plan.number = 248, vec![]),
        (|plan| plan.track = 83, vec![(ITN, place, 83)]),
        (
            |plan| plan.track = 84,
            vec![(ITN, place, 84), (IIF, place, 0)],
        ),
        (|plan| plan.side = 1, vec![]),
        (|plan| plan.side = 2, vec![(IIF, place, 2)]),
        (
            |plan| plan.size_code = 4,
            vec![(IIF, place, 0), (SSZ, place, 4)],
        ),
        (|plan| plan.id_check_error = 1, vec![(SBI, place, 5)]),
        (|plan| plan.id_check_error = 0x8000, vec![(SBI, place, 5)]),
        (|plan| plan.data_mark = None, vec![(SND, place, 5)]),
        // A bad ID check hides that there is no data.
        (
            |plan| {
                plan.data_mark = None;
                plan.id_check_error = 0x0100;
            },
            vec![(SBI, place, 5)],
        ),
        (|plan| plan.data_check_error = 0x80, vec![(SBD, place, 5)]),
        (|plan| plan.data_mark = Some(DELETED_DATA_MARK), vec![]),
        // Of another number with a bad check: both are told.
        (
            |plan| {
                plan.number = 4;
                plan.id_check_error = 2;
                plan.data_check_error = 2;
            },
            vec![(DSN, place, 4), (SBI, place, 4), (SBD, place, 4)],
        ),
    ];
    for (change, expected) in cases {
        let track_cells = fm_track_with(0, 0, 0x00, |plan| {
            if plan.number == 5 {
                change(plan);
            }
        });
        assert_eq!(found(0, &track_cells), expected);
    }
}

#[test]
fn data_over_and_beyond_the_index() {
    let track_cells = short_track(&standard());
    let n = 20_000;
    for (p, expected) in [
        // The data end at the index, and one cell behind it.
        (n - 384 - 2_096, None),
        (n - 384 - 2_095, Some((DOI, 1))),
        // The data mark at the last cell, at the index and behind it.
        (n - 385, Some((DOI, 2_095))),
        (n - 384, Some((DBI, 0))),
        (n - 383, Some((DBI, 1))),
        (n - 1, Some((DBI, 383))),
        (0, None),
    ] {
        let turned = turn(&track_cells, n + p - 96);
        let mut expected_list = vec![(SHT, 0, n), (NOS, 0, 1)];
        expected_list.extend(expected.map(|(kind, detail)| (kind, p, detail)));
        assert_eq!(found(0, &turned), expected_list, "p {p}");
    }
}

#[test]
fn sectors_within_sectors() {
    let plan = FmSectorPlan {
        size_code: 3,
        data: vec![0; 1_024],
        ..standard()
    };
    let outer = short_track(&plan);
    let n = outer.len();
    // Data from 480 to 480 + 16 + 16,384 + 32.
    let (q, end) = (480, 16_912);
    for (place, within) in [
        (q - 20, false),
        (q + 16, true),
        (5_001, true),
        (end - 1, true),
        (end, false),
    ] {
        let marked = with_cells_at(&outer, place, u64::from(ID_MARK), 16);
        let expected = if within { vec![place] } else { vec![] };
        for by in [0, 1, n - 3_000, n - place, n - place - 3, 7_000] {
            let turned = turn(&marked, by);
            let places: Vec<usize> = found_of(SWS, &turned)
                .into_iter()
                .map(|finding| finding.1)
                .collect();
            let expected: Vec<usize> = expected.iter().map(|place| (place + by) % n).collect();
            assert_eq!(places, expected, "ID mark at {place}, turned by {by}");
        }
    }
    // A sector's own data, and data that two sectors share, lie behind both IDs.
    let mut builder = FmTrackBuilder::new();
    builder.write_id(ID_MARK, [0, 0, 1, 0], 0);
    builder.write_id(ID_MARK, [0, 0, 2, 0], 0);
    builder.write_data(DATA_MARK, &[0; 128], 0);
    let shared = builder.filled(n);
    assert_eq!(list_of(&shared)[0].data_place, 224);
    assert_eq!(list_of(&shared)[1].data_place, 224);
    assert_eq!(found_of(SWS, &shared), []);
}

#[test]
fn id_marks_in_id_and_data() {
    let sound = short_track(&standard());
    let n = sound.len();
    let p = 96;
    let (q, end) = (384, 384 + 2_096);
    for (place, count) in [
        // An ID mark shares up to five cells with the next one: this one begins within the
        // mark itself and leaves it whole.
        (11, 0),
        (16, 1),
        (17, 1),
        (95, 1),
        (96, 1),
        (97, 0),
        (112, 0),
        // The data mark's last four cells are ones, as the first four of an ID mark.
        (q + 12, 0),
        (q + 15, 0),
        (q + 16, 1),
        (q + 17, 1),
        (q + 1_001, 1),
        (end - 17, 1),
        (end - 16, 1),
        (end - 15, 0),
        (end, 0),
    ] {
        let marked = with_cells_at(&sound, p + place, u64::from(ID_MARK), 16);
        for by in [0, 1, n - p - place - 5, n - 1_000, 15_000] {
            let turned = turn(&marked, by);
            let at_p = (p + by) % n;
            let mut list = found_of(SID, &turned);
            list.retain(|finding| finding.1 == at_p);
            let expected = (count > 0).then_some((SID, at_p, count));
            assert_eq!(
                list,
                Vec::from_iter(expected),
                "F57E at p+{place}, turned by {by}"
            );
        }
    }
    // Two of them that share five cells each count, in the ID and in the data; one whose
    // partner lies half behind the end counts alone.
    let two = (0xF57E << 11) | 0x57E;
    for (place, count) in [
        (16, 2),
        (85, 2),
        (86, 1),
        (q + 16, 2),
        (end - 27, 2),
        (end - 26, 1),
    ] {
        let marked = with_cells_at(&sound, p + place, two, 27);
        let mut list = found_of(SID, &marked);
        list.retain(|finding| finding.1 == p);
        assert_eq!(list, [(SID, p, count)], "two at p+{place}");
    }
    // In the ID and in the data at once.
    let both = with_cells_at(&sound, p + 40, u64::from(ID_MARK), 16);
    let both = with_cells_at(&both, p + q + 400, u64::from(ID_MARK), 16);
    assert_eq!(found_of(SID, &both)[0], (SID, p, 2));
}

#[test]
fn distances_of_ones_outside_fm() {
    let n = 50_000;
    let changed = |places: &[usize]| {
        let mut track_cells = vec![1; n];
        for &place in places {
            track_cells[place] = 0;
        }
        let mut list = found(80, &track_cells);
        assert_eq!(list.remove(0), (NOS, 0, 0));
        list
    };
    assert_eq!(changed(&[]), []);
    assert_eq!(changed(&[100]), []);
    assert_eq!(changed(&[100, 102, 104]), []);
    assert_eq!(changed(&[100, 101]), [(MTV, 99, 1)]);
    assert_eq!(changed(&[100, 101, 102]), [(MTV, 99, 1)]);
    assert_eq!(changed(&[100, 101, 103, 104]), [(MTV, 99, 2)]);
    // Round the track.
    assert_eq!(changed(&[n - 1]), []);
    assert_eq!(changed(&[0]), []);
    assert_eq!(changed(&[0, n - 1]), [(MTV, n - 2, 1)]);
    assert_eq!(changed(&[0, 1]), [(MTV, n - 1, 1)]);
    assert_eq!(changed(&[0, 1, 50, 51]), [(MTV, 49, 2)]);
    // A lone one, and none at all.
    let mut lone = vec![0; n];
    lone[777] = 1;
    assert_eq!(
        found(80, &lone),
        [(NOS, 0, 0), (MTV, 777, 1), (NFA, 778, n - 1)]
    );
    assert_eq!(found(80, &vec![0; n]), [(NOS, 0, 0), (NFA, 0, n)]);
}

#[test]
fn runs_of_zeros() {
    let n = 50_000;
    for (start, length, run) in [
        (101, 999, None),
        (101, 1_000, Some((NFA, 101, 1_000))),
        (0, 1_000, Some((NFA, 0, 1_000))),
        (n - 400, 1_000, Some((NFA, n - 400, 1_000))),
    ] {
        let mut track_cells = vec![1; n];
        for place in start..start + length {
            track_cells[place % n] = 0;
        }
        let before = (start + n - 1) % n;
        let mut expected = vec![(NOS, 0, 0), (MTV, before, 1)];
        expected.extend(run);
        assert_eq!(found(80, &track_cells), expected);
    }
}

#[test]
fn refusals_in_order() {
    let bytes = cells::pack(&standard_fm_track(0, 0, 0x00));
    let n = 50_000;
    assert_eq!(sectors(84, 0, &[], 0), refused(1, 0));
    assert_eq!(findings(0, 2, &[], 0, 0), refused(1, 0));
    assert_eq!(sector(0, 0, &[], 19_999, 0), refused(2, 19_999));
    assert_eq!(read_out(83, 1, &[], 131_073, 0, 0), refused(2, 131_073));
    assert_eq!(findings(0, 0, &[], 20_000, 0), refused(3, 2_500));
    assert_eq!(findings(0, 0, &[], 131_072, 0), refused(3, 16_384));
    assert_eq!(findings(0, 0, &bytes, 50_001, 0), refused(3, 6_251));
    assert_eq!(sector(0, 0, &bytes, n, 18), refused(11, 18));
    assert_eq!(sector(0, 0, &bytes, n, usize::MAX), refused(11, 18));
    assert_eq!(read_out(0, 0, &bytes, n, 18, 0), refused(11, 18));
    assert_eq!(read_out(0, 0, &bytes, n, 17, 127), refused(13, 128));
    assert_eq!(read_out(0, 0, &bytes, n, 17, 128).unwrap().length, 128);
    assert_eq!(findings(0, 0, &bytes, n, 0), Ok(vec![]));
    assert_eq!(findings(80, 0, &bytes, n, 18), refused(5, 19));
    assert_eq!(findings(80, 0, &bytes, n, 19).unwrap().len(), 19);
    let plan = FmSectorPlan {
        data_mark: None,
        ..standard()
    };
    let bytes = cells::pack(&short_track(&plan));
    assert_eq!(read_out(0, 0, &bytes, 20_000, 0, 0), refused(12, 0));
    assert_eq!(read_out(0, 0, &bytes, 20_000, 1, 0), refused(11, 1));
}

#[test]
fn more_than_64_sectors_are_refused() {
    for count in [64, 65, 70] {
        let mut builder = FmTrackBuilder::new();
        for number in 0..count {
            builder.write_id(ID_MARK, [0, 0, number, 0], 0);
            builder.write_repeated(0x00, 6);
        }
        let bytes = cells::pack(&builder.filled(20_000));
        let answer = sector(0, 0, &bytes, 20_000, 99);
        if count == 64 {
            assert_eq!(answer, refused(11, 64));
        } else {
            let count = u64::from(count);
            assert_eq!(answer, refused(4, count));
            assert_eq!(findings(0, 0, &bytes, 20_000, 0), refused(4, count));
            assert_eq!(read_out(0, 0, &bytes, 20_000, 0, 0), refused(4, count));
        }
    }
}

#[test]
fn a_step_of_the_separator() {
    for (residual, timing, cells, offset, next) in [
        (0, 9_800, 2, 1_800, 900),
        (900, 8_000, 2, 900, 450),
        (0, 9_999, 2, 1_999, 999),
        (0, 10_000, 3, -2_000, -1_000),
        (-1_000, 10_000, 2, 1_000, 500),
        (0, 10_001, 3, -1_999, -999),
        (0, 1_000, 0, 1_000, 500),
        (500, 7_000, 2, -500, -250),
        (0, 10_000_000, 2_500, 0, 0),
        (-1_000, 1, 0, -999, -499),
        (-1_000, 3_000, 1, -2_000, -1_000),
        (999, 1_000, 0, 1_999, 999),
        (999, 1_001, 1, -2_000, -1_000),
        // Residuals that count as 0.
        (1_000, 1_001, 0, 1_001, 500),
        (-1_001, 3_000, 1, -1_000, -500),
        (i64::MAX, 9_800, 2, 1_800, 900),
        (i64::MIN, 9_800, 2, 1_800, 900),
    ] {
        let expected = (next, Ok(Step { cells, offset }));
        assert_eq!(step(residual, timing), expected, "{residual}, {timing}");
    }
    for residual in [0, -1_000, 999, 12_345] {
        for timing in [0, 10_000_001, u32::MAX] {
            assert_eq!(step(residual, timing), (residual, refused(8, 0)));
        }
    }
}

#[test]
fn border_pulses_begin_1804_ns_from_the_centre() {
    for offset in -2_000..2_000 {
        let step = Step { cells: 1, offset };
        assert_eq!(
            step.is_border_pulse(),
            (-2_000..=-1_804).contains(&offset) || (1_804..=1_999).contains(&offset)
        );
    }
    for (timing, number) in [
        (5_803, 0),
        (5_804, 1),
        (5_999, 1),
        (6_000, 1),
        (6_196, 1),
        (6_197, 0),
        (8_000, 0),
    ] {
        assert_eq!(separate(&[timing], 1).unwrap().border_pulses, number);
    }
    // 1,804 leaves 902: 7,098 more is 8,000 and even, 8,902 is a border pulse again.
    let separation = separate(&[9_804, 8_902, 7_098, 8_000], 1).unwrap();
    assert_eq!((separation.cells, separation.border_pulses), (8, 2));
}

#[test]
fn lists_of_timings() {
    assert_eq!(
        separate(&[10_000, 10_000], 1),
        Ok(Separation {
            cells: 5,
            border_pulses: 1,
            bytes: vec![0b0010_1000],
        })
    );
    let offsets: Vec<i64> = steps(&[9_800, 8_000, 8_000])
        .unwrap()
        .iter()
        .map(|step| step.offset)
        .collect();
    assert_eq!(offsets, [1_800, 900, 450]);
    let nothing = Separation {
        cells: 0,
        border_pulses: 0,
        bytes: vec![],
    };
    assert_eq!(separate(&[1_000], 0), Ok(nothing));
    assert_eq!(separate(&[], 0), refused(6, 0));
    assert_eq!(separate(&vec![0; 65_537], 0), refused(7, 65_537));
    assert_eq!(separate(&[4_000, 0, 0], 0), refused(8, 1));
    assert_eq!(separate(&[10_000_001], 0), refused(8, 0));
    assert_eq!(separate(&[36_000], 1), refused(10, 2));
    // 53 timings of 2,500 cells; 131,072 cells are the most.
    let mut long = vec![10_000_000; 53];
    assert_eq!(separate(&long, 0), refused(9, 132_500));
    long.push(0);
    assert_eq!(separate(&long, 0), refused(8, 53));
    let mut most = vec![10_000_000; 52];
    most.push(4_000 * 1_072);
    assert_eq!(separate(&most, 16_383), refused(10, 16_384));
    assert_eq!(separate(&most, 16_384).unwrap().cells, 131_072);
    most.push(4_000);
    assert_eq!(separate(&most, 16_384), refused(9, 131_073));
}
