//! Rules 7.1 to 7.43: each kind just inside and just outside its rule.

use second_program::cells;
use second_program::check_word::check_word;
use second_program::findings::*;
use second_program::mfm::SYNC_A1;
use second_program::refusal::Refusal;
use test_inputs::random::Random;
use test_inputs::track_builder::{
    filled, odd_track, standard_track, turn, SectorPlan, TrackBuilder,
};

const ROOM: usize = 1_000;

/// The findings as (kind, place, detail) of cells, one cell to an element.
fn found(drive_track: u32, track_cells: &[u8]) -> Vec<(u32, usize, usize)> {
    let bytes = cells::pack(track_cells);
    let answer = findings(drive_track, 0, &bytes, track_cells.len(), ROOM);
    let triples = answer.unwrap().into_iter().map(|finding| {
        assert_eq!(finding.level, level_of(finding.kind));
        (finding.kind, finding.place, finding.detail)
    });
    triples.collect()
}

/// The same without the kinds that a made track of one or two sectors has.
fn found_but(kinds: &[u32], track_cells: &[u8]) -> Vec<(u32, usize, usize)> {
    let mut list = found(0, track_cells);
    list.retain(|finding| !kinds.contains(&finding.0));
    list
}

/// A standard track at T 0 whose sector of that index is written by the plan.
fn track_with(index: usize, change: fn(&mut SectorPlan)) -> Vec<u8> {
    let mut builder = TrackBuilder::new();
    builder.write_repeated(0x4E, 60);
    for number in 1..=9 {
        let mut plan = SectorPlan::standard(0, 0, number, 0x00);
        if usize::from(number) == index + 1 {
            change(&mut plan);
        }
        builder.write_repeated(0x00, 12);
        builder.write_sector(&plan);
        builder.write_repeated(0x4E, 40);
    }
    while builder.cells().len() < 100_000 {
        builder.write_byte(0x4E);
    }
    builder.cells().to_vec()
}

/// The place of the sector of that index on the standard track.
fn standard_place(index: usize) -> usize {
    1_152 + 9_824 * index
}

#[test]
fn names_and_levels_of_the_table() {
    let table = [
        (1, "LGT", 1),
        (2, "SHT", 1),
        (3, "NOS", 3),
        (4, "TNF", 2),
        (5, "EXT", 2),
        (6, "DSN", 1),
        (7, "ISN", 1),
        (8, "ITN", 2),
        (9, "IIF", 2),
        (10, "SSZ", 2),
        (11, "NSI", 2),
        (12, "NSD", 2),
        (13, "SBI", 1),
        (14, "SND", 1),
        (15, "SBD", 1),
        (16, "DOI", 1),
        (17, "DBI", 1),
        (18, "SWS", 1),
        (19, "SID", 3),
        (20, "MTV", 3),
        (21, "NFA", 1),
        (22, "FZD", 1),
    ];
    for (kind, name, level) in table {
        assert_eq!(name_of(kind), name);
        assert_eq!(level_of(kind), level);
    }
}

#[test]
fn the_standard_track_has_no_findings() {
    for filler in [0x00, 0xE5, 0xFF, 0x4E, 0xA1] {
        assert_eq!(found(0, &standard_track(0, 0, filler)), []);
        assert_eq!(found(79, &standard_track(79, 1, filler)), []);
    }
}

#[test]
fn unformatted_tracks() {
    let plain = [1, 0].repeat(50_000);
    assert_eq!(found(5, &plain), [(NOS, 0, 0), (TNF, 0, 0)]);
    assert_eq!(found(79, &plain), [(NOS, 0, 0), (TNF, 0, 0)]);
    assert_eq!(found(80, &plain), [(NOS, 0, 0)]);
    assert_eq!(
        found(80, &vec![0; 100_000]),
        [(NOS, 0, 0), (NFA, 0, 100_000)]
    );
}

#[test]
fn long_and_short_tracks() {
    for (n, kind) in [
        (96_998, Some(SHT)),
        (97_000, None),
        (103_000, None),
        (103_002, Some(LGT)),
        (20_000, Some(SHT)),
        (131_072, Some(LGT)),
    ] {
        let list = found(80, &[1, 0].repeat(n / 2));
        let expected = kind.map(|kind| (kind, 0, n));
        let expected: Vec<_> = expected.into_iter().chain([(NOS, 0, 0)]).collect();
        assert_eq!(list, expected);
    }
    let odd: Vec<u8> = (0..96_999).map(|p| u8::from(p % 3 == 0)).collect();
    assert_eq!(found(80, &odd), [(SHT, 0, 96_999), (NOS, 0, 0)]);
    let mut odd: Vec<u8> = (0..103_001).map(|p| u8::from(p % 3 == 0)).collect();
    odd[102_999] = 0;
    assert_eq!(
        found(80, &odd),
        [(LGT, 0, 103_001), (NOS, 0, 0), (MTV, 102_996, 1)]
    );
}

#[test]
fn numbers_of_sectors() {
    for count in 8..=11 {
        let mut builder = TrackBuilder::new();
        for number in 1..=count {
            builder.write_repeated(0x00, 12);
            builder.write_sector(&SectorPlan::standard(80, 0, number, 0x00));
            builder.write_repeated(0x4E, 10);
        }
        while builder.cells().len() < 103_000 {
            builder.write_cells(0b10, 2);
        }
        let list = found(80, builder.cells());
        let mut expected = vec![(EXT, 0, usize::from(count))];
        if count == 8 || count == 11 {
            expected.insert(0, (NOS, 0, usize::from(count)));
        }
        assert_eq!(list, expected);
    }
}

#[test]
fn extra_tracks() {
    assert_eq!(found(80, &standard_track(80, 0, 0)), [(EXT, 0, 9)]);
    assert_eq!(found(83, &standard_track(83, 0, 0)), [(EXT, 0, 9)]);
}

#[test]
fn duplicated_numbers() {
    let three_of_a_number = |plan: &mut SectorPlan| plan.number = 3;
    let track_cells = track_with(7, three_of_a_number);
    assert_eq!(found(0, &track_cells), [(DSN, standard_place(7), 3)]);
    let track_cells = track_with(0, three_of_a_number);
    assert_eq!(found(0, &track_cells), [(DSN, standard_place(2), 3)]);
    // Each sector with an earlier one of its number, whatever the checks say.
    let mut builder = TrackBuilder::new();
    builder.write_repeated(0x4E, 60);
    for _ in 0..9 {
        builder.write_repeated(0x00, 12);
        builder.write_sector(&SectorPlan {
            id_check_error: 1,
            ..SectorPlan::standard(0, 0, 9, 0x00)
        });
        builder.write_repeated(0x4E, 40);
    }
    builder.write_repeated(0x4E, 664);
    let list = found_but(&[SBI], builder.cells());
    let expected: Vec<_> = (1..9)
        .map(|index| (DSN, standard_place(index), 9))
        .collect();
    assert_eq!(list, expected);
}

/// A change of one sector's plan, and the findings that it brings.
type Case = (fn(&mut SectorPlan), Vec<(u32, usize, usize)>);

#[test]
fn sector_kinds_7_to_15() {
    let place = standard_place(4);
    let cases: [Case; 28] = [
        (|plan| plan.number = 244, vec![]),
        (|plan| plan.number = 245, vec![(ISN, place, 245)]),
        (|plan| plan.number = 246, vec![(ISN, place, 246)]),
        (|plan| plan.number = 247, vec![(ISN, place, 247)]),
        (|plan| plan.number = 248, vec![]),
        (|plan| plan.track = 1, vec![(ITN, place, 1)]),
        (|plan| plan.track = 83, vec![(ITN, place, 83)]),
        (
            |plan| plan.track = 84,
            vec![(ITN, place, 84), (IIF, place, 0)],
        ),
        (|plan| plan.side = 1, vec![]),
        (|plan| plan.side = 2, vec![(IIF, place, 2)]),
        (|plan| plan.side = 255, vec![(IIF, place, 255)]),
        // Kinds 9 and 10 go by the code itself, and not by its remainder.
        (
            |plan| plan.size_code = 6,
            vec![(IIF, place, 0), (SSZ, place, 6)],
        ),
        (
            |plan| {
                plan.size_code = 4;
                plan.data.truncate(128);
            },
            vec![(IIF, place, 0), (SSZ, place, 4)],
        ),
        (
            |plan| {
                plan.size_code = 255;
                plan.side = 9;
                plan.data = vec![0; 1_024];
            },
            vec![(IIF, place, 9), (SSZ, place, 255)],
        ),
        // Of 512 bytes 128 are read, and no check follows them.
        (
            |plan| plan.size_code = 4,
            vec![(IIF, place, 0), (SSZ, place, 4), (SBD, place, 5)],
        ),
        (
            |plan| {
                plan.size_code = 6;
                plan.data_mark = None;
            },
            vec![(IIF, place, 0), (SSZ, place, 6), (SND, place, 5)],
        ),
        (
            |plan| {
                plan.size_code = 1;
                plan.data.truncate(256);
            },
            vec![(SSZ, place, 1)],
        ),
        (
            |plan| {
                plan.size_code = 0;
                plan.data.truncate(128);
            },
            vec![(SSZ, place, 0)],
        ),
        (
            |plan| {
                plan.size_code = 3;
                plan.data = vec![0; 1_024];
            },
            vec![],
        ),
        (|plan| plan.id_mark = 0xFC, vec![(NSI, place, 0xFC)]),
        (|plan| plan.id_mark = 0xFD, vec![(NSI, place, 0xFD)]),
        (|plan| plan.id_mark = 0xFF, vec![(NSI, place, 0xFF)]),
        (|plan| plan.data_mark = Some(0xF8), vec![]),
        (|plan| plan.data_mark = Some(0xF9), vec![(NSD, place, 0xF9)]),
        (|plan| plan.data_mark = Some(0xFA), vec![(NSD, place, 0xFA)]),
        (|plan| plan.id_check_error = 1, vec![(SBI, place, 5)]),
        (|plan| plan.data_mark = None, vec![(SND, place, 5)]),
        (|plan| plan.data_check_error = 2, vec![(SBD, place, 5)]),
    ];
    for (change, expected) in cases {
        assert_eq!(found(0, &track_with(4, change)), expected);
    }
}

#[test]
fn a_bad_id_check_rules_out_a_missing_data_mark() {
    let list = found(
        0,
        &track_with(4, |plan| {
            plan.id_check_error = 4;
            plan.data_mark = None;
        }),
    );
    assert_eq!(list, [(SBI, standard_place(4), 5)]);
}

#[test]
fn size_codes_above_3_read_data() {
    let list = found(
        0,
        &track_with(4, |plan| {
            plan.size_code = 7;
            plan.data_mark = Some(0xF9);
            plan.data = vec![0; 1_024];
            plan.data_check_error = 1;
        }),
    );
    let place = standard_place(4);
    assert_eq!(
        list,
        [
            (IIF, place, 0),
            (SSZ, place, 7),
            (NSD, place, 0xF9),
            (SBD, place, 5)
        ]
    );
}

#[test]
fn data_over_the_index() {
    let n = 100_000;
    let plain = standard_track(0, 0, 0x00);
    // The first sector's data end is at 1,152 + 704 + 8,288 = 10,144.
    for (by, expected) in [
        (n - 10_144, vec![]),
        (n - 10_143, vec![(DOI, n - 8_991, 1)]),
        (n - 1_857, vec![(DOI, n - 705, 8_287)]),
        (n - 1_856, vec![(DBI, n - 704, 0)]),
        (n - 1_855, vec![(DBI, n - 703, 1)]),
        (n - 1_153, vec![(DBI, n - 1, 703)]),
        (n - 1_152, vec![]),
    ] {
        assert_eq!(found(0, &turn(&plain, by)), expected, "turned by {by}");
    }
}

#[test]
fn data_over_the_index_by_size_codes_above_3() {
    let n = 100_000;
    // The data of code 4 ends at 1,152 + 704 + 2,144 = 4,000.
    let code_4 = track_with(0, |plan| {
        plan.size_code = 4;
        plan.data.truncate(128);
    });
    // That of code 6 ends where that of code 2 does.
    let code_6 = track_with(0, |plan| plan.size_code = 6);
    for (track_cells, code, end) in [(code_4, 4, 4_000), (code_6, 6, 10_144)] {
        for (by, kind_and_detail) in [
            (n - end, None),
            (n - end + 1, Some((DOI, 1))),
            (n - 1_857, Some((DOI, end - 1_857))),
            (n - 1_856, Some((DBI, 0))),
            (n - 1_200, Some((DBI, 656))),
        ] {
            let place = by + 1_152;
            let mut expected = vec![(IIF, place, 0), (SSZ, place, code)];
            expected.extend(kind_and_detail.map(|(kind, detail)| (kind, place, detail)));
            let turned = turn(&track_cells, by);
            assert_eq!(found(0, &turned), expected, "code {code}, turned by {by}");
        }
    }
}

/// Two sectors, the ID of the second beginning at, or one cell before, the end of
/// the first one's data. The first has this size code, with 512 bytes.
fn two_sectors(size_code: u8, overlap: usize) -> Vec<u8> {
    // Data whose check ends in a 0, so that the sync may overlap it.
    let mut data = [0; 512];
    loop {
        let mut covered = vec![0xA1, 0xA1, 0xA1, 0xFB];
        covered.extend(data);
        if check_word(&covered) & 1 == 0 {
            break;
        }
        data[0] += 1;
    }
    let mut builder = TrackBuilder::new();
    builder.write_repeated(0x00, 10);
    builder.write_id(0xFE, [0, 0, 1, size_code], 0);
    builder.write_data(0xFB, &data, 0);
    builder.remove_last(overlap);
    builder.write_id(0xFE, [0, 0, 2, 2], 0);
    builder.write_data(0xFB, &data, 0);
    while builder.cells().len() < 30_000 {
        builder.write_byte(0x4E);
    }
    builder.cells().to_vec()
}

#[test]
fn a_sector_in_another_sectors_data() {
    let first = 160;
    let end = first + 160 + 8_288;
    for size_code in [2, 6, 254] {
        for by in [0, 30_000 - end, 30_000 - end + 1, 30_000 - 3_000, 12_345] {
            let but = [SHT, NOS, IIF, SSZ, DOI, DBI];
            let apart = turn(&two_sectors(size_code, 0), by);
            assert_eq!(found_but(&but, &apart), []);
            let within = turn(&two_sectors(size_code, 1), by);
            let place = (end - 1 + by) % within.len();
            assert_eq!(
                found_but(&but, &within),
                [(SWS, place, 2)],
                "size code {size_code}, turned by {by}"
            );
        }
    }
}

#[test]
fn a_sector_wholly_within_another_sectors_data() {
    let mut builder = TrackBuilder::new();
    builder.write_repeated(0x00, 10);
    builder.write_id(0xFE, [0, 0, 1, 2], 0);
    let q = builder.cells().len();
    builder.write_three_syncs();
    builder.write_byte(0xFB);
    builder.write_repeated(0x00, 100);
    let p = builder.cells().len();
    builder.write_id(0xFE, [0, 0, 2, 2], 0);
    builder.write_repeated(0x00, 20_000 / 16);
    let list = found_but(&[SHT, NOS], builder.cells());
    assert_eq!(q, 160 + 160);
    assert_eq!(p, q + 64 + 1_600);
    assert_eq!(
        list,
        [
            (SND, p, 2),
            (SBD, 160, 1),
            (SWS, p, 2),
            // The three syncs of the second sector's mark.
            (SID, 160, 3)
        ]
    );
}

/// A sector on a track of 20,000 cells whose cells at `place` after the ID mark's
/// place are overwritten by 4489.
fn sector_with_sync_at(place: usize) -> Vec<u8> {
    let mut builder = TrackBuilder::new();
    builder.write_repeated(0x00, 10);
    builder.write_sector(&SectorPlan {
        gap_cells: 0,
        ..SectorPlan::standard(0, 0, 1, 0x00)
    });
    builder.write_repeated(0x00, 720);
    let mut track_cells = builder.cells().to_vec();
    track_cells.truncate(20_000);
    for cell in 0..16 {
        track_cells[160 + place + cell] = (SYNC_A1 >> (15 - cell) & 1) as u8;
    }
    track_cells
}

#[test]
fn syncs_in_id_and_data() {
    let end = 160 + 8_288;
    for (place, count) in [
        // In the ID, p+64 to p+160.
        (64, 1),
        (65, 1),
        // The check bytes CA 6F have 0100010 at p+136: with it the cells of
        // another 4489 stand there, and overlapping ones each count.
        (143, 2),
        (144, 1),
        (145, 0),
        // In the data, q+64 to the end.
        (160 + 63, 0),
        (160 + 64, 1),
        (160 + 65, 1),
        (3_333, 1),
        // As above, with the check bytes DA 6E.
        (end - 17, 2),
        (end - 16, 1),
        (end - 15, 0),
        (end, 0),
    ] {
        let track_cells = sector_with_sync_at(place);
        for by in [0, 1, 18_888, 15_000, 20_000 - 160 - place - 5] {
            let turned = turn(&track_cells, by);
            let mut list = found(0, &turned);
            list.retain(|finding| finding.0 == SID);
            let mut expected = Vec::new();
            if count > 0 {
                expected.push((SID, (160 + by) % 20_000, count));
            }
            assert_eq!(list, expected, "4489 at p+{place}, turned by {by}");
        }
    }
}

#[test]
fn syncs_in_the_data_of_size_codes_above_3() {
    for (size_code, length) in [(4, 128), (6, 512), (255, 1_024)] {
        let end = 160 + 160 + 96 + 16 * length;
        for (place, count) in [(end - 100, 1), (end - 16, 1), (end - 15, 0)] {
            let mut builder = TrackBuilder::new();
            builder.write_repeated(0x00, 10);
            builder.write_sector(&SectorPlan {
                size_code,
                gap_cells: 0,
                data: vec![0; length],
                ..SectorPlan::standard(0, 0, 1, 0x00)
            });
            let mut track_cells = filled(builder.cells().to_vec(), 20_000);
            for cell in 0..16 {
                track_cells[place + cell] = (SYNC_A1 >> (15 - cell) & 1) as u8;
            }
            let mut list = found(0, &track_cells);
            list.retain(|finding| finding.0 == SID);
            let expected = (count > 0).then_some((SID, 160, count));
            assert_eq!(
                list,
                Vec::from_iter(expected),
                "size code {size_code}, 4489 at {place}"
            );
        }
    }
}

#[test]
fn the_sync_c2_does_not_count() {
    let list = found(0, &track_with(2, |plan| plan.data = vec![0x14; 512]));
    assert_eq!(list, []);
}

#[test]
fn distances_of_ones_outside_mfm() {
    let n = 100_000;
    let plain = [1, 0].repeat(n / 2);
    let changed = |places: &[usize]| {
        let mut track_cells = plain.clone();
        for &place in places {
            track_cells[place] ^= 1;
        }
        let mut list = found(80, &track_cells);
        assert_eq!(list.remove(0), (NOS, 0, 0));
        list
    };
    // A distance of 4 is lawful, 6 is not; 1 is not.
    assert_eq!(changed(&[100]), []);
    assert_eq!(changed(&[100, 102]), [(MTV, 98, 1)]);
    assert_eq!(changed(&[101]), [(MTV, 100, 2)]);
    assert_eq!(changed(&[100, 101]), [(MTV, 101, 1)]);
    // 98 to 103 is 5 cells, 103 to 104 is 1.
    assert_eq!(changed(&[100, 102, 103]), [(MTV, 98, 2)]);
    // Round the track.
    assert_eq!(changed(&[0, n - 2]), [(MTV, n - 4, 1)]);
    assert_eq!(changed(&[n - 1]), [(MTV, n - 2, 2)]);
    assert_eq!(changed(&[n - 1, 51]), [(MTV, 50, 4)]);
}

#[test]
fn runs_of_zeros() {
    let n = 100_000;
    let runs = |spans: &[(usize, usize)]| {
        let mut track_cells = [1, 0].repeat(n / 2);
        for &(start, length) in spans {
            for place in start..start + length {
                track_cells[place % n] = 0;
            }
        }
        let mut list = found(80, &track_cells);
        assert_eq!(list.remove(0), (NOS, 0, 0));
        list.retain(|finding| finding.0 == NFA);
        list
    };
    // A run from an odd to an odd place: ones stand before and after it.
    assert_eq!(runs(&[(101, 999)]), []);
    assert_eq!(runs(&[(101, 1_001)]), [(NFA, 101, 1_001)]);
    assert_eq!(runs(&[(101, 1_001), (5_001, 1_003)]), [(NFA, 5_001, 1_003)]);
    assert_eq!(runs(&[(101, 1_001), (5_001, 1_001)]), [(NFA, 101, 1_001)]);
    assert_eq!(runs(&[(n - 499, 1_001)]), [(NFA, n - 499, 1_001)]);
    assert_eq!(
        runs(&[(n - 499, 1_001), (5_001, 1_001)]),
        [(NFA, 5_001, 1_001)]
    );
    assert_eq!(runs(&[(n - 1, 1_001)]), [(NFA, n - 1, 1_001)]);
    // A run that starts at the index.
    let mut track_cells = [1, 0].repeat(n / 2);
    track_cells[n - 2] = 0;
    track_cells[n - 1] = 1;
    track_cells[..1_000].fill(0);
    let list = found(80, &track_cells);
    assert_eq!(list, [(NOS, 0, 0), (MTV, n - 1, 1), (NFA, 0, 1_000)]);
    track_cells[999] = 1;
    let list = found(80, &track_cells);
    assert_eq!(list, [(NOS, 0, 0), (MTV, 999, 2)]);
}

#[test]
fn a_single_one() {
    for place in [0, 777, 19_998, 19_999] {
        let mut track_cells = vec![0; 20_000];
        track_cells[place] = 1;
        assert_eq!(
            found(80, &track_cells),
            [
                (SHT, 0, 20_000),
                (NOS, 0, 0),
                (MTV, place, 1),
                (NFA, (place + 1) % 20_000, 19_999)
            ]
        );
    }
}

#[test]
fn refusals_1_to_5() {
    let refused = |number, value| Err(Refusal { number, value });
    let bytes = [0xAA; 12_500];
    assert_eq!(findings(84, 0, &[], 0, 0), refused(1, 0));
    assert_eq!(findings(0, 2, &[], 0, 0), refused(1, 0));
    assert_eq!(findings(0, 0, &[], 0, 0), refused(2, 0));
    assert_eq!(findings(0, 0, &bytes, 100_001, 0), refused(3, 12_501));
    assert_eq!(findings(5, 0, &bytes, 100_000, 1), refused(5, 2));
    assert_eq!(findings(5, 1, &bytes, 100_000, 2).unwrap().len(), 2);
    let standard = cells::pack(&standard_track(0, 0, 0));
    assert_eq!(findings(0, 0, &standard, 100_000, 0), Ok(vec![]));
    let mut builder = TrackBuilder::new();
    for number in 0..125 {
        builder.write_id(0xFE, [0, 0, number, 2], 0);
    }
    let bytes = builder.packed();
    assert_eq!(findings(0, 0, &bytes, 20_000, 0), refused(4, 125));
}

#[test]
fn odd_tracks_bring_every_kind_in_order() {
    let mut random = Random::new(5);
    let mut seen = [false; KINDS];
    for drive_track in [0, 79, 80, 3, 0, 1, 7, 80, 5, 30, 31, 83] {
        for _ in 0..4 {
            let track_cells = odd_track(&mut random, drive_track);
            let bytes = cells::pack(&track_cells);
            let drive_track = u32::from(drive_track);
            let Ok(list) = findings(drive_track, 0, &bytes, track_cells.len(), ROOM) else {
                continue;
            };
            for pair in list.windows(2) {
                let key = |finding: &Finding| (finding.kind, finding.place);
                assert!(key(&pair[0]) < key(&pair[1]));
            }
            for finding in list {
                assert!(finding.place < track_cells.len());
                seen[finding.kind as usize - 1] = true;
            }
        }
    }
    assert_eq!(seen, [true; KINDS]);
}
