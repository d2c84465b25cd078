//! The plain sector image: where each sector goes, what refuses a track, and what does not.

use second_program::cells;
use second_program::refusal::Refusal;
use second_program::sector_image::{sector_image, IMAGE_LENGTH, SECTOR_LENGTH};
use second_program::sectors;
use test_inputs::track_builder::{filled, standard_track, turn, SectorPlan, TrackBuilder};

/// Another byte than any that the sectors here hold.
const KEPT: u8 = 0x77;

fn refused(number: u32, value: u64) -> Result<usize, Refusal> {
    Err(Refusal { number, value })
}

/// Bytes that tell which sector they are of and where in it they stand.
fn data_of(number: u8) -> Vec<u8> {
    (0..512)
        .map(|index| number << 4 | (index % 7) as u8)
        .collect()
}

/// A sector of a number with the bytes that tell it.
fn plain(number: u8) -> SectorPlan {
    SectorPlan {
        data: data_of(number),
        ..SectorPlan::standard(5, 1, number, 0)
    }
}

/// The sectors 1 to 9 with the bytes that tell them.
fn nine() -> Vec<SectorPlan> {
    (1..=9).map(plain).collect()
}

/// The image of the sectors 1 to 9.
fn image_of_nine() -> Vec<u8> {
    (1..=9).flat_map(data_of).collect()
}

/// A track of these sectors, one cell to an element.
fn track_of(sectors: &[SectorPlan]) -> Vec<u8> {
    let mut builder = TrackBuilder::new();
    for sector in sectors {
        builder.write_gap_cells(192);
        builder.write_sector(sector);
    }
    let n = (builder.cells().len() + 5).max(20_000);
    filled(builder.cells().to_vec(), n)
}

/// The answer for cells at T 5 and H 1, and the buffer of so many bytes afterwards.
fn imaged(track_cells: &[u8], room: usize) -> (Result<usize, Refusal>, Vec<u8>) {
    let mut image = vec![KEPT; room];
    let bytes = cells::pack(track_cells);
    let answer = sector_image(5, 1, &bytes, track_cells.len(), &mut image);
    (answer, image)
}

/// Refusal 24 with this number, and nothing written.
fn assert_at_fault(sectors: &[SectorPlan], number: u64) {
    let (answer, image) = imaged(&track_of(sectors), 5_000);
    assert_eq!(answer, refused(24, number));
    assert!(image.iter().all(|&byte| byte == KEPT));
}

/// The nine sectors, that of one number changed.
fn nine_with(number: u8, change: fn(&mut SectorPlan)) -> Vec<SectorPlan> {
    let mut sectors = nine();
    change(&mut sectors[usize::from(number) - 1]);
    sectors
}

#[test]
fn the_lengths() {
    assert_eq!((SECTOR_LENGTH, IMAGE_LENGTH), (512, 4_608));
}

#[test]
fn the_standard_track_gives_its_bytes() {
    for filler in [0xE5, 0x00, 0xFF] {
        let (answer, image) = imaged(&standard_track(5, 1, filler), 4_608);
        assert_eq!(answer, Ok(4_608));
        assert!(image == [filler; 4_608]);
    }
}

#[test]
fn each_sector_goes_to_the_place_of_its_number() {
    for order in [
        [1, 2, 3, 4, 5, 6, 7, 8, 9],
        [9, 8, 7, 6, 5, 4, 3, 2, 1],
        [1, 6, 2, 7, 3, 8, 4, 9, 5],
        [5, 1, 9, 2, 8, 3, 7, 4, 6],
    ] {
        let sectors: Vec<SectorPlan> = order.into_iter().map(plain).collect();
        let track_cells = track_of(&sectors);
        let (answer, image) = imaged(&track_cells, 5_000);
        assert_eq!(answer, Ok(4_608));
        for number in 1..=9 {
            let start = 512 * (usize::from(number) - 1);
            assert_eq!(image[start..start + 512], data_of(number));
        }
        assert_eq!(image[4_608..], [KEPT; 392]);
        // Reading the sectors out one by one gives the same.
        let bytes = cells::pack(&track_cells);
        for (index, number) in order.into_iter().enumerate() {
            let read = sectors::read_out(5, 1, &bytes, track_cells.len(), index, 512).unwrap();
            let start = 512 * (usize::from(number) - 1);
            assert_eq!(image[start..start + 512], read.bytes);
        }
    }
}

#[test]
fn the_index_may_lie_in_a_sector() {
    let track_cells = track_of(&nine());
    for by in [1, 200, 500, 900, 4_000, 8_700, 9_300, 50_000] {
        let (answer, image) = imaged(&turn(&track_cells, track_cells.len() - by), 4_608);
        assert_eq!(answer, Ok(4_608));
        assert!(image == image_of_nine());
    }
}

#[test]
fn marks_and_the_place_in_the_id_are_not_judged() {
    let changes: [fn(&mut SectorPlan); 9] = [
        |sector| sector.id_mark = 0xFC,
        |sector| sector.id_mark = 0xFF,
        |sector| sector.data_mark = Some(0xF8),
        |sector| sector.data_mark = Some(0xF9),
        |sector| sector.track = 6,
        |sector| sector.track = 255,
        |sector| sector.side = 0,
        |sector| sector.side = 7,
        |sector| sector.gap_cells = 624,
    ];
    for change in changes {
        let (answer, image) = imaged(&track_of(&nine_with(3, change)), 4_608);
        assert_eq!(answer, Ok(4_608));
        assert!(image == image_of_nine());
    }
}

#[test]
fn each_condition_of_each_number() {
    let changes: [fn(&mut SectorPlan); 14] = [
        |sector| sector.number = 0,
        |sector| sector.number = 10,
        |sector| sector.number = 255,
        |sector| sector.id_check_error = 0x0001,
        |sector| sector.id_check_error = 0x8000,
        |sector| sector.data_check_error = 0x0001,
        |sector| sector.data_check_error = 0x8000,
        |sector| sector.data_mark = None,
        |sector| sector.data_mark = Some(0xF7),
        |sector| sector.gap_cells = 625,
        |sector| sector.size_code = 6,
        |sector| sector.size_code = 10,
        |sector| sector.size_code = 254,
        |sector| {
            sector.size_code = 3;
            sector.data.resize(1_024, 0x00);
        },
    ];
    for number in 1..=9 {
        for change in changes {
            assert_at_fault(&nine_with(number, change), number.into());
        }
        let mut missing = nine();
        missing.remove(usize::from(number) - 1);
        assert_at_fault(&missing, number.into());
        let mut twice = nine();
        twice.push(plain(number));
        assert_at_fault(&twice, number.into());
        // Nine sectors again, the missing one being another's second.
        let mut instead = nine();
        instead[usize::from(number) - 1] = plain(number % 9 + 1);
        assert_at_fault(&instead, u64::from(number.min(number % 9 + 1)));
    }
}

#[test]
fn the_other_codes_of_512_bytes_read_well_and_are_at_fault() {
    let sectors = nine_with(7, |sector| sector.size_code = 6);
    let track_cells = track_of(&sectors);
    let list = sectors::list(&cells::pack(&track_cells), track_cells.len());
    assert_eq!((list[6].length, list[6].data_check_good), (512, true));
    assert_at_fault(&sectors, 7);
}

#[test]
fn a_second_sector_counts_whatever_its_checks_say() {
    for place in [0, 4, 9] {
        let mut sectors = nine();
        let second = SectorPlan {
            id_check_error: 4,
            data_mark: None,
            ..plain(8)
        };
        sectors.insert(place, second);
        assert_at_fault(&sectors, 8);
    }
}

#[test]
fn the_least_number_of_several() {
    let spoil: fn(&mut SectorPlan) = |sector| sector.data_check_error = 1;
    for first in 1..=9 {
        for second in 1..=9 {
            let mut sectors = nine_with(first, spoil);
            sectors[usize::from(second) - 1].id_check_error = 1;
            // The order of the sectors does not matter.
            sectors.reverse();
            assert_at_fault(&sectors, first.min(second).into());
        }
    }
    assert_at_fault(&[], 1);
    assert_at_fault(&[plain(1), plain(2), plain(0)], 3);
}

#[test]
fn numbers_outside_give_0_only_alone() {
    for outside in [0, 10, 11, 128, 245, 255] {
        let mut sectors = nine();
        sectors.insert(4, plain(outside));
        assert_at_fault(&sectors, 0);
        // Its checks do not matter, nor does a second one.
        sectors[4].id_check_error = 1;
        sectors.push(plain(outside));
        assert_at_fault(&sectors, 0);
        sectors[9].data_check_error = 1;
        assert_at_fault(&sectors, 9);
    }
}

#[test]
fn refusal_13_comes_last() {
    let sound = track_of(&nine());
    for room in [0, 1, 512, 4_607] {
        assert_eq!(imaged(&sound, room), (refused(13, 4_608), vec![KEPT; room]));
    }
    assert_eq!(imaged(&sound, 4_608), (Ok(4_608), image_of_nine()));
    let faulty = track_of(&nine_with(2, |sector| sector.data_mark = None));
    assert_eq!(imaged(&faulty, 4_607), (refused(24, 2), vec![KEPT; 4_607]));
}

#[test]
fn refusals_1_to_4_come_first() {
    let sound = track_of(&nine());
    let n = sound.len();
    let bytes = cells::pack(&sound);
    let refusal_of = |track, side, bytes: &[u8], n| {
        let mut image = [KEPT; 4_700];
        let answer = sector_image(track, side, bytes, n, &mut image);
        assert!(answer.is_ok() || image == [KEPT; 4_700]);
        answer
    };
    assert_eq!(refusal_of(83, 1, &bytes, n), Ok(4_608));
    assert_eq!(refusal_of(84, 0, &bytes, n), refused(1, 0));
    assert_eq!(refusal_of(0, 2, &[], 0), refused(1, 0));
    assert_eq!(refusal_of(0, 0, &[], 19_999), refused(2, 19_999));
    assert_eq!(refusal_of(0, 0, &bytes, 131_073), refused(2, 131_073));
    assert_eq!(
        refusal_of(0, 0, &bytes[1..], n),
        refused(3, n.div_ceil(8) as u64)
    );
    // 64 sectors are judged, 65 are not.
    let mut builder = TrackBuilder::new();
    for number in 1..=65 {
        builder.write_gap_cells(32);
        builder.write_id(0xFE, [0, 0, number, 2], 0);
        if number >= 64 {
            let many = cells::pack(&filled(builder.cells().to_vec(), 20_000));
            let expected = if number == 64 {
                refused(24, 1)
            } else {
                refused(4, 65)
            };
            assert_eq!(refusal_of(0, 0, &many, 20_000), expected);
            assert_eq!(refusal_of(0, 0, &many[1..], 20_000), refused(3, 2_500));
        }
    }
}
