//! Write Track: what each byte of a list writes, the check word, the refusals, and the
//! standard track read back.

use second_program::cells;
use second_program::findings::{findings, Finding, EXT, SBD};
use second_program::mfm::decode;
use second_program::refusal::Refusal;
use second_program::sectors;
use second_program::write_track::{
    cells_of, standard_list, standard_list_with_check, write_track, written_cells, StandardData,
};
use test_inputs::random::Random;
use test_inputs::track_builder::standard_track;

const KEPT: u8 = 0x77;
const N: usize = 100_000;

fn refused<T>(number: u32, value: u64) -> Result<T, Refusal> {
    Err(Refusal { number, value })
}

/// The cells of a list, 16 to an element.
fn words(list: &[u8]) -> Vec<u16> {
    let packed = written_cells(list).unwrap();
    assert_eq!(8 * packed.len(), cells_of(list));
    packed
        .chunks(2)
        .map(|pair| u16::from_be_bytes([pair[0], pair[1]]))
        .collect()
}

/// The last two bytes that a list writes, the first as the high byte.
fn last_two(list: &[u8]) -> u16 {
    let packed = written_cells(list).unwrap();
    let bytes = decode(&packed[packed.len() - 4..], 2).unwrap();
    u16::from_be_bytes([bytes[0], bytes[1]])
}

/// Random data without F5 to F7.
fn random_data(random: &mut Random) -> StandardData {
    let mut data = [[0; 512]; 9];
    for byte in data.iter_mut().flatten() {
        *byte = random.byte();
        while (0xF5..=0xF7).contains(byte) {
            *byte = random.byte();
        }
    }
    data
}

/// The findings of a list's cells at a track and side.
fn findings_of(list: &[u8], track: u32, side: u32) -> Vec<Finding> {
    let packed = written_cells(list).unwrap();
    findings(track, side, &packed, cells_of(list), 901).unwrap()
}

#[test]
fn no_bytes_give_no_cells() {
    let mut packed = [KEPT; 4];
    assert_eq!(write_track(&[], &mut packed), Ok(0));
    assert_eq!(packed, [KEPT; 4]);
    assert_eq!(write_track(&[], &mut []), Ok(0));
    assert_eq!(written_cells(&[]), Ok(vec![]));
}

#[test]
fn bytes_are_coded_and_commands_write_syncs() {
    // The codings that the papers give, after a data bit 0.
    assert_eq!(words(&[0x4E]), [0x9254]);
    assert_eq!(words(&[0x00]), [0xAAAA]);
    assert_eq!(words(&[0xFF, 0x00]), [0x5555, 0x2AAA]);
    assert_eq!(words(&[0xA1, 0xC2]), [0x44A9, 0x52A4]);
    assert_eq!(words(&[0xF5, 0xF6]), [0x4489, 0x5224]);
    // Behind the sync A1 the data bit is 1, behind C2 it is 0.
    assert_eq!(words(&[0xF5, 0x00]), [0x4489, 0x2AAA]);
    assert_eq!(words(&[0xF6, 0x00]), [0x5224, 0xAAAA]);
    assert_eq!(
        words(&[0x00, 0xF5, 0xF5, 0x4E]),
        [0xAAAA, 0x4489, 0x4489, 0x1254]
    );
    // The neighbours of the commands are no commands.
    assert_eq!(words(&[0xF4, 0xF8]), [0x5512, 0x554A]);
}

#[test]
fn every_other_byte_stands_on_the_track() {
    let bytes: Vec<u8> = (0..=255)
        .filter(|byte| !(0xF5..=0xF7).contains(byte))
        .collect();
    let packed = written_cells(&bytes).unwrap();
    assert_eq!(decode(&packed, 253), Ok(bytes.clone()));
    assert_eq!(second_program::mfm::code(&bytes, false, 506), Ok(packed));
}

#[test]
fn the_check_words_of_the_papers() {
    assert_eq!(last_two(&[0xF5, 0xF5, 0xF5, 0xF7]), 0xCDB4);
    assert_eq!(last_two(&[0xF5, 0xF5, 0xF5, 0xFE, 0xF7]), 0xB230);
    assert_eq!(last_two(&[0xF5, 0xF5, 0xF5, 0xFB, 0xF7]), 0xE295);
    assert_eq!(
        last_two(&[0xF5, 0xF5, 0xF5, 0xFE, 0, 0, 1, 2, 0xF7]),
        0xCA6F
    );
    let mut data = vec![0xF5, 0xF5, 0xF5, 0xFB];
    data.extend([0xE5; 512]);
    data.push(0xF7);
    assert_eq!(last_two(&data), 0xC40B);
}

#[test]
fn the_check_word_begins_at_the_list_and_at_each_run_of_f5() {
    assert_eq!(last_two(&[0xF7]), 0xFFFF);
    assert_eq!(words(&[0xF7]), [0x5555, 0x5555]);
    assert_eq!(last_two(&[0x4E, 0xF7]), 0x48FA);
    // 443B counts one A1, 968B two, 192A four.
    assert_eq!(last_two(&[0xF5, 0xF7]), 0x443B);
    assert_eq!(last_two(&[0xF5, 0xF5, 0xF7]), 0x968B);
    assert_eq!(last_two(&[0xF5, 0xF5, 0xF5, 0xF5, 0xF7]), 0x192A);
    assert_eq!(last_two(&[0x4E, 0x4E, 0xF5, 0xF7]), 0x443B);
    // Any other byte ends a run: a gap, another sync, a check, and A1 itself.
    for between in [0x00, 0x4E, 0xA1, 0xF4, 0xF6, 0xF7, 0xF8] {
        assert_eq!(last_two(&[0xF5, 0xF5, between, 0xF5, 0xF7]), 0x443B);
        assert_eq!(last_two(&[0xF5, between, 0xF5, 0xF5, 0xF7]), 0x968B);
    }
}

#[test]
fn every_byte_written_counts() {
    // F6 counts as C2 and begins nothing anew.
    assert_eq!(last_two(&[0xF6, 0xF7]), 0x18FE);
    assert_eq!(last_two(&[0xC2, 0xF7]), 0x18FE);
    assert_eq!(last_two(&[0xF5, 0xF6, 0xF7]), 0xCA4E);
    assert_eq!(last_two(&[0xF6, 0xF6, 0xF6, 0xF7]), 0x0D33);
    assert_eq!(last_two(&[0xF5, 0x4E, 0xF7]), 0x9A4A);
    // Bytes with their own check leave 0, so a second check is 0000, and so on.
    for before in [vec![], vec![0xF5], vec![0x4E, 0xF6], vec![1, 2, 3]] {
        let mut list = before;
        list.extend([0xF7, 0xF7]);
        assert_eq!(last_two(&list), 0x0000);
        list.push(0xF7);
        assert_eq!(last_two(&list), 0x0000);
    }
    assert_eq!(words(&[0xF7, 0xF7]), [0x5555, 0x5555, 0x2AAA, 0xAAAA]);
    // A byte behind F7 is taken as anywhere else.
    assert_eq!(words(&[0xF7, 0xF5, 0xF6])[2..], [0x4489, 0x5224]);
}

#[test]
fn numbers_of_cells() {
    for (list, count) in [
        (vec![0x00], 16),
        (vec![0xF5], 16),
        (vec![0xF6], 16),
        (vec![0xF7], 32),
        (vec![0xF7, 0xF7, 0x00], 80),
        (vec![0x4E; 6_250], 100_000),
    ] {
        assert_eq!(cells_of(&list), count);
        let mut packed = vec![KEPT; count / 8 + 3];
        assert_eq!(write_track(&list, &mut packed), Ok(count));
        assert_eq!(packed[..count / 8], written_cells(&list).unwrap());
        assert_eq!(packed[count / 8..], [KEPT; 3]);
    }
}

#[test]
fn refusal_20_above_131072_cells() {
    let mut packed = vec![KEPT; 16_384];
    for byte in [0x00, 0x4E, 0xF5, 0xF6] {
        assert_eq!(write_track(&vec![byte; 8_192], &mut packed), Ok(131_072));
        packed.fill(KEPT);
        assert_eq!(write_track(&vec![byte; 8_193], &mut packed), refused(20, 0));
        assert!(packed.iter().all(|&byte| byte == KEPT));
    }
    assert_eq!(write_track(&[0xF7; 4_096], &mut packed), Ok(131_072));
    assert_eq!(write_track(&[0xF7; 4_097], &mut packed), refused(20, 0));
    let mut list = vec![0x4E; 8_190];
    list.push(0xF7);
    assert_eq!(write_track(&list, &mut packed), Ok(131_072));
    list.push(0x00);
    assert_eq!(write_track(&list, &mut packed), refused(20, 0));
    list[8_191] = 0xF7;
    assert_eq!(written_cells(&list), refused(20, 0));
    assert_eq!(written_cells(&vec![0; 100_000]), refused(20, 0));
}

#[test]
fn refusal_10_where_the_cells_have_no_room() {
    for (list, needed) in [
        (vec![0x00], 2),
        (vec![0xF7], 4),
        (vec![0xF5, 0xF7, 0x4E], 8),
        (vec![0x4E; 8_192], 16_384),
    ] {
        for room in [0, needed / 2, needed - 1] {
            let mut packed = vec![KEPT; room];
            assert_eq!(write_track(&list, &mut packed), refused(10, needed as u64));
            assert_eq!(packed, vec![KEPT; room]);
        }
        let count = write_track(&list, &mut vec![KEPT; needed]);
        assert_eq!(count, Ok(8 * needed));
    }
    // 20 comes before 10.
    assert_eq!(write_track(&[0; 8_193], &mut []), refused(20, 0));
}

#[test]
fn the_standard_list_gives_the_standard_track() {
    let list = standard_list(5, 1, &[[0xE5; 512]; 9]);
    // 6,250 bytes on the track, 18 of them the second ones of checks.
    assert_eq!(list.len(), 60 + 9 * 612 + 664);
    assert_eq!(cells_of(&list), N);
    let packed = written_cells(&list).unwrap();
    assert!(packed == cells::pack(&standard_track(5, 1, 0xE5)));
    let places: Vec<usize> = (0..9).map(|index| 1_152 + 9_824 * index).collect();
    assert_eq!(sectors::id_mark_places(&packed, N), places);
}

#[test]
fn the_standard_track_has_no_findings_up_to_79_and_ext_from_80() {
    let data = [[0xE5; 512]; 9];
    for track in 0..=83 {
        let side = track % 2;
        let list = standard_list(track as u8, side as u8, &data);
        let expected = if track <= 79 {
            vec![]
        } else {
            vec![Finding::new(EXT, 0, 9)]
        };
        assert_eq!(findings_of(&list, track, side), expected);
    }
}

#[test]
fn the_sectors_of_the_standard_track() {
    let mut random = Random::new(1);
    for (track, side) in [(0, 0), (79, 1), (83, 0)] {
        let data = random_data(&mut random);
        let list = standard_list(track, side, &data);
        let packed = written_cells(&list).unwrap();
        for (index, of_sector) in data.iter().enumerate() {
            let place = (u32::from(track), u32::from(side));
            let (record, count) =
                sectors::sector_by_index(place.0, place.1, &packed, N, index).unwrap();
            let id = (record.track, record.side, record.number, record.size_code);
            assert_eq!(id, (track, side, index as u8 + 1, 2));
            assert_eq!((record.mark, record.data_mark, count), (0xFE, 0xFB, 9));
            assert_eq!(record.data_place - record.place, 704);
            assert!(record.id_check_good && record.data_check_good);
            let read = sectors::read_out(place.0, place.1, &packed, N, index, 512).unwrap();
            assert_eq!((read.length, read.check_good), (512, true));
            assert_eq!(read.bytes, of_sector);
        }
    }
}

#[test]
fn two_bytes_for_a_check_are_bad_but_for_the_check_itself() {
    let data = [[0xE5; 512]; 9];
    for number in 1..=9 {
        let index = usize::from(number) - 1;
        let bad = vec![Finding::new(SBD, 1_152 + 9_824 * index, number.into())];
        for (check_bytes, expected) in [
            ([0xC4, 0x0B], vec![]),
            ([0x0B, 0xC4], bad.clone()),
            ([0xC4, 0x0A], bad.clone()),
            ([0x44, 0x0B], bad.clone()),
            ([0x00, 0x00], bad.clone()),
            ([0xF4, 0xF8], bad),
        ] {
            let list = standard_list_with_check(7, 0, &data, number, check_bytes);
            assert_eq!(cells_of(&list), N);
            assert_eq!(findings_of(&list, 7, 0), expected);
        }
    }
}

#[test]
fn commands_in_the_data_change_the_track() {
    // F7 stands for two bytes, so the data holds one byte less of what follows.
    let mut data = [[0xE5; 512]; 9];
    data[4][100] = 0xF7;
    let list = standard_list(0, 0, &data);
    assert_eq!(cells_of(&list), N + 16);
    let list = findings_of(&list, 0, 0);
    assert_eq!(list, [Finding::new(SBD, 1_152 + 9_824 * 4, 5)]);
}
