//! The numbers that docs/SPECIFICATION.md gives to know (rules 1.17, 2.4, 3.13, 3.14, 6.19 and 11.10), through the crate's functions.

use thikbromu::*;

/// The standard track as a track file: six bytes of place, four of the count of cells, the cells, four of the count of timings.
const STANDARD: &[u8] = include_bytes!("../../../samples/standard.track");

/// A track like it, with bad checks and a sector without data.
const CHECKS: &[u8] = include_bytes!("../../../samples/checks.track");

/// The packed cells of such a file.
fn cells_of(file: &[u8]) -> &[u8] {
    &file[10..file.len() - 4]
}

/// Its track, of 100,000 cells.
fn track_of(file: &[u8]) -> Track<'_> {
    Track::new(cells_of(file), 100_000, file[4].into(), file[5].into())
}

fn standard() -> Track<'static> {
    track_of(STANDARD)
}

/// The lines of a track's findings, as the listing has them.
fn lines(track: Track) -> Vec<String> {
    track.findings().unwrap().iter().map(Finding::to_string).collect()
}

#[test]
fn codings() {
    let coded = |byte, before| encode_to_vec(&[byte], before).unwrap();
    assert_eq!(coded(0x4E, false), [0x92, 0x54]);
    assert_eq!(coded(0x00, false), [0xAA, 0xAA]);
    assert_eq!(coded(0x00, true), [0x2A, 0xAA]);
    for before in [false, true] {
        assert_eq!(coded(0xFF, before), [0x55, 0x55]);
        assert_eq!(coded(0xA1, before), [0x44, 0xA9]);
        assert_eq!(coded(0xC2, before), [0x52, 0xA4]);
    }
}

#[test]
fn coding_keeps_what_stands_behind() {
    let mut cells = [7; 4];
    assert_eq!(encode(&[0x4E], false, &mut cells), Ok(2));
    assert_eq!(cells, [0x92, 0x54, 7, 7]);
    assert_eq!(encode(&[0x4E; 3], false, &mut cells), Err(Refusal::NoRoomForBytes(6)));
    assert_eq!(cells, [0x92, 0x54, 7, 7]);
}

#[test]
fn decoding() {
    // The sync decodes to A1, and 5224 to C2; a last byte that stands alone is passed over.
    assert_eq!(decode_to_vec(&[0x44, 0x89, 0x52, 0x24, 0xFF]), Ok(vec![0xA1, 0xC2]));
    let mut bytes = [7; 1];
    assert_eq!(decode(&[0x55; 4], &mut bytes), Err(Refusal::NoRoomForBytes(2)));
    assert_eq!(bytes, [7]);
}

#[test]
fn no_bytes_give_no_cells() {
    assert_eq!(encode_to_vec(&[], true), Ok(vec![]));
    assert_eq!(encode(&[], true, &mut []), Ok(0));
    assert_eq!(decode_to_vec(&[]), Ok(vec![]));
    assert_eq!(decode(&[1], &mut []), Ok(0));
}

#[test]
fn most_bytes() {
    assert_eq!(encode_to_vec(&[0; MOST_BYTES_TO_CODE], false).unwrap().len(), 16_384);
    assert_eq!(encode_to_vec(&[0; MOST_BYTES_TO_CODE + 1], false), Err(Refusal::TooManyBytes(8_193)));
    assert_eq!(decode_to_vec(&[0; MOST_BYTES_TO_DECODE]).unwrap().len(), 8_192);
    assert_eq!(decode_to_vec(&[0; MOST_BYTES_TO_DECODE + 1]), Err(Refusal::TooManyBytes(16_385)));
}

#[test]
fn check_words() {
    assert_eq!(check_word(&[]), 0xFFFF);
    let after_syncs = check_word(&[0xA1, 0xA1, 0xA1]);
    assert_eq!(after_syncs, 0xCDB4);
    assert_eq!(check_word(&[0xA1, 0xA1, 0xA1, 0xFE]), 0xB230);
    assert_eq!(check_word_from(after_syncs, &[0xFE]), 0xB230);
    assert_eq!(check_word_from(after_syncs, &[0xFB]), 0xE295);
}

/// The rows of rules 3.13 and 3.18: the timings, of each the number of cells, the offset and the residual after it, and how many are border
/// pulses.
type Row = (&'static [u32], &'static [(usize, i32, i32)], usize);
const ROWS: [Row; 11] = [
    (&[4900, 4000], &[(2, 900, 450), (2, 450, 225)], 0),
    (&[4999], &[(2, 999, 499)], 1),
    (&[5000, 5000], &[(3, -1000, -500), (2, 500, 250)], 1),
    (&[5001], &[(3, -999, -499)], 1),
    (&[500, 3500], &[(0, 500, 250), (2, -250, -125)], 0),
    (&[10_000_000], &[(5000, 0, 0)], 0),
    (&[4901], &[(2, 901, 450)], 0),
    (&[4902], &[(2, 902, 451)], 1),
    (&[5098], &[(3, -902, -451)], 1),
    (&[5099], &[(3, -901, -450)], 0),
    (&[4902, 4451], &[(2, 902, 451), (2, 902, 451)], 2),
];

#[test]
fn separator_rows() {
    for (timings, steps, border_pulses) in ROWS {
        let mut state = Separator::new();
        let mut lent = Separator::new();
        for (&timing, &(cells, offset, residual)) in timings.iter().zip(steps) {
            let stepped = state.step(timing);
            let step = Ok(Step { cells, offset });
            assert_eq!(stepped, Stepped { step, next: Separator::with_residual(residual) });
            assert_eq!(lent.step_in_place(timing), step);
            assert_eq!(lent, stepped.next);
            state = stepped.next;
        }
        let made = separate_to_vec(timings).unwrap();
        assert_eq!(made.count, steps.iter().map(|step| step.0).sum());
        assert_eq!(made.border_pulses, border_pulses);
    }
}

#[test]
fn a_refused_step_keeps_the_state() {
    for timing in [0, LONGEST_TIMING + 1] {
        for residual in [-500, 0, 499, 500, i32::MIN] {
            let state = Separator::with_residual(residual);
            let stepped = state.step(timing);
            assert_eq!(stepped, Stepped { step: Err(Refusal::TimingOutOfRange(0)), next: state });
        }
    }
    // A residual outside its range counts as 0.
    assert_eq!(Separator::with_residual(500).step(4900), Separator::new().step(4900));
}

#[test]
fn cells_of_timings() {
    let cells = separate_to_vec(&[5000, 5000]).unwrap();
    assert_eq!(cells, Cells { packed: vec![0b0010_1000], count: 5, border_pulses: 1 });
    let mut room = [7; 2];
    assert_eq!(separate(&[5000, 5000], &mut room), Ok(Separation { cells: 5, border_pulses: 1 }));
    assert_eq!(room, [0b0010_1000, 7]);
    // Timings that give no cells are accepted.
    assert_eq!(separate_to_vec(&[1]), Ok(Cells { packed: vec![], count: 0, border_pulses: 0 }));
}

#[test]
fn refused_timings() {
    assert_eq!(separate_to_vec(&[]), Err(Refusal::NoTimings));
    assert_eq!(separate_to_vec(&[4000; MOST_TIMINGS + 1]), Err(Refusal::TooManyTimings(65_537)));
    assert_eq!(separate_to_vec(&[4000, 0, 0]), Err(Refusal::TimingOutOfRange(1)));
    assert_eq!(separate_to_vec(&[10_000_000; 27]), Err(Refusal::TooManyCells(135_000)));
    assert_eq!(separate(&[4000; 8], &mut [0]), Err(Refusal::NoRoom(2)));
    assert_eq!(histogram(&[]), Err(Refusal::NoTimings));
    assert_eq!(histogram(&[4000; MOST_TIMINGS + 1]), Err(Refusal::TooManyTimings(65_537)));
    assert_eq!(histogram(&[4000, 10_000_001]), Err(Refusal::TimingOutOfRange(1)));
}

#[test]
fn counts_of_timings() {
    let counts = histogram(&[1, 99, 100, 4000, 4099, 25_499, 25_500, 10_000_000]).unwrap();
    let mut expected = [0; HISTOGRAM_COUNTS];
    for (index, count) in [(0, 2), (1, 1), (40, 2), (254, 1), (255, 2)] {
        expected[index] = count;
    }
    assert_eq!(counts, expected);
}

#[test]
fn cells_and_words() {
    let track = standard();
    assert_eq!(track.word(1152, 48), 0x4489_4489_4489);
    assert_eq!(track.find_word(0x4489_4489_4489, 48, 0, 100_000), Some(1152));
    assert_eq!(track.find_word(0x4489_4489_4489, 48, 0, 1152), None);
    assert_eq!(track.find_word(0x4489_4489_4489, 48, 1152, 1152), None);
    // Counted on past the index, the first mark comes again.
    assert_eq!(track.find_word(0x4489_4489_4489, 48, 90_000, 200_000), Some(101_152));
    assert!(!track.cell(1152));
    assert!(track.cell(1153));
    assert_eq!(track.cell(101_153), track.cell(1153));
}

#[test]
fn ones_are_put_and_cleared() {
    let mut packed = [0; 2];
    put_one(&mut packed, 0);
    put_one(&mut packed, 9);
    put_one(&mut packed, 16);
    assert_eq!(packed, [0x80, 0x40]);
    clear(&mut packed, 1);
    assert_eq!(packed, [0, 0x40]);
    clear(&mut packed, 9);
    assert_eq!(packed, [0, 0]);
}

#[test]
fn sectors_of_the_standard_track() {
    let sectors = standard().sectors().unwrap();
    assert_eq!(sectors.len(), 9);
    for (index, sector) in sectors.enumerate() {
        let place = 1152 + 9824 * index as u32;
        assert_eq!(
            sector,
            Sector {
                place,
                mark: 0xFE,
                track: 0,
                side: 0,
                number: index as u8 + 1,
                size_code: 2,
                id_check_good: true,
                data_place: place + 704,
                data_mark: 0xFB,
                data_length: 512,
                data_check_good: true,
                end: place + 704 + 8288,
                density: 2,
            }
        );
        assert_eq!(standard().sector(index), Ok(sector));
    }
    assert_eq!(standard().sector(9), Err(Refusal::NoSuchSector(9)));
}

#[test]
fn reading_out() {
    let track = standard();
    for index in 0..9 {
        let data = track.read_out_to_vec(index).unwrap();
        assert!(data.check_good);
        assert_eq!(data.bytes.len(), 512);
        // The same bytes, by way of the cells: the data begins 64 cells after its mark, on a whole byte of cells.
        let start = (track.sector(index).unwrap().data_place as usize + 64) / 8;
        assert_eq!(data.bytes, decode_to_vec(&cells_of(STANDARD)[start..start + 1024]).unwrap());
        let mut buffer = [7; 513];
        assert_eq!(track.read_out(index, &mut buffer), Ok(ReadOut { length: 512, check_good: true }));
        assert_eq!(buffer[..512], data.bytes);
        assert_eq!(buffer[512], 7);
    }
    let mut buffer = [7; 511];
    assert_eq!(track.read_out(0, &mut buffer), Err(Refusal::NoRoomForBytes(512)));
    assert_eq!(buffer, [7; 511]);
    assert_eq!(track.read_out_to_vec(9), Err(Refusal::NoSuchSector(9)));
}

#[test]
fn sectors_without_good_checks() {
    let track = track_of(CHECKS);
    let kinds: Vec<Kind> = track.findings().unwrap().iter().map(|finding| finding.kind).collect();
    assert_eq!(kinds, [Kind::Nsd, Kind::Sbi, Kind::Snd, Kind::Sbd]);
    for (index, sector) in track.sectors().unwrap().enumerate() {
        let data = track.read_out_to_vec(index);
        if sector.has_data() {
            assert_eq!(data.unwrap().check_good, sector.data_check_good);
        } else {
            assert_eq!((sector.data_mark, sector.data_length, sector.end, sector.density), (0, 0, 0, 2));
            assert_eq!(data, Err(Refusal::NoData));
        }
    }
}

#[test]
fn the_listings_of_rule_11_10() {
    let nos = "3 NOS level 3 place 0 detail 0";
    assert_eq!(lines(Track::new(&[0xAA; 12_500], 100_000, 5, 0)), [nos, "4 TNF level 2 place 0 detail 0"]);
    assert_eq!(lines(Track::new(&[0xAA; 12_500], 100_000, 80, 0)), [nos]);
    assert_eq!(lines(Track::new(&[0; 12_500], 100_000, 80, 0)), [nos, "21 NFA level 1 place 0 detail 100000"]);
    assert!(lines(standard()).is_empty());
    let listing = Track::new(&[0xAA; 12_500], 100_000, 5, 0).listing();
    assert_eq!(listing, format!("T05 H0 cells 100000 sectors 0 findings 2\n{nos}\n4 TNF level 2 place 0 detail 0\n"));
}

#[test]
fn refused_tracks() {
    let packed = cells_of(STANDARD);
    let refused = |track: Track, refusal| {
        assert_eq!(track.findings(), Err(refusal));
        assert_eq!(track.sectors().err(), Some(refusal));
        assert_eq!(track.sector(0), Err(refusal));
        assert_eq!(track.read_out_to_vec(0), Err(refusal));
    };
    // In the order of rule 9.1: the place, the number of cells, the bytes.
    refused(Track::new(&[], 0, 84, 0), Refusal::TrackOrSide);
    refused(Track::new(packed, 100_000, 0, 2), Refusal::TrackOrSide);
    refused(Track::new(&[], FEWEST_CELLS - 1, 0, 0), Refusal::CellCount(19_999));
    refused(Track::new(packed, MOST_CELLS + 1, 0, 0), Refusal::CellCount(131_073));
    refused(Track::new(&[], 100_000, 0, 0), Refusal::TooFewBytes(12_500));
    refused(Track::new(&packed[1..], 100_000, 0, 0), Refusal::TooFewBytes(12_500));
}

#[test]
fn too_many_sectors() {
    // An ID mark every 20 bytes: three syncs, the byte FE and 4E up to the next.
    let mut record = [0x44, 0x89].repeat(3);
    record.extend(encode_to_vec(&[&[0xFE][..], &[0x4E; 16]].concat(), true).unwrap());
    let packed = record.repeat(65);
    let track = Track::new(&packed, 8 * packed.len(), 0, 0);
    assert_eq!(track.findings(), Err(Refusal::TooManySectors(65)));
    let track = Track::new(&packed, 8 * record.len() * 64, 0, 0);
    assert_eq!(track.sector_count(), Ok(64));
}
