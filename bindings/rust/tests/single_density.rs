//! Single density by the figures of its rules (3.19 to 3.22, 6.20 to 6.26 and 7.44 to 7.47), on tracks that are made here.

use thikbromu::boundary::{self, FindingRecord, FINDING_NUMBERS, SECTOR_NUMBERS};
use thikbromu::*;

/// The cells of the ID mark, of the data mark and of the mark of deleted data, packed.
const ID_MARK: [u8; 2] = [0xF5, 0x7E];
const DATA_MARK: [u8; 2] = [0xF5, 0x6F];
const DELETED_DATA_MARK: [u8; 2] = [0xF5, 0x6A];

/// Where the first sector of the standard track stands, and from it to the next.
const FIRST: usize = 416;
const RECORD: usize = 2_736;

/// The cells of bytes, packed: a clock of 1 before each bit.
fn coded(bytes: &[u8]) -> Vec<u8> {
    let cells = |byte: u8| (0..8).fold(0xAAAA_u16, |cells, bit| cells | u16::from(byte >> bit & 1) << (2 * bit));
    bytes.iter().flat_map(|&byte| cells(byte).to_be_bytes()).collect()
}

/// A mark, whose byte is given, and the bytes behind it with their check, which is off by `error`.
fn marked(mark: [u8; 2], byte: u8, bytes: &[u8], error: u16) -> Vec<u8> {
    let check = check_word(&[&[byte], bytes].concat()) ^ error;
    [&mark[..], &coded(bytes), &coded(&check.to_be_bytes())].concat()
}

/// A sector without the gaps around it.
struct Plan {
    id: [u8; 4],
    id_error: u16,
    data_mark: ([u8; 2], u8),
    data: Vec<u8>,
    data_error: u16,
}

/// So many sectors of track 2, side 0, laid out as on the standard track, each changed by `change`. The standard track has eighteen; 27
/// bytes FF follow, and 50,000 cells are full.
fn track_of(sectors: u8, change: impl Fn(&mut Plan)) -> Vec<u8> {
    let mut packed = coded(&[0xFF; 20]);
    for number in 1..=sectors {
        let data = vec![0xE5; 128];
        let mut plan = Plan { id: [2, 0, number, 0], id_error: 0, data_mark: (DATA_MARK, 0xFB), data, data_error: 0 };
        change(&mut plan);
        packed.extend(coded(&[0; 6]));
        packed.extend(marked(ID_MARK, 0xFE, &plan.id, plan.id_error));
        packed.extend(coded(&[[0xFF; 11].as_slice(), &[0; 6]].concat()));
        packed.extend(marked(plan.data_mark.0, plan.data_mark.1, &plan.data, plan.data_error));
        packed.extend(coded(&[0xFF; 10]));
    }
    packed.extend(coded(&[0xFF; 27]));
    packed
}

fn standard() -> Vec<u8> {
    track_of(18, |_| {})
}

/// The standard track with its sector 9 changed.
fn with_9(change: impl Fn(&mut Plan)) -> Vec<u8> {
    track_of(18, |plan| {
        if plan.id[2] == 9 {
            change(plan)
        }
    })
}

/// The place of sector 9.
const PLACE_9: usize = FIRST + 8 * RECORD;

fn single(packed: &[u8], cells: usize) -> TrackInDensity<'_> {
    Track::new(packed, cells, 2, 0).in_density(Density::Single)
}

/// The kinds of findings of a track of 50,000 cells, with their places and details.
fn found(packed: &[u8]) -> Vec<(Kind, u32, u32)> {
    let findings = single(packed, 50_000).findings().unwrap();
    findings.iter().map(|finding| (finding.kind, finding.place, finding.detail)).collect()
}

#[test]
fn densities_have_numbers() {
    assert_eq!((Density::Single.number(), Density::Double.number()), (1, 2));
    assert_eq!(Density::default(), Density::Double);
}

/// The check begins with the byte of the mark.
#[test]
fn check_words_of_marks() {
    assert_eq!(check_word(&[0xFE]), 0xEF21);
    assert_eq!(check_word(&[0xFB]), 0xBF84);
    assert_eq!(check_word(&[0xF8]), 0x8FE7);
    assert_eq!(check_word(&[0xFE, 0, 0, 1, 0]), 0xD2C3);
    // Decoding passes over clocks, so it reads the bytes of marks as well.
    let marks = [ID_MARK, DATA_MARK, DELETED_DATA_MARK].concat();
    assert_eq!(decode_to_vec(&marks), Ok(vec![0xFE, 0xFB, 0xF8]));
    assert_eq!(coded(&[0x00, 0xFF, 0x4E]), [0xAA, 0xAA, 0xFF, 0xFF, 0xBA, 0xFE]);
}

/// Timings, of each the number of cells, the offset and the residual after it, and how many are border pulses.
type Row = (&'static [u32], &'static [(usize, i32, i32)], usize);
const ROWS: [Row; 11] = [
    (&[9_800, 8_000], &[(2, 1_800, 900), (2, 900, 450)], 0),
    (&[9_999], &[(2, 1_999, 999)], 1),
    (&[10_000, 10_000], &[(3, -2_000, -1_000), (2, 1_000, 500)], 1),
    (&[10_001], &[(3, -1_999, -999)], 1),
    (&[1_000, 7_000], &[(0, 1_000, 500), (2, -500, -250)], 0),
    (&[10_000_000], &[(2_500, 0, 0)], 0),
    (&[9_803], &[(2, 1_803, 901)], 0),
    (&[9_804], &[(2, 1_804, 902)], 1),
    (&[10_196], &[(3, -1_804, -902)], 1),
    (&[10_197], &[(3, -1_803, -901)], 0),
    (&[9_804, 8_902], &[(2, 1_804, 902), (2, 1_804, 902)], 2),
];

#[test]
fn separator_rows() {
    for (timings, steps, border_pulses) in ROWS {
        let mut state = Separator::new().in_density(Density::Single);
        let mut lent = state;
        for (&timing, &(cells, offset, residual)) in timings.iter().zip(steps) {
            let stepped = state.step(timing);
            let step = Ok(Step { cells, offset });
            let next = Separator::with_residual(residual).in_density(Density::Single);
            assert_eq!(stepped, Stepped { step, next });
            assert_eq!(lent.step_in_place(timing), step);
            assert_eq!(lent, next);
            state = next;
        }
        let made = separate_in_density_to_vec(Density::Single, timings).unwrap();
        assert_eq!(made.count, steps.iter().map(|step| step.0).sum());
        assert_eq!(made.border_pulses, border_pulses);
    }
}

#[test]
fn residuals_of_single_density() {
    for residual in [-1_000, -501, 500, 999] {
        // These are taken as they are, and in double density as 0.
        let state = Separator::with_residual(residual);
        assert_eq!(state.step(4_000).step, Ok(Step { cells: 2, offset: 0 }));
        let step = state.in_density(Density::Single).step(8_000).step;
        assert_eq!(step, Ok(Step { cells: 2, offset: residual }));
    }
    for residual in [-1_001, 1_000, i32::MIN, i32::MAX] {
        let state = Separator::with_residual(residual).in_density(Density::Single);
        assert_eq!(state.step(9_800).step, Ok(Step { cells: 2, offset: 1_800 }));
        for timing in [0, LONGEST_TIMING + 1] {
            assert_eq!(state.step(timing), Stepped { step: Err(Refusal::TimingOutOfRange(0)), next: state });
        }
    }
    assert_eq!(Separator::new().density(), Density::Double);
    assert_eq!(Separator::default(), Separator::new());
}

#[test]
fn cells_of_timings() {
    let cells = separate_in_density_to_vec(Density::Single, &[10_000, 10_000]).unwrap();
    assert_eq!(cells, Cells { packed: vec![0b0010_1000], count: 5, border_pulses: 1 });
    assert_eq!(separate_in_density_to_vec(Density::Double, &[5_000, 5_000]), separate_to_vec(&[5_000, 5_000]));
    let separate = |timings: &[u32], cells: &mut [u8]| separate_in_density(Density::Single, timings, cells);
    assert_eq!(separate(&[], &mut []), Err(Refusal::NoTimings));
    assert_eq!(separate(&[8_000; MOST_TIMINGS + 1], &mut []), Err(Refusal::TooManyTimings(65_537)));
    assert_eq!(separate(&[8_000, 0, 0], &mut []), Err(Refusal::TimingOutOfRange(1)));
    assert_eq!(separate(&[10_000_000; 53], &mut []), Err(Refusal::TooManyCells(132_500)));
    assert_eq!(separate(&[8_000; 8], &mut [0]), Err(Refusal::NoRoom(2)));
}

#[test]
fn what_is_lent_is_kept_beside_a_refusal() {
    let (mut residual, mut offset) = (700, 7);
    assert_eq!(boundary::fm_step(&mut residual, 0, &mut offset), Err(Refusal::TimingOutOfRange(0)));
    assert_eq!((residual, offset), (700, 7));
    let (mut cells, mut border_pulses) = ([9; 1], 7);
    assert_eq!(boundary::fm_separate(&[9_804], &mut [], &mut border_pulses), Err(Refusal::NoRoom(1)));
    assert_eq!((cells, border_pulses), ([9], 7));
    assert_eq!(boundary::fm_separate(&[9_804], &mut cells, &mut border_pulses), Ok(2));
    assert_eq!((cells, border_pulses), ([0b0100_0000], 1));
    let packed = standard();
    let (mut buffer, mut good) = ([7; 128], 7);
    let read = boundary::fm_read_out(&packed, 50_000, 2, 2, 0, &mut buffer, &mut good);
    assert_eq!((read, buffer, good), (Err(Refusal::TrackOrSide), [7; 128], 7));
}

#[test]
fn sectors_of_the_standard_track() {
    let packed = standard();
    assert_eq!(packed.len(), 6_250);
    let track = single(&packed, 50_000);
    assert_eq!((track.density(), track.track().cells()), (Density::Single, 50_000));
    let sectors = track.sectors().unwrap();
    assert_eq!(sectors.len(), 18);
    for (index, sector) in sectors.enumerate() {
        let place = (FIRST + RECORD * index) as u32;
        assert_eq!(
            sector,
            Sector {
                place,
                mark: 0xFE,
                track: 2,
                side: 0,
                number: index as u8 + 1,
                size_code: 0,
                id_check_good: true,
                data_place: place + 384,
                data_mark: 0xFB,
                data_length: 128,
                data_check_good: true,
                end: place + 384 + 16 + 2_048 + 32,
                density: 1,
            }
        );
        let data = track.read_out_to_vec(index).unwrap();
        assert_eq!(data, SectorData { bytes: vec![0xE5; 128], check_good: true });
    }
    assert_eq!(track.sector(18), Err(Refusal::NoSuchSector(18)));
    assert_eq!(track.read_out(0, &mut [0; 127]), Err(Refusal::NoRoomForBytes(128)));
    assert_eq!(found(&packed), []);
}

#[test]
fn a_record_of_any_room() {
    let packed = standard();
    let record = [416, 0xFE, 2, 0, 1, 0, 1, 800, 0xFB, 128, 1, 2_896, 1];
    for room in 0..=SECTOR_NUMBERS + 1 {
        let front = room.min(SECTOR_NUMBERS);
        let mut numbers = vec![7; room];
        assert_eq!(boundary::fm_sector(&packed, 50_000, 2, 0, 0, &mut numbers), Ok(18));
        assert_eq!(numbers[..front], record[..front]);
        assert_eq!(boundary::fm_sector(&packed, 50_000, 2, 0, 18, &mut numbers), Err(Refusal::NoSuchSector(18)));
        assert!(numbers[..front].iter().all(|&number| number == 0));
        assert!(numbers[front..].iter().all(|&number| number == 7));
    }
}

/// Each density reads its own marks alone.
#[test]
fn the_same_cells_in_double_density() {
    let packed = standard();
    let track = Track::new(&packed, 50_000, 2, 0);
    let kinds: Vec<Kind> = track.findings().unwrap().iter().map(|finding| finding.kind).collect();
    assert_eq!(kinds, [Kind::Sht, Kind::Nos, Kind::Tnf, Kind::Mtv]);
    assert_eq!(track.in_density(Density::Double).findings(), track.findings());
    let file = include_bytes!("../../../samples/standard.track");
    let double = Track::new(&file[10..12_510], 100_000, 0, 0);
    assert_eq!((double.sector_count(), double.in_density(Density::Single).sector_count()), (Ok(9), Ok(0)));
    let ours: Vec<Sector> = double.in_density(Density::Double).sectors().unwrap().collect();
    assert_eq!(ours, double.sectors().unwrap().collect::<Vec<_>>());
}

#[test]
fn the_limits_of_the_cells() {
    // Ones alone, which are the bytes FF, at track 80.
    let ones = [0xFF; 6_500];
    let kinds = |cells| {
        let findings = Track::new(&ones, cells, 80, 0).in_density(Density::Single).findings().unwrap();
        findings.iter().map(|finding| (finding.kind, finding.detail)).collect::<Vec<_>>()
    };
    assert_eq!(kinds(48_499), [(Kind::Sht, 48_499), (Kind::Nos, 0)]);
    assert_eq!(kinds(48_500), [(Kind::Nos, 0)]);
    assert_eq!(kinds(51_500), [(Kind::Nos, 0)]);
    assert_eq!(kinds(51_501), [(Kind::Lgt, 51_501), (Kind::Nos, 0)]);
}

#[test]
fn numbers_of_sectors() {
    // Nineteen sectors have no room on a track that is not long.
    for (count, cells, long) in [(17, 48_500, false), (18, 50_000, false), (19, 52_500, true)] {
        let mut packed = track_of(count, |_| {});
        packed.resize(6_563, 0xFF);
        let mut expected = Vec::new();
        if long {
            expected.push(Finding { kind: Kind::Lgt, place: 0, detail: cells as u32 });
        }
        if count != 18 {
            expected.push(Finding { kind: Kind::Nos, place: 0, detail: count.into() });
        }
        assert_eq!(single(&packed, cells).findings(), Ok(expected));
    }
}

#[test]
fn each_kind_on_sectors() {
    let place = PLACE_9 as u32;
    assert_eq!(found(&with_9(|plan| plan.id[2] = 8)), [(Kind::Dsn, place, 8)]);
    assert_eq!(found(&with_9(|plan| plan.id[2] = 247)), [(Kind::Isn, place, 247)]);
    assert_eq!(found(&with_9(|plan| plan.id[0] = 3)), [(Kind::Itn, place, 3)]);
    assert_eq!(found(&with_9(|plan| plan.id[1] = 2)), [(Kind::Iif, place, 2)]);
    assert_eq!(found(&with_9(|plan| plan.id_error = 1)), [(Kind::Sbi, place, 9)]);
    assert_eq!(found(&with_9(|plan| plan.data_error = 1)), [(Kind::Sbd, place, 9)]);
    // Cells that are no mark.
    let no_data = with_9(|plan| plan.data_mark = ([0xF5, 0x6E], 0xFA));
    assert_eq!(found(&no_data), [(Kind::Snd, place, 9)]);
    assert_eq!(single(&no_data, 50_000).read_out_to_vec(8), Err(Refusal::NoData));
}

#[test]
fn deleted_data_is_no_finding() {
    let packed = with_9(|plan| plan.data_mark = (DELETED_DATA_MARK, 0xF8));
    assert_eq!(found(&packed), []);
    let sector = single(&packed, 50_000).sector(8).unwrap();
    assert_eq!((sector.data_mark, sector.data_check_good, sector.has_data()), (0xF8, true, true));
}

#[test]
fn size_codes() {
    // 256 bytes, the last of which are the gap's and the next sector's.
    let packed = with_9(|plan| plan.id[3] = 1);
    let (place, next) = (PLACE_9 as u32, (PLACE_9 + RECORD) as u32);
    let expected = [(Kind::Ssz, place, 1), (Kind::Sbd, place, 9), (Kind::Sws, next, 10), (Kind::Sid, place, 1)];
    assert_eq!(found(&packed), expected);
    let sector = single(&packed, 50_000).sector(8).unwrap();
    assert_eq!((sector.data_length, sector.end), (256, place + 384 + 16 + 4_096 + 32));
    // A sector of 1,024 bytes, whose code is 7.
    let mut packed = track_of(1, |plan| (plan.id[3], plan.data) = (7, vec![0x11; 1_024]));
    packed.resize(2_500, 0xFF);
    let data = single(&packed, FEWEST_CELLS).read_out_to_vec(0);
    assert_eq!(data, Ok(SectorData { bytes: vec![0x11; 1_024], check_good: true }));
}

#[test]
fn id_marks_within_sectors() {
    let mut packed = standard();
    // In the data of sector 9: the mark is a sector too, the bytes behind it are its ID, and no data follows near enough.
    let at = PLACE_9 + 384 + 16 + 16 * 30;
    packed[at / 8..at / 8 + 2].copy_from_slice(&ID_MARK);
    let (place, hidden) = (PLACE_9 as u32, at as u32);
    let expected = [
        (Kind::Nos, 0, 19),
        (Kind::Itn, hidden, 0xE5),
        (Kind::Iif, hidden, 0xE5),
        (Kind::Ssz, hidden, 0xE5),
        (Kind::Sbi, hidden, 0xE5),
        (Kind::Sbd, place, 9),
        (Kind::Sws, hidden, 0xE5),
        (Kind::Sid, place, 1),
    ];
    assert_eq!(found(&packed), expected);
}

#[test]
fn distances_of_ones() {
    for (cleared, violations) in [(0, 0), (1, 1), (2, 1), (3, 1)] {
        // Zeros in the bytes 00 before the second sector, where a one stands at every second cell; each that is taken away joins two.
        let mut packed = standard();
        let zeros = (FIRST + RECORD - 96) / 8;
        packed[zeros + 2] = 0xAA & (0xFF >> (2 * cleared));
        let expected: Vec<_> = (0..violations).map(|_| (Kind::Mtv, 8 * zeros as u32 + 14, 1)).collect();
        assert_eq!(found(&packed), expected, "{cleared}");
    }
    // A distance of 3: a one moved by a cell, so that it is 1 from the one before.
    let mut packed = standard();
    let zeros = (FIRST + RECORD - 96) / 8;
    packed[zeros + 2] = 0b1100_1010;
    assert_eq!(found(&packed), [(Kind::Mtv, 8 * zeros as u32 + 17, 1)]);
}

#[test]
fn marks_over_the_index() {
    let packed = standard();
    for (by, kind, detail) in
        [(8, Kind::Doi, 8), (2_096 - 8, Kind::Doi, 2_096 - 8), (2_096, Kind::Dbi, 0), (2_104, Kind::Dbi, 8)]
    {
        // The end of sector 9's data lies `by` cells behind the index.
        let cut = (PLACE_9 + 384 + 2_096 - by) / 8;
        let turned = [&packed[cut..], &packed[..cut]].concat();
        let findings = single(&turned, 50_000).findings().unwrap();
        assert_eq!(findings.iter().map(|finding| (finding.kind, finding.detail)).collect::<Vec<_>>(), [(kind, detail)]);
        let data = single(&turned, 50_000).read_out_to_vec(17).unwrap();
        assert_eq!(data, SectorData { bytes: vec![0xE5; 128], check_good: true });
    }
}

#[test]
fn numbers_and_records_are_the_same_findings() {
    // In each of these findings the kind, the level, the place and the detail differ.
    let packed = with_9(|plan| (plan.id_error, plan.data_error) = (1, 1));
    let mut records = [FindingRecord::default(); 2];
    let mut numbers = [0; 2 * FINDING_NUMBERS];
    assert_eq!(boundary::fm_finding_records(&packed, 50_000, 2, 0, &mut records), Ok(2));
    assert_eq!(boundary::fm_findings(&packed, 50_000, 2, 0, &mut numbers), Ok(2));
    assert_eq!(numbers, [13, 1, PLACE_9 as u32, 9, 15, 1, PLACE_9 as u32, 9]);
    for (record, numbers) in records.iter().zip(numbers.chunks(FINDING_NUMBERS)) {
        assert_eq!([record.kind.into(), record.level.into(), record.place, record.detail], *numbers);
    }
    let (kept, kept_numbers) = (records, numbers);
    let short = Err(Refusal::ListTooShort(2));
    assert_eq!(boundary::fm_finding_records(&packed, 50_000, 2, 0, &mut records[..1]), short);
    assert_eq!(boundary::fm_findings(&packed, 50_000, 2, 0, &mut numbers[..7]), short);
    assert_eq!((records, numbers), (kept, kept_numbers));
}

#[test]
fn refused_tracks() {
    let packed = standard();
    let refused = |packed: &[u8], cells, track, side, refusal| {
        let track = Track::new(packed, cells, track, side).in_density(Density::Single);
        assert_eq!(track.findings(), Err(refusal));
        assert_eq!(track.sectors().err(), Some(refusal));
        assert_eq!(track.sector(0), Err(refusal));
        assert_eq!(track.read_out_to_vec(0), Err(refusal));
    };
    refused(&[], 0, 84, 0, Refusal::TrackOrSide);
    refused(&packed, 50_000, 0, 2, Refusal::TrackOrSide);
    refused(&[], FEWEST_CELLS - 1, 0, 0, Refusal::CellCount(19_999));
    refused(&packed, MOST_CELLS + 1, 0, 0, Refusal::CellCount(131_073));
    refused(&packed[1..], 50_000, 0, 0, Refusal::TooFewBytes(6_250));
    // An ID mark every 40 bytes of cells.
    let many = [&ID_MARK[..], &[0xFF; 38]].concat().repeat(65);
    refused(&many, 65 * 320, 0, 0, Refusal::TooManySectors(65));
    assert_eq!(single(&many, 64 * 320).sector_count(), Ok(64));
}
