//! Section 6 of the specification: records, the sector by index, and reading out.

use crate::densities::{Calls, DOUBLE};
use crate::report::{Group, Lent, Report};
use crate::terms::{self, answer};
use second_program::cells;
use second_program::refusal::Refusal;
use second_program::sectors::SectorRecord;
use test_inputs::random::Random;
use test_inputs::size_code_tracks::{self, size_code_tracks};
use test_inputs::track_builder::{filled, odd_track, standard_track, turn, SectorPlan, TrackBuilder};
use thikbromu::boundary::{self, SECTOR_NUMBERS};

/// How many numbers a record has (rule 9.34). The crate's own number is compared with it.
pub const RECORD_NUMBERS: usize = 13;

/// A packed track: its bytes, its number of cells, and the calls that read it.
pub struct Track {
    pub bytes: Vec<u8>,
    pub n: usize,
    pub calls: &'static Calls,
}

fn packed(track_cells: &[u8]) -> Track {
    packed_for(&DOUBLE, track_cells)
}

pub fn packed_for(calls: &'static Calls, track_cells: &[u8]) -> Track {
    Track { bytes: cells::pack(track_cells), n: track_cells.len(), calls }
}

/// A record as the library's numbers.
fn numbers(record: &SectorRecord) -> [u32; RECORD_NUMBERS] {
    [
        record.place as u32,
        u32::from(record.mark),
        u32::from(record.track),
        u32::from(record.side),
        u32::from(record.number),
        u32::from(record.size_code),
        u32::from(record.id_check_good),
        record.data_place as u32,
        u32::from(record.data_mark),
        record.length as u32,
        u32::from(record.data_check_good),
        record.data_end as u32,
        u32::from(record.density),
    ]
}

/// Sector by index: the answer, the record's numbers (all zeros beside a refusal) and the bytes afterwards; and the crate's record.
/// `second` is what the second program answers.
pub fn index_answer(
    group: &mut Group,
    track: &Track,
    drive: (u32, u32),
    index: usize,
    second: Result<(SectorRecord, usize), Refusal>,
) {
    let given = || format!("n {}, T {}, H {}, index {index}", track.n, drive.0, drive.1);
    let input = track.bytes.clone();
    let mut lent = Lent::new(RECORD_NUMBERS);
    let ours = answer((track.calls.sector)(&input, track.n, drive.0, drive.1, index, lent.part()));
    let left = second.map_or([0; RECORD_NUMBERS], |(record, _)| numbers(&record));
    group.same(
        (ours, lent.into_all(), &input),
        (second.map(|(_, count)| count), Lent::expected(RECORD_NUMBERS, &left), &track.bytes),
        given,
    );
    let typed = thikbromu::Track::new(&input, track.n, drive.0, drive.1);
    let ours = answer((track.calls.sector_of_track)(typed, index));
    group.same(ours.map(terms::record), second.map(|(record, _)| record), given);
}

pub fn index_case(group: &mut Group, track: &Track, drive: (u32, u32), index: usize) {
    let second = (track.calls.second_sector)(drive.0, drive.1, &track.bytes, track.n, index);
    index_answer(group, track, drive, index, second);
}

/// Reading out: the answer, the buffer, whether the check is good (not written beside a refusal) and the bytes afterwards; and the same
/// by the crate's track.
pub fn read_case(group: &mut Group, track: &Track, drive: (u32, u32), index: usize, room: usize) {
    let given = || format!("n {}, T {}, H {}, index {index}, room {room}", track.n, drive.0, drive.1);
    let second = (track.calls.second_read_out)(drive.0, drive.1, &track.bytes, track.n, index, room);
    let (expected, bytes, check) = match &second {
        Ok(read) => (Ok((read.length, read.check_good)), &read.bytes[..], vec![u32::from(read.check_good)]),
        Err(refusal) => (Err(*refusal), &[][..], Vec::new()),
    };
    let input = track.bytes.clone();
    let (mut lent, mut good) = (Lent::new(room), Lent::new(1));
    let good_number = &mut good.part()[0];
    let ours = answer((track.calls.read_out)(&input, track.n, drive.0, drive.1, index, lent.part(), good_number));
    group.same(
        (ours, lent.into_all(), good.into_all(), &input),
        (expected.map(|(length, _)| length), Lent::expected(room, bytes), Lent::expected(1, &check), &track.bytes),
        given,
    );
    let mut lent = Lent::new(room);
    let typed = thikbromu::Track::new(&input, track.n, drive.0, drive.1);
    let ours = answer((track.calls.read_out_of_track)(typed, index, lent.part()));
    group.same(
        (ours.map(|read| (read.length, read.check_good)), lent.into_all()),
        (expected, Lent::expected(room, bytes)),
        given,
    );
}

/// The sector of an index off a list of the second program, and how many sectors there are.
pub fn sector_of(accepted: &Result<Vec<SectorRecord>, Refusal>, index: usize) -> Result<(SectorRecord, usize), Refusal> {
    let list = accepted.as_ref().map_err(|refusal| *refusal)?;
    list.get(index).map(|record| (*record, list.len())).ok_or(Refusal::no_such_sector(list.len()))
}

/// All sectors of a track, one index past them, and reading out of some of them with rooms around what is needed.
pub fn whole_track(group: &mut Group, random: &mut Random, track: &Track, drive: (u32, u32)) {
    // The second program's list is made once; a sector by index is read off it.
    let accepted = (track.calls.second_sectors)(drive.0, drive.1, &track.bytes, track.n);
    let list = accepted.clone().unwrap_or_default();
    let mut shown = if list.len() > 12 { vec![0, 1, list.len() / 2, list.len() - 1] } else { (0..list.len()).collect() };
    shown.extend([list.len(), usize::MAX]);
    for index in shown {
        index_answer(group, track, drive, index, sector_of(&accepted, index));
    }
    let index = random.below(list.len() as u64 + 1) as usize;
    let length = list.get(index).map_or(0, |record| record.length);
    let room = [length, length.saturating_sub(1), length + 5][random.below(3) as usize];
    read_case(group, track, drive, index, room);
}

/// The standard track of rule 6.19 as it is, and turned so that the index falls on every cell of a record.
pub fn standard(report: &mut Report) {
    let mut group = Group::new("the standard track, by the numbers of rule 6.19");
    let mut random = Random::new(20);
    let standard_cells = standard_track(3, 1, 0xE5);
    let track = packed(&standard_cells);
    group.same(SECTOR_NUMBERS, RECORD_NUMBERS, || String::from("the numbers of a record"));
    for i in 0..9 {
        let place = 1152 + 9824 * i as u32;
        let data_place = place + 704;
        let record = [place, 0xFE, 3, 1, i as u32 + 1, 2, 1, data_place, 0xFB, 512, 1, data_place + 8288, 2];
        let mut numbers = [u32::MAX; RECORD_NUMBERS];
        let ours = answer(boundary::sector(&track.bytes, 100_000, 3, 1, i, &mut numbers));
        group.same((ours, numbers), (Ok(9), record), || format!("sector {i}"));
        let (mut data, mut good) = ([0; 512], u32::MAX);
        let ours = answer(boundary::read_out(&track.bytes, 100_000, 3, 1, i, &mut data, &mut good));
        group.same((ours, data, good), (Ok(512), [0xE5; 512], 1), || format!("data of sector {i}"));
        // As much of a record as there is room for.
        for room in 0..RECORD_NUMBERS + 2 {
            let front = &record[..room.min(RECORD_NUMBERS)];
            group.same_written(
                &track.bytes,
                room,
                |bytes, numbers| boundary::sector(bytes, 100_000, 3, 1, i, numbers),
                Ok((9, front.to_vec())),
                || format!("sector {i}, room for {room} numbers"),
            );
        }
    }
    // As many zeros of the record beside a refusal.
    for room in 0..RECORD_NUMBERS + 2 {
        let mut lent = Lent::new(room);
        let ours = answer(boundary::sector(&track.bytes, 100_000, 3, 1, 9, lent.part()));
        let zeros = vec![0; room.min(RECORD_NUMBERS)];
        group.same((ours, lent.into_all()), (Err(Refusal::no_such_sector(9)), Lent::expected(room, &zeros)), || {
            format!("no sector 9, room for {room} numbers")
        });
    }
    whole_track(&mut group, &mut random, &track, (3, 1));
    group.close(report);

    let mut group = Group::new("the standard track, turned under the index cell by cell");
    for before in 0..9_824 {
        // The first sector's ID mark stands so many cells before the index: it becomes the last sector.
        let track = packed(&turn(&standard_cells, 100_000 - 1_152 - before));
        index_case(&mut group, &track, (3, 1), 8);
        if before % 16 == 0 {
            index_case(&mut group, &track, (3, 1), 0);
            read_case(&mut group, &track, (3, 1), 8, 512);
        }
    }
    group.close(report);
}

pub fn shapes(report: &mut Report) {
    let mut random = Random::new(21);
    let mut group = Group::new("data marks at every distance from 150 to 800");
    for distance in 150..=800 {
        for phase in [0, 5] {
            let mut builder = TrackBuilder::new();
            builder.write_repeated_cell(0, phase);
            let plan = SectorPlan::standard(0, 0, 1, 0x6C);
            builder.write_id(0xFE, [0, 0, 1, 2], 0);
            if distance < 160 {
                builder.remove_last(160 - distance);
            } else {
                builder.write_gap_cells(distance - 160);
            }
            builder.write_data(0xFB, &plan.data, 0);
            let mut track_cells = filled(builder.cells().to_vec(), 20_000 + phase);
            if phase == 5 {
                // The data goes over the index.
                track_cells = turn(&track_cells, 20_000 - distance);
            }
            let track = packed(&track_cells);
            index_case(&mut group, &track, (0, 0), 0);
            read_case(&mut group, &track, (0, 0), 0, 512);
        }
    }
    group.close(report);

    let mut group = Group::new("size codes 0 to 255, and marks F6 to FF");
    for code in 0..=255u8 {
        let mut builder = TrackBuilder::new();
        let mut plan = SectorPlan::standard(0, 0, 1, code);
        plan.size_code = code;
        plan.data = (0..128usize << (code % 4)).map(|_| random.byte()).collect();
        plan.id_mark = 0xF6 + code % 10;
        plan.data_mark = Some(0xF6 + (code / 4) % 10);
        plan.data_check_error = u16::from(code % 3 == 0);
        builder.write_sector(&plan);
        let track = packed(&filled(builder.cells().to_vec(), 20_001));
        whole_track(&mut group, &mut random, &track, (0, 1));
    }
    group.close(report);

    let mut group = Group::new("many ID marks, and tracks of syncs");
    for count in [0, 1, 62, 63, 64, 65, 66, 200] {
        let mut builder = TrackBuilder::new();
        for i in 0..count {
            builder.write_id(0xFE, [0, 0, i as u8, 2], 0);
            builder.write_repeated(0x4E, 10);
        }
        for n in [100_000, 131_072] {
            let track = packed(&filled(builder.cells().to_vec(), n));
            whole_track(&mut group, &mut random, &track, (0, 0));
        }
    }
    for phase in 0..16 {
        // Nothing but syncs, and syncs with a mark byte after every third.
        for mark in [0xA1, 0xFE, 0xFB] {
            let mut builder = TrackBuilder::new();
            builder.write_repeated_cell(0, phase);
            while builder.cells().len() < 30_000 {
                builder.write_three_syncs();
                builder.write_byte(mark);
            }
            let track = packed(builder.cells());
            whole_track(&mut group, &mut random, &track, (0, 0));
        }
    }
    group.close(report);
}

/// A search that takes eight cells at a time meets a mark in every phase, over the index, and where the last byte of a track is not full.
/// Each of these is tried with each of the others.
pub fn phases_and_lengths(report: &mut Report) {
    let mut random = Random::new(23);
    let mut group = Group::new("sectors in every phase and over the index, on lengths of every remainder by 16");
    let mut builder = TrackBuilder::new();
    for number in 1..=2 {
        let mut plan = SectorPlan::standard(0, 0, number, 0x6C);
        (plan.size_code, plan.data) = (0, vec![0x6C; 128]);
        builder.write_repeated(0x00, 12);
        builder.write_sector(&plan);
        builder.write_repeated(0x4E, 40);
    }
    // The first ID mark comes after twelve bytes, and its data mark after the ID's 160 cells and 34 bytes of gap.
    let (id_mark, data_mark) = (192, 192 + 160 + 544);
    for n in 20_000..20_016 {
        let track_cells = filled(builder.cells().to_vec(), n);
        let phases = 0..16;
        // The index falls on each cell of three syncs and the mark's byte, and just after them.
        let over_index = [id_mark, data_mark].into_iter().flat_map(|mark| (1..=64).map(move |before| n - mark - before));
        for by in phases.chain(over_index) {
            let track = packed(&turn(&track_cells, by));
            let ours = answer(boundary::sector(&track.bytes, n, 0, 0, 0, &mut [0; SECTOR_NUMBERS]));
            group.same(ours, Ok(2), || format!("n {n}, turned by {by}"));
            whole_track(&mut group, &mut random, &track, (0, 0));
        }
    }
    let standard_cells = standard_track(3, 1, 0xE5);
    for phase in 0..16 {
        // Cells are left out or added where the gap before the index is.
        for n in [99_984 + phase, 100_001 + phase] {
            let track = packed(&turn(&filled(standard_cells.clone(), n), phase));
            whole_track(&mut group, &mut random, &track, (3, 1));
        }
    }
    group.close(report);
}

/// Every size code: with a data mark and without one, with the data over the index, and with another mark within the data.
pub fn size_codes(report: &mut Report) {
    let mut group = Group::new("sectors of size codes 0 to 255");
    let mut random = Random::new(24);
    for code in 0..=255 {
        // The length by the table of rule 6.11; the end by rule 6.14.
        let length = [128, 256, 512, 1024][usize::from(code) % 4];
        for (shape, track_cells) in size_code_tracks(&mut random, code).iter().enumerate() {
            let track = packed(track_cells);
            if shape == 0 {
                let (place, data_place) = (size_code_tracks::PLACE as u32, size_code_tracks::DATA_PLACE as u32);
                let end = data_place + [2144, 4192, 8288, 16480][usize::from(code) % 4];
                let record = [place, 0xFE, 0, 0, 1, u32::from(code), 1, data_place, 0xFB, length as u32, 1, end, 2];
                let mut numbers = [u32::MAX; RECORD_NUMBERS];
                let ours = answer(boundary::sector(&track.bytes, track.n, 0, 0, 0, &mut numbers));
                group.same((ours, numbers), (Ok(1), record), || format!("size code {code}"));
                for room in [0, length - 1, length + 1] {
                    read_case(&mut group, &track, (0, 0), 0, room);
                }
            }
            whole_track(&mut group, &mut random, &track, (0, 0));
            for index in 0..=1 {
                read_case(&mut group, &track, (0, 0), index, length);
            }
        }
    }
    group.close(report);
}

pub fn any_tracks(report: &mut Report) {
    let mut random = Random::new(22);
    let mut group = Group::new("odd tracks");
    for _ in 0..2_500 {
        let drive = (random.below(86) as u32, random.below(2) as u32);
        let track = packed(&odd_track(&mut random, drive.0 as u8));
        whole_track(&mut group, &mut random, &track, drive);
    }
    group.close(report);

    let mut group = Group::new("random cells, and the limits of refusals 1, 2 and 3");
    for i in 0..300 {
        let n = [19_999, 20_000, 20_001, 50_007, 100_000, 131_071, 131_072, 131_073, 0, usize::MAX][i % 10];
        let needed = cells::bytes_needed(n.min(131_073));
        let spare = [0, 0, 1, 7][random.below(4) as usize];
        let length = if i % 3 == 0 { needed.saturating_sub(1) } else { needed + spare };
        let dense = random.one_in(2);
        let mut bytes: Vec<u8> =
            (0..length).map(|_| if dense { random.byte() } else { random.byte() & random.byte() & random.byte() }).collect();
        // Marks at random places, so that there is something to find.
        for _ in 0..random.below(12) {
            let at = random.below(length.max(20) as u64 - 19) as usize;
            if at + 8 <= length {
                bytes[at..at + 6].copy_from_slice(&[0x44, 0x89, 0x44, 0x89, 0x44, 0x89]);
                let coded = if random.one_in(2) { [0x55, 0x54] } else { [0x55, 0x4A] };
                bytes[at + 6..at + 8].copy_from_slice(&coded);
            }
        }
        let track = Track { bytes, n, calls: &DOUBLE };
        let drive = ([0, 79, 80, 83, 84, u32::MAX][random.below(6) as usize], [0, 1, 2, u32::MAX][random.below(4) as usize]);
        for drive in [drive, (83, 1)] {
            for index in [0, 1, 64] {
                index_case(&mut group, &track, drive, index);
                read_case(&mut group, &track, drive, index, 512);
            }
        }
    }
    group.close(report);
}
