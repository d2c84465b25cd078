//! Single density: the rules of FM in sections 3, 6 and 7 of the specification, by the calls of rules 9.41 to 9.48. And tracks of either
//! density, read in the other.

use crate::densities::{Calls, DOUBLE, SINGLE};
use crate::findings::packed_track;
use crate::flux::{bytes_needed_in, list_case_in, numbers_in, second_step, step, step_case_in, steps_on};
use crate::report::{Group, Lent, Report};
use crate::sectors::{index_answer, index_case, packed_for, read_case, sector_of, whole_track, Track, RECORD_NUMBERS};
use crate::terms::answer;
use second_program::cells;
use second_program::refusal::Refusal;
use second_program::single_density::{DATA_MARK, DELETED_DATA_MARK, ID_MARK};
use test_inputs::random::Random;
use test_inputs::single_density_flux::{fm_lists, fm_single_steps, fm_timings_of_cells, fm_timings_of_steps, FM_LIMIT_OFFSETS};
use test_inputs::single_density_tracks::{fm_tracks, odd_fm_track, standard_fm_track, FmTrackBuilder, FIRST_PLACE, RECORD_CELLS};
use test_inputs::track_builder::{odd_track, turn, SectorPlan, TrackBuilder};
use thikbromu::boundary;

/// The seed and the number of the tracks at and past the limits and of the random ones, which two parts run on.
const TRACKS: (u64, usize) = (40, 11_000);

/// From a data mark to the end of its 128 bytes: the mark, the bytes and the check.
const DATA_CELLS: u32 = 16 + 16 * 128 + 32;

/// The standard track by hand: its records, its data and that it has no findings. Then turned so that the index falls on every cell of a
/// record.
pub fn standard(report: &mut Report) {
    let mut group = Group::new("the standard track of single density, by its figures");
    let track_cells = standard_fm_track(3, 1, 0xE5);
    let track = packed_for(&SINGLE, &track_cells);
    for i in 0..18 {
        let place = 416 + 2_736 * i as u32;
        let data_place = place + 384;
        let record = [place, 0xFE, 3, 1, i as u32 + 1, 0, 1, data_place, 0xFB, 128, 1, data_place + DATA_CELLS, 1];
        // As much of a record as there is room for.
        for room in 0..RECORD_NUMBERS + 2 {
            group.same_written(
                &track.bytes,
                room,
                |bytes, numbers| boundary::fm_sector(bytes, 50_000, 3, 1, i, numbers),
                Ok((18, record[..room.min(RECORD_NUMBERS)].to_vec())),
                || format!("sector {i}, room for {room} numbers"),
            );
        }
        let (mut data, mut good) = ([0; 128], u32::MAX);
        let ours = answer(boundary::fm_read_out(&track.bytes, 50_000, 3, 1, i, &mut data, &mut good));
        group.same((ours, data, good), (Ok(128), [0xE5; 128], 1), || format!("data of sector {i}"));
    }
    // As many zeros of the record beside a refusal.
    for room in 0..RECORD_NUMBERS + 2 {
        let mut lent = Lent::new(room);
        let ours = answer(boundary::fm_sector(&track.bytes, 50_000, 3, 1, 18, lent.part()));
        let zeros = vec![0; room.min(RECORD_NUMBERS)];
        group.same((ours, lent.into_all()), (Err(Refusal::no_such_sector(18)), Lent::expected(room, &zeros)), || {
            format!("no sector 18, room for {room} numbers")
        });
    }
    let ours = answer(boundary::fm_findings(&track.bytes, 50_000, 3, 1, &mut []));
    group.same(ours, Ok(0), || "no findings".to_string());
    group.close(report);

    let mut group = Group::new("the standard track of single density, turned under the index cell by cell");
    let mut seen = [0; 22];
    for before in 0..RECORD_CELLS {
        // The first sector's ID mark stands so many cells before the index: it becomes the last sector.
        let track = packed_for(&SINGLE, &turn(&track_cells, 50_000 - FIRST_PLACE - before));
        index_case(&mut group, &track, (3, 1), 17);
        if before % 16 == 0 {
            index_case(&mut group, &track, (3, 1), 0);
        }
        if before % 16 == 8 {
            read_case(&mut group, &track, (3, 1), 17, 128);
        }
        packed_track(&SINGLE, &mut group, &mut seen, (&track.bytes, track.n), (3, 1));
    }
    // The data mark is at or behind the index at 384 of its places, and the 2,096 cells of the data go over it at all but one.
    group.same((seen[16], seen[17]), (2_095, 384), || "how often DOI and DBI were reached".to_string());
    group.close(report);
}

/// Data marks of both kinds at each distance from p, on two phases: found from 112 to 576.
pub fn distances(report: &mut Report) {
    let mut group = Group::new("data marks of single density at every distance from 100 to 590");
    for distance in 100..=590 {
        for (phase, mark, byte) in [(0, DATA_MARK, 0xFB), (5, DELETED_DATA_MARK, 0xF8)] {
            let mut sector = FmTrackBuilder::new();
            sector.write_id(ID_MARK, [0, 0, 1, 0], 0);
            sector.write_gap_cells(600);
            let mut data = FmTrackBuilder::new();
            data.write_data(mark, &[0x6C; 128], 0);
            let mut track_cells = vec![1; phase];
            track_cells.extend(&sector.cells()[..distance]);
            track_cells.extend(data.cells());
            track_cells.resize(20_000 + phase, 1);
            if phase > 0 {
                // The data goes over the index.
                track_cells = turn(&track_cells, 20_000 - distance - 40);
            }
            let track = packed_for(&SINGLE, &track_cells);
            let mut numbers = [0; RECORD_NUMBERS];
            let ours = answer(boundary::fm_sector(&track.bytes, track.n, 0, 0, 0, &mut numbers));
            let q = numbers[0] + distance as u32;
            let found = if (112..=576).contains(&distance) { [q, byte, 128, 1, q + DATA_CELLS, 1] } else { [0, 0, 0, 0, 0, 1] };
            group.same((ours, &numbers[7..]), (Ok(1), &found[..]), || format!("p+{distance}, phase {phase}"));
            for index in 0..=1 {
                index_case(&mut group, &track, (0, 0), index);
            }
            for room in [128, 127, 0] {
                read_case(&mut group, &track, (0, 0), 0, room);
            }
        }
    }
    group.close(report);
}

/// All sectors of a track and one index past them, and one of these read out: with room enough, with more, with too little and with none.
fn all_sectors(group: &mut Group, random: &mut Random, track: &Track, drive: (u32, u32)) {
    let accepted = (track.calls.second_sectors)(drive.0, drive.1, &track.bytes, track.n);
    let count = accepted.as_ref().map_or(0, Vec::len);
    for index in 0..=count {
        index_answer(group, track, drive, index, sector_of(&accepted, index));
    }
    let index = random.below(count as u64 + 1) as usize;
    let length = sector_of(&accepted, index).map_or(0, |(record, _)| record.length);
    for room in [length, length + 5, length.saturating_sub(1), 0] {
        read_case(group, track, drive, index, room);
    }
}

pub fn sectors_of_tracks(report: &mut Report) {
    let mut group = Group::new("sectors of 11,000 tracks of single density");
    let mut random = Random::new(41);
    let (seed, count) = TRACKS;
    for made in fm_tracks(seed, count) {
        let track = packed_for(&SINGLE, &made.cells);
        all_sectors(&mut group, &mut random, &track, (made.drive_track, made.drive_side));
    }
    group.close(report);
}

pub fn findings_of_tracks(report: &mut Report) {
    let mut group = Group::new("findings of 11,000 tracks of single density");
    let mut seen = [0; 22];
    let (seed, count) = TRACKS;
    for made in fm_tracks(seed, count) {
        let drive = (made.drive_track, made.drive_side);
        packed_track(&SINGLE, &mut group, &mut seen, (&made.packed(), made.cells.len()), drive);
    }
    for kind in 1..=21 {
        // NSI and NSD do not occur.
        group.same(seen[kind] > 0, kind != 11 && kind != 12, || format!("kind {kind} was reached"));
    }
    group.close(report);
}

/// The sectors and the findings of a track in one density.
fn whole(calls: &'static Calls, group: &mut Group, random: &mut Random, track_cells: &[u8], drive: (u32, u32)) {
    let track = packed_for(calls, track_cells);
    whole_track(group, random, &track, drive);
    packed_track(calls, group, &mut [0; 22], (&track.bytes, track.n), drive);
}

/// The cells from a place on, round the track.
fn write_over(track_cells: &mut [u8], place: usize, written: &[u8]) {
    let n = track_cells.len();
    for (further, &cell) in written.iter().enumerate() {
        track_cells[(place + further) % n] = cell;
    }
}

/// The same cells in both densities: tracks of each, and tracks with sectors of both.
pub fn both_densities(report: &mut Report) {
    let mut random = Random::new(42);
    let mut group = Group::new("tracks of single density, read in double density");
    for made in fm_tracks(43, 3_000) {
        whole(&DOUBLE, &mut group, &mut random, &made.cells, (made.drive_track, made.drive_side));
    }
    group.close(report);

    let mut group = Group::new("tracks of double density, read in single density");
    for _ in 0..500 {
        let drive = (random.below(85) as u32, random.below(2) as u32);
        let track_cells = odd_track(&mut random, drive.0 as u8);
        whole(&SINGLE, &mut group, &mut random, &track_cells, drive);
    }
    group.close(report);

    let mut group = Group::new("tracks with sectors of both densities, read in each");
    for _ in 0..500 {
        let drive = (random.below(85) as u32, random.below(2) as u32);
        let mut track_cells = odd_fm_track(&mut random, drive.0 as u8);
        for number in 0..1 + random.below(4) {
            let mut plan = SectorPlan::standard(drive.0 as u8, 0, number as u8, random.byte());
            (plan.size_code, plan.data) = (0, vec![random.byte(); 128]);
            let mut sector = TrackBuilder::new();
            sector.write_sector(&plan);
            let place = random.below(track_cells.len() as u64) as usize;
            write_over(&mut track_cells, place, sector.cells());
        }
        for calls in [&DOUBLE, &SINGLE] {
            whole(calls, &mut group, &mut random, &track_cells, drive);
        }
    }
    group.close(report);
}

/// Random cells with marks among them, at the limits of refusals 1 to 3.
pub fn refused_tracks(report: &mut Report) {
    let mut group = Group::new("random cells in single density, and the limits of refusals 1, 2 and 3");
    let mut random = Random::new(44);
    let mut refusals = [0; 12];
    for i in 0..300 {
        let n = [19_999, 20_000, 20_001, 50_007, 131_071, 131_072, 131_073, 100_000, 0, usize::MAX][i % 10];
        let needed = cells::bytes_needed(n.min(131_073));
        let spare = [0, 0, 1, 7][random.below(4) as usize];
        let length = if i % 3 == 0 { needed.saturating_sub(1) } else { needed + spare };
        let mut bytes: Vec<u8> = (0..length).map(|_| random.byte()).collect();
        for _ in 0..random.below(12) {
            let at = random.below(length.max(2) as u64 - 1) as usize;
            let mark: u16 = [ID_MARK, ID_MARK, DATA_MARK, DELETED_DATA_MARK][random.below(4) as usize];
            if let Some(two) = bytes.get_mut(at..at + 2) {
                two.copy_from_slice(&mark.to_be_bytes());
            }
        }
        let track = Track { bytes, n, calls: &SINGLE };
        let drive = ([0, 79, 80, 83, 84, u32::MAX][random.below(6) as usize], [0, 1, 2, u32::MAX][random.below(4) as usize]);
        for drive in [drive, (83, 1)] {
            if let Err(refusal) = (SINGLE.second_sectors)(drive.0, drive.1, &track.bytes, n) {
                refusals[refusal.number as usize] += 1;
            }
            for index in [0, 1, 64, usize::MAX] {
                index_case(&mut group, &track, drive, index);
                read_case(&mut group, &track, drive, index, 512);
            }
            packed_track(&SINGLE, &mut group, &mut [0; 22], (&track.bytes, n), drive);
        }
    }
    for number in 1..=3 {
        group.same(refusals[number] > 0, true, || format!("refusal {number} was reached"));
    }
    group.close(report);
}

/// A residual in range, at its bounds, or any.
fn any_residual(random: &mut Random) -> i32 {
    match random.below(6) {
        0 => random.next_number() as i32,
        1 => [-1_001, -1_000, -999, -501, -500, 499, 500, 998, 999, 1_000, i32::MIN, i32::MAX][random.below(12) as usize],
        _ => random.between(-1_000, 999) as i32,
    }
}

/// A timing in range, at a bound of its range or of a window, or any.
fn any_timing(random: &mut Random) -> u32 {
    match random.below(10) {
        0 => random.next_number() as u32,
        1 => [0, 1, 2, 9_999_999, 10_000_000, 10_000_001, u32::MAX][random.below(7) as usize],
        2 => random.between(1, 10_000_000) as u32,
        3 => (random.between(1, 9) * 2_000 + random.between(-2, 2)) as u32,
        _ => random.between(1, 24_000) as u32,
    }
}

pub fn steps(report: &mut Report) {
    let mut group = Group::new("the separator of single density, by its figures");
    // Timings, and of each its cells, its offset and the residual after it.
    let rows: [(&[u32], &[(usize, i32, i32)]); 10] = [
        (&[9_800, 8_000], &[(2, 1_800, 900), (2, 900, 450)]),
        (&[9_999], &[(2, 1_999, 999)]),
        (&[10_000, 10_000], &[(3, -2_000, -1_000), (2, 1_000, 500)]),
        (&[10_001], &[(3, -1_999, -999)]),
        (&[1_000, 7_000], &[(0, 1_000, 500), (2, -500, -250)]),
        (&[10_000_000], &[(2_500, 0, 0)]),
        (&[9_803], &[(2, 1_803, 901)]),
        (&[9_804, 8_902], &[(2, 1_804, 902), (2, 1_804, 902)]),
        (&[10_196], &[(3, -1_804, -902)]),
        (&[10_197], &[(3, -1_803, -901)]),
    ];
    for (timings, steps) in rows {
        let mut residual = 0;
        for (&timing, &(count, offset, after)) in timings.iter().zip(steps) {
            step_case_in(&SINGLE, &mut group, residual, timing, (Ok((count, offset)), after), || format!("{timings:?}"));
            residual = after;
        }
        let count = steps.iter().map(|step| step.0).sum();
        let border_pulses = steps.iter().filter(|step| step.1.abs() >= 1_804).count();
        let ours = numbers_in(&SINGLE, timings, &mut [0; 313]);
        group.same(ours, Ok((count, border_pulses)), || format!("{timings:?}, as a list"));
    }
    group.close(report);

    let mut group = Group::new("steps of the separator of single density, by value and lent");
    let mut random = Random::new(45);
    let at_limits = fm_single_steps().into_iter().map(|(residual, timing)| (residual as i32, timing));
    let at_random = (0..40_000).map(|_| (any_residual(&mut random), any_timing(&mut random)));
    for (residual, timing) in at_limits.chain(at_random) {
        let expected = second_step(&SINGLE, residual, timing);
        step_case_in(&SINGLE, &mut group, residual, timing, expected, || format!("residual {residual}, timing {timing}"));
    }
    group.close(report);

    let mut group = Group::new("steps of single density that are made for their offsets");
    for residual in [-1_001, -1_000, -999, -903, -902, -901, -1, 0, 1, 901, 902, 903, 998, 999, 1_000] {
        // What a residual counts as (rule 3.20).
        let counted = if (-1_000..=999).contains(&residual) { i64::from(residual) } else { 0 };
        for cells in [0, 1, 2, 3, 4, 2_500] {
            for offset in FM_LIMIT_OFFSETS.into_iter().chain([-1, 0, 1]) {
                // Made for this offset, whatever the second program's separator says.
                let timing = 4_000 * cells + offset - counted;
                let Ok(timing) = u32::try_from(timing) else { continue };
                let expected = if (1..=10_000_000).contains(&timing) {
                    (Ok((cells as usize, offset as i32)), (offset / 2) as i32)
                } else {
                    (Err(Refusal::timing_out_of_range(0)), residual)
                };
                step_case_in(&SINGLE, &mut group, residual, timing, expected, || format!("residual {residual}, timing {timing}"));
            }
        }
    }
    group.close(report);

    let mut group = Group::new("one residual of single density, through timings in and out of range");
    for _ in 0..200 {
        let timings: Vec<u32> = (0..50).map(|_| any_timing(&mut random)).collect();
        steps_on(&SINGLE, &mut group, &timings);
    }
    group.close(report);
}

pub fn lists(report: &mut Report) {
    let mut group = Group::new("10,000 lists of timings of single density, at and past the limits and at random");
    for list in fm_lists(46, 10_000) {
        let needed = bytes_needed_in(&SINGLE, &list.timings);
        for room in [needed, needed.saturating_sub(1), needed + 3, 0] {
            list_case_in(&SINGLE, &mut group, &list.timings, room);
        }
    }
    group.close(report);

    let mut group = Group::new("lists of timings of single density at the limits of each refusal");
    for length in [0, 1, 65_535, 65_536, 65_537] {
        for timing in [1, 1_999, 2_000, 8_000, 8_001] {
            let mut timings = vec![timing; length];
            for room in [0, 16_383, 16_384, 16_385] {
                list_case_in(&SINGLE, &mut group, &timings, room);
            }
            // 8 goes before 9 and 10, and after 7.
            if let Some(last) = timings.last_mut() {
                *last = 10_000_001;
                list_case_in(&SINGLE, &mut group, &timings, 0);
            }
        }
    }
    // Few timings of many cells: up to 2,500 each, far past the limit.
    for length in 1..=60 {
        let needed = cells::bytes_needed(2_500 * length);
        for room in [0, needed - 1, needed, needed + 1] {
            list_case_in(&SINGLE, &mut group, &vec![10_000_000; length], room);
        }
    }
    group.close(report);

    let mut group = Group::new("lists of single density that are made for their offsets, and step after step");
    let mut random = Random::new(47);
    for i in 0..2_000 {
        let length = 1 + random.below(if i % 100 == 0 { 20_000 } else { 100 }) as usize;
        let steps: Vec<(i64, i64)> = (0..length)
            .map(|_| {
                let at_limit = FM_LIMIT_OFFSETS[random.below(12) as usize];
                let offset = if random.one_in(2) { random.between(-2_000, 1_999) } else { at_limit };
                (random.between(1, 5), offset)
            })
            .collect();
        let timings = fm_timings_of_steps(&steps).expect("steps with cells");
        let mut written = Vec::new();
        for &(count, _) in &steps {
            written.resize(written.len() + count as usize - 1, 0);
            written.push(1);
        }
        let border_pulses = steps.iter().filter(|(_, offset)| offset.abs() >= 1_804).count();
        let packed = cells::pack(&written);
        let mut lent = Lent::new(packed.len());
        let ours = numbers_in(&SINGLE, &timings, lent.part());
        let expected = (Ok((written.len(), border_pulses)), Lent::expected(packed.len(), &packed));
        group.same((ours, lent.into_all()), expected, || format!("{:?}", &steps[..length.min(12)]));
        let mut residual = 0;
        let taken: Vec<(i64, i64)> = timings
            .iter()
            .map(|&timing| {
                let (ours, next) = step(&SINGLE, residual, timing);
                residual = next;
                ours.map_or((-1, 0), |(count, offset)| (count as i64, i64::from(offset)))
            })
            .collect();
        group.same(&taken, &steps, || format!("{:?}, step after step", &steps[..length.min(12)]));
    }
    group.close(report);

    // From the cells of a track to timings and back: no cell is lost, and no pulse is a border pulse.
    let mut group = Group::new("the cells of tracks of single density, by way of their timings");
    for made in fm_tracks(48, 2_500) {
        let timings = fm_timings_of_cells(&made.cells);
        let to_last_one = made.cells.iter().rposition(|&cell| cell == 1).map_or(0, |last| last + 1);
        let written = &made.cells[..to_last_one];
        // A stretch without flux may be too long for a timing, and a track too long for a list.
        let usual = !timings.is_empty() && timings.iter().all(|&timing| timing <= 10_000_000) && to_last_one <= 131_072;
        if usual && timings.len() <= 65_536 {
            let packed = cells::pack(written);
            let mut lent = Lent::new(packed.len());
            let ours = numbers_in(&SINGLE, &timings, lent.part());
            let expected = (Ok((to_last_one, 0)), Lent::expected(packed.len(), &packed));
            group.same((ours, lent.into_all()), expected, || made.name.clone());
        } else {
            list_case_in(&SINGLE, &mut group, &timings, 16_384);
        }
    }
    group.close(report);
}
