//! Files made at random, each by its seed: odd tracks, mixed mistakes, changed bytes,
//! any bytes.

use super::made_tracks::MadeTrack;
use super::refused_files::{short_files, timings_of_count, LONGEST, TOO_LONG};
use super::{file_of_cells, named, FilePlan, NamedFile};
use crate::random::Random;
use crate::track_builder::{filled, odd_sector, odd_track, turn, TrackBuilder};

/// A short track with odd sectors, most of them of 128 bytes so that several find
/// room, turned by a random number of cells. One cell to an element.
fn short_odd_track(random: &mut Random, drive_track: u8) -> Vec<u8> {
    let mut builder = TrackBuilder::new();
    for index in 0..random.below(14) {
        let number = if random.one_in(6) {
            random.below(6)
        } else {
            index + 1
        };
        let mut plan = odd_sector(random, drive_track, number as u8);
        if !random.one_in(4) {
            plan.data.truncate(128);
            if random.one_in(2) {
                plan.size_code = 0;
            }
        }
        builder.write_repeated(0x00, random.below(14) as usize);
        builder.write_sector(&plan);
        builder.write_repeated(0x4E, random.below(20) as usize);
        if random.one_in(12) {
            builder.write_sync_a1();
        }
        if random.one_in(20) {
            builder.write_repeated_cell(0, random.between(990, 1_010) as usize);
        }
    }
    let n = random.between(19_996, 24_000) as usize;
    let mut track_cells = filled(builder.cells().to_vec(), n);
    if random.one_in(3) {
        for _ in 0..random.between(1, 8) {
            let place = random.below(n as u64) as usize;
            track_cells[place] ^= 1;
        }
    }
    let by = random.below(n as u64) as usize;
    turn(&track_cells, by)
}

/// A track at any place of a drive: one in eight of a real size, the others short.
pub(crate) fn odd_made_track(random: &mut Random) -> MadeTrack {
    let drive_track = random.below(84) as u8;
    let drive_side = random.below(2) as u8;
    let real_size = random.one_in(8);
    let cells = if real_size {
        odd_track(random, drive_track)
    } else {
        short_odd_track(random, drive_track)
    };
    let size = if real_size { "whole" } else { "short" };
    MadeTrack {
        name: format!("{size} odd track"),
        drive_track,
        drive_side,
        cells,
    }
}

/// A file of an odd track.
pub fn odd_file(seed: u64) -> NamedFile {
    let track = odd_made_track(&mut Random::new(seed));
    named(
        format!("{} of seed {seed}", track.name),
        file_of_cells(track.drive_track, track.drive_side, &track.cells),
    )
}

/// A number round one of the limits of the counts, or any.
fn odd_count(random: &mut Random) -> u32 {
    match random.below(8) {
        0 => random.next_number() as u32,
        1 => random.between(131_070, 131_075) as u32,
        2 => random.between(65_534, 65_539) as u32,
        3 => random.between(19_998, 20_002) as u32,
        4 => 1 << random.below(32),
        _ => random.below(20) as u32,
    }
}

/// A timing at a limit, near a half cell, or any.
pub(crate) fn odd_timing(random: &mut Random) -> u32 {
    match random.below(8) {
        0 => [0, 1, LONGEST, TOO_LONG, u32::MAX][random.below(5) as usize],
        1 => random.next_number() as u32,
        2 => random.between(1, i64::from(LONGEST)) as u32,
        3 | 4 => (random.between(1, 12) * 1_000 + random.between(-2, 2)) as u32,
        _ => random.between(1, 12_000) as u32,
    }
}

/// A file plan in order: few cells or timings, or just enough of them.
fn ordered_plan(random: &mut Random) -> (&'static str, FilePlan) {
    let drive_track = random.below(84) as u8;
    let drive_side = random.below(2) as u8;
    match random.below(6) {
        0 => {
            let n = random.below(100) as usize;
            let packed: Vec<u8> = (0..n.div_ceil(8)).map(|_| random.byte()).collect();
            let plan = FilePlan::of_cells(drive_track, drive_side, n, &packed);
            ("few cells", plan)
        }
        1 => {
            let n = random.between(19_995, 20_020) as usize;
            let packed: Vec<u8> = (0..n.div_ceil(8)).map(|_| random.byte()).collect();
            let plan = FilePlan::of_cells(drive_track, drive_side, n, &packed);
            ("about 20,000 cells", plan)
        }
        2 => {
            let timings: Vec<u32> = (0..random.below(20)).map(|_| odd_timing(random)).collect();
            let plan = FilePlan::of_timings(drive_track, drive_side, &timings);
            ("odd timings", plan)
        }
        3 => {
            let count = random.between(130_000, 132_000) as u32;
            let plan = FilePlan::of_timings(drive_track, drive_side, &timings_of_count(count));
            ("timings of about 131,072 cells", plan)
        }
        _ => {
            let mut timings = timings_of_count(20_000);
            for _ in 0..random.below(10) {
                timings.push(random.between(1, 12_000) as u32);
            }
            let plan = FilePlan::of_timings(drive_track, drive_side, &timings);
            ("timings of 20,000 cells and some", plan)
        }
    }
}

/// A file of mixed mistakes: none, one or several.
pub fn mixed_file(seed: u64) -> NamedFile {
    let mut random = Random::new(seed);
    let (start, mut plan) = ordered_plan(&mut random);
    let mut name = format!("mixture of seed {seed}: {start}");
    if random.one_in(12) {
        plan.place_count = random.below(5) as u32;
        name += ", place count";
    }
    if random.one_in(6) {
        plan.place[0] = [83, 84, 255][random.below(3) as usize];
        name += ", T";
    }
    if random.one_in(10) {
        plan.place[1] = [1, 2, 255][random.below(3) as usize];
        name += ", H";
    }
    if random.one_in(20) {
        plan.place = vec![1; random.below(4) as usize];
        name += ", place bytes";
    }
    if random.one_in(10) {
        plan.cell_count = odd_count(&mut random);
        name += ", cell count";
    }
    if random.one_in(10) {
        plan.flux_count = odd_count(&mut random);
        name += ", flux count";
    }
    if random.one_in(10) {
        plan.timings.push(odd_timing(&mut random));
        plan.flux_count = plan.timings.len() as u32;
        name += ", a timing more";
    }
    if random.one_in(12) && !plan.timings.is_empty() {
        let index = random.below(plan.timings.len() as u64) as usize;
        plan.timings[index] = odd_timing(&mut random);
        name += ", another timing";
    }
    if random.one_in(12) {
        plan.packed_cells.push(random.byte());
        name += ", a byte of cells more";
    }
    if random.one_in(12) {
        plan.packed_cells.pop();
        name += ", a byte of cells less";
    }
    if random.one_in(10) {
        plan.left_over = vec![random.byte(); 1 + random.below(9) as usize];
        name += ", left over";
    }
    let mut file = plan.bytes();
    if random.one_in(8) {
        let length = random.below(file.len() as u64) as usize;
        file.truncate(length);
        name += ", cut";
    }
    named(name, file)
}

/// A short file of which some bytes are changed, for the most part those of the counts.
pub fn changed_file(seed: u64) -> NamedFile {
    let mut random = Random::new(seed);
    let mut wholes = short_files();
    let whole = wholes.swap_remove(random.below(wholes.len() as u64) as usize);
    let mut file = whole.bytes;
    for _ in 0..random.between(1, 3) {
        let length = file.len() as u64;
        let first = if random.one_in(4) {
            length
        } else {
            length.min(14)
        };
        let place = random.below(first) as usize;
        if random.one_in(2) {
            file[place] ^= 1 << random.below(8);
        } else {
            file[place] = random.byte();
        }
    }
    named(format!("{}, changed by seed {seed}", whole.name), file)
}

/// A file of any bytes, which may begin as a track file does.
pub fn file_of_any_bytes(seed: u64) -> NamedFile {
    let mut random = Random::new(seed);
    let mut file = Vec::new();
    if !random.one_in(4) {
        file.extend([2, 0, 0, 0]);
    }
    for _ in 0..random.below(60) {
        // Many zeros, so that some counts are small.
        let byte = if random.one_in(2) { 0 } else { random.byte() };
        file.push(byte);
    }
    named(format!("any bytes of seed {seed}"), file)
}

pub(super) fn odd_files() -> Vec<NamedFile> {
    (0..2_000).map(odd_file).collect()
}

pub(super) fn mixed_files() -> Vec<NamedFile> {
    (0..6_000).map(mixed_file).collect()
}

pub(super) fn changed_files() -> Vec<NamedFile> {
    (0..2_000).map(changed_file).collect()
}

pub(super) fn files_of_any_bytes() -> Vec<NamedFile> {
    (0..2_000).map(file_of_any_bytes).collect()
}
