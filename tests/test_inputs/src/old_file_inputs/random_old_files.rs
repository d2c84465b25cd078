//! Old files made at random, each by its seed: odd tracks, mixed mistakes, changed bytes, any
//! bytes after a cell count of 0.

use crate::file_inputs::random_files::{odd_made_track, odd_timing};
use crate::file_inputs::{changed_file, file_of_timings, mixed_file, named, NamedFile};
use crate::flux_inputs::timings_of_cells;
use crate::random::Random;

/// The timings of cells, each some nanoseconds off: most keep their cells.
fn shifted_timings(random: &mut Random, track_cells: &[u8]) -> Vec<u32> {
    let most = [0, 100, 400, 700][random.below(4) as usize];
    timings_of_cells(track_cells)
        .into_iter()
        .map(|timing| timing.saturating_add_signed(random.between(-most, most) as i32))
        .collect()
}

/// An old file of an odd track.
pub fn odd_old_file(seed: u64) -> NamedFile {
    let mut random = Random::new(seed);
    let track = odd_made_track(&mut random);
    let timings = shifted_timings(&mut random, &track.cells);
    named(
        format!("{} of seed {seed}", track.name),
        file_of_timings(track.drive_track, track.drive_side, &timings),
    )
}

/// A file of few timings, any, with a count that agrees with them for the most part.
pub fn old_file_of_any_bytes(seed: u64) -> NamedFile {
    let mut random = Random::new(seed);
    let timings: Vec<u32> = (0..random.below(12))
        .map(|_| match random.below(3) {
            0 => odd_timing(&mut random),
            1 => random.between(1, 3_000) as u32,
            _ => random.between(1, 10_000_000) as u32,
        })
        .collect();
    let mut file = file_of_timings(random.byte(), random.byte() & 3, &timings);
    match random.below(8) {
        0 => file.push(random.byte()),
        1 => file.truncate(random.below(file.len() as u64) as usize),
        2 => file[random.below(14) as usize] ^= 1 << random.below(8),
        3 => file[10] = random.below(12) as u8,
        _ => {}
    }
    named(format!("any bytes of seed {seed}"), file)
}

pub(super) fn odd_old_files() -> Vec<NamedFile> {
    (10_000..12_000).map(odd_old_file).collect()
}

/// Of other seeds than those that the reader of today is tried with.
pub(super) fn mixed_old_files() -> Vec<NamedFile> {
    (10_000..20_000).map(mixed_file).collect()
}

pub(super) fn changed_old_files() -> Vec<NamedFile> {
    (10_000..12_000).map(changed_file).collect()
}

pub(super) fn old_files_of_any_bytes() -> Vec<NamedFile> {
    (10_000..14_000).map(old_file_of_any_bytes).collect()
}
