//! Tracks around what decides: orders of the numbers, IDs with one data mark for several,
//! numbers of sectors, the index at each place, and what is refused before the sectors
//! are judged.

use super::{
    call_of, nine_shuffled, plain_sectors, random_bytes, shuffled_numbers, track_of, vary, written,
    ImageTrack, FEWEST_CELLS, MOST_CELLS,
};
use crate::random::Random;
use crate::track_builder::{filled, standard_track, turn, TrackBuilder};

/// The numbers 1 to 9 round a track, each so many places behind the one before it, or in
/// the next place that is free.
fn interleaved(step: usize) -> Vec<u8> {
    let mut places = [0; 9];
    let mut place = 0;
    for number in 1..=9 {
        while places[place] != 0 {
            place = (place + 1) % 9;
        }
        places[place] = number;
        place = (place + step) % 9;
    }
    places.to_vec()
}

/// Tracks that have an image: every interleave, forwards and backwards from every number,
/// random orders, sectors that differ where an image does not mind it, and the standard
/// track.
pub fn order_tracks(random: &mut Random) -> Vec<ImageTrack> {
    let mut orders = Vec::new();
    for step in 1..9 {
        orders.push(interleaved(step));
    }
    for first in 0..9 {
        let mut numbers: Vec<u8> = (1..=9).collect();
        numbers.rotate_left(first);
        orders.push(numbers.clone());
        numbers.reverse();
        orders.push(numbers);
    }
    for _ in 0..24 {
        orders.push(shuffled_numbers(random));
    }
    let mut tracks = Vec::new();
    for (index, numbers) in orders.iter().enumerate() {
        let mut sectors = plain_sectors(random, numbers);
        if index % 3 == 2 {
            for sector in &mut sectors {
                vary(random, sector);
            }
        }
        tracks.push(track_of(random, format!("order {numbers:?}"), &sectors));
    }
    for filler in [0x00, 0xE5, 0xFF] {
        let name = format!("standard track of {filler:02X}");
        tracks.push(call_of(name, &standard_track(0, 0, filler)));
    }
    tracks
}

/// Tracks whose IDs stand in groups of one to four before one data mark. The first ID of
/// four reaches a data mark that stands up to 144 cells behind the last, and not farther.
pub fn shared_data_tracks(random: &mut Random) -> Vec<ImageTrack> {
    let mut tracks = Vec::new();
    for gap in [0, 1, 16, 143, 144, 145, 146] {
        for _ in 0..6 {
            let mut numbers = shuffled_numbers(random);
            let mut builder = TrackBuilder::new();
            // The first group has four.
            let mut size = 4;
            while !numbers.is_empty() {
                let group = numbers.split_off(numbers.len().saturating_sub(size));
                size = random.between(1, 4) as usize;
                builder.write_gap_cells(random.between(192, 300) as usize);
                for number in group {
                    builder.write_id(0xFE, [0, 0, number, 2], 0);
                }
                builder.write_gap_cells(gap);
                builder.write_data(0xFB, &random_bytes(random, 512), 0);
            }
            let n = (builder.cells().len() + 1_003).max(FEWEST_CELLS);
            let by = random.below(n as u64) as usize;
            let track_cells = turn(&filled(builder.cells().to_vec(), n), by);
            tracks.push(call_of(format!("shared data, gap of {gap}"), &track_cells));
        }
    }
    tracks
}

/// Nine sound sectors and up to sixty IDs behind them, with numbers outside 1 to 9 and with
/// any; and IDs alone.
pub fn count_tracks(random: &mut Random) -> Vec<ImageTrack> {
    let mut tracks = Vec::new();
    for outside_only in [true, false] {
        let step = if outside_only { 1 } else { 5 };
        for ids in (0..=60).step_by(step) {
            let mut builder = TrackBuilder::new();
            for sector in nine_shuffled(random) {
                builder.write_gap_cells(192);
                builder.write_sector(&sector);
            }
            for _ in 0..ids {
                let number = if outside_only {
                    10 + random.below(246) as u8
                } else {
                    random.below(12) as u8
                };
                builder.write_gap_cells(random.between(16, 40) as usize);
                builder.write_id(0xFE, [0, 0, number, 2], 0);
            }
            let n = builder.cells().len() + 500;
            let by = random.below(n as u64) as usize;
            let track_cells = turn(&filled(builder.cells().to_vec(), n), by);
            tracks.push(call_of(format!("nine sectors and {ids} IDs"), &track_cells));
        }
    }
    for ids in [0, 1, 8, 9, 10, 63, 64, 65, 66, 90] {
        let mut builder = TrackBuilder::new();
        for id in 0..ids {
            builder.write_gap_cells(16);
            builder.write_id(0xFE, [0, 0, id % 9 + 1, 2], 0);
        }
        let track_cells = filled(builder.cells().to_vec(), FEWEST_CELLS);
        tracks.push(call_of(format!("{ids} IDs alone"), &track_cells));
    }
    tracks
}

/// Wrong and right places of the drive, each with numbers of cells and of bytes around
/// their limits, for a track with an image, one with a fault and one with too many sectors.
pub fn refused_tracks(random: &mut Random) -> Vec<ImageTrack> {
    let sound = written_to(random, None);
    let faulty = written_to(random, Some(4));
    let mut ids = TrackBuilder::new();
    for number in 0..65 {
        ids.write_gap_cells(16);
        ids.write_id(0xFE, [0, 0, number, 2], 0);
    }
    let crowded = filled(ids.cells().to_vec(), MOST_CELLS);
    let mut tracks = Vec::new();
    for (drive_track, drive_side) in [
        (0, 0),
        (79, 1),
        (80, 0),
        (83, 1),
        (84, 0),
        (0, 2),
        (u32::MAX, u32::MAX),
    ] {
        for (kind, track_cells) in [
            ("sound", &sound),
            ("faulty", &faulty),
            ("crowded", &crowded),
        ] {
            for n in [
                FEWEST_CELLS - 1,
                FEWEST_CELLS,
                MOST_CELLS - 3,
                MOST_CELLS,
                MOST_CELLS + 1,
            ] {
                let whole = call_of(String::new(), &filled(track_cells.clone(), n)).bytes;
                let mut longer = whole.clone();
                longer.extend([0x44, 0x89]);
                // Bits behind the cells are none of them.
                if n % 8 != 0 {
                    longer[n / 8] |= 0xFF >> (n % 8);
                }
                let shorter = whole[..whole.len() - 1].to_vec();
                for bytes in [whole, longer, shorter] {
                    tracks.push(ImageTrack {
                        name: format!(
                            "{kind} track at T {drive_track} H {drive_side}, {n} cells in {} bytes",
                            bytes.len()
                        ),
                        drive_track,
                        drive_side,
                        n,
                        bytes,
                    });
                }
            }
        }
    }
    tracks
}

/// The cells of nine sound sectors, or of such with a bad data check of one number.
fn written_to(random: &mut Random, bad_number: Option<u8>) -> Vec<u8> {
    let mut sectors = nine_shuffled(random);
    for sector in &mut sectors {
        if Some(sector.number) == bad_number {
            sector.data_check_error = 0x0800;
        }
    }
    written(random, &sectors)
}

/// One track with the index at cells of an ID, of a data mark, of the data and of its check.
pub fn index_tracks(random: &mut Random) -> Vec<ImageTrack> {
    let sectors = nine_shuffled(random);
    let mut builder = TrackBuilder::new();
    for sector in &sectors {
        builder.write_gap_cells(192);
        builder.write_sector(sector);
    }
    let n = builder.cells().len() + 333;
    let track_cells = filled(builder.cells().to_vec(), n);
    // The sectors are equally long.
    let sector_cells = (n - 333) / 9;
    let (p, q, end) = (192, 192 + 704, 192 + 704 + 8_288);
    let mut indexes = vec![0];
    for place in [
        p,
        p + 16,
        p + 48,
        p + 64,
        p + 160,
        q,
        q + 48,
        q + 64,
        end - 32,
        end,
    ] {
        for near in [place - 1, place, place + 1] {
            let sector = random.below(9) as usize;
            indexes.push(sector * sector_cells + near);
        }
    }
    indexes.extend((0..40).map(|_| random.below(n as u64) as usize));
    indexes
        .into_iter()
        .map(|index| {
            let turned = turn(&track_cells, n - index);
            call_of(format!("index at cell {index}"), &turned)
        })
        .collect()
}
