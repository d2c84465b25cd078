//! Random FM tracks, and the row of all made ones for a comparison.

use super::{
    code_fm_byte, count_tracks, distance_tracks, fault_tracks, index_tracks, length_tracks,
    mark_tracks, nested_tracks, size_code_tracks, FmSectorPlan, FmTrack, FmTrackBuilder,
};
use crate::random::Random;
use crate::track_builder::turn;
use second_program::single_density::{DATA_MARK, DELETED_DATA_MARK, ID_MARK};

/// A random sector plan, for the most part standard, with some odd part now and then:
/// enough of them bring every finding about FM sectors.
pub fn odd_fm_sector(random: &mut Random, drive_track: u8, number: u8) -> FmSectorPlan {
    let side = random.below(2) as u8;
    let mut plan = FmSectorPlan::standard(drive_track, side, number, random.byte());
    if random.one_in(5) {
        plan.size_code = random.below(4) as u8;
    }
    plan.data = vec![random.byte(); 128 << plan.size_code];
    if random.one_in(2) {
        for byte in &mut plan.data {
            *byte = random.byte();
        }
    }
    if random.one_in(10) {
        plan.size_code = random.byte();
    }
    if random.one_in(20) {
        plan.id_mark = ID_MARK ^ (1 << random.below(16));
    }
    if random.one_in(10) {
        plan.track = random.byte();
    }
    if random.one_in(10) {
        plan.side = random.byte();
    }
    if random.one_in(10) {
        plan.number = 243 + random.below(7) as u8;
    }
    if random.one_in(10) {
        plan.id_check_error = 1 << random.below(16);
    }
    if random.one_in(10) {
        plan.data_check_error = 1 << random.below(16);
    }
    if random.one_in(6) {
        plan.gap_cells = random.below(480) as usize;
    }
    if random.one_in(20) {
        plan.gap_cells = [0, 1, 463, 464, 465, 466][random.below(6) as usize];
    }
    if random.one_in(8) {
        plan.data_mark = Some(DELETED_DATA_MARK);
    }
    if random.one_in(12) {
        plan.data_mark = None;
    }
    if random.one_in(20) {
        plan.data_mark = Some(DATA_MARK ^ (1 << random.below(16)));
    }
    plan
}

/// A random number of cells: mostly few, else around each limit. Some are refused.
fn odd_length(random: &mut Random) -> usize {
    let length = match random.below(12) {
        0 => random.between(48_490, 48_510),
        1 => random.between(51_490, 51_510),
        2 => random.between(19_997, 20_010),
        3 => random.between(131_060, 131_075),
        4 | 5 => random.between(49_000, 51_000),
        _ => random.between(20_000, 26_000),
    };
    length as usize
}

/// A random track with odd sectors, stray marks, runs of zeros and single wrong cells,
/// turned by a random number of cells. One cell to an element.
pub fn odd_fm_track(random: &mut Random, drive_track: u8) -> Vec<u8> {
    let length = odd_length(random);
    let sectors_wanted = match random.below(10) {
        0 => random.below(2),
        1 => 60 + random.below(11),
        _ if length < 48_000 => 3 + random.below(6),
        _ => 16 + random.below(5),
    };
    let mut builder = FmTrackBuilder::new();
    builder.write_repeated(0xFF, random.below(40) as usize);
    for index in 0..sectors_wanted {
        let number = if random.one_in(6) {
            random.below(20) as u8
        } else {
            index as u8 + 1
        };
        let mut plan = odd_fm_sector(random, drive_track, number);
        if sectors_wanted > 20 {
            // Many sectors find room only where few of them have data.
            plan.data.truncate(128);
            plan.gap_cells = random.below(60) as usize;
            if !random.one_in(20) {
                plan.data_mark = None;
            }
        }
        builder.write_gap_cells(random.below(200) as usize);
        builder.write_sector(&plan);
        if random.one_in(12) {
            let mark = [ID_MARK, DATA_MARK, DELETED_DATA_MARK][random.below(3) as usize];
            builder.write_cells(u64::from(mark), 16);
        }
        if random.one_in(20) {
            builder.write_repeated_cell(0, random.between(900, 1_200) as usize);
        }
    }
    let mut track_cells = builder.filled(length);
    if random.one_in(3) {
        for _ in 0..random.between(1, 20) {
            let place = random.below(length as u64) as usize;
            track_cells[place] ^= 1;
        }
    }
    let by = random.below(length as u64) as usize;
    turn(&track_cells, by)
}

/// A short track of random cells, or of random FM bytes, with marks and whole sectors
/// written over it at random places, round the track. One cell to an element.
pub fn sprinkled_track(random: &mut Random, drive_track: u8) -> Vec<u8> {
    let length = random.between(20_000, 22_000) as usize;
    let mut track_cells = Vec::with_capacity(length + 64);
    let plain = random.one_in(2);
    while track_cells.len() < length {
        let word = if plain {
            u64::from(code_fm_byte(random.byte()))
        } else {
            random.next_number()
        };
        let count = if plain { 16 } else { 64 };
        for bit in (0..count).rev() {
            track_cells.push(((word >> bit) & 1) as u8);
        }
    }
    track_cells.truncate(length);
    for number in 0..random.below(24) {
        let mut written = FmTrackBuilder::new();
        match random.below(5) {
            0 => written.write_cells(u64::from(ID_MARK), 16),
            1 => written.write_cells(u64::from(DATA_MARK), 16),
            2 => written.write_cells(u64::from(DELETED_DATA_MARK), 16),
            3 => written.write_id(ID_MARK, [drive_track, 0, number as u8, random.byte()], 0),
            _ => written.write_sector(&odd_fm_sector(random, drive_track, number as u8)),
        }
        let place = random.below(length as u64) as usize;
        for (further, &cell) in written.cells().iter().enumerate() {
            track_cells[(place + further) % length] = cell;
        }
    }
    track_cells
}

/// T and H for a random track: for the most part usual ones, some at and past the limits.
fn odd_drive_place(random: &mut Random) -> (u32, u32) {
    let drive_track = match random.below(12) {
        0 => 79,
        1 => 80,
        2 => 83,
        3 if random.one_in(8) => 84,
        _ => random.below(40) as u32,
    };
    let drive_side = if random.one_in(60) {
        2
    } else {
        random.below(2) as u32
    };
    (drive_track, drive_side)
}

/// So many FM tracks for a comparison, each made when it is asked for: first those at and
/// past the limits, then random ones. The same seed gives the same tracks.
pub fn fm_tracks(seed: u64, count: usize) -> impl Iterator<Item = FmTrack> {
    let mut random = Random::new(seed);
    let made: [fn(&mut Random) -> Vec<FmTrack>; 8] = [
        |_| length_tracks(),
        index_tracks,
        distance_tracks,
        size_code_tracks,
        mark_tracks,
        count_tracks,
        fault_tracks,
        nested_tracks,
    ];
    let mut list_random = Random::new(random.next_number());
    let at_limits = made
        .into_iter()
        .flat_map(move |make| make(&mut list_random));
    let at_random = (0_u64..).map(move |number| {
        let (drive_track, drive_side) = odd_drive_place(&mut random);
        let (name, cells) = if random.one_in(3) {
            ("sprinkled", sprinkled_track(&mut random, drive_track as u8))
        } else {
            ("odd", odd_fm_track(&mut random, drive_track as u8))
        };
        FmTrack {
            name: format!("{name} track {number}"),
            drive_track,
            drive_side,
            cells,
        }
    });
    at_limits.chain(at_random).take(count)
}

#[cfg(test)]
mod tests {
    use super::*;
    use second_program::findings::{NSD, NSI};
    use second_program::refusal::Refusal;
    use second_program::single_density;

    #[test]
    fn the_same_seed_gives_the_same_tracks() {
        let first: Vec<FmTrack> = fm_tracks(4, 2_100).skip(2_000).collect();
        let again: Vec<FmTrack> = fm_tracks(4, 2_100).skip(2_000).collect();
        assert_eq!(first, again);
        assert_eq!(first.len(), 100);
        assert_ne!(first, fm_tracks(5, 2_100).skip(2_000).collect::<Vec<_>>());
    }

    #[test]
    fn the_tracks_reach_every_kind_and_the_refusals_1_2_and_4() {
        let mut kinds = [false; 22];
        let mut refusals = [false; 6];
        let (mut shortest, mut longest) = (usize::MAX, 0);
        for track in fm_tracks(1, 2_500) {
            let n = track.cells.len();
            shortest = shortest.min(n);
            longest = longest.max(n);
            let bytes = track.packed();
            let answer =
                single_density::findings(track.drive_track, track.drive_side, &bytes, n, 1_000);
            match answer {
                Ok(findings) => {
                    for finding in findings {
                        kinds[finding.kind as usize] = true;
                    }
                }
                Err(Refusal { number, .. }) => refusals[number as usize] = true,
            }
        }
        for kind in 1..=21 {
            let possible = kind != NSI && kind != NSD;
            assert_eq!(kinds[kind as usize], possible, "kind {kind}");
        }
        assert_eq!(refusals, [false, true, true, false, true, false]);
        assert!(shortest <= 19_999 && longest >= 131_073);
    }

    #[test]
    fn the_lists_at_the_limits_are_long() {
        let mut random = Random::new(2);
        let lists = [
            (length_tracks(), 52),
            (index_tracks(&mut random), 229),
            (distance_tracks(&mut random), 551),
            (size_code_tracks(&mut random), 512),
            (mark_tracks(&mut random), 278),
            (count_tracks(&mut random), 122),
            (fault_tracks(&mut random), 133),
            (nested_tracks(&mut random), 71),
        ];
        for (list, count) in lists {
            assert_eq!(list.len(), count, "{}", list[0].name);
        }
    }
}
