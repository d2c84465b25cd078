//! FM tracks at and past each limit of the rules.

use super::{
    fm_track_with, standard_fm_track, with_cells_at, FmSectorPlan, FmTrack, FmTrackBuilder,
    FIRST_PLACE, RECORD_CELLS, STANDARD_GAP_CELLS,
};
use crate::random::Random;
use crate::track_builder::turn;
use second_program::single_density::{DATA_MARK, DELETED_DATA_MARK, ID_MARK};

/// The cells of a short track: not a multiple of eight, and enough for the longest data.
const SHORT_CELLS: usize = 20_003;
/// p of the first sector of a short track.
const SHORT_PLACE: usize = 16 * 6;
/// From p to the data mark of a sector with the usual gap.
const USUAL_DISTANCE: usize = 112 + STANDARD_GAP_CELLS;

fn named(name: String, cells: Vec<u8>) -> FmTrack {
    FmTrack {
        name,
        drive_track: 0,
        drive_side: 0,
        cells,
    }
}

/// Bytes of data that differ from one to the next.
fn mixed_data(random: &mut Random, length: usize) -> Vec<u8> {
    (0..length).map(|_| random.byte()).collect()
}

/// A builder with a sector of this plan at `SHORT_PLACE`.
fn one_sector(plan: &FmSectorPlan) -> FmTrackBuilder {
    let mut builder = FmTrackBuilder::new();
    builder.write_repeated(0x00, 6);
    builder.write_sector(plan);
    builder
}

/// The standard track, gaps alone and no ones at all, with the numbers of cells around each
/// limit; two of the numbers are refused.
pub fn length_tracks() -> Vec<FmTrack> {
    let mut tracks = Vec::new();
    for n in [
        19_999, 20_000, 20_001, 48_499, 48_500, 48_501, 50_000, 51_499, 51_500, 51_501, 131_071,
        131_072, 131_073,
    ] {
        let mut standard = standard_fm_track(0, 0, 0xE5);
        standard.resize(n, 1);
        tracks.push(named(format!("standard track of {n} cells"), standard));
        tracks.push(named(format!("{n} ones"), vec![1; n]));
        tracks.push(named(format!("{n} zeros"), vec![0; n]));
        let clocks: Vec<u8> = (0..n).map(|place| u8::from(place % 2 == 0)).collect();
        tracks.push(named(format!("{n} cells of bytes 00"), clocks));
    }
    tracks
}

/// Short tracks of two sectors with the index at each cell of an ID, at the cells round a
/// data mark and round the data's end, and at some cells of the data.
pub fn index_tracks(random: &mut Random) -> Vec<FmTrack> {
    let mut plan = FmSectorPlan::standard(0, 0, 1, 0x00);
    plan.data = mixed_data(random, 128);
    plan.data_mark = Some(DELETED_DATA_MARK);
    let mut builder = one_sector(&plan);
    builder.write_repeated(0xFF, 10);
    builder.write_repeated(0x00, 6);
    builder.write_sector(&FmSectorPlan::standard(0, 0, 2, 0x6C));
    let track_cells = builder.filled(SHORT_CELLS);
    let q = SHORT_PLACE + USUAL_DISTANCE;
    let end = q + 16 + 16 * 128 + 32;
    let mut indexes: Vec<usize> = (SHORT_PLACE - 1..=SHORT_PLACE + 113).collect();
    indexes.extend(q - 2..=q + 34);
    indexes.extend(end - 34..=end + 2);
    indexes.extend((0..40).map(|_| q + random.below(2_096) as usize));
    indexes
        .into_iter()
        .map(|index| {
            let turned = turn(&track_cells, SHORT_CELLS - index);
            named(format!("index at cell {index} of two sectors"), turned)
        })
        .collect()
}

/// Short tracks with each distance from p to the data mark around those that are found, and
/// with a second data mark nearer or farther off.
pub fn distance_tracks(random: &mut Random) -> Vec<FmTrack> {
    let mut tracks = Vec::new();
    let marks = [DATA_MARK, DELETED_DATA_MARK];
    for distance in 112..=600 {
        let mut plan = FmSectorPlan::standard(0, 0, 1, random.byte());
        plan.gap_cells = distance - 112;
        plan.data_mark = Some(marks[distance % 2]);
        let sector = one_sector(&plan).filled(SHORT_CELLS);
        tracks.push(named(
            format!("data mark at p+{distance}"),
            turned_at_times(random, sector),
        ));
    }
    // Over the ID a mark is none of the sector's, and it spoils the ID.
    for distance in 90..112 {
        let mut plan = FmSectorPlan::standard(0, 0, 1, 0x00);
        plan.data_mark = None;
        let id = one_sector(&plan).filled(SHORT_CELLS);
        let mark = u64::from(marks[distance % 2]);
        tracks.push(named(
            format!("data mark over the ID at p+{distance}"),
            with_cells_at(&id, SHORT_PLACE + distance, mark, 16),
        ));
    }
    for other in [112, 113, 150, 383, 385, 400, 575, 576, 577, 578] {
        for (first, second) in [(0, 1), (1, 0), (0, 0), (1, 1)] {
            let mut plan = FmSectorPlan::standard(0, 0, 1, 0x00);
            plan.data_mark = Some(marks[first]);
            let sector = one_sector(&plan).filled(SHORT_CELLS);
            let mark = u64::from(marks[second]);
            tracks.push(named(
                format!("data mark at p+384 and another at p+{other}"),
                with_cells_at(&sector, SHORT_PLACE + other, mark, 16),
            ));
        }
    }
    tracks
}

/// The track, turned by a random number of cells once in two times.
fn turned_at_times(random: &mut Random, track_cells: Vec<u8>) -> Vec<u8> {
    if random.one_in(2) {
        return track_cells;
    }
    let by = random.below(track_cells.len() as u64) as usize;
    turn(&track_cells, by)
}

/// Short tracks with a sector of each size code: its data as long as the code says, and as
/// long as another code says.
pub fn size_code_tracks(random: &mut Random) -> Vec<FmTrack> {
    let mut tracks = Vec::new();
    for size_code in 0..=255_u8 {
        let length = 128 << (size_code % 4);
        let other_length = 128 << ((u64::from(size_code) + random.between(1, 3) as u64) % 4);
        for length in [length, other_length] {
            let mut plan = FmSectorPlan::standard(0, 0, 1, 0x00);
            plan.size_code = size_code;
            plan.data = mixed_data(random, length);
            let sector = one_sector(&plan).filled(SHORT_CELLS);
            tracks.push(named(
                format!("size code {size_code} with {length} bytes"),
                turned_at_times(random, sector),
            ));
        }
    }
    tracks
}

/// Short tracks whose sector has the cells of an ID mark at each place of its ID, round its
/// data mark and round its data's end, and at some places of the data.
pub fn mark_tracks(random: &mut Random) -> Vec<FmTrack> {
    let plan = FmSectorPlan::standard(0, 0, 1, 0x00);
    let sector = one_sector(&plan).filled(SHORT_CELLS);
    let q = USUAL_DISTANCE;
    let end = q + 16 + 16 * 128 + 32;
    let mut places: Vec<usize> = (1..=130).collect();
    places.extend(q - 17..=q + 34);
    places.extend(end - 34..=end + 1);
    places.extend((0..60).map(|_| q + random.below(2_096) as usize));
    let mut tracks = Vec::new();
    for place in places {
        let changed = with_cells_at(&sector, SHORT_PLACE + place, u64::from(ID_MARK), 16);
        tracks.push(named(
            format!("F57E at p+{place}"),
            turned_at_times(random, changed),
        ));
    }
    tracks
}

/// Tracks of 0 to 70 sectors: IDs alone on short tracks, and sectors with data on longer
/// ones as far as there is room.
pub fn count_tracks(random: &mut Random) -> Vec<FmTrack> {
    let mut tracks = Vec::new();
    for count in 0..=70 {
        let mut builder = FmTrackBuilder::new();
        for number in 0..count {
            builder.write_gap_cells(96 + random.below(48) as usize);
            builder.write_id(ID_MARK, [0, 0, number, 0], 0);
        }
        let ids = builder.filled(SHORT_CELLS);
        tracks.push(named(format!("{count} IDs"), turned_at_times(random, ids)));
        let mut builder = FmTrackBuilder::new();
        for number in 1..=count {
            builder.write_repeated(0x00, 6);
            builder.write_sector(&FmSectorPlan::standard(0, 0, number, number));
        }
        let n = (builder.cells().len() + 5).max(48_500);
        if n <= 131_072 {
            tracks.push(named(format!("{count} sectors"), builder.filled(n)));
        }
    }
    tracks
}

/// The standard track with one thing wrong in one of its sectors, or read from another
/// track or side than its IDs say.
pub fn fault_tracks(random: &mut Random) -> Vec<FmTrack> {
    let mut tracks = Vec::new();
    // The ninth sector's plan is changed, all others are standard.
    let mut add = |name: String, change: &dyn Fn(&mut FmSectorPlan)| {
        let track_cells = fm_track_with(0, 0, 0xB4, |plan| {
            if plan.number == 9 {
                change(plan);
            }
        });
        tracks.push(named(name, track_cells));
    };
    for bit in 0..16 {
        add(format!("bit {bit} of an ID check wrong"), &|plan| {
            plan.id_check_error = 1 << bit
        });
        add(format!("bit {bit} of a data check wrong"), &|plan| {
            plan.data_check_error = 1 << bit
        });
        // Cells that are no mark, by one cell.
        add(format!("cell {bit} of an ID mark wrong"), &|plan| {
            plan.id_mark ^= 1 << bit
        });
        add(format!("cell {bit} of a data mark wrong"), &|plan| {
            plan.data_mark = Some(DATA_MARK ^ (1 << bit))
        });
        add(
            format!("cell {bit} of a deleted data mark wrong"),
            &|plan| plan.data_mark = Some(DELETED_DATA_MARK ^ (1 << bit)),
        );
    }
    for number in [0, 1, 8, 10, 18, 19, 244, 245, 246, 247, 248, 255] {
        add(format!("number {number} for 9"), &|plan| {
            plan.number = number
        });
    }
    for track in [1, 79, 80, 83, 84, 255] {
        add(format!("ID track {track}"), &|plan| plan.track = track);
    }
    for side in [1, 2, 255] {
        add(format!("ID side {side}"), &|plan| plan.side = side);
    }
    add("deleted data".to_string(), &|plan| {
        plan.data_mark = Some(DELETED_DATA_MARK)
    });
    add("no data".to_string(), &|plan| plan.data_mark = None);
    add("no data and a bad ID check".to_string(), &|plan| {
        plan.data_mark = None;
        plan.id_check_error = 1;
    });
    add("both checks bad".to_string(), &|plan| {
        plan.id_check_error = 0x8000;
        plan.data_check_error = 0x0100;
    });
    for drive_track in [0, 1, 79, 80, 83, 84, u32::MAX] {
        for drive_side in [0, 1, 2] {
            let track_cells = standard_fm_track(drive_track as u8, 0, random.byte());
            tracks.push(FmTrack {
                name: format!("read from track {drive_track}, side {drive_side}"),
                drive_track,
                drive_side,
                cells: track_cells,
            });
        }
    }
    for filler in [0x00, 0xFF, 0xFE, 0xFB, 0xF8, 0xC7, 0x55] {
        let by = random.below(50_000) as usize;
        let turned = turn(&standard_fm_track(0, 0, filler), by);
        tracks.push(named(format!("all data {filler:02X}"), turned));
    }
    tracks
}

/// Tracks whose sectors stand in another sector's data: at its first and last cells and
/// within, and over the index; and IDs that share one data mark.
pub fn nested_tracks(random: &mut Random) -> Vec<FmTrack> {
    let mut tracks = Vec::new();
    let mut plan = FmSectorPlan::standard(0, 0, 1, 0x00);
    plan.size_code = 3;
    plan.data = mixed_data(random, 1_024);
    let outer = one_sector(&plan).filled(SHORT_CELLS);
    let q = SHORT_PLACE + USUAL_DISTANCE;
    let end = q + 16 + 16 * 1_024 + 32;
    let mut inner = FmTrackBuilder::new();
    inner.write_sector(&FmSectorPlan::standard(0, 0, 2, 0x33));
    let inner = inner.cells();
    let within = q + random.between(16, 13_000) as usize;
    for place in [
        q - 16,
        q + 16,
        q + 17,
        within,
        end - 2,
        end - 1,
        end,
        end + 1,
    ] {
        let mut nested = outer.clone();
        for (further, &cell) in inner.iter().enumerate() {
            if let Some(old) = nested.get_mut(place + further) {
                *old = cell;
            }
        }
        let name = format!("a sector at {place} in data from {q} to {end}");
        // The index before the inner mark, within it and behind it, and within the data.
        for index in [place, place + 5, place + 16, q + 1, q + 9_000] {
            let turned = turn(&nested, SHORT_CELLS - index);
            tracks.push(named(format!("{name}, index at {index}"), turned));
        }
        tracks.push(named(name, nested));
    }
    // Several IDs before one data mark.
    for ids in 2..=5 {
        let mut builder = FmTrackBuilder::new();
        builder.write_repeated(0x00, 6);
        for number in 1..=ids {
            builder.write_id(ID_MARK, [0, 0, number, 0], 0);
        }
        builder.write_data(DATA_MARK, &[0x77; 128], 0);
        let shared = builder.filled(SHORT_CELLS);
        tracks.push(named(
            format!("{ids} IDs with one data mark"),
            turned_at_times(random, shared),
        ));
    }
    // Every sector of a track with one number.
    let same = fm_track_with(0, 0, 0x00, |plan| plan.number = 7);
    tracks.push(named("18 sectors of one number".to_string(), same));
    // A sector whose data end lies far behind the next sector's ID.
    for index in 0..18 {
        let mut number = 0;
        let long = fm_track_with(0, 0, 0x00, |plan| {
            if number == index {
                plan.size_code = 3;
            }
            number += 1;
        });
        let by = 50_000 - FIRST_PLACE - RECORD_CELLS * index;
        tracks.push(named(
            format!("sector {index} reads over six others"),
            turn(&long, by),
        ));
    }
    tracks
}
