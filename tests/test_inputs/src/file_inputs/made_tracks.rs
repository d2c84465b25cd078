//! Files of made tracks: those of rule 11.10, and tracks just inside and just outside the
//! rules of the findings.

use super::{files_of_tracks, FilePlan, Files, NamedFile};
use crate::track_builder::{
    filled, nine_sectors, standard_track, turn, SectorPlan, TrackBuilder, STANDARD_TRACK_CELLS,
};
use second_program::cells;

/// A track and its place.
pub(crate) struct MadeTrack {
    /// What the track tries, in a few words.
    pub name: String,
    /// T.
    pub drive_track: u8,
    /// H.
    pub drive_side: u8,
    /// Its cells, one to an element.
    pub cells: Vec<u8>,
}

fn made(name: impl Into<String>, place: (u8, u8), cells: Vec<u8>) -> MadeTrack {
    MadeTrack {
        name: name.into(),
        drive_track: place.0,
        drive_side: place.1,
        cells,
    }
}

/// The four tracks of rule 11.10.
pub(crate) fn known_tracks() -> Vec<MadeTrack> {
    let every_second = [1, 0].repeat(STANDARD_TRACK_CELLS / 2);
    let zeros = vec![0; STANDARD_TRACK_CELLS];
    let standard = standard_track(0, 0, 0xE5);
    vec![
        made("all bytes AA at T 5", (5, 0), every_second.clone()),
        made("all bytes AA at T 80", (80, 0), every_second),
        made("the standard track at T 0", (0, 0), standard),
        made("all zero cells at T 80", (80, 0), zeros),
    ]
}

pub(super) fn known_listings() -> Vec<NamedFile> {
    files_of_tracks(known_tracks())
}

/// 2 for fewer cells than 20,000; LGT and SHT; the most cells; and cells of one kind.
pub(super) fn numbers_of_cells() -> Vec<NamedFile> {
    let mut files = Files::default();
    for n in [
        1, 7, 8, 9, 1_000, 19_992, 19_999, 20_000, 20_001, 96_999, 97_000, 103_000, 103_001,
        131_064, 131_065, 131_071, 131_072,
    ] {
        for drive_track in [0, 79, 80, 83] {
            for (what, pattern) in [
                ("zeros", [0x00, 0x00]),
                ("ones", [0xFF, 0xFF]),
                ("AA", [0xAA, 0xAA]),
                ("4E", [0x92, 0x54]),
            ] {
                let mut packed = pattern.repeat(cells::bytes_needed(n).div_ceil(2));
                packed.truncate(cells::bytes_needed(n));
                files.add(
                    format!("{n} cells {what} at T {drive_track}"),
                    FilePlan::of_cells(drive_track, 0, n, &packed).bytes(),
                );
            }
        }
    }
    files.0
}

/// Cells whose number is no multiple of eight, the unused bits of the last byte being
/// zeros, ones or one of them a one: they are not looked at. A mark over the index and
/// zeros over the index show it.
pub(super) fn bits_past_the_cells() -> Vec<NamedFile> {
    let mut builder = TrackBuilder::new();
    builder.write_repeated(0x00, 12);
    let mut plan = SectorPlan::standard(5, 0, 1, 0x33);
    plan.size_code = 0;
    plan.data.truncate(128);
    builder.write_sector(&plan);
    let sector_cells = builder.cells().to_vec();
    let mut files = Files::default();
    for n in 20_001..=20_007 {
        let sector = filled(sector_cells.clone(), n);
        // The sector's syncs end 24 cells after the index.
        let mark_over_index = turn(&sector, n - 192 - 24);
        // The data goes over the index.
        let data_over_index = turn(&sector, n - 192 - 1_000);
        for (what, track_cells) in [
            ("a mark over the index", mark_over_index),
            ("data over the index", data_over_index),
            ("zeros", vec![0; n]),
            ("one one", {
                let mut track_cells = vec![0; n];
                track_cells[n - 1] = 1;
                track_cells
            }),
        ] {
            let packed = cells::pack(&track_cells);
            let last = packed.len() - 1;
            let unused = 0xFF >> (n % 8);
            let first_unused = 0x80 >> (n % 8);
            let mut bits_past = vec![0, 1, first_unused, unused];
            bits_past.dedup();
            for bits in bits_past {
                let mut changed = packed.clone();
                changed[last] |= bits;
                files.add(
                    format!("{n} cells, {what}, bits {bits:02X} past them"),
                    FilePlan::of_cells(5, 0, n, &changed).bytes(),
                );
            }
        }
    }
    files.0
}

/// A track of n cells with so many IDs, each wrong in the bits of the check given, and
/// without data.
pub fn ids_on(count: usize, n: usize, check_error: u16) -> Vec<u8> {
    let mut builder = TrackBuilder::new();
    for number in 0..count {
        builder.write_repeated(0x00, 12);
        builder.write_id(0xFE, [5, 0, number as u8, 2], check_error);
    }
    filled(builder.cells().to_vec(), n)
}

/// A track of n cells with so many sectors, each with as many findings as it can have:
/// a number of 245 that comes again, a wrong track, side, size code and marks, bad
/// checks, and data that covers the sectors after it with their syncs.
fn sectors_full_of_findings(count: usize, n: usize) -> Vec<u8> {
    let mut builder = TrackBuilder::new();
    for _ in 0..count {
        builder.write_id(0xFC, [200, 2, 245, 0], 1);
        builder.write_data(0xF9, &[0x00; 2], 1);
    }
    builder.write_repeated_cell(0, 1_200);
    filled(builder.cells().to_vec(), n)
}

/// Tracks with up to 300 sectors, which are refused with 4 above 64, and with as many
/// findings as the program may have to print.
pub(crate) fn crowded_tracks() -> Vec<MadeTrack> {
    let mut tracks = Vec::new();
    for count in [0, 1, 2, 8, 9, 10, 11, 63, 64, 65, 66, 100, 300] {
        for drive_track in [5, 80, 84] {
            for check_error in [0, 1] {
                let track_cells = ids_on(count, 110_000, check_error);
                let check = if check_error == 0 { "good" } else { "bad" };
                let name = format!("{count} IDs with {check} checks at T {drive_track}");
                tracks.push(made(name, (drive_track, 1), track_cells));
            }
        }
    }
    for count in [64, 65] {
        for by in [0, 500, 100_000] {
            let track_cells = turn(&sectors_full_of_findings(count, 104_000), by);
            let name = format!("{count} sectors full of findings, turned by {by}");
            tracks.push(made(name, (83, 1), track_cells));
        }
    }
    tracks
}

pub(super) fn many_sectors() -> Vec<NamedFile> {
    files_of_tracks(crowded_tracks())
}

/// A standard track at T 5 whose fourth sector is changed.
fn one_odd_sector(change: impl Fn(&mut SectorPlan)) -> Vec<u8> {
    let builder = nine_sectors(5, 0, 0x11, |plan| {
        if plan.number == 4 {
            change(plan);
        }
    });
    filled(builder.cells().to_vec(), STANDARD_TRACK_CELLS)
}

/// One thing in a sector plan, and the values that it takes.
type Change = (&'static str, fn(&mut SectorPlan, u32), &'static [u32]);

/// What is changed in a sector, each value just inside or just outside the rule of one of
/// the kinds 6 to 15.
const CHANGES: [Change; 10] = [
    (
        "number",
        |plan, value| plan.number = value as u8,
        &[0, 1, 3, 4, 5, 9, 10, 244, 245, 246, 247, 248, 255],
    ),
    (
        "track",
        |plan, value| plan.track = value as u8,
        &[0, 4, 5, 6, 83, 84, 255],
    ),
    (
        "side",
        |plan, value| plan.side = value as u8,
        &[0, 1, 2, 255],
    ),
    (
        "size code",
        |plan, value| plan.size_code = value as u8,
        &[0, 1, 2, 3, 4, 5, 6, 7, 128, 254, 255],
    ),
    (
        "ID mark",
        |plan, value| plan.id_mark = value as u8,
        &[0xFB, 0xFC, 0xFD, 0xFE, 0xFF, 0x00],
    ),
    (
        "data mark",
        |plan, value| plan.data_mark = Some(value as u8),
        &[0xF7, 0xF8, 0xF9, 0xFA, 0xFB, 0xFC],
    ),
    ("no data mark", |plan, _| plan.data_mark = None, &[0]),
    (
        "wrong bits of the ID check",
        |plan, value| plan.id_check_error = value as u16,
        &[1, 0x8000],
    ),
    (
        "wrong bits of the data check",
        |plan, value| plan.data_check_error = value as u16,
        &[1, 0x8000],
    ),
    (
        "gap",
        |plan, value| plan.gap_cells = value as usize,
        &[0, 1, 16, 623, 624, 625],
    ),
];

/// The standard track with other cells from a place on.
fn overwritten(place: usize, written: &[u8]) -> Vec<u8> {
    let mut track_cells = standard_track(0, 0, 0xE5);
    track_cells[place..place + written.len()].copy_from_slice(written);
    track_cells
}

/// Tracks just inside and just outside the rules of the findings.
pub(crate) fn tracks_at_the_rules() -> Vec<MadeTrack> {
    let mut tracks = Vec::new();
    for (what, change, values) in CHANGES {
        for &value in values {
            let track_cells = one_odd_sector(|plan| change(plan, value));
            tracks.push(made(format!("{what} {value}"), (5, 0), track_cells));
        }
    }
    // DOI and DBI: the data's end, its mark, and the ID round the index.
    let standard = standard_track(0, 0, 0xE5);
    let p = 1_152;
    let q = p + 704;
    let end = q + 8_288;
    for (what, place) in [("data's end", end), ("data mark", q), ("ID", p)] {
        for off in [-33, -17, -2, -1, 0, 1, 2, 17, 33] {
            let by = (STANDARD_TRACK_CELLS - place).wrapping_add_signed(off);
            let name = format!("the {what} {off} after the index");
            tracks.push(made(name, (0, 0), turn(&standard, by)));
        }
    }
    // SID: a sync round each end of the ID and of the data.
    let mut sync = TrackBuilder::new();
    sync.write_sync_a1();
    for (what, place) in [
        ("ID's start", p + 64),
        ("ID's end", p + 160 - 16),
        ("data's start", q + 64),
        ("data's end", end - 16),
    ] {
        for off in [-2, -1, 0, 1, 2] {
            let name = format!("a sync {off} from the {what}");
            let at = place.wrapping_add_signed(off);
            tracks.push(made(name, (0, 0), overwritten(at, sync.cells())));
        }
    }
    // SWS: an ID at the start and round the end of the data, also where the data goes
    // over the index.
    let mut id = TrackBuilder::new();
    id.write_id(0xFE, [0, 0, 20, 2], 0);
    for place in [q + 64, q + 65, end - 160, end - 2, end - 1, end, end + 1] {
        let track_cells = overwritten(place, id.cells());
        // The ID stands a cell before the index, or a cell after it.
        for by in [
            STANDARD_TRACK_CELLS - place - 1,
            STANDARD_TRACK_CELLS - place + 1,
        ] {
            let name = format!("an ID {} after the data mark, turned by {by}", place - q);
            tracks.push(made(name, (0, 0), turn(&track_cells, by)));
        }
        let name = format!("an ID {} after the data mark", place - q);
        tracks.push(made(name, (0, 0), track_cells));
    }
    // MTV: distances of ones; NFA: runs of zeros, of which one goes over the index.
    let every_fourth = [1, 0, 0, 0].repeat(STANDARD_TRACK_CELLS / 4);
    for distance in 1..=6 {
        let mut track_cells = every_fourth.clone();
        for cell in &mut track_cells[50_001..50_006] {
            *cell = 0;
        }
        track_cells[50_000 + distance] = 1;
        tracks.push(made(format!("ones {distance} apart"), (5, 0), track_cells));
    }
    for (first, second) in [
        (998, 998),
        (999, 999),
        (999, 1_000),
        (1_000, 999),
        (1_000, 1_000),
        (1_000, 1_001),
    ] {
        let mut track_cells = every_fourth.clone();
        for (start, length) in [(40_001, first), (99_501, second)] {
            for place in start..start + length {
                track_cells[place % STANDARD_TRACK_CELLS] = 0;
            }
            track_cells[(start + length) % STANDARD_TRACK_CELLS] = 1;
        }
        let name = format!("runs of {first} and {second} zeros");
        tracks.push(made(name, (5, 0), track_cells));
    }
    for ones in [
        vec![0],
        vec![77_777],
        vec![5, 6],
        vec![5, 10],
        vec![0, 99_999],
    ] {
        let mut track_cells = vec![0; STANDARD_TRACK_CELLS];
        for &place in &ones {
            track_cells[place] = 1;
        }
        tracks.push(made(
            format!("ones at {ones:?} alone"),
            (80, 0),
            track_cells,
        ));
    }
    tracks
}

pub(super) fn findings_at_their_rules() -> Vec<NamedFile> {
    files_of_tracks(tracks_at_the_rules())
}
