//! Writes the track files and the track block of samples/ into the folder that its argument names, the list of the standard track, the listing of
//! the track of single density, which no program of the library lists, and the page of the disk. samples/README.md says what each shows.

use second_program::cells;
use second_program::check_word::check_word;
use second_program::converter::converted;
use second_program::disk_page::disk_page;
use second_program::findings::{self, Finding};
use second_program::single_density::{self, DELETED_DATA_MARK, ID_MARK};
use second_program::write_track::standard_list;
use std::path::Path;
use test_inputs::block_inputs::standard_track_block;
use test_inputs::file_inputs::{file_of_cells, file_of_timings};
use test_inputs::flux_inputs::{flux_track_of, timings_of_steps};
use test_inputs::random::Random;
use test_inputs::read_pairs::read_of;
use test_inputs::single_density_tracks::{fm_track_with, with_cells_at, FIRST_PLACE, RECORD_CELLS};
use test_inputs::track_builder::{nine_sectors, standard_track, turn, SectorPlan, TrackBuilder, STANDARD_TRACK_CELLS};

/// The nine standard sectors of a track, each changed by `change`, with the standard track's gaps, and 4E up to its length.
fn changed(track: u8, change: impl Fn(&mut SectorPlan)) -> Vec<u8> {
    let mut builder = nine_sectors(track, 0, 0xE5, change);
    while builder.cells().len() < STANDARD_TRACK_CELLS {
        builder.write_byte(0x4E);
    }
    builder.cells().to_vec()
}

/// The gaps of a track, in cells, from each one to the next. The track is turned by a cell, so that it ends in a one, and no cell is lost after
/// the last pulse.
fn gaps_of(track_cells: &[u8]) -> Vec<usize> {
    let track_cells = turn(track_cells, track_cells.len() - 1);
    assert_eq!(track_cells.last(), Some(&1));
    let mut gaps = Vec::new();
    let mut cells_since_one = 0;
    for cell in track_cells {
        cells_since_one += 1;
        if cell == 1 {
            gaps.push(cells_since_one);
            cells_since_one = 0;
        }
    }
    gaps
}

/// The timings of a track as a drive gives it: a cell takes 1,950 to 2,050 ns, and a pulse comes up to 250 ns early or late.
fn timings_of_drive(seed: u64, track_cells: &[u8]) -> Vec<u32> {
    let gaps = gaps_of(track_cells);
    let mut random = Random::new(seed);
    let distances: Vec<i64> = gaps.iter().map(|&g| random.between(1_950 * g as i64, 2_050 * g as i64)).collect();
    let shifts: Vec<i64> = (0..=gaps.len()).map(|_| random.between(-250, 250)).collect();
    flux_track_of(&gaps, &distances, &shifts).timings
}

/// The track file that the converter makes of an old one.
fn new_file(old_file: &[u8]) -> Vec<u8> {
    converted(old_file).expect("an old file that is not refused")
}

/// The standard track, by way of its timings.
fn standard_flux() -> Vec<u8> {
    new_file(&file_of_timings(0, 0, &timings_of_drive(1, &standard_track(0, 0, 0xE5))))
}

/// A track whose flux is poor in the data of sector 5: there pulses come up to 950 ns off the centre of their windows, elsewhere up to
/// 300 ns. All lie in their windows, so no cell is lost this time.
fn border_pulses() -> Vec<u8> {
    // A cell earlier than on the standard track, which is turned.
    let data_of_5 = 1_152 + 4 * 9_824 + 704 + 64 - 1;
    let poor = data_of_5..data_of_5 + 16 * 512;
    let mut random = Random::new(2);
    let mut place = 0;
    let mut steps = Vec::new();
    for gap in gaps_of(&standard_track(17, 0, 0xE5)) {
        place += gap;
        let most = if poor.contains(&place) { 950 } else { 300 };
        steps.push((gap as i64, random.between(-most, most)));
    }
    new_file(&file_of_timings(17, 0, &timings_of_steps(&steps).expect("steps with cells")))
}

/// An old file, with a flux section: a track on which the data of sector 3 has a bad check, and sector 9 has the number 245.
fn old_flux() -> Vec<u8> {
    let track_cells = changed(55, |plan| match plan.number {
        3 => plan.data_check_error = 0x0001,
        9 => plan.number = 245,
        _ => {}
    });
    file_of_timings(55, 0, &timings_of_drive(3, &track_cells))
}

/// A long track: 4E goes on to 104,000 cells.
fn long_track() -> Vec<u8> {
    let mut track_cells = standard_track(0, 0, 0xE5);
    let mut more = TrackBuilder::new();
    more.write_repeated(0x4E, 250);
    track_cells.extend(more.cells());
    file_of_cells(0, 0, &track_cells)
}

/// Eleven sectors: the number 5 stands twice, and one number is 247.
fn sector_numbers() -> Vec<u8> {
    let mut builder = TrackBuilder::new();
    builder.write_repeated(0x4E, 10);
    for sector in [1, 2, 3, 4, 5, 5, 7, 8, 9, 10, 247] {
        builder.write_repeated(0x00, 3);
        builder.write_sector(&SectorPlan::standard(12, 0, sector, 0xE5));
        builder.write_repeated(0x4E, 1);
    }
    while builder.cells().len() < 102_000 {
        builder.write_byte(0x4E);
    }
    file_of_cells(12, 0, builder.cells())
}

/// IDs that no formatting writes: another track, a track and a side that no drive has, another size, another mark.
fn id_fields() -> Vec<u8> {
    let track_cells = changed(7, |plan| match plan.number {
        2 => plan.track = 6,
        4 => (plan.track, plan.side) = (200, 9),
        6 => (plan.size_code, plan.data) = (1, vec![0xE5; 256]),
        8 => plan.id_mark = 0xFC,
        _ => {}
    });
    file_of_cells(7, 0, &track_cells)
}

/// Two sectors of size code 6, each with 512 bytes of data; the check of the second is bad.
fn size_code_6() -> Vec<u8> {
    let track_cells = changed(22, |plan| match plan.number {
        3 => plan.size_code = 6,
        7 => (plan.size_code, plan.data_check_error) = (6, 0x0001),
        _ => {}
    });
    file_of_cells(22, 0, &track_cells)
}

/// A data mark that is not usual, an ID with a bad check, an ID without data, data with a bad check.
fn checks() -> Vec<u8> {
    let track_cells = changed(30, |plan| match plan.number {
        2 => plan.data_mark = Some(0xFA),
        4 => plan.id_check_error = 0x0001,
        6 => plan.data_mark = None,
        8 => plan.data_check_error = 0x8000,
        _ => {}
    });
    file_of_cells(30, 0, &track_cells)
}

/// Sets the data of a sector, and keeps the check bytes of the data that it has.
fn misread(plan: &mut SectorPlan, data: Vec<u8>) {
    let check_of = |data: &[u8]| read_of(data, 0xFB, 0).split_off(512);
    let differing = check_of(&data).into_iter().zip(check_of(&plan.data)).map(|(a, b)| a ^ b);
    plan.data_check_error = differing.fold(0, |bits, byte| bits << 8 | u16::from(byte));
    plan.data = data;
}

/// A read of a track on which sector 7 is weak: its bytes 256 to 271 read otherwise each time. In the second read two bits of sector 4 are
/// wrong also.
fn weak_sector(read: u64) -> Vec<u8> {
    let track_cells = changed(9, |plan| {
        let mut data = plan.data.clone();
        if plan.number == 7 {
            let mut random = Random::new(read);
            data[256..272].fill_with(|| random.byte());
        }
        if plan.number == 4 && read == 2 {
            data[100] ^= 0x11;
        }
        misread(plan, data);
    });
    file_of_cells(9, 0, &track_cells)
}

/// A sector hidden in the data of another: its ID stands in the data of sector 5.
fn sector_within_sector() -> Vec<u8> {
    let mut track_cells = standard_track(3, 0, 0xE5);
    let data_of_5 = 1_152 + 4 * 9_824 + 704 + 64;
    let mut hidden = TrackBuilder::new();
    hidden.write_repeated(0x00, 12);
    hidden.write_id(0xFE, [3, 0, 16, 2], 0);
    let at = data_of_5 + 16 * 100;
    track_cells[at..at + hidden.cells().len()].copy_from_slice(hidden.cells());
    file_of_cells(3, 0, &track_cells)
}

/// Cells that are no MFM: ones side by side, and 2,000 cells without a flux transition.
fn odd_cells() -> Vec<u8> {
    let mut track_cells = standard_track(40, 0, 0xE5);
    track_cells[91_001..91_009].fill(1);
    track_cells[95_000..97_000].fill(0);
    file_of_cells(40, 0, &track_cells)
}

/// The track and the side of the drive that the track of single density is from.
const SINGLE_DENSITY_PLACE: (u8, u8) = (2, 0);

/// A track of single density: deleted data, data with a bad check, a number that stands twice, an ID within other data, a clock that is
/// missing.
fn single_density() -> Vec<u8> {
    let (track, side) = SINGLE_DENSITY_PLACE;
    // The hidden ID has a good check, and the data around it too, as a check does not cover clocks.
    let hidden = [0xFE, track, side, 33, 0];
    let hidden = [&hidden[..], &check_word(&hidden).to_be_bytes()].concat();
    let track_cells = fm_track_with(track, side, 0x00, |plan| match plan.number {
        4 => plan.data_mark = Some(DELETED_DATA_MARK),
        7 => plan.data_check_error = 0x0001,
        11 => plan.number = 10,
        14 => plan.data[40..40 + hidden.len()].copy_from_slice(&hidden),
        _ => {}
    });
    let data_of_14 = FIRST_PLACE + 13 * RECORD_CELLS + 384 + 16;
    let track_cells = with_cells_at(&track_cells, data_of_14 + 16 * 40, ID_MARK.into(), 16);
    // In the six bytes 00 before the last ID a clock stands at every second cell.
    let zeros_before_18 = FIRST_PLACE + 17 * RECORD_CELLS - 6 * 16;
    with_cells_at(&track_cells, zeros_before_18 + 20, 0, 1)
}

/// The listing of a track of single density, by the second program: the lines that a track of double density has.
fn single_density_listing(track_cells: &[u8]) -> String {
    let (bytes, n) = (cells::pack(track_cells), track_cells.len());
    let (track, side) = SINGLE_DENSITY_PLACE;
    let sectors = single_density::sectors(track.into(), side.into(), &bytes, n).expect("a track that is not refused");
    let found = single_density::findings_of(track.into(), &bytes, n, &sectors);
    let mut listing = format!("T{track:02} H{side} cells {n} sectors {} findings {}\n", sectors.len(), found.len());
    for Finding { kind, level, place, detail } in found {
        listing += &format!("{kind} {} level {level} place {place} detail {detail}\n", findings::name_of(kind));
    }
    listing
}

/// A track of the sample disk: its place on the disk, and its cells.
struct DiskTrack {
    track: u8,
    side: u8,
    cells: Vec<u8>,
}

/// A disk of twelve tracks. Track 2 is protected: the data of sector 3 has a bad check, and sector 9 has the number 247. Track 80 is one more than
/// usual. On side 1 only track 0 is written on; track 5 was not read.
fn disk(blank: &[u8]) -> Vec<DiskTrack> {
    let protected = changed(2, |plan| match plan.number {
        3 => plan.data_check_error = 0x0001,
        9 => plan.number = 247,
        _ => {}
    });
    let mut disk = Vec::new();
    let mut add = |track, side, cells| disk.push(DiskTrack { track, side, cells });
    for track in [0, 1, 79, 80] {
        add(track, 0, standard_track(track, 0, 0xE5));
    }
    add(2, 0, protected);
    add(81, 0, blank.to_vec());
    add(0, 1, standard_track(0, 1, 0xE5));
    for track in [1, 2, 3, 4, 6] {
        add(track, 1, blank.to_vec());
    }
    disk
}

/// The page of a disk, by the second program.
fn page_of(disk: &[DiskTrack]) -> Vec<u8> {
    let (mut tracks, mut all_findings) = (Vec::new(), Vec::new());
    for DiskTrack { track, side, cells: track_cells } in disk {
        let (track, side) = (u32::from(*track), u32::from(*side));
        let (bytes, n) = (cells::pack(track_cells), track_cells.len());
        let found = findings::findings(track, side, &bytes, n, usize::MAX).expect("a track that is not refused");
        tracks.extend([track, side, found.len() as u32]);
        all_findings.extend(found.iter().flat_map(|it| [it.kind, it.level, it.place as u32, it.detail as u32]));
    }
    disk_page(&tracks, &all_findings).expect("a disk that is not refused")
}

fn main() {
    let folder = std::env::args().nth(1).expect("the folder to write to");
    let standard = standard_track(0, 0, 0xE5);
    let all_aa: Vec<u8> = (0..100_000).map(|i| u8::from(i % 2 == 0)).collect();
    let standard_file = file_of_cells(0, 0, &standard);
    // The data of the last sector ends 200 cells after the index; its data mark stands 100 cells after it.
    let data_mark_of_9 = 1_152 + 8 * 9_824 + 704;
    let over_index = turn(&standard, 100_000 + 200 - (data_mark_of_9 + 8_288));
    let behind_index = turn(&standard, 100_000 + 100 - data_mark_of_9);
    let single_density = single_density();
    let samples = [
        ("standard", standard_file.clone()),
        ("standard-flux", standard_flux()),
        ("border-pulses", border_pulses()),
        ("old-flux", old_flux()),
        ("old-flux-converted", new_file(&old_flux())),
        ("unformatted", file_of_cells(5, 0, &all_aa)),
        ("unformatted-80", file_of_cells(80, 0, &all_aa)),
        ("no-flux-80", file_of_cells(80, 0, &[0; 100_000])),
        ("extra-track", file_of_cells(81, 1, &standard_track(81, 1, 0xE5))),
        ("long-track", long_track()),
        ("sector-numbers", sector_numbers()),
        ("id-fields", id_fields()),
        ("size-code-6", size_code_6()),
        ("checks", checks()),
        ("weak-sector-first-read", weak_sector(1)),
        ("weak-sector-second-read", weak_sector(2)),
        ("data-over-index", file_of_cells(0, 0, &over_index)),
        ("data-behind-index", file_of_cells(0, 0, &behind_index)),
        ("sector-within-sector", sector_within_sector()),
        ("odd-cells", odd_cells()),
        ("single-density", file_of_cells(SINGLE_DENSITY_PLACE.0, SINGLE_DENSITY_PLACE.1, &single_density)),
        ("cut-short", standard_file[..standard_file.len() - 1].to_vec()),
    ];
    let write = |name: &str, bytes: Vec<u8>| {
        let path = Path::new(&folder).join(name);
        std::fs::write(&path, bytes).unwrap_or_else(|error| panic!("{}: {error}", path.display()));
    };
    for (name, file) in samples {
        write(&format!("{name}.track"), file);
    }
    let disk = disk(&all_aa);
    std::fs::create_dir_all(Path::new(&folder).join("disk")).expect("a folder for the disk");
    for DiskTrack { track, side, cells } in &disk {
        write(&format!("disk/t{track:02}-h{side}.track"), file_of_cells(*track, *side, cells));
    }
    write("disk.page", page_of(&disk));
    write("single-density.fm-listing", single_density_listing(&single_density).into_bytes());
    // What Write Track makes the standard track of.
    write("standard.list", standard_list(0, 0, &[[0xE5; 512]; 9]));
    // Two revolutions of the standard track, each with shifts of its own.
    write("standard-two-revolutions.block", standard_track_block(1, 0, 0, 0xE5, 2).bytes());
}
