//! Sections 10 and 11 of the specification: files that are whole in memory, files that the crate reads, and listings. Old files are among
//! them, which are refused with 23.

use crate::report::{Group, Lent, Report};
use crate::terms::answer;
use second_program::cells::bytes_needed;
use second_program::listing::{listing, listing_of_cells};
use second_program::refusal::Refusal;
use second_program::track_file::{read_cells, TrackCells};
use std::io::{self, Read};
use test_inputs::file_inputs::{self, FilePlan};
use test_inputs::random::Random;
use thikbromu::boundary::{self, file_cells, file_listing};
use thikbromu::{Track, TrackFile, LONGEST_FILE};

/// The bytes that any file's cells have room in.
const ROOM: usize = 16_384;
/// The bytes that any listing has room in.
const LISTING: usize = 65_536;

/// What the crate read of a file, as the second program has it.
pub fn read_cells_of(ours: thikbromu::TrackCells) -> TrackCells {
    let track = ours.track();
    TrackCells { drive_track: track.track(), drive_side: track.side(), n: track.cells(), bytes: track.packed().to_vec() }
}

/// What is expected of a file's cells with so much room: the answer, the bytes at the front of the cells, and the place. Too little room is
/// judged last.
fn expected_cells(second: &Result<TrackCells, Refusal>, room: usize) -> (Result<usize, Refusal>, &[u8], Vec<u32>) {
    match second {
        Err(refusal) => (Err(*refusal), &[], Vec::new()),
        Ok(track) if track.bytes.len() > room => (Err(Refusal::too_little_room_for_cells(track.bytes.len())), &[], Vec::new()),
        Ok(track) => (Ok(track.n), &track.bytes, vec![track.drive_track, track.drive_side]),
    }
}

/// The cells of a file over the export: what it answers, and the file, the cells and the place afterwards, the last two with their margins.
/// Beside a refusal nothing is written to them.
fn cells_case(
    group: &mut Group,
    file: &[u8],
    second: &Result<TrackCells, Refusal>,
    (room, places): (usize, usize),
    given: impl Fn() -> String,
) {
    let passed = file.to_vec();
    let (mut cells, mut place) = (Lent::new(room), Lent::new(places));
    let ours = answer(file_cells(&passed, cells.part(), place.part()));
    let (expected, written, numbers) = expected_cells(second, room);
    let numbers = &numbers[..numbers.len().min(places)];
    group.same(
        (ours, cells.into_all(), place.into_all(), &passed[..]),
        (expected, Lent::expected(room, written), Lent::expected(places, numbers), file),
        || format!("{}, room {room}, place of {places}", given()),
    );
}

/// The listing of a file over the export: its length, and `out` afterwards with its margins, and the file.
fn listing_case(group: &mut Group, file: &[u8], expected: &[u8], room: usize, given: impl Fn() -> String) {
    let passed = file.to_vec();
    let mut out = Lent::new(room);
    let length = file_listing(&passed, out.part());
    let front = &expected[..expected.len().min(room)];
    group.same((length, out.into_all(), &passed[..]), (expected.len(), Lent::expected(room, front), file), || {
        format!("{}, room {room} for the listing", given())
    });
}

/// The rooms for a file's cells: none, one short, exact, one more, and the most that any file needs.
fn rooms(second: &Result<TrackCells, Refusal>) -> Vec<usize> {
    let needed = second.as_ref().map_or(0, |track| track.bytes.len());
    let mut rooms = vec![0, needed.saturating_sub(1), needed, needed + 1, ROOM];
    rooms.sort_unstable();
    rooms.dedup();
    rooms
}

/// The rooms for a listing: none, one byte, one short, exact, one more, and the most that any needs.
fn listing_rooms(length: usize) -> [usize; 6] {
    [0, 1, length - 1, length, length + 1, LISTING]
}

/// Many files, sound and broken, with rooms around what is needed and places of any length.
pub fn in_memory(report: &mut Report) {
    let mut group = Group::new("files in memory, their cells");
    let mut listings = Group::new("files in memory, their listings");
    let mut places = (0..4).cycle();
    for file in file_inputs::files() {
        let bytes = &file.bytes;
        let given = || file.name.clone();
        let second = read_cells(bytes);
        for room in rooms(&second) {
            // The exact room and the most room meet each length of the place; the other rooms one of them, in turn.
            let exact = second.as_ref().is_ok_and(|track| track.bytes.len() == room);
            if exact || room == ROOM {
                for places in 0..4 {
                    cells_case(&mut group, bytes, &second, (room, places), given);
                }
            } else {
                cells_case(&mut group, bytes, &second, (room, places.next().expect("lengths without end")), given);
            }
        }
        group.same(answer(TrackFile::new(bytes).cells()).map(read_cells_of), second.clone(), given);

        let expected = listing(bytes);
        for room in listing_rooms(expected.len()) {
            listing_case(&mut listings, bytes, &expected, room, given);
        }
        listings.same(TrackFile::new(bytes).listing().as_bytes(), &expected[..], given);
        if let Ok(track) = &second {
            let expected = listing_of_cells(track);
            let mut out = Lent::new(LISTING);
            let (packed, n, drive) = (&track.bytes, track.n, (track.drive_track, track.drive_side));
            let length = boundary::listing(packed, n, drive.0, drive.1, out.part());
            listings.same((length, out.into_all()), (expected.len(), Lent::expected(LISTING, &expected)), given);
            listings.same(Track::new(packed, n, drive.0, drive.1).listing().as_bytes(), &expected[..], given);
        }
    }
    group.close(report);
    listings.close(report);
}

/// A reader that gives a file in portions of at most so many bytes, at random, and then ends or fails.
struct Portions<'a> {
    rest: &'a [u8],
    most: u64,
    random: &'a mut Random,
    fails: bool,
}

impl Read for Portions<'_> {
    fn read(&mut self, buffer: &mut [u8]) -> io::Result<usize> {
        if self.random.one_in(8) {
            return Err(io::ErrorKind::Interrupted.into());
        }
        if self.rest.is_empty() && self.fails {
            return Err(io::ErrorKind::ConnectionReset.into());
        }
        let size = (1 + self.random.below(self.most) as usize).min(buffer.len());
        self.rest.read(&mut buffer[..size])
    }
}

/// The same files by the crate's reader, each cut in three ways; and where the input fails behind the file.
pub fn from_readers(report: &mut Report) {
    let mut group = Group::new("files that the crate reads");
    let mut random = Random::new(63);
    for file in file_inputs::files() {
        let bytes = &file.bytes;
        let second = read_cells(bytes);
        let expected = listing(bytes);
        for most in [9, 1_000, 200_000] {
            let given = || format!("{} in portions of up to {most}", file.name);
            let read = TrackFile::read_from(Portions { rest: bytes, most, random: &mut random, fails: false }).expect("no failure");
            group.same(read.bytes(), &bytes[..bytes.len().min(LONGEST_FILE + 1)], given);
            group.same(answer(read.cells()).map(read_cells_of), second.clone(), given);
            group.same(read.listing().as_bytes(), &expected[..], given);
        }
        // The failure is not met behind a file that is longer than any.
        let failed = TrackFile::read_from(Portions { rest: bytes, most: 70_000, random: &mut random, fails: true });
        group.same(failed.err().map(|error| error.kind()), (bytes.len() <= LONGEST_FILE).then_some(io::ErrorKind::ConnectionReset), || {
            format!("{}, then a failure", file.name)
        });
    }
    group.close(report);
}

/// Every room for the cells and every length of a place around what a few files need; files that are longer than any, and any bytes.
pub fn short_rooms(report: &mut Report) {
    let mut group = Group::new("rooms for a file's cells and for its place");
    let mut random = Random::new(64);
    let mut both = FilePlan::of_cells(12, 1, 8, &[0xAA]);
    (both.flux_count, both.timings) = (1, vec![4_000]);
    let files = [
        ("25,000 cells", file_inputs::file_of_cells(12, 1, &[0, 1].repeat(12_500))),
        ("one cell", file_inputs::file_of_cells(83, 1, &[1])),
        ("131,072 cells", file_inputs::file_of_cells(255, 255, &vec![1; 131_072])),
        ("131,065 cells", file_inputs::file_of_cells(0, 2, &vec![1; 131_065])),
        ("timings", file_inputs::file_of_timings(12, 1, &[4_100; 25_000])),
        ("cells and a timing", both.bytes()),
        ("no cells and no timings", file_inputs::file_of_timings(12, 1, &[])),
        ("no bytes", Vec::new()),
    ];
    for (name, file) in &files {
        let second = read_cells(file);
        let needed = second.as_ref().map_or(0, |track| track.bytes.len());
        let around = needed.saturating_sub(9)..needed + 9;
        for room in (0..9).chain(around).chain([ROOM - 1, ROOM, ROOM + 1, 2 * ROOM]) {
            for places in 0..4 {
                cells_case(&mut group, file, &second, (room, places), || name.to_string());
            }
        }
        for room in listing_rooms(listing(file).len()) {
            listing_case(&mut group, file, &listing(file), room, || name.to_string());
        }
    }
    // Longer than any file: the answers are those of the first bytes, one more than the longest has.
    for (count, timings) in [(131_072, 0), (131_072, 1), (131_072, 1 << 24), (131_065, 0), (0, 0), (0, 1), (131_073, 0), (8, 0), (8, 1)] {
        let packed = vec![0x11; bytes_needed(count.min(131_072) as usize)];
        let plan = FilePlan { cell_count: count, flux_count: timings, ..FilePlan::of_cells(3, 1, 0, &packed) };
        for more in [0, 1, 2, 4_096] {
            let mut file = plan.bytes();
            file.resize(LONGEST_FILE + more, 0x22);
            let second = read_cells(&file);
            let front = &file[..file.len().min(LONGEST_FILE + 1)];
            let given = || format!("{count} cells, {timings} timings, {more} more bytes than any file");
            group.same(read_cells(front), second.clone(), given);
            cells_case(&mut group, &file, &second, (ROOM, 2), given);
            cells_case(&mut group, front, &second, (ROOM, 2), given);
            listing_case(&mut group, front, &listing(&file), LISTING, given);
        }
    }
    // Few bytes, and any, for the most part after a place count of 2.
    for _ in 0..2_000 {
        let mut file: Vec<u8> = (0..random.below(40)).map(|_| random.byte() & random.byte() & random.byte()).collect();
        if file.len() >= 4 && !random.one_in(9) {
            file[..4].copy_from_slice(&[2, 0, 0, 0]);
        }
        let second = read_cells(&file);
        let rooms = (random.below(40) as usize, random.below(4) as usize);
        cells_case(&mut group, &file, &second, rooms, || format!("{file:02X?}"));
    }
    group.close(report);
}
