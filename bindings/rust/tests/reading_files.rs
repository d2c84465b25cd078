//! Track files, whole in memory and from a reader, and their listings.

mod common;

use common::samples;
use std::io::{self, Read};
use thikbromu::{
    convert_file, convert_file_to_vec, Refusal, Sector, TrackFile, LONGEST_FILE, LONGEST_OLD_FILE, MOST_TIMINGS,
};

const STANDARD: &[u8] = include_bytes!("../../../samples/standard.track");
/// An old file, with a flux section, and what comes of it.
const OLD: &[u8] = include_bytes!("../../../samples/old-flux.track");
const CONVERTED: &[u8] = include_bytes!("../../../samples/old-flux-converted.track");

/// A reader that gives at most so many bytes at a time, and in between says that it was interrupted.
struct Portions<'a> {
    rest: &'a [u8],
    size: usize,
    interrupted: bool,
}

impl<'a> Portions<'a> {
    fn new(rest: &'a [u8], size: usize) -> Portions<'a> {
        Portions { rest, size, interrupted: false }
    }
}

impl Read for Portions<'_> {
    fn read(&mut self, buffer: &mut [u8]) -> io::Result<usize> {
        self.interrupted = !self.interrupted;
        if self.interrupted {
            return Err(io::ErrorKind::Interrupted.into());
        }
        let size = self.size.min(buffer.len());
        self.rest.read(&mut buffer[..size])
    }
}

/// A reader that fails.
struct Failing;

impl Read for Failing {
    fn read(&mut self, _: &mut [u8]) -> io::Result<usize> {
        Err(io::ErrorKind::ConnectionReset.into())
    }
}

#[test]
fn every_sample_however_it_is_read() {
    for sample in samples() {
        let file = &sample.file;
        let whole = TrackFile::new(file);
        assert_eq!(whole.listing(), sample.listing, "{}", sample.name);
        for size in [1, 7, 4096, file.len()] {
            let read = TrackFile::read_from(Portions::new(file, size)).unwrap();
            // The old file is longer than any of today.
            let front = &file[..file.len().min(LONGEST_FILE + 1)];
            assert!(read.bytes() == front, "{} in portions of {size}", sample.name);
            assert_eq!(read.cells(), whole.cells(), "{} in portions of {size}", sample.name);
            assert_eq!(read.listing(), sample.listing, "{} in portions of {size}", sample.name);
        }
    }
}

#[test]
fn the_cells_of_a_file() {
    let read = TrackFile::new(STANDARD).cells().unwrap();
    let track = read.track();
    assert_eq!((track.cells(), track.track(), track.side()), (100_000, 0, 0));
    assert_eq!(track.packed(), &STANDARD[10..12_510]);
    let places: Vec<u32> = track.sectors().unwrap().map(|sector: Sector| sector.place).collect();
    assert_eq!(places, [1152, 10976, 20800, 30624, 40448, 50272, 60096, 69920, 79744]);
    assert_eq!(track.listing(), "T00 H0 cells 100000 sectors 9 findings 0\n");
}

#[test]
fn the_place_of_a_file_is_judged_by_the_calls_on_its_track() {
    let mut bytes = STANDARD.to_vec();
    (bytes[4], bytes[5]) = (84, 1);
    let file = TrackFile::new(&bytes);
    assert_eq!(file.listing(), "refused 1\n");
    let read = file.cells().unwrap();
    assert_eq!((read.track().track(), read.track().side()), (84, 1));
    assert_eq!(read.track().findings(), Err(Refusal::TrackOrSide));
}

fn refused(bytes: &[u8], refusal: Refusal) {
    let file = TrackFile::new(bytes);
    assert_eq!(file.cells(), Err(refusal));
    assert_eq!(file.listing(), format!("refused {}\n", refusal.number()));
}

#[test]
fn refusals_that_a_count_gives() {
    // What comes after the count is not looked at.
    for after in [0, 9, 300_000] {
        let refused = |file: &[u8], refusal| refused(&[file, &vec![0; after]].concat(), refusal);
        refused(&[3, 0, 0, 0], Refusal::NotATrackFile);
        refused(&[2, 0, 0, 0, 0, 0, 1, 0, 2, 0], Refusal::CellCount(131_073));
        // One timing, or many; behind no cells, and behind eight.
        refused(&[2, 0, 0, 0, 0, 0, 0, 0, 0, 0, 1, 0, 0, 0], Refusal::FluxSection);
        refused(&[2, 0, 0, 0, 84, 2, 0, 0, 0, 0, 1, 0, 1, 0], Refusal::FluxSection);
        refused(&[2, 0, 0, 0, 0, 0, 8, 0, 0, 0, 0xAA, 0, 0, 0, 1], Refusal::FluxSection);
    }
}

#[test]
fn refusals_of_a_whole_file() {
    refused(&[], Refusal::NotATrackFile);
    refused(&STANDARD[..STANDARD.len() - 1], Refusal::NotATrackFile);
    refused(&[STANDARD, &[0]].concat(), Refusal::NotATrackFile);
    // Neither cells nor timings.
    refused(&[2, 0, 0, 0, 0, 0, 0, 0, 0, 0, 0, 0, 0, 0], Refusal::NotATrackFile);
    // Cut within the count of timings.
    refused(&[2, 0, 0, 0, 0, 0, 0, 0, 0, 0, 1, 0, 0], Refusal::NotATrackFile);
}

/// An old file at this place, its timings these.
fn old_file(track: u8, side: u8, timings: &[u32]) -> Vec<u8> {
    let mut file = vec![2, 0, 0, 0, track, side, 0, 0, 0, 0];
    file.extend((timings.len() as u32).to_le_bytes());
    file.extend(timings.iter().flat_map(|timing| timing.to_le_bytes()));
    file
}

#[test]
fn an_old_file_becomes_one_of_cells() {
    assert_eq!(TrackFile::new(OLD).cells(), Err(Refusal::FluxSection));
    assert_eq!(convert_file_to_vec(OLD).as_deref(), Ok(CONVERTED));
    // 5,000 and 5,000 ns are 00101. The place is kept as it is.
    let converted = convert_file_to_vec(&old_file(84, 2, &[5_000; 2]));
    assert_eq!(converted, Ok(vec![2, 0, 0, 0, 84, 2, 5, 0, 0, 0, 0b0010_1000, 0, 0, 0, 0]));
    // The longest of both.
    let most = old_file(0, 0, &[4_000; MOST_TIMINGS]);
    assert_eq!(most.len(), LONGEST_OLD_FILE);
    assert_eq!(convert_file_to_vec(&most).map(|file| file.len()), Ok(LONGEST_FILE));
}

#[test]
fn a_new_file_in_any_room() {
    let old = old_file(7, 1, &[18_000]);
    let new = [2, 0, 0, 0, 7, 1, 9, 0, 0, 0, 0, 0x80, 0, 0, 0, 0];
    for room in 0..=18 {
        let mut out = vec![7; room];
        let answer = convert_file(&old, &mut out);
        if room < new.len() {
            assert_eq!(answer, Err(Refusal::NoRoom(16)));
            assert_eq!(out, vec![7; room]);
        } else {
            assert_eq!(answer, Ok(16));
            assert_eq!(out[..16], new);
            assert!(out[16..].iter().all(|&byte| byte == 7));
        }
    }
}

#[test]
fn old_files_that_are_refused() {
    let refused = |file: &[u8], refusal| {
        for room in [0, 9, LONGEST_FILE] {
            let mut out = vec![7; room];
            assert_eq!(convert_file(file, &mut out), Err(refusal));
            assert_eq!(out, vec![7; room]);
        }
    };
    // What comes after a count is not looked at.
    for after in [0, 9, 300_000] {
        let at_once = |file: &[u8], refusal| refused(&[file, &vec![0; after]].concat(), refusal);
        at_once(&[3, 0, 0, 0], Refusal::NotATrackFile);
        at_once(&[2, 0, 0, 0, 5, 0, 1, 0, 0, 0], Refusal::NotATrackFile);
        at_once(&[2, 0, 0, 0, 5, 0, 1, 0, 2, 0], Refusal::NotATrackFile);
        at_once(&[2, 0, 0, 0, 5, 0, 0, 0, 0, 0, 1, 0, 1, 0], Refusal::TooManyTimings(65_537));
    }
    refused(STANDARD, Refusal::NotATrackFile);
    refused(&[], Refusal::NotATrackFile);
    refused(&old_file(5, 0, &[]), Refusal::NotATrackFile);
    let file = old_file(84, 0, &[4_000, 0]);
    refused(&file, Refusal::TimingOutOfRange(1));
    refused(&file[..file.len() - 1], Refusal::NotATrackFile);
    refused(&[&file[..], &[0]].concat(), Refusal::NotATrackFile);
    refused(&old_file(84, 0, &[10_000_000; 27]), Refusal::TooManyCells(135_000));
    // No cells come of it, wherever it is from.
    refused(&old_file(5, 0, &[500]), Refusal::CellCount(0));
    refused(&old_file(84, 0, &[500]), Refusal::CellCount(0));
}

#[test]
fn a_reader_that_fails_gives_its_error() {
    for read in [0, 1, 4, 10, 4096, STANDARD.len() - 1, STANDARD.len()] {
        let error = TrackFile::read_from(STANDARD[..read].chain(Failing)).unwrap_err();
        assert_eq!(error.kind(), io::ErrorKind::ConnectionReset);
    }
}

/// A file of the most cells, with this as the number of timings; then so many bytes.
fn most_cells(timings: u32, after: usize) -> Vec<u8> {
    let front = [2, 0, 0, 0, 0, 0, 0, 0, 2, 0];
    [&front[..], &[0xAA; 16_384], &timings.to_le_bytes(), &vec![0; after]].concat()
}

#[test]
fn no_more_is_read_than_is_needed() {
    assert_eq!(most_cells(0, 0).len(), LONGEST_FILE);
    let files = [
        // Accepted, and the longest that is; one byte longer, and longer.
        most_cells(0, 0),
        most_cells(0, 1),
        most_cells(0, 5_000),
        // Refused by the last number.
        most_cells(1, 0),
        most_cells(1, 5_000),
        most_cells(1 << 24, 1),
        old_file(5, 0, &[4_000; 5_000]),
        vec![2; LONGEST_FILE + 2],
    ];
    for bytes in files {
        let expected = TrackFile::new(&bytes);
        let needed = bytes.len().min(LONGEST_FILE + 1);
        let mut rest = &bytes[..];
        let read = TrackFile::read_from(&mut rest).unwrap();
        assert_eq!(rest.len(), bytes.len() - needed);
        assert_eq!(read.bytes(), &bytes[..needed]);
        assert_eq!(read.cells(), expected.cells());
        assert_eq!(read.listing(), expected.listing());
        // A reader that fails behind what is needed is not asked; one that fails before the end is.
        let failing = TrackFile::read_from(bytes.chain(Failing));
        assert_eq!(failing.is_ok(), bytes.len() > LONGEST_FILE);
        assert!(TrackFile::read_from(bytes[..needed - 1].chain(Failing)).is_err());
    }
}
