//! The samples' listings and the page of the sample disk, printed from the crate's findings.

mod common;

use common::samples;
use std::fs;
use std::path::Path;
use thikbromu::{disk_page, Density, Track, TrackFile};

/// The listing of a whole track file.
fn listing_of(file: &[u8], density: Density) -> String {
    let cells = u32::from_le_bytes(file[6..10].try_into().unwrap()) as usize;
    let (track, side) = (file[4], file[5]);
    let read = Track::new(&file[10..file.len() - 4], cells, track.into(), side.into()).in_density(density);
    let findings = read.findings().unwrap();
    let sectors = read.sector_count().unwrap();
    let mut listing = format!("T{track:02} H{side} cells {cells} sectors {sectors} findings {}\n", findings.len());
    for finding in findings {
        listing += &format!("{finding}\n");
    }
    listing
}

#[test]
fn every_sample() {
    for sample in samples() {
        // What is no track file, or an old one, has no cells to list.
        if !["refused 15\n", "refused 23\n"].contains(&&sample.listing[..]) {
            assert_eq!(listing_of(&sample.file, Density::Double), sample.listing, "{}", sample.name);
        }
    }
}

#[test]
fn the_sample_of_single_density() {
    let file = include_bytes!("../../../samples/single-density.track");
    let listing = include_str!("../../../samples/single-density.fm-listing");
    assert_eq!(listing_of(file, Density::Single), listing);
}

#[test]
fn the_sample_disk() {
    let folder = Path::new(env!("CARGO_MANIFEST_DIR")).join("../../samples/disk");
    let mut disk = Vec::new();
    for entry in fs::read_dir(folder).unwrap() {
        let file = fs::read(entry.unwrap().path()).unwrap();
        let cells = TrackFile::new(&file).cells().unwrap();
        disk.push((file[4].into(), file[5].into(), cells.track().findings().unwrap()));
    }
    assert_eq!(disk.len(), 12);
    assert_eq!(disk_page(&disk).as_deref(), Ok(include_str!("../../../samples/disk.page")));
}
