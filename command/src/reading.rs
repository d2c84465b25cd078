//! The tracks of an image, read side by side.

use crate::arguments::DiskWish;
use crate::image_file::ImageFile;
use crate::progress::Progress;
use crate::weak::{self, Weak};
use std::sync::atomic::{AtomicUsize, Ordering};
use std::sync::Mutex;
use std::thread;
use thikbromu::{histogram, Cells, Finding, ImageBlock, Refusal, Sector, Track, TrackBlock, HISTOGRAM_COUNTS};

/// A track and side of an image, and what came of it.
pub struct TrackReading {
    pub track: u32,
    pub side: u32,
    pub read: Result<ReadTrack, Refusal>,
}

/// A track that was read.
pub struct ReadTrack {
    pub cells: Cells,
    pub findings: Vec<Finding>,
    pub sectors: Vec<Sector>,
    /// The histogram of the timings, where pictures are asked for.
    pub timings: Option<[u32; HISTOGRAM_COUNTS]>,
    pub weak: Vec<Weak>,
    /// The other revolutions that could not be compared.
    pub not_compared: Vec<(u32, Refusal)>,
}

/// The tracks of an image in the order of its entries, each by this revolution.
pub fn read_all(file: &ImageFile, wish: &DiskWish, revolution: u32, progress: &Progress) -> Vec<TrackReading> {
    let blocks: Vec<ImageBlock> = file.image.blocks().collect();
    let next = AtomicUsize::new(0);
    let done = Mutex::new(Vec::new());
    let work = || {
        while let Some(block) = blocks.get(next.fetch_add(1, Ordering::Relaxed)) {
            let reading = read_one(file, wish, revolution, *block);
            done.lock().expect("putting a track there does not stop").push(reading);
            progress.step();
        }
    };
    thread::scope(|scope| {
        let workers = thread::available_parallelism().map_or(1, |number| number.get());
        for _ in 1..workers.min(blocks.len()) {
            // Where there is no other thread to be had, this one does it all.
            let _ = thread::Builder::new().spawn_scoped(scope, work);
        }
        work();
    });
    let mut readings = done.into_inner().expect("no worker stopped");
    readings.sort_by_key(|reading: &TrackReading| (reading.track, reading.side));
    readings
}

fn read_one(file: &ImageFile, wish: &DiskWish, revolution: u32, place: ImageBlock) -> TrackReading {
    let ImageBlock { track, side, .. } = place;
    let revolutions = u32::from(file.image.header().revolutions);
    let block = TrackBlock::new(&file.bytes[place.range()], revolutions);
    let read = read_block(wish, &block, revolution, track, side);
    TrackReading { track, side, read }
}

fn read_block(
    wish: &DiskWish,
    block: &TrackBlock,
    revolution: u32,
    track: u32,
    side: u32,
) -> Result<ReadTrack, Refusal> {
    let cells = block.cells(revolution)?;
    let on_track = cells.track(track, side);
    let findings = on_track.findings()?;
    let sectors = on_track.sectors()?.collect();
    let timings = match wish.pictures {
        Some(_) => Some(histogram(&block.timings(revolution)?.list)?),
        None => None,
    };
    let (weak, not_compared) =
        if wish.weak { compare_others(block, revolution, &on_track)? } else { Default::default() };
    Ok(ReadTrack { cells, findings, sectors, timings, weak, not_compared })
}

/// What comparing revolutions came to: the weak sectors, and the revolutions that are refused.
type Compared = (Vec<Weak>, Vec<(u32, Refusal)>);

/// Compares each other revolution with the one that was read.
fn compare_others(block: &TrackBlock, revolution: u32, on_track: &Track) -> Result<Compared, Refusal> {
    let reads = weak::reads(on_track)?;
    let (mut all, mut not_compared) = Compared::default();
    for other in (0..block.revolutions()).filter(|other| *other != revolution) {
        let weak = block.cells(other).and_then(|cells| {
            let others = weak::reads(&cells.track(on_track.track(), on_track.side()))?;
            weak::compared(&reads, &others, other)
        });
        match weak {
            Ok(weak) => all.extend(weak),
            Err(refusal) => not_compared.push((other, refusal)),
        }
    }
    Ok((all, not_compared))
}
