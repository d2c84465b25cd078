//! Pictures of a disk, as SVG files in a folder: disk.svg, timings.svg, and two of each track, as t05-h0.svg and t05-h0-timings.svg.

use crate::disk::DiskReading;
use crate::ending::{not_written, Ended};
use crate::files::write_whole;
use crate::histogram_picture::histogram_picture;
use crate::reading::TrackReading;
use crate::refusals;
use crate::svg::{bar, picture, strongest, text, LEVEL_COLOURS, OUTLINE, REFUSED};
use crate::track_picture::track_picture;
use std::fs;
use std::path::Path;
use thikbromu::HISTOGRAM_COUNTS;

/// The tracks that the picture of a disk has room for at least.
const USUAL_TRACKS: u32 = 80;
/// The side of a square with the space behind it.
const STEP: f64 = 14.0;
const LEFT: f64 = 40.0;
const TOP: f64 = 50.0;

/// Writes all pictures. The folder is made where it is not there.
pub fn write(name: &str, disk: &DiskReading, folder: &Path) -> Result<(), Ended> {
    fs::create_dir_all(folder).map_err(|error| not_written(folder.display(), &error))?;
    let put = |file: String, picture: String| {
        let path = folder.join(file);
        write_whole(&path, picture.as_bytes()).map_err(|error| not_written(path.display(), &error))
    };
    let mut all = [0u32; HISTOGRAM_COUNTS];
    for reading in &disk.tracks {
        let file = file_of(reading);
        put(format!("{file}.svg"), track_picture(reading))?;
        let timings = reading.read.as_ref().ok().and_then(|read| read.timings);
        if let Some(counts) = timings {
            let title = format!("T{:02} H{}", reading.track, reading.side);
            put(format!("{file}-timings.svg"), histogram_picture(&title, &counts))?;
            all.iter_mut().zip(counts).for_each(|(sum, count)| *sum = sum.saturating_add(count));
        }
    }
    put("timings.svg".to_string(), histogram_picture(name, &all))?;
    put("disk.svg".to_string(), disk_picture(name, disk))
}

fn file_of(reading: &TrackReading) -> String {
    format!("t{:02}-h{}", reading.track, reading.side)
}

/// A square for each track and side, by the level that weighs most, with its findings as title and a link to the picture of the track.
fn disk_picture(name: &str, disk: &DiskReading) -> String {
    let last = disk.tracks.iter().map(|reading| reading.track + 1).max().unwrap_or(0);
    let tracks = last.max(USUAL_TRACKS);
    let mut parts = text(LEFT, 24.0, "start", name);
    for side in 0..2 {
        let y = TOP + STEP * f64::from(side);
        parts += &text(LEFT - 6.0, y + 10.0, "end", &format!("H{side}"));
        for track in 0..tracks {
            let x = LEFT + STEP * f64::from(track);
            if side == 0 && track % 10 == 0 {
                parts += &text(x, TOP - 6.0, "start", &track.to_string());
            }
            let reading = disk.tracks.iter().find(|reading| (reading.track, reading.side) == (track, side));
            parts += &square(x, y, track, side, reading);
        }
    }
    let legend = [
        (LEVEL_COLOURS[1], "level 1"),
        (LEVEL_COLOURS[2], "level 2"),
        (LEVEL_COLOURS[3], "level 3"),
        (LEVEL_COLOURS[0], "no finding"),
        (REFUSED, "refused"),
        ("none", "not in the image"),
    ];
    let y = TOP + 2.0 * STEP + 20.0;
    for (index, (colour, words)) in (0u32..).zip(legend) {
        let x = LEFT + 120.0 * f64::from(index);
        parts += &bar(x, y, 12.0, 12.0, &format!("fill=\"{colour}\" stroke=\"{OUTLINE}\""), words);
        parts += &text(x + 18.0, y + 10.0, "start", words);
    }
    let width = (LEFT + STEP * f64::from(tracks) + 20.0) as u32;
    picture(width, (y + 30.0) as u32, name, &parts)
}

fn square(x: f64, y: f64, track: u32, side: u32, reading: Option<&TrackReading>) -> String {
    let place = format!("T{track:02} H{side}");
    let (colour, title) = match reading.map(|reading| &reading.read) {
        None => ("none", format!("{place}\nnot in the image")),
        Some(Err(refusal)) => (REFUSED, format!("{place}\n{}", refusals::in_words(*refusal))),
        Some(Ok(read)) => {
            let mut title = format!("{place}\n{} sectors, {} findings", read.sectors.len(), read.findings.len());
            for finding in &read.findings {
                title += &format!("\n{finding}");
            }
            for weak in &read.weak {
                title += &format!("\n{} sector {}", weak.finding, weak.sector);
            }
            let level = if read.weak.is_empty() { strongest(&read.findings) } else { 1 };
            (LEVEL_COLOURS[usize::from(level)], title)
        }
    };
    let drawn = bar(x, y, STEP - 2.0, STEP - 2.0, &format!("fill=\"{colour}\" stroke=\"{OUTLINE}\""), &title);
    match reading {
        Some(reading) => format!("<a href=\"{}.svg\">{drawn}</a>\n", file_of(reading)),
        None => drawn,
    }
}
