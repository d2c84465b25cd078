//! The picture of a track: its sectors round the track, ID and data, and its findings at their places. The index is at the top, and the track
//! goes clockwise.

use crate::reading::{ReadTrack, TrackReading};
use crate::refusals;
use crate::svg::{escaped, picture, strongest, text, LEVEL_COLOURS, OUTLINE};
use std::collections::BTreeMap;
use std::f64::consts::TAU;
use thikbromu::{Finding, Sector};

const WIDTH: u32 = 980;
const HEIGHT: u32 = 640;
const MIDDLE: f64 = 320.0;
/// The radii of the ring that the sectors lie in, of their numbers and of the findings.
const INNER: f64 = 210.0;
const OUTER: f64 = 265.0;
const NUMBERS: f64 = 282.0;
const FINDINGS: f64 = 190.0;
/// The cells of an ID.
const ID_CELLS: u32 = 160;
/// So many findings have a line beside the track. All have a title at their places.
const MOST_LINES: usize = 34;

const ID_COLOUR: &str = "#3d85c6";
const GOOD_DATA: &str = "#9fc5e8";
const BAD: &str = "#e06666";

/// The picture of a track, or of its refusal.
pub fn track_picture(TrackReading { track, side, read }: &TrackReading) -> String {
    let name = format!("T{track:02} H{side}");
    let parts = match read {
        Ok(read) => ring(&name, read),
        Err(refusal) => {
            text(MIDDLE, MIDDLE - 10.0, "middle", &name)
                + &text(MIDDLE, MIDDLE + 10.0, "middle", &refusals::in_words(*refusal))
        }
    };
    picture(WIDTH, HEIGHT, &name, &parts)
}

/// A point at a place of the track.
fn point(radius: f64, place: f64, cells: usize) -> (f64, f64) {
    let angle = TAU * place / cells as f64;
    (MIDDLE + radius * angle.sin(), MIDDLE - radius * angle.cos())
}

/// A part of the ring from a place to another, which may lie behind the index.
fn arc(from: u32, to: u32, cells: usize, inner: f64, outer: f64, colour: &str, title: &str) -> String {
    let (from, to) = (f64::from(from), f64::from(to));
    let long = u8::from(to - from > cells as f64 / 2.0);
    let [a, b] = [from, to].map(|place| point(outer, place, cells));
    let [c, d] = [to, from].map(|place| point(inner, place, cells));
    format!(
        "<path d=\"M{:.2} {:.2} A{outer} {outer} 0 {long} 1 {:.2} {:.2} L{:.2} {:.2} A{inner} {inner} 0 {long} 0 {:.2} {:.2} Z\" \
         fill=\"{colour}\" fill-opacity=\"0.8\" stroke=\"#ffffff\" stroke-width=\"0.5\"><title>{}</title></path>\n",
        a.0, a.1, b.0, b.1, c.0, c.1, d.0, d.1, escaped(title)
    )
}

fn circle(radius: f64) -> String {
    format!("<circle cx=\"{MIDDLE}\" cy=\"{MIDDLE}\" r=\"{radius}\" fill=\"none\" stroke=\"{OUTLINE}\"/>\n")
}

fn ring(name: &str, read: &ReadTrack) -> String {
    let cells = read.cells.count;
    let mut parts = circle(INNER) + &circle(OUTER);
    let (index, top) = (point(INNER - 8.0, 0.0, cells), point(OUTER + 30.0, 0.0, cells));
    parts += &format!("<path d=\"M{:.2} {:.2} L{:.2} {:.2}\" stroke=\"#000000\"/>\n", index.0, index.1, top.0, top.1);
    parts += &text(top.0, top.1 - 4.0, "middle", "index");
    for sector in &read.sectors {
        parts += &sector_parts(sector, cells);
    }
    let mut by_place: BTreeMap<u32, Vec<Finding>> = BTreeMap::new();
    for finding in &read.findings {
        by_place.entry(finding.place).or_default().push(*finding);
    }
    for (place, findings) in &by_place {
        parts += &marker(*place, findings, cells);
    }
    let counts = [
        name.to_string(),
        format!("{} cells", refusals::grouped(cells)),
        format!("{} sectors", read.sectors.len()),
        format!("{} findings", read.findings.len()),
    ];
    for (line, words) in (0u32..).zip(&counts) {
        parts += &text(MIDDLE, MIDDLE - 24.0 + 18.0 * f64::from(line), "middle", words);
    }
    parts + &lines(read)
}

/// The ID and the data of a sector, with its number outside.
fn sector_parts(sector: &Sector, cells: usize) -> String {
    let Sector { place, number, track, side, size_code, .. } = *sector;
    let good = |is_good: bool| if is_good { "good" } else { "bad" };
    let id_colour = if sector.id_check_good { ID_COLOUR } else { BAD };
    let id = format!(
        "sector {number}, ID at {place}\ntrack {track}, side {side}, size code {size_code}, mark {:02X}, check {}",
        sector.mark,
        good(sector.id_check_good)
    );
    // An ID is so short that it is drawn beyond the ring, to be seen.
    let mut parts = String::new();
    if sector.has_data() {
        let colour = if sector.data_check_good { GOOD_DATA } else { BAD };
        let data = format!(
            "sector {number}, data from {} to {}\n{} bytes, mark {:02X}, check {}",
            sector.data_place,
            sector.end,
            sector.data_length,
            sector.data_mark,
            good(sector.data_check_good)
        );
        parts += &arc(sector.data_place, sector.end, cells, INNER, OUTER, colour, &data);
    }
    parts += &arc(place, place + 2 * ID_CELLS, cells, INNER - 4.0, OUTER + 6.0, id_colour, &id);
    let (x, y) = point(NUMBERS, f64::from(place + ID_CELLS), cells);
    parts + &text(x, y + 4.0, "middle", &number.to_string())
}

/// The findings of a place, within the ring.
fn marker(place: u32, findings: &[Finding], cells: usize) -> String {
    let (x, y) = point(FINDINGS, f64::from(place), cells);
    let colour = LEVEL_COLOURS[usize::from(strongest(findings))];
    let lines: Vec<String> = findings.iter().map(|finding| finding.to_string()).collect();
    let title = escaped(&lines.join("\n"));
    format!("<circle cx=\"{x:.2}\" cy=\"{y:.2}\" r=\"5\" fill=\"{colour}\"><title>{title}</title></circle>\n")
}

/// The findings as lines beside the track.
fn lines(read: &ReadTrack) -> String {
    let all: Vec<String> = read
        .findings
        .iter()
        .map(|finding| finding.to_string())
        .chain(read.weak.iter().map(|weak| format!("{} sector {}", weak.finding, weak.sector)))
        .collect();
    let mut parts = String::new();
    let left = f64::from(WIDTH) - 320.0;
    let mut y = 30.0;
    for line in all.iter().take(MOST_LINES) {
        parts += &text(left, y, "start", line);
        y += 16.0;
    }
    if all.len() > MOST_LINES {
        parts += &text(left, y, "start", &format!("and {} more", all.len() - MOST_LINES));
    }
    parts
}
