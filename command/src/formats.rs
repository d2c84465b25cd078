//! The findings of an image for programs: JSON, a line for each image, and CSV. docs/COMMAND.md names the fields.

use crate::disk::DiskReading;
use crate::reading::{ReadTrack, TrackReading};
use crate::refusals;
use crate::weak::Weak;
use std::io;
use thikbromu::{Finding, Refusal};

/// The lines of weak sectors, each as a line of the page with the sector's number and the two revolutions behind it.
pub fn weak_lines(disk: &DiskReading) -> String {
    let mut lines = String::new();
    for (reading, read) in read_tracks(disk) {
        for Weak { sector, other_revolution, finding } in &read.weak {
            let (track, side, revolution) = (reading.track, reading.side, disk.revolution);
            lines +=
                &format!("T{track:02} H{side} {finding} sector {sector} revolutions {revolution} {other_revolution}\n");
        }
    }
    lines
}

/// The tracks that were not refused.
fn read_tracks<'a>(disk: &'a DiskReading) -> impl Iterator<Item = (&'a TrackReading, &'a ReadTrack)> {
    disk.tracks.iter().filter_map(|reading| Some((reading, reading.read.as_ref().ok()?)))
}

// ---- JSON

/// A text in quotation marks.
fn quoted(text: &str) -> String {
    let mut quoted = String::from("\"");
    for letter in text.chars() {
        match letter {
            '"' => quoted += "\\\"",
            '\\' => quoted += "\\\\",
            letter if (letter as u32) < 0x20 => quoted += &format!("\\u{:04x}", letter as u32),
            letter => quoted.push(letter),
        }
    }
    quoted + "\""
}

/// A list, its parts written by a function.
fn list<T>(parts: impl IntoIterator<Item = T>, written: impl FnMut(T) -> String) -> String {
    let parts: Vec<String> = parts.into_iter().map(written).collect();
    format!("[{}]", parts.join(","))
}

fn refused(refusal: Option<Refusal>) -> String {
    refusal.map_or("null".to_string(), |refusal| {
        let meaning = quoted(&refusals::meaning(refusal));
        format!("{{\"number\":{},\"value\":{},\"meaning\":{meaning}}}", refusal.number(), refusal.value())
    })
}

/// The fields of a finding.
fn fields(finding: &Finding) -> String {
    let Finding { kind, place, detail } = finding;
    let (number, level) = (kind.number(), finding.level());
    format!("\"kind\":{number},\"name\":\"{kind}\",\"level\":{level},\"place\":{place},\"detail\":{detail}")
}

fn track(TrackReading { track, side, read }: &TrackReading) -> String {
    let refused = refused(read.as_ref().err().copied());
    let mut object = format!("{{\"track\":{track},\"side\":{side},\"refused\":{refused}");
    if let Ok(read) = read {
        let findings = list(&read.findings, |finding| format!("{{{}}}", fields(finding)));
        let weak = list(&read.weak, |Weak { sector, other_revolution, finding }| {
            format!("{{\"sector\":{sector},\"other_revolution\":{other_revolution},{}}}", fields(finding))
        });
        let not_compared = list(&read.not_compared, |(revolution, refusal)| {
            format!("{{\"other_revolution\":{revolution},\"refused\":{}}}", self::refused(Some(*refusal)))
        });
        object += &format!(",\"cells\":{},\"sectors\":{}", read.cells.count, read.sectors.len());
        object += &format!(",\"findings\":{findings},\"weak\":{weak},\"not_compared\":{not_compared}");
    }
    object + "}"
}

/// The line of an image.
pub fn json(name: &str, disk: &DiskReading) -> String {
    let header = disk.file.image.header();
    let numbers = [
        ("version", header.version.into()),
        ("disk_type", header.disk_type.into()),
        ("revolutions", header.revolutions.into()),
        ("first_track", header.first_track.into()),
        ("last_track", header.last_track.into()),
        ("flags", header.flags.into()),
        ("cell_width", header.cell_width.into()),
        ("heads", header.heads.into()),
        ("resolution", header.resolution.into()),
        ("check_sum", header.check_sum),
    ];
    let numbers: Vec<String> = numbers.iter().map(|(field, number)| format!("\"{field}\":{number}")).collect();
    format!(
        "{{\"image\":{},\"refused\":null,\"error\":null,\"header\":{{{}}},\"revolution\":{},\"single_sided\":{},\"tracks\":{}}}\n",
        quoted(name),
        numbers.join(","),
        disk.revolution,
        disk.page.ends_with("single-sided\n"),
        list(&disk.tracks, track)
    )
}

/// The line of an image that is refused as a whole.
pub fn json_refused(name: &str, refusal: Refusal) -> String {
    format!("{{\"image\":{},\"refused\":{},\"error\":null}}\n", quoted(name), refused(Some(refusal)))
}

/// The line of an image that cannot be read.
pub fn json_unreadable(name: &str, error: &io::Error) -> String {
    format!("{{\"image\":{},\"refused\":null,\"error\":{}}}\n", quoted(name), quoted(&error.to_string()))
}

// ---- CSV

/// The first line, with the names of the columns.
pub const CSV_HEAD: &str =
    "image,track,side,kind,name,level,place,detail,sector,revolution,other_revolution,refused,value\n";

/// A text in a column.
fn column(text: &str) -> String {
    if text.contains([',', '"', '\n', '\r']) {
        format!("\"{}\"", text.replace('"', "\"\""))
    } else {
        text.to_string()
    }
}

/// The lines of an image: one for each finding, for each weak sector and for each refusal.
pub fn csv(name: &str, disk: &DiskReading) -> String {
    let name = column(name);
    let mut lines = String::new();
    let revolution = disk.revolution;
    for TrackReading { track, side, read } in &disk.tracks {
        let place = format!("{name},{track},{side}");
        let columns = |finding: &Finding| {
            let Finding { kind, place, detail } = finding;
            format!("{},{kind},{},{place},{detail}", kind.number(), finding.level())
        };
        match read {
            Ok(read) => {
                for finding in &read.findings {
                    lines += &format!("{place},{},,{revolution},,,\n", columns(finding));
                }
                for Weak { sector, other_revolution, finding } in &read.weak {
                    lines += &format!("{place},{},{sector},{revolution},{other_revolution},,\n", columns(finding));
                }
                for (other, refusal) in &read.not_compared {
                    lines += &format!("{place},,,,,,,{revolution},{other},{},{}\n", refusal.number(), refusal.value());
                }
            }
            Err(refusal) => lines += &format!("{place},,,,,,,{revolution},,{},{}\n", refusal.number(), refusal.value()),
        }
    }
    lines
}

/// The line of an image that is refused as a whole.
pub fn csv_refused(name: &str, refusal: Refusal) -> String {
    format!("{},,,,,,,,,,,{},{}\n", column(name), refusal.number(), refusal.value())
}

#[cfg(test)]
mod tests {
    use super::*;

    #[test]
    fn names_with_odd_letters() {
        assert_eq!(quoted("a \"b\" \\ \n \u{1f} µ"), "\"a \\\"b\\\" \\\\ \\u000a \\u001f µ\"");
        assert_eq!(column("plain name"), "plain name");
        assert_eq!(column("a,\"b\""), "\"a,\"\"b\"\"\"");
    }

    #[test]
    fn a_refusal_in_each_form() {
        let refusal = Refusal::ImageHeader(11);
        let columns = CSV_HEAD.matches(',').count();
        assert_eq!(csv_refused("a", refusal), format!("a{}27,11\n", ",".repeat(columns - 1)));
        let expected = "{\"image\":\"a\",\"refused\":{\"number\":27,\"value\":11,\"meaning\":\"byte 11 of the header, the resolution, \
            is not taken\"},\"error\":null}\n";
        assert_eq!(json_refused("a", refusal), expected);
    }
}
