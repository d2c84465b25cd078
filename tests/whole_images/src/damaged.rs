//! Damaged images: every byte of the header changed, and images that are cut. There is an answer each time, that of the second program.

use crate::command::Command;
use crate::expected;
use crate::Report;
use image_writer::disks::{Disk, Surface, TRACK_BYTES};
use image_writer::image::{set_sum, HEADER_LENGTH, MAY_CHANGE};
use test_inputs::random::Random;

/// How many random cuts are tried.
const CUTS: usize = 1_000;
/// How many of them, and one of how many bytes of the entries, the gate tries.
const CUTS_IN_THE_GATE: usize = 60;
const BYTES_IN_THE_GATE: usize = 12;

/// One image: its page or its refusal, and a plain image that is whole or not there.
fn case(command: &Command, name: &str, bytes: &[u8], content: &[u8], report: &mut Report) {
    command.put("damaged.scp", bytes);
    command.remove("damaged.st");
    let ran = command.run(&["disk", "--st", "damaged.st", "damaged.scp"]);
    let expected = expected::page("damaged.scp", bytes, None);
    report.same(&format!("the page, {name}: {}", ran.err), &ran.out, &expected.page);
    let lines: Vec<&str> = ran.err.lines().filter(|line| !line.starts_with("damaged.st is not written: ")).collect();
    report.holds(&format!("the refusals, {name}: {}", ran.err), expected::begins(&lines.join("\n"), &expected.refused));
    let written = command.get("damaged.st");
    let whole = match (&written, ran.status) {
        (Some(written), Some(0)) => of_whole_tracks(written, content),
        (None, Some(1)) => true,
        _ => false,
    };
    report.holds(&format!("a whole plain image or none, {name}: status {:?}, {}", ran.status, ran.err), whole);
    report.holds(&format!("nothing is left behind, {name}"), command.left_behind().is_empty());
}

/// Whether a plain image has whole tracks of the content, in their order. It has fewer where the header has another last track or another side.
fn of_whole_tracks(written: &[u8], content: &[u8]) -> bool {
    let mut tracks = content.chunks(TRACK_BYTES);
    !written.is_empty() && written.chunks(TRACK_BYTES).all(|part| tracks.any(|track| track == part))
}

pub fn run(command: &Command, all: bool, report: &mut Report) {
    let mut random = Random::new(32);
    let mut disk = Disk::plain(&mut random, "small", 2, &[0, 1], 2);
    let content = disk.content();
    let sound = disk.image(&mut random);
    let bytes = sound.bytes();
    case(command, "as it is", &bytes, &content, report);

    // Each byte of the header and the entries: all of its bits, and one.
    for place in 0..HEADER_LENGTH {
        let entry = place >= 16;
        if !all && entry && place % BYTES_IN_THE_GATE != 0 {
            continue;
        }
        for change in [0xFF, 1 << random.below(8)] {
            let mut changed = bytes.clone();
            changed[place] ^= change;
            case(command, &format!("byte {place} by {change:02X}"), &changed, &content, report);
            if entry {
                // With a sum that is right the entries themselves are judged.
                set_sum(&mut changed);
                case(command, &format!("byte {place} by {change:02X}, summed"), &changed, &content, report);
            }
        }
    }

    // Cuts: around each block, and anywhere. Where the sum may be any, what is left of the blocks is read.
    let mut lengths: Vec<usize> = vec![0, 1, 3, 15, 16, 687, 688, 689, bytes.len() - 1];
    for entry in 0..4 {
        let place = 16 + 4 * entry;
        let start = u32::from_le_bytes([bytes[place], bytes[place + 1], bytes[place + 2], bytes[place + 3]]) as usize;
        lengths.extend([start - 1, start, start + 1, start + 27, start + 28, start + 29]);
    }
    let random_cuts = if all { CUTS } else { CUTS_IN_THE_GATE };
    lengths.extend((0..random_cuts).map(|_| random.below(bytes.len() as u64) as usize));
    for length in lengths {
        let mut cut = bytes[..length].to_vec();
        case(command, &format!("cut at {length}"), &cut, &content, report);
        if length > 8 {
            cut[8] |= MAY_CHANGE;
            case(command, &format!("cut at {length}, any sum"), &cut, &content, report);
        }
    }

    // Bytes anywhere behind the entries, with a right sum.
    for _ in 0..random_cuts / 2 {
        let mut changed = bytes.clone();
        for _ in 0..random.between(1, 20) {
            let place = HEADER_LENGTH + random.below((bytes.len() - HEADER_LENGTH) as u64) as usize;
            changed[place] = random.byte();
        }
        set_sum(&mut changed);
        command.put("damaged.scp", &changed);
        let ran = command.run(&["disk", "damaged.scp"]);
        let expected = expected::page("damaged.scp", &changed, None);
        report.same("changed values", (ran.out, ran.status), (expected.page.clone(), expected.status()));
    }
    *disk.surface(0, 0) = Surface::NoValues;
    let none = disk.image(&mut random).bytes();
    case(command, "no values", &none, &content, report);
}
