//! Whole disks: the page is that of the second program, and the plain image is the content that was put on the disk.

use crate::command::Command;
use crate::expected;
use crate::Report;
use image_writer::disks::{sample, Disk, Surface, PROTECTIONS};
use image_writer::drive::Fault;
use second_program::image;
use test_inputs::random::Random;

/// A disk, and whether all of it has a plain image.
struct Case {
    disk: Disk,
    plain: bool,
}

/// The disks. The gate takes the small ones alone.
fn cases(random: &mut Random, all: bool) -> Vec<Case> {
    let mut cases = Vec::new();
    let mut add = |disk: Disk, plain: bool| cases.push(Case { disk, plain });
    add(Disk::plain(random, "six tracks", 3, &[0, 1], 2), true);
    add(Disk::plain(random, "one revolution", 2, &[0, 1], 1), true);
    add(one_side(random, "one side", 3), true);
    add(Disk { heads: 2, ..Disk::plain(random, "side 1 alone", 2, &[1], 2) }, true);
    add(Disk::protected(random, "all protections", PROTECTIONS.len() as u8, 3), false);
    let mut missing = Disk::plain(random, "a track is missing", 3, &[0, 1], 2);
    *missing.surface(1, 1) = Surface::Missing;
    add(missing, false);
    let mut empty = Disk::plain(random, "a block without values", 2, &[0, 1], 2);
    *empty.surface(1, 0) = Surface::NoValues;
    add(empty, false);
    if all {
        add(Disk::plain(random, "80 tracks", 80, &[0, 1], 2), true);
        add(Disk::plain(random, "84 tracks", 84, &[0, 1], 2), true);
        add(Disk::plain(random, "80 tracks, one revolution", 80, &[0, 1], 1), true);
        add(Disk::plain(random, "80 tracks, five revolutions", 80, &[0, 1], 5), true);
        add(one_side(random, "80 tracks of one side", 80), true);
        add(blank_side(random, "a blank side"), true);
        add(blank_end(random, "80 of 84 tracks"), true);
        add(Disk::protected(random, "80 tracks, many protected", 80, 3), false);
        let mut missing = Disk::plain(random, "80 tracks, ten missing", 80, &[0, 1], 2);
        for _ in 0..10 {
            *missing.surface(random.below(80) as u8, random.below(2) as u8) = Surface::Missing;
        }
        add(missing, false);
    }
    cases
}

/// A disk with a side alone, as the header says.
fn one_side(random: &mut Random, name: &'static str, tracks: u8) -> Disk {
    Disk { heads: 1, ..Disk::plain(random, name, tracks, &[0], 2) }
}

/// A disk whose side 1 was never formatted.
fn blank_side(random: &mut Random, name: &'static str) -> Disk {
    let mut disk = Disk::plain(random, name, 80, &[0, 1], 2);
    disk.tracks.iter_mut().filter(|(_, side, _)| *side == 1).for_each(|(.., surface)| *surface = Surface::Unformatted);
    disk
}

/// A disk of 80 tracks that was read up to track 83.
fn blank_end(random: &mut Random, name: &'static str) -> Disk {
    let mut disk = Disk::plain(random, name, 84, &[0, 1], 2);
    disk.tracks.iter_mut().filter(|(track, ..)| *track > 79).for_each(|(.., surface)| *surface = Surface::Unformatted);
    disk
}

pub fn run(command: &Command, all: bool, report: &mut Report) {
    let mut random = Random::new(31);
    for Case { disk, plain } in cases(&mut random, all) {
        let bytes = disk.image(&mut random).bytes();
        command.put("disk.scp", &bytes);
        let name = disk.name;
        for revolution in 0..u32::from(disk.revolutions).min(2) {
            let chosen = revolution.to_string();
            let ran = command.run(&["disk", "--revolution", &chosen, "disk.scp"]);
            let expected = expected::page("disk.scp", &bytes, Some(revolution));
            report.same(&format!("the page of {name}, revolution {revolution}"), &ran.out, &expected.page);
            report.same(&format!("its status, {name}, revolution {revolution}"), ran.status, expected.status());
            report.holds(&format!("its refusals, {name}: {}", ran.err), expected::begins(&ran.err, &expected.refused));
        }
        let usual = command.run(&["disk", "disk.scp"]);
        let last = (u32::from(disk.revolutions) - 1).min(1).to_string();
        report.same(
            &format!("the revolution that is taken, {name}"),
            &usual,
            &command.run(&["disk", "--revolution", &last, "disk.scp"]),
        );

        command.remove("disk.st");
        let ran = command.run(&["disk", "--st", "disk.st", "disk.scp"]);
        report.same(&format!("the page beside a plain image, {name}"), &ran.out, &usual.out);
        if plain {
            report.same(&format!("the plain image, {name}"), command.get("disk.st"), Some(disk.content()));
            report.same(&format!("the status of a plain image, {name}"), ran.status, Some(0));
        } else {
            report.same(&format!("no plain image, {name}"), command.get("disk.st"), None);
            report.same(&format!("the status without a plain image, {name}"), ran.status, Some(1));
            let tracks = image::tracks(&bytes, None).expect("the image is taken");
            let order: Vec<(u32, u32)> = (0..168).map(|entry| (entry / 2, entry % 2)).collect();
            let in_the_way = expected::plain_image(&tracks, &order).expect_err("some track has none");
            let says = match in_the_way {
                (track, side, Some(refusal)) => {
                    format!("disk.st is not written: T{track:02} H{side} refused {}: ", refusal.number)
                }
                (track, side, None) => format!("disk.st is not written: T{track:02} H{side} is not in the image"),
            };
            let said = ran.err.lines().last().is_some_and(|line| line.starts_with(&says));
            report.holds(&format!("what stands in the way, {name}: {}", ran.err), said);
        }
        report.holds(&format!("nothing is left behind, {name}"), command.left_behind().is_empty());

        if disk.revolutions > 1 {
            let ran = command.run(&["disk", "--weak", "disk.scp"]);
            let weak = expected::weak_lines(&bytes);
            report.same(&format!("the weak sectors, {name}"), ran.out, usual.out.clone() + &weak);
            if plain {
                report.same(&format!("there is no weak sector, {name}"), weak, String::new());
            }
        }
    }
    let sample = sample().bytes();
    command.put("sample.scp", &sample);
    let ran = command.run(&["disk", "--weak", "sample.scp"]);
    let expected = expected::page("sample.scp", &sample, Some(1));
    report.same(
        "the sample",
        (ran.out, ran.status),
        (expected.page.clone() + &expected::weak_lines(&sample), expected.status()),
    );
    report.holds("the drive of the tests shakes and drifts", Fault::USUAL.drift > 0 && Fault::USUAL.jitter > 0);
    if all {
        many(command, &mut random, report);
    }
}

/// Forty large images in a row, within less memory than a fourth of them would take together.
fn many(command: &Command, random: &mut Random, report: &mut Report) {
    let disk = Disk::plain(random, "80 tracks again", 80, &[0, 1], 2);
    command.put("disk.scp", &disk.image(random).bytes());
    let arguments: Vec<&str> = std::iter::once("disk").chain(std::iter::repeat_n("disk.scp", 40)).collect();
    let ran = command.run_within(240_000, &arguments);
    report.same("forty images in 240 MB", (ran.status, ran.err.as_str()), (Some(0), ""));
    let ran = command.run_within(16_000, &["disk", "disk.scp"]);
    report.holds(
        &format!("no memory for an image: {ran:?}"),
        ran.status == Some(3) && ran.err.contains("cannot be read"),
    );
}
