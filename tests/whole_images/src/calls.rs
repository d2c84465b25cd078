//! The other calls, the exit statuses, and what programs read.

use crate::command::{Command, Ran};
use crate::Report;
use image_writer::disks::{Disk, Protection, Surface};
use image_writer::image::{block, Image, Revolution};
use second_program::track_block;
use std::fs::{self, File};
use std::process::Stdio;
use test_inputs::random::Random;

/// An image of two tracks: one with a bad check and a weak sector, and one that is refused.
fn image(random: &mut Random) -> Image {
    let mut disk = Disk::plain(random, "two tracks", 2, &[0], 2);
    *disk.surface(0, 0) = Surface::Protected(Protection::WeakSector(4));
    *disk.surface(1, 0) = Surface::NoValues;
    disk.image(random)
}

/// Whether a run ended so, with nothing on standard output, and said this.
fn ends(ran: &Ran, status: i32, said: &str) -> bool {
    ran.status == Some(status) && ran.out.is_empty() && ran.err.contains(said)
}

pub fn run(command: &Command, _: bool, report: &mut Report) {
    let mut random = Random::new(33);
    let made = image(&mut random);
    command.put("two.scp", &made.bytes());
    command.put("none.scp", b"SCP");
    statuses(command, report);
    too_many_timings(command, report);
    several(command, report);
    for_programs(command, report);
    listings(command, &made, report);
    pictures(command, report);
    outputs(command, report);
}

/// Wrong use, and inputs that cannot be read.
fn statuses(command: &Command, report: &mut Report) {
    let wrong: [&[&str]; 21] = [
        &[],
        &["disc"],
        &["disk"],
        &["disk", ""],
        &["disk", "--unknown", "two.scp"],
        &["disk", "--revolution"],
        &["disk", "--revolution", "x", "two.scp"],
        &["disk", "--revolution", "-1", "two.scp"],
        &["disk", "--revolution", "4294967296", "two.scp"],
        &["disk", "--json", "--csv", "two.scp"],
        &["disk", "--st", "out.st", "two.scp", "two.scp"],
        &["disk", "--pictures", "folder", "two.scp", "two.scp"],
        &["disk", "--st", "", "two.scp"],
        &["track"],
        &["track", "a", "b"],
        &["track", "-x"],
        &["block", "a", "1", "0", "0"],
        &["block", "a", "256", "0", "0", "0"],
        &["block", "a", "1", "", "0", "0"],
        &["block", "a", "1", "+0", "0", "0"],
        &["explain", "nothing"],
    ];
    for arguments in wrong {
        let ran = command.run(arguments);
        report.holds(&format!("wrong use {arguments:?}: {ran:?}"), ends(&ran, 2, "thikbromu --help"));
    }
    let unreadable: [&[&str]; 5] = [
        &["disk", "nothing.scp"],
        &["disk", "."],
        &["track", "nothing.track"],
        &["track", "."],
        &["block", "nothing", "1", "0", "0", "0"],
    ];
    for arguments in unreadable {
        let ran = command.run(arguments);
        report.holds(&format!("unreadable {arguments:?}: {ran:?}"), ends(&ran, 3, "cannot be read"));
    }
    let refused: [(&[&str], &str); 4] = [
        (&["disk", "none.scp"], "none.scp: refused 26: "),
        (&["disk", "--revolution", "2", "two.scp"], "two.scp: refused 17: "),
        (&["disk", "/dev/zero"], "/dev/zero: refused 26: "),
        (&["disk", "/dev/null"], "/dev/null: refused 26: "),
    ];
    for (arguments, said) in refused {
        let ran = command.run(arguments);
        report.holds(&format!("refused {arguments:?}: {ran:?}"), ends(&ran, 1, said));
    }
    for arguments in [&["--help"][..], &["help"], &["disk", "--help"], &["block", "-h"]] {
        let ran = command.run(arguments);
        report
            .holds("help", ran.status == Some(0) && ran.out.starts_with("usage: thikbromu disk") && ran.err.is_empty());
    }
    let ran = command.run(&["--version"]);
    report.holds("the version", ran.status == Some(0) && ran.out.starts_with("thikbromu 0."));
    let ran = command.run(&["explain"]);
    report
        .holds("all explained", ran.status == Some(0) && ran.out.contains("22 FZD") && ran.out.contains("refused 29"));
    for term in [&["explain", "NOS"][..], &["explain", "3"], &["explain", "refused", "7"], &["explain", "refused 7"]] {
        let ran = command.run(term);
        report.holds(&format!("{term:?}"), ran.status == Some(0) && !ran.out.is_empty() && ran.err.is_empty());
    }
}

/// A track with too many timings is named with their number, in words.
fn too_many_timings(command: &Command, report: &mut Report) {
    let mut image = Image::new(1);
    image.put(10, &[Revolution { index_time: 8_000_000, units: vec![160; 70_000] }]);
    command.put("many.scp", &image.bytes());
    let ran = command.run(&["disk", "many.scp"]);
    let said = "T05 H0 refused 7: 70,000 timings, more than 65,536\n";
    report.same("too many timings", ran, Ran { status: Some(1), out: String::new(), err: said.to_string() });
    let ran = command.run(&["disk", "--weak", "many.scp"]);
    report.holds(&format!("one revolution has no other: {ran:?}"), ends(&ran, 1, "many.scp: refused 17: "));
}

/// Several images: each has its name, and the status is the greatest.
fn several(command: &Command, report: &mut Report) {
    let one = command.run(&["disk", "two.scp"]);
    report.same("a track that is refused", one.err.as_str(), "T01 H0 refused 6: there are no timings\n");
    let ran = command.run(&["disk", "two.scp", "none.scp", "nothing.scp", "two.scp"]);
    let names = format!("two.scp:\n{}none.scp:\nnothing.scp:\ntwo.scp:\n{}", one.out, one.out);
    report.same("several images", ran.out, names);
    report.same("the status of several", ran.status, Some(3));
    report.holds("a refused track of several", ran.err.contains("two.scp: T01 H0 refused 6: "));
    let ran = command.run(&["disk", "--", "two.scp"]);
    report.same("behind --", &ran, &one);
    let bytes = command.get("two.scp").unwrap_or_default();
    report.same("an image out of a pipe", command.run_on(&["disk", "/dev/stdin"], &bytes), one);
    let cut = command.run_on(&["disk", "/dev/stdin"], &bytes[..700]);
    report.holds(&format!("an image that a pipe cuts: {cut:?}"), ends(&cut, 1, "/dev/stdin: refused 28: "));
}

/// JSON and CSV.
fn for_programs(command: &Command, report: &mut Report) {
    let page = command.run(&["disk", "--weak", "two.scp"]).out;
    report.holds(
        &format!("there is a weak sector: {page}"),
        page.contains(" FZD ") && page.contains(" sector 4 revolutions 1 0\n"),
    );
    let ran = command.run(&["disk", "--weak", "--json", "two.scp", "none.scp", "nothing.scp"]);
    let lines: Vec<&str> = ran.out.lines().collect();
    report.same("a line for each image", lines.len(), 3);
    let [one, none, nothing] = lines[..] else { return };
    let parts = [
        r#"{"image":"two.scp","refused":null,"error":null,"header":{"version":34,"disk_type":21,"revolutions":2,"#,
        r#""revolution":1,"single_sided":false,"tracks":[{"track":0,"side":0,"refused":null,"cells":"#,
        r#","sectors":9,"findings":[{"kind":15,"name":"SBD","level":1,"place":"#,
        r#""weak":[{"sector":4,"other_revolution":0,"kind":22,"name":"FZD","level":1,"place":100,"detail":"#,
        r#"{"track":1,"side":0,"refused":{"number":6,"value":0,"meaning":"there are no timings"}}]}"#,
    ];
    for part in parts {
        report.holds(&format!("{part} in {one}"), one.contains(part));
    }
    report.holds(none, none.starts_with(r#"{"image":"none.scp","refused":{"number":26,"value":0,"meaning":""#));
    report.holds(nothing, nothing.starts_with(r#"{"image":"nothing.scp","refused":null,"error":"No such file"#));
    let ran = command.run(&["disk", "--weak", "--csv", "two.scp", "none.scp"]);
    let lines: Vec<&str> = ran.out.lines().collect();
    let head = "image,track,side,kind,name,level,place,detail,sector,revolution,other_revolution,refused,value";
    report.same("the columns", lines[0], head);
    let columns = head.matches(',').count();
    report.holds(&ran.out, lines.iter().all(|line| line.matches(',').count() == columns));
    report.holds(&ran.out, lines[1].starts_with("two.scp,0,0,15,SBD,1,") && lines[1].ends_with(",4,,1,,,"));
    report.holds(&ran.out, lines[2].starts_with("two.scp,0,0,22,FZD,1,100,") && lines[2].ends_with(",4,1,0,,"));
    report.same("a refused track", lines[3], "two.scp,1,0,,,,,,,1,,6,0");
    report.same("a refused image", lines[4], "none.scp,,,,,,,,,,,26,0");
}

/// Track files and blocks, from files and from standard input.
fn listings(command: &Command, made: &Image, report: &mut Report) {
    let bytes = &made.blocks[&0];
    command.put("block", bytes);
    let words = ["block", "block", "2", "1", "0", "0"];
    let from_file = command.run(&words);
    let listing = String::from_utf8_lossy(&track_block::printed(bytes, 2, 1, 0, 0)).into_owned();
    report.same("a block", (from_file.status, from_file.out.clone()), (Some(0), listing));
    report.same("a block on standard input", command.run_on(&["block", "-", "2", "1", "0", "0"], bytes), from_file);
    let ran = command.run(&["block", "block", "2", "2", "0", "0"]);
    report.same("a block without that revolution", (ran.status, ran.out.as_str()), (Some(1), "refused 17\n"));
    report.holds("it is said", ran.err.starts_with("block: refused 17: "));
    let ran = command.run(&["block", "block", "2", "1", "84", "0"]);
    report.same("a block of a track that no drive has", (ran.status, ran.out.as_str()), (Some(1), "refused 1\n"));
    let ran = command.run_on(&["block", "-", "2", "1", "0", "0"], &vec![0; 4_194_305]);
    report.holds(
        "a block that is too long",
        ends(&ran, 3, "standard input cannot be read: it is longer than 4,194,304 bytes"),
    );
    let ran = command.run_on(&["block", "-", "1", "0", "0", "0"], &block(0, &[]));
    report.same("a block that is too short", (ran.status, ran.out.as_str()), (Some(1), "refused 16\n"));

    let mut file = vec![2, 0, 0, 0, 5, 0, 0xA0, 0x86, 1, 0];
    file.extend([0xAA; 12_500]);
    file.extend([0; 4]);
    command.put("own.track", &file);
    let expected =
        "T05 H0 cells 100000 sectors 0 findings 2\n3 NOS level 3 place 0 detail 0\n4 TNF level 2 place 0 detail 0\n";
    let listed = Ran { status: Some(0), out: expected.to_string(), err: String::new() };
    report.same("a track file", command.run(&["track", "own.track"]), listed.clone());
    report.same("a track file on standard input", command.run_on(&["track", "-"], &file), listed);
    let ran = command.run_on(&["track", "-"], &file[..100]);
    report.same("no track file", (ran.status, ran.out.as_str()), (Some(1), "refused 15\n"));
    report.holds("why it is none", ran.err.starts_with("standard input: refused 15: "));
}

/// Pictures are whole, and nothing in them is left open.
fn pictures(command: &Command, report: &mut Report) {
    let ran = command.run(&["disk", "--weak", "--pictures", "pictures", "two.scp"]);
    report.same("the status beside pictures", ran.status, Some(1));
    let mut names: Vec<String> = fs::read_dir(command.path("pictures"))
        .map(|entries| entries.flatten().map(|entry| entry.file_name().to_string_lossy().into_owned()).collect())
        .unwrap_or_default();
    names.sort();
    report.same(
        "the pictures",
        names.join(" "),
        "disk.svg t00-h0-timings.svg t00-h0.svg t01-h0.svg timings.svg".to_string(),
    );
    for name in &names {
        let text = fs::read_to_string(command.path("pictures").join(name)).unwrap_or_default();
        let whole = text.starts_with("<svg xmlns=") && text.ends_with("</svg>\n");
        let closed = ["text", "title", "a", "path", "rect"].iter().all(|tag| {
            let opened = text.matches(&format!("<{tag} ")).count() + text.matches(&format!("<{tag}>")).count();
            let alone = text
                .split('<')
                .filter(|part| part.starts_with(&format!("{tag} ")) && part.trim_end().ends_with("/>"))
                .count();
            opened == text.matches(&format!("</{tag}>")).count() + alone
        });
        report.holds(&format!("{name} is whole"), whole && closed && !text.contains("NaN") && !text.contains("inf"));
    }
}

/// Outputs that cannot be written, and a reader that goes.
fn outputs(command: &Command, report: &mut Report) {
    let ran = command.run(&["disk", "--st", "no/such/folder/out.st", "two.scp"]);
    report.same("a refused disk is not written at all", ran.status, Some(1));
    let mut random = Random::new(34);
    let plain = Disk::plain(&mut random, "plain", 1, &[0, 1], 2);
    command.put("plain.scp", &plain.image(&mut random).bytes());
    for out in ["no/such/folder/out.st", ".", "/dev/full", "/dev/null"] {
        let ran = command.run(&["disk", "--st", out, "plain.scp"]);
        report.holds(&format!("{out}: {ran:?}"), ran.status == Some(4) && ran.err.contains("cannot be written"));
    }
    report.holds("/dev/null is still there", fs::metadata("/dev/null").is_ok_and(|about| !about.is_file()));
    command.put("older.st", b"older");
    let ran = command.run(&["disk", "--st", "older.st", "two.scp"]);
    report.same("an older file stays", (ran.status, command.get("older.st")), (Some(1), Some(b"older".to_vec())));
    let ran = command.run(&["disk", "--st", "older.st", "plain.scp"]);
    report.same("an older file is replaced", (ran.status, command.get("older.st")), (Some(0), Some(plain.content())));
    let ran = command.run(&["disk", "--pictures", "older.st", "plain.scp"]);
    report
        .holds(&format!("pictures in a file: {ran:?}"), ran.status == Some(4) && ran.err.contains("cannot be written"));
    report.holds("nothing is left behind", command.left_behind().is_empty());
    if let Ok(full) = File::options().write(true).open("/dev/full") {
        let ran = command.run_to(&["disk", "two.scp"], full.into());
        report.holds(
            &format!("a full disk: {ran:?}"),
            ran.status == Some(4) && ran.err.contains("standard output cannot be written"),
        );
    }
    // The reading end is closed before the command starts.
    let (reader, writer) = std::io::pipe().expect("there are pipes");
    drop(reader);
    let ran = command.run_to(&["explain"], Stdio::from(writer));
    report.same("a broken pipe", (ran.status, ran.err.as_str()), (Some(4), ""));
}
