//! Section 13 of the specification: the program `write_track` beside the second program, on whole lists, on lists that come in portions, on
//! inputs that fail, and with other arguments.

use crate::program::{built, in_portions, left_after_pipe, left_after_socket, not_listed, says_one_line, text, SocketEnd};
use crate::report::{Group, Report};
use second_program::listing::listing;
use second_program::write_track::{cells_of, standard_list, written_cells};
use std::ffi::OsStr;
use std::os::unix::ffi::OsStrExt;
use std::process::{Command, Stdio};
use test_inputs::file_inputs::FilePlan;
use test_inputs::random::Random;
use test_inputs::write_lists::{limit_lists, standard_lists, write_lists};
use thikbromu::TrackFile;

/// Tracks and sides, some of which no drive has.
const PLACES: [(u8, u8); 9] = [(0, 0), (5, 1), (79, 0), (83, 1), (84, 0), (83, 2), (1, 0), (255, 255), (40, 1)];

/// Which of the many lists of the library's tests are tried here.
const EVERY: usize = 25;

fn program(arguments: &[impl AsRef<OsStr>]) -> Command {
    let mut command = built("write_track");
    command.args(arguments).stderr(Stdio::piped());
    command
}

fn program_at(track: u8, side: u8) -> Command {
    program(&[track.to_string(), side.to_string()])
}

/// What goes to standard output and to standard error (rules 13.51, 13.54 and 13.55).
fn expected(track: u8, side: u8, list: &[u8]) -> (Vec<u8>, String) {
    if track > 83 || side > 1 {
        return (Vec::new(), String::from("refused 1\n"));
    }
    if list.is_empty() {
        return (Vec::new(), String::from("refused 15\n"));
    }
    match written_cells(list) {
        Ok(packed) => (FilePlan::of_cells(track, side, cells_of(list), &packed).bytes(), String::new()),
        Err(refusal) => (Vec::new(), format!("refused {}\n", refusal.number)),
    }
}

pub fn whole_lists(report: &mut Report) {
    let mut group = Group::new("the program of Write Track on whole lists");
    let mut random = Random::new(90);
    let mut places = PLACES.into_iter().cycle();
    let (mut files, mut listed, mut refused) = (0, 0, [0; 21]);
    let few = write_lists(91, 10_000).step_by(EVERY);
    let standard = standard_lists(&mut random).into_iter().step_by(7);
    for list in limit_lists(&mut random).into_iter().chain(standard).chain(few) {
        let (track, side) = places.next().expect("places without end");
        let given = || format!("{}, track {track}, side {side}", list.name);
        let output = left_after_pipe(program_at(track, side), &list.list);
        let second = expected(track, side, &list.list);
        if let Some(number) = second.1.strip_prefix("refused ") {
            refused[number.trim_end().parse::<usize>().expect("a number")] += 1;
        } else {
            files += 1;
            // The file is a track file: the library reads the cells and the place back, and lists it as the second program does.
            let file = TrackFile::new(&output.stdout);
            let packed = written_cells(&list.list).expect("cells that stand in a file");
            let count = cells_of(&list.list);
            let read = file.cells();
            let cells = read.as_ref().map(|read| {
                let track = read.track();
                (track.packed().to_vec(), track.cells(), track.track(), track.side())
            });
            group.same(cells.ok(), Some((packed, count, track.into(), side.into())), given);
            group.same(file.listing(), text(&listing(&second.0)), given);
            listed += usize::from(count >= 20_000);
        }
        let message = text(&output.stderr);
        group.same((output.stdout, message, output.status.success()), (second.0, second.1, true), given);
    }
    let often = files >= 200 && listed >= 60 && refused[1] >= 60 && refused[15] >= 1 && refused[20] >= 20;
    group.same(often, true, || format!("{files} files, {listed} listed, refusals {refused:?}"));
    group.close(report);
}

/// Lists that just fit and one that does not, in portions. A datagram that is longer than the room that is left would lose its end, so that
/// none is.
pub fn portions(report: &mut Report) {
    let mut group = Group::new("the program of Write Track on lists in portions");
    let standard = standard_list(7, 1, &[[0x5A; 512]; 9]);
    let most = vec![0x4E; 8_192];
    let checks = vec![0xF7; 4_096];
    let too_many = vec![0xF5; 8_193];
    for (name, list) in [("standard", standard), ("the most bytes", most), ("the most checks", checks), ("too many", too_many)] {
        for size in [1, 7, 100, 4_096] {
            let mut command = program_at(7, 1);
            command.stderr(Stdio::null());
            group.same(in_portions(command, list.chunks(size)), expected(7, 1, &list).0, || format!("{name} in portions of {size}"));
        }
    }
    group.close(report);
}

/// Inputs that fail before the end: nothing is written to standard output, and one line says why. Where there were more bytes than a track
/// holds before that, the refusal stands.
pub fn failing_inputs(report: &mut Report) {
    let mut group = Group::new("the program of Write Track on inputs that fail");
    for byte in [0x4E, 0xF7] {
        for length in [0, 1, 100, 4_096, 8_191, 8_192] {
            let output = left_after_socket(program_at(0, 0), &vec![byte; length], SocketEnd::FailsOnce);
            not_listed(&mut group, "write_track", &output, || format!("{length} of {byte:02X}"));
        }
        for length in [8_193, 8_194, 20_000] {
            for end in [SocketEnd::FailsOnce, SocketEnd::Ends] {
                let output = left_after_socket(program_at(0, 0), &vec![byte; length], end);
                let ours = (output.stdout, text(&output.stderr));
                group.same(ours, (Vec::new(), String::from("refused 20\n")), || format!("{length} of {byte:02X}, {end:?}"));
            }
        }
    }
    let output = left_after_socket(program_at(84, 0), &[0x4E], SocketEnd::FailsOnce);
    not_listed(&mut group, "write_track", &output, || String::from("a wrong place, and an input that fails"));
    group.close(report);
}

/// Words that are no place: the program says how it is called, and reads nothing. Zeros may lead.
pub fn arguments(report: &mut Report) {
    let mut group = Group::new("the arguments of the program of Write Track");
    let list = vec![0x4E; 1_300];
    let long = "0".repeat(4_097);
    let wrong: [&[&str]; 15] = [
        &[],
        &["0"],
        &["0", "0", "0"],
        &["1", "0", "0", "0"],
        &["256", "0"],
        &["0", "256"],
        &["", "0"],
        &["0", ""],
        &["-1", "0"],
        &["0", "+1"],
        &["0x1", "0"],
        &["1 ", "0"],
        &["0", "1\n"],
        &[&long, "0"],
        &["99999999999999999999", "0"],
    ];
    let no_text = [OsStr::from_bytes(b"\xFF"), OsStr::new("0")];
    let commands = wrong.iter().map(|words| program(words)).chain([program(&no_text)]);
    for command in commands {
        let words = format!("{command:?}");
        let output = left_after_pipe(command, &list);
        let ours = (text(&output.stdout), says_one_line(&output, "usage: write_track TRACK SIDE"));
        group.same(ours, (String::new(), true), || words.clone());
    }
    let longest = format!("{}7", "0".repeat(4_095));
    for (words, track, side) in [(["7", "1"], 7, 1), (["007", "01"], 7, 1), ([&longest, "0"], 7, 0), (["084", "0"], 84, 0)] {
        let output = left_after_pipe(program(&words), &list);
        let ours = (output.stdout, text(&output.stderr));
        group.same(ours, expected(track, side, &list), || format!("track {track}, side {side}"));
    }
    group.close(report);
}
