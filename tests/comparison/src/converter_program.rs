//! The program `flux_to_cells` beside the second program, on whole files, on files that are cut or come in portions, and on inputs that fail.

use crate::program::{
    built, ends_within, in_portions, in_shell, left_after_pipe, left_after_socket, not_listed, sockets_as_expected, started, text,
    SocketEnd,
};
use crate::report::{Group, Report};
use second_program::converter::{at_once, printed};
use std::io::Write;
use std::process::{Command, Output, Stdio};
use std::time::Duration;
use test_inputs::block_inputs::random_portions;
use test_inputs::file_inputs::{self, file_of_timings, NamedFile};
use test_inputs::flux_inputs::{timings_at_the_limits, Choice, Tolerance};
use test_inputs::old_file_inputs::{drifting_timings, old_files, small_old_files};
use test_inputs::random::Random;
use test_inputs::track_builder::{odd_track, standard_track};

/// Which of the many old files, and of the many files of the reader, are tried here.
const EVERY_OLD: usize = 3;
const EVERY: usize = 40;

fn program() -> Command {
    let mut command = built("flux_to_cells");
    command.stderr(Stdio::piped());
    command
}

/// What goes to standard output and to standard error, and that the program ends well: the new file or the line of the refusal, and nothing.
fn expected(file: &[u8]) -> (Vec<u8>, String, bool) {
    (printed(file), String::new(), true)
}

fn left(output: Output) -> (Vec<u8>, String, bool) {
    (output.stdout, text(&output.stderr), output.status.success())
}

pub fn whole_files(report: &mut Report) {
    let mut group = Group::new("the converting program on whole files");
    let (mut new_files, mut refused) = (0, [0; 26]);
    for file in old_files().step_by(EVERY_OLD).chain(file_inputs::files().step_by(EVERY)) {
        let second = expected(&file.bytes);
        match text(&second.0).strip_prefix("refused ") {
            Some(number) => refused[number.trim_end().parse::<usize>().expect("a number")] += 1,
            None => new_files += 1,
        }
        group.same(left(left_after_pipe(program(), &file.bytes)), second, || file.name.clone());
    }
    let often = new_files >= 1_000 && [2, 7, 8, 9, 15].iter().all(|&number| refused[number] >= 30);
    group.same(often, true, || format!("{new_files} new files, refusals {refused:?}"));
    group.close(report);
}

/// Small files: cut at every byte, in two at every byte, and in portions of 1 to 7 bytes.
pub fn small_files(report: &mut Report) {
    let mut group = Group::new("the converting program on small files, cut and in portions");
    for NamedFile { name, bytes } in small_old_files() {
        for place in 0..=bytes.len() {
            let front = &bytes[..place];
            group.same(left(left_after_pipe(program(), front)), expected(front), || format!("{name}, cut at {place}"));
        }
        for place in 1..bytes.len() {
            let (front, back) = bytes.split_at(place);
            let ours = in_portions(program(), [front, back].into_iter());
            group.same(ours, printed(&bytes), || format!("{name}, in two at {place}"));
        }
        for size in 1..=7 {
            let ours = in_portions(program(), bytes.chunks(size));
            group.same(ours, printed(&bytes), || format!("{name}, in portions of {size}"));
            // One byte missing, and one left over.
            let short = &bytes[..bytes.len() - 1];
            group.same(in_portions(program(), short.chunks(size)), printed(short), || format!("{name}, short, in portions of {size}"));
            let long = [&bytes[..], &[0]].concat();
            group.same(in_portions(program(), long.chunks(size)), printed(&long), || format!("{name}, long, in portions of {size}"));
        }
    }
    group.close(report);
}

/// Files of real sizes: sound ones, and one for each refusal that is known only at the end.
fn large_files() -> Vec<NamedFile> {
    let mut random = Random::new(132);
    let mut files = Vec::new();
    let mut add = |name: &str, bytes: Vec<u8>| files.push(NamedFile { name: name.to_string(), bytes });
    let standard = standard_track(40, 1, 0xE5);
    let odd = odd_track(&mut random, 33);
    let drifting = drifting_timings(&mut random, &standard, Tolerance::FIRST, Choice::LongDrift);
    add("the standard track with drift", file_of_timings(40, 1, &drifting));
    let at_the_limits = timings_at_the_limits(&mut random, &odd, 2);
    add("an odd track, half of its pulses around the border", file_of_timings(33, 0, &at_the_limits));
    add("65,536 timings of two cells", file_of_timings(84, 2, &[4_000; 65_536]));
    let late = |last: u32| [vec![4_000; 65_535], vec![last]].concat();
    add("65,536 timings, the last out of range", file_of_timings(1, 0, &late(10_000_001)));
    add("65,536 timings, a cell too many", file_of_timings(1, 0, &late(6_000)));
    add("65,536 timings without cells", file_of_timings(1, 0, &[1; 65_536]));
    let mut left_over = file_of_timings(40, 1, &drifting);
    left_over.push(0);
    add("a byte left over", left_over);
    files
}

/// Files of real sizes in portions. A datagram that is longer than the room of a read would lose its end, so that none has more than 4,096
/// bytes.
pub fn portions(report: &mut Report) {
    let mut group = Group::new("the converting program on files in portions");
    let mut random = Random::new(133);
    for (index, NamedFile { name, bytes }) in large_files().into_iter().enumerate() {
        let second = printed(&bytes);
        let sizes = if index < 2 { vec![1, 2, 3, 4, 5, 6, 7, 100, 4_095, 4_096] } else { vec![1, 7, 4_096] };
        for size in sizes {
            let ours = in_portions(program(), bytes.chunks(size));
            group.same(ours, second.clone(), || format!("{name}, in portions of {size}"));
        }
        for most in [9, 1_000, 4_096] {
            let portions = random_portions(&mut random, &bytes, most);
            let some = portions.into_iter().filter(|portion| !portion.is_empty());
            group.same(in_portions(program(), some), second.clone(), || format!("{name}, in portions of up to {most}"));
        }
        for _ in 0..6 {
            let place = random.below(bytes.len() as u64) as usize;
            let front = &bytes[..place];
            group.same(left(left_after_pipe(program(), front)), expected(front), || format!("{name}, cut at {place}"));
        }
    }
    group.close(report);
}

/// Inputs through stream sockets that end, and inputs that fail once and then end: of these nothing is written, however much was read, unless a
/// count was refused, after which nothing more is read.
pub fn failing_inputs(report: &mut Report) {
    let mut group = Group::new("the converting program on inputs that fail");
    sockets_as_expected(&mut group);
    let mut random = Random::new(134);
    for NamedFile { name, bytes } in small_old_files().into_iter().chain(large_files()) {
        let mut places: Vec<usize> = if bytes.len() < 200 {
            (0..=bytes.len()).collect()
        } else {
            let some = (0..6).map(|_| random.below(bytes.len() as u64) as usize);
            [13, 14, 15, 4_096, 65_535, 65_536, 65_537, bytes.len() - 1, bytes.len()].into_iter().chain(some).collect()
        };
        places.sort_unstable();
        places.dedup();
        for place in places {
            let front = &bytes[..place];
            let given = || format!("{place} bytes of {name}");
            let output = left_after_socket(program(), front, SocketEnd::FailsOnce);
            if at_once(front).is_some() {
                group.same(left(output), expected(front), || format!("{}, then a failure", given()));
            } else {
                not_listed(&mut group, "flux_to_cells", &output, || format!("{}, then a failure", given()));
            }
            let output = left_after_socket(program(), front, SocketEnd::Ends);
            group.same(left(output), expected(front), given);
        }
    }
    // No input, or one that cannot be read at all.
    for redirection in ["<&-", "< /", "< /proc/self/mem"] {
        not_listed(&mut group, "flux_to_cells", &in_shell(&program(), redirection), || redirection.to_string());
    }
    group.close(report);
}

/// When the program stops reading, and outputs that fail.
pub fn system(report: &mut Report) {
    let mut group = Group::new("the converting program and the system");
    // A refusal that is given at once does not wait for the end of the input; everything else does, also a file that is whole.
    let start = |place_count: u32, cells: u32, timings: &[u32]| {
        let counts = [place_count.to_le_bytes().to_vec(), vec![5, 0], cells.to_le_bytes().to_vec()].concat();
        let list: Vec<u8> = timings.iter().flat_map(|timing| timing.to_le_bytes()).collect();
        [counts, list].concat()
    };
    for (name, prefix) in [
        ("place count 3", start(3, 0, &[])),
        ("place count 2 to the power of 25", start(1 << 25, 0, &[])),
        ("one cell", start(2, 1, &[])),
        ("2 to the power of 24 cells", start(2, 1 << 24, &[])),
        ("65,537 timings", start(2, 0, &[65_537])),
        ("three bytes", vec![9, 9, 9]),
        ("no cells", start(2, 0, &[])),
        ("no timings", start(2, 0, &[0])),
        ("65,536 timings", start(2, 0, &[65_536])),
        ("a timing out of range", start(2, 0, &[2, 0])),
        ("a whole file", start(2, 0, &[1, 4_000])),
        ("a file without cells", start(2, 0, &[1, 500])),
        ("too many cells", start(2, 0, &[&[27][..], &[10_000_000; 27]].concat())),
        ("bytes left over", start(2, 0, &[1, 4_000, 4_000])),
    ] {
        let mut child = started(program(), Stdio::piped());
        let mut input = child.stdin.take().expect("a pipe");
        input.write_all(&prefix).expect("the program reads");
        let stops = at_once(&prefix).is_some();
        let patience = Duration::from_millis(if stops { 20_000 } else { 100 });
        group.same(ends_within(&mut child, patience), stops, || format!("{name}, the input still open"));
        drop(input);
        let output = child.wait_with_output().expect("the program's output");
        group.same(left(output), expected(&prefix), || name.to_string());
    }
    // An output that cannot be written: the program ends all the same.
    let sample = concat!(env!("CARGO_MANIFEST_DIR"), "/../../samples/old-flux.track");
    for redirection in [">&-", "> /dev/full"] {
        for input in ["/dev/null", sample] {
            let output = in_shell(&program(), &format!("< '{input}' {redirection}"));
            group.same(output.status.success(), true, || format!("{input} {redirection}"));
        }
    }
    // A reader that goes away before the file is written: the program is ended by the system, or ends.
    let mut child = started(program(), Stdio::piped());
    drop(child.stdout.take());
    let mut input = child.stdin.take().expect("a pipe");
    input.write_all(&file_of_timings(5, 0, &[4_000; 9_000])).expect("the program reads");
    drop(input);
    group.same(ends_within(&mut child, Duration::from_secs(20)), true, || "the output's reader has gone".to_string());
    // The sample and its conversion.
    let file = std::fs::read(sample).expect("a sample");
    let converted = std::fs::read(sample.replace(".track", "-converted.track")).expect("its conversion");
    group.same(left(left_after_pipe(program(), &file)), (converted, String::new(), true), || "the sample".to_string());
    group.close(report);
}
