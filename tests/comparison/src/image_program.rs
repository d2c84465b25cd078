//! Section 13 of the specification: the program `st_track` beside the second program, on whole files, on files that come in portions and on
//! inputs that fail.

use crate::program::{built, in_portions, left_after_pipe, left_after_socket, not_listed, SocketEnd};
use crate::report::{Group, Report};
use second_program::refusal::Refusal;
use second_program::sector_image::{sector_image, IMAGE_LENGTH};
use second_program::track_file::{at_once, read_cells};
use std::process::{Command, Stdio};
use test_inputs::file_inputs::{self, FilePlan, NamedFile};
use test_inputs::flux_inputs::timings_of_cells;
use test_inputs::image_tracks::image_tracks;
use test_inputs::track_builder::standard_track;

/// How many tracks become files, and which of the many files of the listing's tests are tried here.
const TRACKS: usize = 600;
const EVERY: usize = 20;

fn program() -> Command {
    let mut command = built("st_track");
    command.stderr(Stdio::piped());
    command
}

/// The image of a whole file.
fn image_of(file: &[u8]) -> Result<Vec<u8>, Refusal> {
    let track = read_cells(file)?;
    let mut image = vec![0; IMAGE_LENGTH];
    sector_image(track.drive_track, track.drive_side, &track.bytes, track.n, &mut image)?;
    Ok(image)
}

/// What goes to standard output and to standard error (rules 13.31 and 13.33).
fn expected(file: &[u8]) -> (Vec<u8>, String) {
    match image_of(file) {
        Ok(image) => (image, String::new()),
        Err(refusal) if refusal.number == 24 => (Vec::new(), format!("refused 24 number {}\n", refusal.value)),
        Err(refusal) => (Vec::new(), format!("refused {}\n", refusal.number)),
    }
}

/// The tracks that can stand in a file, as files.
fn files_of_tracks(seed: u64, count: usize) -> impl Iterator<Item = NamedFile> {
    image_tracks(seed, count).filter_map(|track| {
        let (drive_track, drive_side) = (u8::try_from(track.drive_track).ok()?, u8::try_from(track.drive_side).ok()?);
        let plan = FilePlan::of_cells(drive_track, drive_side, track.n, &track.bytes);
        Some(NamedFile { name: track.name, bytes: plan.bytes() })
    })
}

pub fn whole_files(report: &mut Report) {
    let mut group = Group::new("the program of plain images on whole files");
    let mut images = 0;
    for file in files_of_tracks(70, TRACKS).chain(file_inputs::files().step_by(EVERY)) {
        let output = left_after_pipe(program(), &file.bytes);
        let second = expected(&file.bytes);
        images += usize::from(second.1.is_empty());
        let message = String::from_utf8_lossy(&output.stderr).into_owned();
        group.same((output.stdout, message, output.status.success()), (second.0, second.1, true), || file.name.clone());
    }
    group.same(images > 50, true, || format!("{images} of them have an image"));
    group.close(report);
}

/// A sound file, an old one and a refused one, in portions. Of a refused file standard output has nothing.
pub fn portions(report: &mut Report) {
    let mut group = Group::new("the program of plain images on files in portions");
    let standard = standard_track(0, 0, 0xE5);
    let mut left_over = file_inputs::file_of_cells(0, 0, &standard);
    left_over.push(0);
    let files = [file_inputs::file_of_cells(0, 0, &standard), file_inputs::file_of_timings(0, 0, &timings_of_cells(&standard)), left_over];
    for (index, file) in files.iter().enumerate() {
        for size in [1, 7, 4_096, 65_536] {
            let mut command = program();
            command.stderr(Stdio::null());
            group.same(in_portions(command, file.chunks(size)), expected(file).0, || format!("file {index} in portions of {size}"));
        }
    }
    group.close(report);
}

/// Inputs that fail before the end: nothing is written to standard output, and one line says why. Where the file is refused at once before
/// that, the refusal stands.
pub fn failing_inputs(report: &mut Report) {
    let mut group = Group::new("the program of plain images on inputs that fail");
    for file in files_of_tracks(71, 20) {
        for length in [0, 3, 5, 12, file.bytes.len() / 2, file.bytes.len() - 1, file.bytes.len()] {
            let front = &file.bytes[..length.min(file.bytes.len())];
            if at_once(front).is_some() {
                continue;
            }
            let output = left_after_socket(program(), front, SocketEnd::FailsOnce);
            not_listed(&mut group, "st_track", &output, || format!("{}, {length} bytes", file.name));
        }
    }
    group.close(report);
}
