//! Section 13 of the specification: the program `disk_listing` beside the second program, on disks of a few files and of many.

use crate::program::built;
use crate::report::{Group, Report};
use second_program::disk_page::disk_page;
use second_program::track_file::read;
use std::fs;
use std::path::{Path, PathBuf};
use std::process::{Command, Stdio};
use test_inputs::file_inputs::{cut, file_of_cells, file_of_timings};
use test_inputs::flux_inputs::timings_of_cells;
use test_inputs::random::Random;
use test_inputs::track_builder::{odd_track, standard_track};

/// How many disks of a few files are tried.
const DISKS: usize = 200;

/// The program reads no more files where it has so many tracks (rule 13.46).
const ROOM_FOR_TRACKS: usize = 169;

/// A file to be named: its bytes, or none where there is no such file.
struct Named {
    path: PathBuf,
    bytes: Option<Vec<u8>>,
}

/// A folder for the files of one part, which goes at its end.
struct Folder(PathBuf);

impl Folder {
    fn new(part: &str) -> Folder {
        let path = std::env::temp_dir().join(format!("thikbromu-{part}-{}", std::process::id()));
        fs::create_dir_all(&path).expect("a temporary folder");
        Folder(path)
    }

    /// Writes files to it, each named by its place.
    fn with(&self, files: Vec<Option<Vec<u8>>>) -> Vec<Named> {
        let named = files.into_iter().enumerate().map(|(index, bytes)| {
            let path = self.0.join(format!("{index:03}.track"));
            match &bytes {
                Some(bytes) => fs::write(&path, bytes).expect("a track file"),
                None => drop(fs::remove_file(&path)),
            }
            Named { path, bytes }
        });
        named.collect()
    }
}

impl Drop for Folder {
    fn drop(&mut self) {
        drop(fs::remove_dir_all(&self.0));
    }
}

/// What goes to standard output and to standard error (rules 13.41 to 13.46).
fn expected(files: &[Named]) -> (Vec<u8>, String) {
    let (mut tracks, mut findings, mut message) = (Vec::new(), Vec::new(), String::new());
    let (mut left_out, mut unreadable) = (0, 0);
    for file in files {
        if tracks.len() == 3 * ROOM_FOR_TRACKS {
            break;
        }
        let name = file.path.display();
        match file.bytes.as_deref().map(read) {
            Some(Ok(track)) => {
                tracks.extend([track.cells.drive_track, track.cells.drive_side, track.findings.len() as u32]);
                for found in &track.findings {
                    findings.extend([found.kind, found.level, found.place as u32, found.detail as u32]);
                }
            }
            Some(Err(refusal)) => {
                left_out += 1;
                message += &format!("{name}: refused {}\n", refusal.number);
            }
            None => {
                left_out += 1;
                unreadable += 1;
                message += &format!("{name}: cannot be read to its end\n");
            }
        }
    }
    match disk_page(&tracks, &findings) {
        Ok(page) => {
            if left_out > 0 {
                message += &format!("files left out: {left_out}, of these unreadable: {unreadable}\n");
            }
            (page, message)
        }
        Err(refusal) => (Vec::new(), message + &format!("refused {}\n", refusal.number)),
    }
}

/// What the program leaves for these files.
fn left(paths: &[&Path]) -> (Vec<u8>, String, bool) {
    let mut command: Command = built("disk_listing");
    let output = command.args(paths).stdin(Stdio::null()).output().expect("the program's output");
    (output.stdout, String::from_utf8_lossy(&output.stderr).into_owned(), output.status.success())
}

/// One disk: its page, and the same page where the files are named in another order.
fn same_page(group: &mut Group, random: &mut Random, files: &mut [Named], name: &str) -> bool {
    let ours = left(&files.iter().map(|file| file.path.as_path()).collect::<Vec<_>>());
    let second = expected(files);
    let refused = second.0.is_empty();
    let page = ours.0.clone();
    group.same(ours, (second.0, second.1, true), || name.to_string());
    random.shuffle(files);
    let shuffled = left(&files.iter().map(|file| file.path.as_path()).collect::<Vec<_>>());
    group.same(shuffled.0, page, || format!("{name}, in another order"));
    !refused
}

fn unformatted(track: u8, side: u8) -> Vec<u8> {
    let cells: Vec<u8> = (0..100_000).map(|cell| cell % 2).map(|cell| cell as u8).collect();
    file_of_cells(track, side, &cells)
}

/// A file of a disk: most are sound, on some place of the disk; few are refused, missing, or on no disk.
fn any_file(random: &mut Random) -> Option<Vec<u8>> {
    let track = random.below(86) as u8;
    let side = u8::from(random.one_in(2));
    Some(match random.below(14) {
        0 => return None,
        1 => cut(&file_of_cells(track, side, &standard_track(track, side, 0xE5)), 9_000),
        2 => file_of_cells(track, 2, &standard_track(track, side, 0xE5)),
        // An old file, which is refused with 23.
        3 => file_of_timings(track, side, &timings_of_cells(&standard_track(track, side, 0xE5))),
        4 | 5 => file_of_cells(track, side, &standard_track(track, side, 0x00)),
        6..=8 => unformatted(70 + track % 12, side),
        _ => file_of_cells(track, side, &odd_track(random, track)),
    })
}

pub fn few_files(report: &mut Report) {
    let mut group = Group::new("the program of disk pages on a few files");
    let folder = Folder::new("few-files");
    let mut random = Random::new(120);
    let mut pages = 0;
    for disk in 0..DISKS {
        let count = 1 + random.below(8);
        let mut files = folder.with((0..count).map(|_| any_file(&mut random)).collect());
        pages += usize::from(same_page(&mut group, &mut random, &mut files, &format!("disk {disk}")));
    }
    group.same(pages > DISKS / 2, true, || format!("{pages} of them have lines"));
    group.close(report);
}

/// Whole disks: with an empty side, with all tracks that a disk can have, and with one more. A refused file is among them.
pub fn many_files(report: &mut Report) {
    let mut group = Group::new("the program of disk pages on many files");
    let folder = Folder::new("many-files");
    let mut random = Random::new(121);
    let standard = standard_track(0, 0, 0xE5);
    let all = |last: u8| (0..2).flat_map(move |side| (0..=last).map(move |track| (track, side)));
    let empty_side: Vec<_> = all(79).map(|(track, side)| if side == 1 { unformatted(track, side) } else { file_of_cells(track, side, &standard) }).collect();
    let mut full: Vec<_> = all(83).map(|(track, side)| file_of_cells(track, side, &odd_track(&mut random, track))).collect();
    full.push(cut(&full[0], 100));
    let mut too_many = full.clone();
    too_many.push(full[0].clone());
    for (name, files) in [("an empty side", empty_side), ("all tracks", full), ("one track too many", too_many)] {
        let mut files = folder.with(files.into_iter().map(Some).collect());
        same_page(&mut group, &mut random, &mut files, name);
    }
    // By rule 13.48 no names, and by rule 13.47 a standard output that takes nothing.
    let usage = left(&[]);
    group.same(usage, (Vec::new(), "usage: disk_listing FILE..\n".to_string(), true), || "no files".to_string());
    let full_disk = Stdio::from(fs::OpenOptions::new().write(true).open("/dev/full").expect("a full disk"));
    let one = folder.with(vec![Some(unformatted(5, 0))]);
    let output = built("disk_listing").arg(&one[0].path).stdout(full_disk).stderr(Stdio::piped()).output().expect("the program's output");
    let message = String::from_utf8_lossy(&output.stderr).into_owned();
    group.same(message, "disk_listing: standard output did not take the page\n".to_string(), || "a full disk".to_string());
    group.close(report);
}
