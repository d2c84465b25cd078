//! The converter: old track files, whole in memory, become track files of today. Its answers and its bytes are held to the second program, and
//! what is then listed to what was listed of the old file.

use crate::files::read_cells_of;
use crate::program::text;
use crate::report::{Group, Report};
use crate::terms::answer;
use second_program::converter::{self, is_corner, listed_after, listed_before};
use second_program::listing::listing;
use second_program::old_track_file;
use second_program::refusal::Refusal;
use test_inputs::block_inputs::cases;
use test_inputs::file_inputs::{self, file_of_timings, NamedFile};
use test_inputs::old_file_inputs;
use test_inputs::random::Random;
use thikbromu::{convert_file, convert_file_to_vec, TrackBlock, TrackFile, LONGEST_FILE, LONGEST_OLD_FILE};

/// The rooms for a new file: none, one short, exact, one more, and the most that any needs.
fn rooms_of(second: &Result<Vec<u8>, Refusal>) -> Vec<usize> {
    let needed = second.as_ref().map_or(0, Vec::len);
    let mut rooms = vec![0, needed.saturating_sub(1), needed, needed + 1, LONGEST_FILE];
    rooms.sort_unstable();
    rooms.dedup();
    rooms
}

/// A file in a room: the answer, all of the buffer with its margins, so that no byte behind the new file and none beside a refusal may change,
/// and the old file afterwards.
fn convert_case(group: &mut Group, file: &[u8], room: usize, given: impl Fn() -> String) {
    let second = converter::convert_file(file, room).map(|new_file| (new_file.len(), new_file));
    group.same_written(file, room, convert_file, second, || format!("{}, room {room}", given()));
}

/// What the library lists of a file that it converts: the listing of the new file, or the converter's refusal.
fn listed_by_library(converted: &Result<Vec<u8>, Refusal>) -> String {
    match converted {
        Ok(new_file) => TrackFile::new(new_file).listing(),
        Err(refusal) => format!("refused {}\n", refusal.number),
    }
}

/// What the files of a part came to.
#[derive(Default)]
struct Seen {
    files: usize,
    /// New files, and how many of them have findings listed.
    accepted: usize,
    listed: usize,
    refusals: [usize; 26],
    /// What the tracks of new files are refused with.
    refusals_of_tracks: [usize; 26],
    corners: usize,
}

impl Seen {
    fn note(&mut self, file: &[u8], converted: &Result<Vec<u8>, Refusal>, after: &str) {
        self.files += 1;
        self.corners += usize::from(is_corner(file));
        match converted {
            Ok(_) => {
                self.accepted += 1;
                match after.strip_prefix("refused ") {
                    Some(number) => self.refusals_of_tracks[number.trim_end().parse::<usize>().expect("a number")] += 1,
                    None => self.listed += 1,
                }
            }
            Err(refusal) => self.refusals[refusal.number as usize] += 1,
        }
    }
}

/// A file through the converter, over the export and by the crate, through the reader before and after, and beside its old listing.
fn file_case(groups: &mut [Group; 3], seen: &mut Seen, file: &NamedFile) {
    let [group, reading, listed] = groups;
    let bytes = &file.bytes;
    let given = || file.name.clone();
    let second = converter::converted(bytes);
    for room in rooms_of(&second) {
        convert_case(group, bytes, room, given);
    }
    let ours = answer(convert_file_to_vec(bytes));
    group.same(&ours, &second, || format!("{}, as a vector", file.name));

    // The reader of today: 23 for the flux section, unless a count before it is refused, or the file is cut before it.
    reading.same(TrackFile::new(bytes).listing(), text(&listing(bytes)), given);
    if let Ok(new_file) = &ours {
        let read = answer(TrackFile::new(new_file).cells()).map(read_cells_of);
        let was = old_track_file::read_cells(bytes).map(|old| old.cells);
        reading.same(read, was, || format!("{}, converted", file.name));
    }

    let after = listed_by_library(&ours);
    seen.note(bytes, &ours, &after);
    if let Some(before) = listed_before(bytes) {
        listed.same(after, text(&before), given);
        listed.same(text(&listed_after(bytes)), text(&before), || format!("{}, by the second program", file.name));
    } else {
        group.same(ours, Err(Refusal::not_a_track_file()), given);
    }
    if is_corner(bytes) {
        listed.same(text(&old_track_file::listing(bytes)), "refused 1\n".to_string(), || format!("{}, the corner", file.name));
    }
}

/// Old files of every kind, more than 20,000; and the files of the reader, which are none for the converter where they have cells.
pub fn old_files(report: &mut Report) {
    let mut groups = [
        Group::new("old files through the converter"),
        Group::new("old files and converted ones through the reader"),
        Group::new("converted files beside the listings of the old ones"),
    ];
    let mut seen = Seen::default();
    for file in old_file_inputs::old_files() {
        file_case(&mut groups, &mut seen, &file);
    }
    let Seen { files, accepted, listed, refusals, refusals_of_tracks, corners } = seen;
    let often = files >= 20_000
        && accepted >= 5_000
        && listed >= 3_000
        && corners >= 50
        && [2, 7, 8, 9, 15].iter().all(|&number| refusals[number] >= 100)
        && [1, 2, 4].iter().all(|&number| refusals_of_tracks[number] >= 20);
    groups[0].same(often, true, || {
        let numbers = format!("{refusals:?} and of tracks {refusals_of_tracks:?}, {corners} corners");
        format!("{files} files, {accepted} accepted, {listed} listed, refusals {numbers}")
    });
    for file in file_inputs::files() {
        file_case(&mut groups, &mut Seen::default(), &file);
    }
    groups.into_iter().for_each(|group| group.close(report));
}

/// Every room around what a few files need; files that are longer than any old one; and few bytes, any.
pub fn rooms(report: &mut Report) {
    let mut group = Group::new("rooms for a new file");
    let mut random = Random::new(130);
    for (name, timings) in [
        ("one cell", vec![2_000]),
        ("eight cells", vec![16_000]),
        ("nine cells", vec![18_000]),
        ("131,065 cells", [vec![4_000; 65_532], vec![2_000]].concat()),
        ("131,072 cells", vec![4_000; 65_536]),
        ("131,073 cells", [vec![4_000; 65_535], vec![6_000]].concat()),
        ("no cells", vec![500; 9]),
        ("a timing of 0", vec![4_000, 0]),
    ] {
        let file = file_of_timings(84, 2, &timings);
        let needed = converter::converted(&file).map_or(0, |new_file| new_file.len());
        let around = needed.saturating_sub(20)..needed + 9;
        for room in (0..30).chain(around).chain([LONGEST_FILE - 1, LONGEST_FILE, LONGEST_FILE + 1, 40_000]) {
            convert_case(&mut group, &file, room, || name.to_string());
        }
    }
    // Longer than any old file: the answers are those of the first bytes, one more than the longest has.
    for (name, cells, timings) in [
        ("the most timings", 0, 65_536),
        ("too many timings", 0, 65_537),
        ("one timing", 0, 1),
        ("no timings", 0, 0),
        ("a cell", 1, 65_536),
    ] {
        for more in [0, 1, 2, 4_096] {
            let mut file = file_of_timings(3, 1, &[]);
            file[6] = cells;
            file[10..14].copy_from_slice(&u32::to_le_bytes(timings));
            file.extend(4_000u32.to_le_bytes().repeat(65_536));
            file.resize(LONGEST_OLD_FILE + more, 0x22);
            let front = &file[..file.len().min(LONGEST_OLD_FILE + 1)];
            let given = || format!("{name}, {more} more bytes than any old file");
            group.same(converter::converted(front), converter::converted(&file), given);
            convert_case(&mut group, &file, LONGEST_FILE, given);
            convert_case(&mut group, front, LONGEST_FILE, given);
        }
    }
    // Few bytes, for the most part after a place count of 2 and a cell count of 0.
    for _ in 0..4_000 {
        let mut file: Vec<u8> = (0..random.below(40)).map(|_| random.byte() & random.byte() & random.byte()).collect();
        if file.len() >= 10 && !random.one_in(9) {
            file[..4].copy_from_slice(&[2, 0, 0, 0]);
            file[6..10].fill(0);
        }
        if file.len() >= 14 && !random.one_in(3) {
            let timings = (file.len() - 14) / 4;
            file[10..14].copy_from_slice(&(timings as u32).to_le_bytes());
        }
        let room = random.below(40) as usize;
        convert_case(&mut group, &file, room, || format!("{file:02X?}"));
    }
    group.close(report);
}

/// Which of the many blocks are tried here.
const EVERY: usize = 5;

/// By rule 13.13 a revolution of a block lists as the old file of its timings does that is converted.
pub fn revolutions(report: &mut Report) {
    let mut group = Group::new("revolutions beside their timings in a converted file");
    let mut random = Random::new(131);
    let mut listed = 0;
    for case in cases().step_by(EVERY) {
        let block = TrackBlock::new(&case.block, case.revolutions);
        let Ok(timings) = block.timings(case.revolution) else { continue };
        // Where no cells come out, a place that no drive has would be refused with 1 here, and with 2 by the converter.
        let cells = answer(block.cells(case.revolution));
        let (track, side) = match &cells {
            Ok(cells) if cells.count == 0 => (5, 0),
            _ => (random.below(86) as u8, random.below(3) as u8),
        };
        let expected = match cells {
            Ok(cells) => cells.track(track.into(), side.into()).listing(),
            Err(refusal) => format!("refused {}\n", refusal.number),
        };
        listed += usize::from(expected.starts_with('T'));
        let file = file_of_timings(track, side, &timings.list);
        let ours = listed_by_library(&answer(convert_file_to_vec(&file)));
        group.same(ours, expected, || format!("{}, track {track}, side {side}", case.name));
    }
    group.same(listed >= 50, true, || format!("{listed} are listed"));
    group.close(report);
}
