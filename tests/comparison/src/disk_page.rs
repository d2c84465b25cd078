//! Section 16 of the specification: the page of a disk. Its answers and its bytes are held to the second program, and its lines to the
//! findings that were handed over.

use crate::densities::{Calls, DOUBLE, SINGLE};
use crate::report::{Group, Lent, Report};
use crate::terms::answer;
use second_program::cells;
use second_program::disk_page;
use second_program::findings::name_of;
use second_program::refusal::{Refusal, MOST_TRACKS};
use test_inputs::disk_inputs::{disk_inputs, DiskInput};
use test_inputs::random::Random;
use test_inputs::single_density_tracks::fm_tracks;
use test_inputs::track_builder::{odd_track, standard_track};
use thikbromu::boundary::{self, DISK_TRACK_NUMBERS, FINDING_NUMBERS};
use thikbromu::{Finding, Kind, Track, MOST_FINDINGS};

/// How many disks come of the lists, which have nearly 9,000, and at random; and how many are made of tracks that the library reads.
const DISKS: usize = 11_000;
const READ_DISKS: usize = 60;

/// One call in a room: the answer, all of the buffer with its margins, so that no byte behind the page and none beside a refusal may change,
/// and both lists afterwards.
fn page_case(group: &mut Group, disk: &DiskInput, room: usize, second: &Result<Vec<u8>, Refusal>) {
    let (tracks, findings) = (disk.tracks.clone(), disk.findings.clone());
    let mut out = Lent::new(room);
    let ours = answer(boundary::disk_page(&tracks, &findings, out.part()));
    let expected = second.as_ref().map(Vec::len).map_err(|&refusal| refusal);
    let written = second.as_ref().map_or(&[][..], |page| &page[..page.len().min(room)]);
    group.same(
        (ours, out.into_all(), &tracks, &findings),
        (expected, Lent::expected(room, written), &disk.tracks, &disk.findings),
        || format!("{}, room {room}", disk.name),
    );
}

/// The rooms of a page: just enough, one byte less, none, and any other.
fn rooms_of(random: &mut Random, second: &Result<Vec<u8>, Refusal>) -> [usize; 4] {
    let length = second.as_ref().map_or(500, Vec::len);
    [length, length.saturating_sub(1), 0, random.below(2 * length as u64 + 9) as usize]
}

/// The disk in the crate's types, where these can say it: as many findings as the tracks say, each of a kind of the crate and of its level.
fn typed(disk: &DiskInput) -> Option<Vec<(u32, u32, Vec<Finding>)>> {
    let whole = disk.tracks.len() % DISK_TRACK_NUMBERS == 0 && disk.findings.len() % FINDING_NUMBERS == 0;
    let mut left = disk.findings.chunks_exact(FINDING_NUMBERS);
    let mut tracks = Vec::new();
    for track in disk.tracks.chunks_exact(DISK_TRACK_NUMBERS) {
        let count = usize::try_from(track[2]).ok().filter(|&count| count <= left.len())?;
        let own = left.by_ref().take(count).map(|numbers| {
            let kind = Kind::try_from(u8::try_from(numbers[0]).ok()?).ok()?;
            let finding = Finding { kind, place: numbers[2], detail: numbers[3] };
            (u32::from(finding.level()) == numbers[1]).then_some(finding)
        });
        tracks.push((track[0], track[1], own.collect::<Option<Vec<Finding>>>()?));
    }
    (whole && left.len() == 0).then_some(tracks)
}

/// The lines that a page has to stand for: each finding after its own track and side, in the order of the characters.
fn lines_of(disk: &DiskInput) -> Vec<String> {
    let mut findings = disk.findings.chunks_exact(FINDING_NUMBERS);
    let mut lines = Vec::new();
    for track in disk.tracks.chunks_exact(DISK_TRACK_NUMBERS) {
        for of_track in findings.by_ref().take(track[2] as usize) {
            let [kind, level, place, detail] = [0, 1, 2, 3].map(|index| of_track[index]);
            let start = format!("T{:02} H{} {kind} {}", track[0], track[1], name_of(kind));
            lines.push(format!("{start} level {level} place {place} detail {detail}"));
        }
    }
    lines.sort();
    lines
}

/// The lines of a page, a range as a line for each of its tracks, in the order of the characters; and whether the disk is single-sided.
fn expanded(page: &str) -> (Vec<String>, bool) {
    let (page, single_sided) = match page.strip_suffix("single-sided\n") {
        Some(page) => (page, true),
        None => (page, false),
    };
    let mut lines = Vec::new();
    for line in page.lines() {
        let (start, rest) = line.split_at(line.find(' ').unwrap_or(0));
        match start.strip_prefix('T').and_then(|tracks| tracks.split_once('-')) {
            Some((first, last)) => {
                let (first, last) = (first.parse().unwrap_or(0), last.parse().unwrap_or(0));
                lines.extend((first..=last).map(|track: u32| format!("T{track:02}{rest}")));
            }
            None => lines.push(line.to_string()),
        }
    }
    lines.sort();
    (lines, single_sided)
}

/// Each finding stands on the page once, and the last line only where one side has all of 0 to 79 without sectors and the other has not.
fn held_to_findings(group: &mut Group, disk: &DiskInput, page: &str) {
    let given = lines_of(disk);
    let empty = |side: u32| {
        (0..80).all(|track| given.binary_search(&format!("T{track:02} H{side} 4 TNF level 2 place 0 detail 0")).is_ok())
    };
    let single_sided = empty(0) != empty(1);
    group.same(expanded(page), (given, single_sided), || format!("{}, its lines", disk.name));
}

/// Disks of the lists, and random ones.
pub fn disks(report: &mut Report) {
    let mut group = Group::new("the disk page, 11,000 disks");
    let mut in_types = Group::new("the disk page by the crate's findings");
    let mut lines = Group::new("the disk page beside the findings that were handed over");
    let mut random = Random::new(70);
    let mut seen = [0; 26];
    let mut shared = 0;
    group.same(thikbromu::MOST_TRACKS, MOST_TRACKS, || String::from("the most tracks"));
    for disk in disk_inputs(71, DISKS) {
        let second = disk_page::disk_page(&disk.tracks, &disk.findings);
        for room in rooms_of(&mut random, &second) {
            page_case(&mut group, &disk, room, &second);
        }
        seen[second.as_ref().map_or_else(|refusal| refusal.number as usize, |_| 0)] += 1;
        if let Some(tracks) = typed(&disk) {
            let ours = answer(thikbromu::disk_page(&tracks)).map(String::into_bytes);
            in_types.same(&ours, &second, || disk.name.clone());
        }
        let mut out = vec![0; second.as_ref().map_or(0, Vec::len)];
        if boundary::disk_page(&disk.tracks, &disk.findings, &mut out).is_ok() {
            let page = String::from_utf8(out).expect("a page is ASCII");
            shared += usize::from(page.lines().any(|line| line.as_bytes().get(3) == Some(&b'-')));
            held_to_findings(&mut lines, &disk, &page);
        }
    }
    group.same(seen.iter().sum(), DISKS, || String::from("the number of disks"));
    // A page, a page with a range, and each refusal.
    let often = shared >= 5_000 && [0, 1, 21, 22, 25].iter().all(|&number| seen[number] >= 100);
    group.same(often, true, || format!("the answers of the disks, {seen:?}, {shared} with a range"));
    group.close(report);
    in_types.close(report);
    lines.close(report);
}

/// Tracks to read, in their density: blank, standard, and of every kind.
fn tracks_to_read(random: &mut Random) -> Vec<(&'static Calls, Vec<u8>, usize)> {
    let mut tracks = vec![(&DOUBLE, vec![0xAA; 12_500], 100_000), (&DOUBLE, vec![0x00; 12_500], 100_000)];
    let mut add = |calls, track_cells: &[u8]| tracks.push((calls, cells::pack(track_cells), track_cells.len()));
    for number in [0, 5, 80] {
        add(&DOUBLE, &standard_track(number, 0, 0xE5));
    }
    for number in 0..80 {
        add(&DOUBLE, &odd_track(random, number));
    }
    for track in fm_tracks(72, 60) {
        tracks.push((&SINGLE, track.packed(), track.cells.len()));
    }
    tracks
}

/// Disks whose findings the library itself gives for their tracks: rule 16.20, none is refused.
pub fn of_tracks(report: &mut Report) {
    let mut group = Group::new("the disk page of tracks that the library reads");
    let mut random = Random::new(73);
    let to_read = tracks_to_read(&mut random);
    let mut list = [0; FINDING_NUMBERS * MOST_FINDINGS];
    let (mut tracks_read, mut findings_read) = (0, 0);
    for index in 0..READ_DISKS {
        let mut places: Vec<(u32, u32)> = (0..MOST_TRACKS as u32).map(|place| (place / 2, place % 2)).collect();
        random.shuffle(&mut places);
        places.truncate([5, 40, 120, 168][index % 4]);
        // Many blank tracks in some disks, so that there are ranges.
        let blank_in = [1, 2, 5, 0][random.below(4) as usize];
        let mut disk = DiskInput { name: format!("disk {index}"), tracks: Vec::new(), findings: Vec::new() };
        let mut in_types = Vec::new();
        for (track, side) in places {
            let chosen = if random.one_in(blank_in) { 0 } else { random.below(to_read.len() as u64) as usize };
            let (calls, bytes, n) = &to_read[chosen];
            let read = (calls.findings_of_track)(Track::new(bytes, *n, track, side));
            let count = (calls.findings)(bytes, *n, track, side, &mut list);
            group.same(read.as_ref().map(Vec::len), count.as_ref().copied(), || format!("findings of disk {index}"));
            // A track that is refused has no findings, so that it is not handed over.
            let (Ok(read), Ok(count)) = (read, count) else { continue };
            disk.tracks.extend([track, side, count as u32]);
            disk.findings.extend(&list[..FINDING_NUMBERS * count]);
            tracks_read += 1;
            findings_read += count;
            in_types.push((track, side, read));
        }
        let second = disk_page::disk_page(&disk.tracks, &disk.findings);
        let page = thikbromu::disk_page(&in_types);
        group.same(page.is_ok(), true, || format!("{}, {page:?}", disk.name));
        group.same(answer(page.clone()).map(String::into_bytes), second.clone(), || disk.name.clone());
        for room in rooms_of(&mut random, &second) {
            page_case(&mut group, &disk, room, &second);
        }
        held_to_findings(&mut group, &disk, &page.unwrap_or_default());
    }
    let enough = tracks_read >= 3_000 && findings_read >= 20_000;
    group.same(enough, true, || format!("{tracks_read} tracks with {findings_read} findings"));
    group.close(report);
}

/// Counts whose sum is near a multiple of 2^32, so that a sum of 32 bits, or four times a count, would come out right.
pub fn counts(report: &mut Report) {
    let mut group = Group::new("the disk page, counts near 2^32");
    let mut random = Random::new(74);
    for findings in 0..4_usize {
        let list: Vec<u32> = (0..findings as u32).flat_map(|place| [6, 1, place, 7]).collect();
        let mut case = |name: &str, counts: &[u64]| {
            let track = |(index, &count): (usize, &u64)| [index as u32 / 2, index as u32 % 2, count as u32];
            let tracks = counts.iter().enumerate().flat_map(track).collect();
            let name = format!("{name} and {findings} findings");
            let disk = DiskInput { name, tracks, findings: list.clone() };
            // By the numbers alone: where they add up, the findings are in order, all of them on one track.
            let right = counts.iter().sum::<u64>() == findings as u64;
            let second = disk_page::disk_page(&disk.tracks, &disk.findings);
            let number = second.as_ref().map_or_else(|refusal| refusal.number, |_| 0);
            group.same(number, if right { 0 } else { 25 }, || format!("{}, the second program", disk.name));
            for room in rooms_of(&mut random, &second) {
                page_case(&mut group, &disk, room, &second);
            }
        };
        let most = u64::from(u32::MAX);
        for near in 0..9 {
            let sum = (1_u64 << 32) + near - 4;
            case("one great count", &[sum.min(most)]);
            case("a great count and the rest", &[sum - near, near]);
            case("a half and the rest", &[1 << 31, sum - (1 << 31)]);
            case("three counts", &[near, sum - 2 * near, near]);
            case("a quarter", &[(1 << 30) + near, 0]);
            case("two great counts and some", &[most, most, near]);
            case("four quarters and some", &[1 << 30, 1 << 30, 1 << 30, 1 << 30, near]);
        }
        for tracks in [2, 3, 4, 5, 7, 8, 16, 64, 128, 167, 168] {
            case("all counts at their most", &vec![most; tracks]);
            // All but the last at their most, and a last one that would bring a sum of 32 bits to each number of findings.
            for rest in 0..6 {
                let mut counts = vec![most; tracks];
                counts[tracks - 1] = tracks as u64 - 1 + rest;
                case("all counts but one at their most", &counts);
            }
        }
        case("the counts that are right", &[0, findings as u64, 0]);
    }
    group.close(report);
}
