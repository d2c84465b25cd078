//! Section 7 of the specification: the list of a track's findings.

use crate::densities::{Calls, DOUBLE, SINGLE};
use crate::report::{Element, Group, Report};
use crate::terms::{self, answer};
use second_program::cells;
use second_program::findings::{self, Finding};
use second_program::refusal::Refusal;
use std::fmt::Display;
use test_inputs::random::Random;
use test_inputs::size_code_tracks::size_code_tracks;
use test_inputs::track_builder::{filled, nine_sectors, odd_track, standard_track, turn, SectorPlan, TrackBuilder};
use thikbromu::boundary::{FindingRecord, FINDING_NUMBERS};
use thikbromu::Track;

/// Findings as the library's numbers, four for each.
fn numbers(list: &[Finding]) -> Vec<u32> {
    list.iter().flat_map(|f| [f.kind, f.level, f.place as u32, f.detail as u32]).collect()
}

/// Findings as the library's records.
fn records(list: &[Finding]) -> Vec<FindingRecord> {
    list.iter()
        .map(|f| FindingRecord {
            kind: f.kind as u8,
            level: f.level as u8,
            place: f.place as u32,
            detail: f.detail as u32,
        })
        .collect()
}

impl Element for FindingRecord {
    fn from_pattern(pattern: u32) -> FindingRecord {
        FindingRecord { kind: pattern as u8, level: (pattern >> 8) as u8, place: pattern, detail: !pattern }
    }
}

/// A track, and what the second program finds on it, whatever the room is.
struct Judged<'a> {
    calls: &'static Calls,
    bytes: &'a [u8],
    n: usize,
    drive: (u32, u32),
    second: Result<Vec<Finding>, Refusal>,
}

impl Judged<'_> {
    /// What the second program answers with room for so many findings.
    fn second_in_room(&self, room: usize) -> Result<Vec<Finding>, Refusal> {
        findings::in_room(self.second.clone()?, room)
    }

    fn given(&self, room: impl Display) -> String {
        format!("n {}, T {}, H {}, room for {room}", self.n, self.drive.0, self.drive.1)
    }

    /// One call: the answer, the list and the bytes afterwards. `room` counts numbers.
    fn case(&self, group: &mut Group, room: usize) {
        group.same_written(
            self.bytes,
            room,
            |input, list| (self.calls.findings)(input, self.n, self.drive.0, self.drive.1, list),
            self.second_in_room(room / FINDING_NUMBERS).map(|list| (list.len(), numbers(&list))),
            || self.given(format!("{room} numbers")),
        );
    }

    /// As `case`, on a list of records. `room` counts records.
    fn record_case(&self, group: &mut Group, room: usize) {
        group.same_written(
            self.bytes,
            room,
            |input, list| (self.calls.finding_records)(input, self.n, self.drive.0, self.drive.1, list),
            self.second_in_room(room).map(|list| (list.len(), records(&list))),
            || self.given(format!("{room} records")),
        );
    }
}

fn whole_track(group: &mut Group, seen: &mut [usize; 22], track_cells: &[u8], drive: (u32, u32)) {
    packed_track(&DOUBLE, group, seen, (&cells::pack(track_cells), track_cells.len()), drive);
}

/// A track, packed bytes and the number of cells, with a list that is too short by one number or record, just long enough, and longer.
/// `seen` counts the findings of each kind.
pub fn packed_track(
    calls: &'static Calls,
    group: &mut Group,
    seen: &mut [usize; 22],
    (bytes, n): (&[u8], usize),
    drive: (u32, u32),
) {
    // The second program's findings are made once.
    let judged = Judged { calls, bytes, n, drive, second: (calls.second_findings)(drive.0, drive.1, bytes, n, usize::MAX) };
    let list = judged.second.clone().unwrap_or_default();
    for finding in &list {
        seen[finding.kind as usize] += 1;
    }
    let ours = answer((calls.findings_of_track)(Track::new(bytes, n, drive.0, drive.1)));
    group.same(ours.map(|list| list.into_iter().map(terms::finding).collect()), judged.second.clone(), || judged.given("all"));
    let needed = list.len();
    for room in [4 * needed, (4 * needed).saturating_sub(1), 4 * needed + 7] {
        judged.case(group, room);
    }
    for room in [needed, needed.saturating_sub(1), needed + 2] {
        judged.record_case(group, room);
    }
}

/// Some number of standard sectors on a track of n cells.
fn sectors_on(count: usize, n: usize, drive_track: u8) -> Vec<u8> {
    let mut builder = TrackBuilder::new();
    for number in 1..=count {
        builder.write_repeated(0x00, 12);
        builder.write_sector(&SectorPlan::standard(drive_track, 0, number as u8, 0xE5));
        builder.write_repeated(0x4E, 4);
    }
    filled(builder.cells().to_vec(), n)
}

/// Each kind just inside and just outside its rule.
pub fn edges(report: &mut Report) {
    let mut group = Group::new("each kind just inside and just outside its rule");
    let mut seen = [0; 22];
    for n in [96_999, 97_000, 100_000, 103_000, 103_001, 20_000, 131_072] {
        for t in [0, 79, 80, 83] {
            whole_track(&mut group, &mut seen, &sectors_on(9, n, t as u8), (t, 0));
        }
    }
    for count in [0, 1, 8, 9, 10, 11] {
        for t in [0, 79, 80] {
            whole_track(&mut group, &mut seen, &sectors_on(count, 110_000, t as u8), (t, 1));
        }
    }
    // One odd thing in one of nine sectors.
    let odd: Vec<(&str, fn(&mut SectorPlan, u32))> = vec![
        ("number", |plan, value| plan.number = value as u8),
        ("track", |plan, value| plan.track = value as u8),
        ("side", |plan, value| plan.side = value as u8),
        ("size code", |plan, value| plan.size_code = value as u8),
        ("ID mark", |plan, value| plan.id_mark = 0xFC + (value % 4) as u8),
        ("data mark", |plan, value| plan.data_mark = Some(0xF7 + (value % 6) as u8)),
        ("no data", |plan, value| plan.data_mark = if value % 2 == 0 { None } else { Some(0xF8) }),
        ("ID check", |plan, value| plan.id_check_error = (value % 2) as u16),
        ("data check", |plan, value| plan.data_check_error = (value % 2) as u16),
        ("gap", |plan, value| plan.gap_cells = 600 + (value % 40) as usize),
    ];
    for (_, change) in &odd {
        for value in (0..12).chain([83, 84, 127, 128]).chain(243..=249).chain([255]) {
            let mut builder = nine_sectors(5, 0, 0x11, |plan| {
                if plan.number == 4 {
                    change(plan, value);
                }
            });
            builder.write_repeated(0x4E, 664);
            whole_track(&mut group, &mut seen, builder.cells(), (5, 0));
        }
    }
    // DOI and DBI: the data end exactly at the index, one before and one after it; q at the index.
    let standard_cells = standard_track(0, 0, 0xE5);
    let data_end = 1_152 + 704 + 8_288;
    for place in [data_end, 1_152 + 704, 1_152 + 704 + 64, 1_152, 1_152 + 160] {
        for off in 0..=4 {
            let by = 100_000 - place + off - 2;
            whole_track(&mut group, &mut seen, &turn(&standard_cells, by), (0, 0));
        }
    }
    // SID: a stray sync at each place around the ends of an ID and of data; SWS: an ID inside data, at its first and last cells.
    for around in [1_152 + 64, 1_152 + 160, 1_856 + 64, 1_856 + 8_288] {
        for off in 0..40 {
            let mut track_cells = standard_cells.clone();
            for i in 0..16 {
                track_cells[around + off + i - 28] = (0x4489u16 >> (15 - i) & 1) as u8;
            }
            whole_track(&mut group, &mut seen, &track_cells, (0, 0));
        }
    }
    for around in [1_856, 1_856 + 64, 1_856 + 8_288] {
        for off in 0..8 {
            let mut track_cells = standard_cells.clone();
            let mut id = TrackBuilder::new();
            id.write_id(0xFE, [0, 0, 20, 2], 0);
            let at = around + off - 4;
            track_cells[at..at + 160].copy_from_slice(id.cells());
            whole_track(&mut group, &mut seen, &track_cells, (0, 0));
            // The same with the data over the index.
            whole_track(&mut group, &mut seen, &turn(&track_cells, 100_000 - around - 2), (0, 0));
        }
    }
    // MTV and NFA: distances 1 to 6, and runs of 998 to 1,002 zeros, also over the index, and of equal length.
    for distance in 1..=6 {
        let mut track_cells: Vec<u8> = (0..100_000).map(|i| u8::from(i % 4 == 0)).collect();
        for cell in &mut track_cells[50_001..50_000 + distance] {
            *cell = 0;
        }
        track_cells[50_000 + distance] = 1;
        whole_track(&mut group, &mut seen, &track_cells, (0, 0));
    }
    for run in 998..=1_002 {
        for start in [10_001, 99_501] {
            let mut track_cells: Vec<u8> = (0..100_000).map(|i| u8::from(i % 4 == 0)).collect();
            for i in 0..run {
                track_cells[(start + i) % 100_000] = 0;
                track_cells[(start + 40_000 + i) % 100_000] = 0;
            }
            track_cells[(start + run) % 100_000] = 1;
            track_cells[(start + 40_000 + run) % 100_000] = 1;
            whole_track(&mut group, &mut seen, &track_cells, (0, 0));
        }
    }
    // No ones, one one, two ones, all ones.
    for places in [vec![], vec![0], vec![77_777], vec![5, 6], vec![5, 9], vec![5, 10], vec![0, 99_999]] {
        let mut track_cells = vec![0; 100_000];
        for place in places {
            track_cells[place] = 1;
        }
        whole_track(&mut group, &mut seen, &track_cells, (80, 0));
    }
    whole_track(&mut group, &mut seen, &vec![1; 100_000], (80, 0));
    for kind in 1..=21 {
        group.same(seen[kind] > 0, true, || format!("kind {kind} was reached"));
    }
    group.close(report);
}

/// What goes by words of 64 cells, in every phase: runs of zeros of all lengths that a word or two can hold and of NFA's, also over the index and two as
/// long, on tracks that end anywhere in a word; and rows of syncs before an ID mark, and before data, that lie over the borders of words.
pub fn borders_of_words(report: &mut Report) {
    let mut group = Group::new("findings at the borders of words of 64 cells");
    let mut seen = [0; 22];
    let mut random = Random::new(64);
    for n in [20_000, 20_031, 50_000, 99_967, 99_968, 99_969, 100_031, 131_071, 131_072] {
        for run in [1, 62, 63, 64, 65, 126, 127, 128, 129, 999, 1_000, 1_001, 1_064] {
            let mut track_cells: Vec<u8> = (0..n).map(|place| u8::from(place % 3 == 0)).collect();
            let start = if random.one_in(3) { n - random.below(run as u64 + 2) as usize } else { random.below(n as u64) as usize };
            let other = start + n / 2 + random.below(64) as usize;
            for (from, length) in [(start, run), (other, run - random.below(2) as usize)] {
                for place in from..from + length {
                    track_cells[place % n] = 0;
                }
                track_cells[(from + length) % n] = 1;
                track_cells[(from + n - 1) % n] = 1;
            }
            for calls in [&DOUBLE, &SINGLE] {
                packed_track(calls, &mut group, &mut seen, (&cells::pack(&track_cells), n), (0, 0));
            }
        }
    }
    group.same(seen[20] > 0 && seen[21] > 0, true, || "kinds 20 and 21 were reached".to_string());
    let mut seen = [0; 22];
    for syncs in 0..12 {
        for _ in 0..12 {
            let mut builder = TrackBuilder::new();
            for _ in 0..syncs {
                builder.write_sync_a1();
            }
            builder.write_id(0xFE, [0, 0, 3, 2], 0);
            builder.write_gap_cells(300 + random.below(64) as usize);
            for _ in 0..syncs {
                builder.write_sync_a1();
            }
            builder.write_data(0xF8 + random.below(4) as u8, &[0x4E; 512], 0);
            let track_cells = turn(&filled(builder.cells().to_vec(), 100_000 - random.below(64) as usize), random.below(100_000) as usize % 99_936);
            whole_track(&mut group, &mut seen, &track_cells, (0, 0));
        }
    }
    group.same(seen[12] > 0 && seen[12] < 144, true, || "kind 12 was reached on some of the tracks".to_string());
    group.close(report);
}

/// Every size code: kinds 9 and 10 go by all of its bits, the kinds about data by the length of its remainder by 4.
pub fn size_codes(report: &mut Report) {
    let mut group = Group::new("findings of size codes 0 to 255");
    let mut random = Random::new(31);
    for code in 0..=255 {
        let mut seen = [0; 22];
        for track_cells in size_code_tracks(&mut random, code) {
            whole_track(&mut group, &mut seen, &track_cells, (0, 0));
        }
        for kind in 14..=19 {
            group.same(seen[kind] > 0, true, || format!("size code {code}, kind {kind} was reached"));
        }
        group.same((seen[9] > 0, seen[10] > 0), (code > 3, code < 2 || code > 3), || format!("size code {code}, kinds 9 and 10"));
    }
    group.close(report);
}

pub fn any_tracks(report: &mut Report) {
    let mut group = Group::new("findings of odd tracks");
    let mut random = Random::new(30);
    let mut seen = [0; 22];
    for _ in 0..5_000 {
        let drive = (random.below(85) as u32, random.below(2) as u32);
        whole_track(&mut group, &mut seen, &odd_track(&mut random, drive.0 as u8), drive);
    }
    for kind in 1..=21 {
        group.same(seen[kind] > 0, true, || format!("kind {kind} was reached"));
    }
    group.close(report);
}
