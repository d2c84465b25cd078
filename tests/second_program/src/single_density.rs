//! Single density: the sectors, the findings and the separator of FM tracks.
//!
//! An FM byte takes 16 cells, and the second cell of each two holds its data bit, as in
//! MFM; only the clocks differ. A mark is known by its missing clocks, so no syncs stand
//! before it. In this module `n` is N and `bytes` are the packed cells, as in `sectors`.

use crate::cells;
use crate::check_word::check_word;
use crate::findings::{
    distances_of_ones, has_earlier_duplicate, in_room, lies_in_other_data, longest_run_finding,
    places_of_ones, Finding, DBI, DOI, DSN, EXT, IIF, ISN, ITN, LGT, MTV, NOS, SBD, SBI, SHT, SID,
    SND, SSZ, SWS, TNF,
};
use crate::refusal::{Refusal, MOST_CELLS, MOST_SECTORS};
use crate::sectors::{byte_at, bytes_at, judge_track, length_of, ReadOut, SectorRecord};
use crate::separator::{judge_timings, timing_in_range, Separation};

/// The cells of the ID mark FE.
pub const ID_MARK: u16 = 0xF57E;
/// The cells of the data mark FB.
pub const DATA_MARK: u16 = 0xF56F;
/// The cells of the data mark F8, which says that the data are deleted.
pub const DELETED_DATA_MARK: u16 = 0xF56A;

/// The cells of one byte.
const BYTE_LENGTH: usize = 16;
/// The cells of a mark, which is a single byte.
pub const MARK_LENGTH: usize = 16;
/// The cells of the two check bytes.
const CHECK_LENGTH: usize = 32;
/// How far behind its place an ID ends: the mark, four bytes and the check.
pub const ID_LENGTH: usize = 112;
/// How far behind a sector's place its data mark may stand.
pub const FARTHEST_DATA_MARK: usize = 576;
/// The density in the record of every FM sector.
pub const SINGLE_DENSITY: u8 = 1;

/// The most cells of a track that is not long.
const MOST_USUAL_CELLS: usize = 51_500;
/// The fewest cells of a track that is not short.
const FEWEST_USUAL_CELLS: usize = 48_500;
/// How many sectors a usual track has.
const USUAL_SECTORS: usize = 18;
/// The size code of a usual sector, which has 128 bytes.
const USUAL_SIZE_CODE: u8 = 0;

/// The least place from `from` up to and without `to` at which a mark has these cells.
fn find_mark(bytes: &[u8], n: usize, mark: u16, from: usize, to: usize) -> Option<usize> {
    let place = cells::find_word(bytes, n, u64::from(mark), MARK_LENGTH, from, to);
    (place < to).then_some(place)
}

/// The places of all ID marks from `from` up to and without `to`, in order and in any phase.
fn id_marks_between(bytes: &[u8], n: usize, from: usize, to: usize) -> Vec<usize> {
    let mut places = Vec::new();
    let mut from = from;
    while let Some(place) = find_mark(bytes, n, ID_MARK, from, to) {
        places.push(place);
        from = place + 1;
    }
    places
}

/// The places of the sectors: those of the ID marks.
pub fn id_mark_places(bytes: &[u8], n: usize) -> Vec<usize> {
    id_marks_between(bytes, n, 0, n)
}

/// q of the sector at p: the nearest mark of either kind of data.
fn find_data_mark(bytes: &[u8], n: usize, p: usize) -> Option<usize> {
    let first = p + ID_LENGTH;
    let last = p + FARTHEST_DATA_MARK;
    let usual = find_mark(bytes, n, DATA_MARK, first, last + 1);
    let deleted = find_mark(bytes, n, DELETED_DATA_MARK, first, last + 1);
    match (usual, deleted) {
        (Some(usual), Some(deleted)) => Some(usual.min(deleted)),
        (usual, deleted) => usual.or(deleted),
    }
}

/// Whether the mark at `place` and the `count` bytes behind it agree with the two check
/// bytes that follow, the high one first. The check starts anew at the mark.
fn check_is_good(bytes: &[u8], n: usize, place: usize, count: usize) -> bool {
    let covered = bytes_at(bytes, n, place, 1 + count);
    let stored = bytes_at(bytes, n, place + BYTE_LENGTH * (1 + count), 2);
    check_word(&covered) == u16::from_be_bytes([stored[0], stored[1]])
}

/// The end of data that has so many bytes and whose mark stands at q.
pub fn data_end_of(q: usize, length: usize) -> usize {
    q + MARK_LENGTH + BYTE_LENGTH * length + CHECK_LENGTH
}

/// The record of the sector whose ID mark stands at p.
pub fn record_at(bytes: &[u8], n: usize, p: usize) -> SectorRecord {
    let id = bytes_at(bytes, n, p + MARK_LENGTH, 4);
    let mut record = SectorRecord {
        place: p,
        mark: byte_at(bytes, n, p),
        track: id[0],
        side: id[1],
        number: id[2],
        size_code: id[3],
        id_check_good: check_is_good(bytes, n, p, 4),
        density: SINGLE_DENSITY,
        ..SectorRecord::default()
    };
    if let Some(q) = find_data_mark(bytes, n, p) {
        record.data_place = q;
        record.data_mark = byte_at(bytes, n, q);
        record.length = length_of(record.size_code);
        record.data_check_good = check_is_good(bytes, n, q, record.length);
        record.data_end = data_end_of(q, record.length);
    }
    record
}

/// The sector list of a track, however many sectors there are.
pub fn list(bytes: &[u8], n: usize) -> Vec<SectorRecord> {
    let places = id_mark_places(bytes, n);
    places.iter().map(|&p| record_at(bytes, n, p)).collect()
}

/// The sector list of a track that passes refusals 1 to 4, in this order.
pub fn sectors(
    drive_track: u32,
    drive_side: u32,
    bytes: &[u8],
    n: usize,
) -> Result<Vec<SectorRecord>, Refusal> {
    judge_track(drive_track, drive_side, bytes, n)?;
    let count = id_mark_places(bytes, n).len();
    if count > MOST_SECTORS {
        return Err(Refusal::too_many_sectors(count));
    }
    Ok(list(bytes, n))
}

/// The sector of an index and how many sectors there are. Refusals in order: 1 to 4, 11.
pub fn sector(
    drive_track: u32,
    drive_side: u32,
    bytes: &[u8],
    n: usize,
    index: usize,
) -> Result<(SectorRecord, usize), Refusal> {
    let sectors = sectors(drive_track, drive_side, bytes, n)?;
    match sectors.get(index) {
        Some(record) => Ok((*record, sectors.len())),
        None => Err(Refusal::no_such_sector(sectors.len())),
    }
}

/// Reading out. `room` is the room for the bytes. Refusals in order: 1 to 4, 11, 12, 13.
pub fn read_out(
    drive_track: u32,
    drive_side: u32,
    bytes: &[u8],
    n: usize,
    index: usize,
    room: usize,
) -> Result<ReadOut, Refusal> {
    let (record, _) = sector(drive_track, drive_side, bytes, n, index)?;
    if !record.has_data() {
        return Err(Refusal::no_data());
    }
    if room < record.length {
        return Err(Refusal::too_little_room_for_bytes(record.length));
    }
    Ok(ReadOut {
        length: record.length,
        check_good: record.data_check_good,
        bytes: bytes_at(bytes, n, record.data_place + MARK_LENGTH, record.length),
    })
}

/// What the rules of findings look at: T, the cells and the sector list.
struct Track<'a> {
    drive_track: u32,
    bytes: &'a [u8],
    n: usize,
    sectors: &'a [SectorRecord],
}

/// Kinds 1 to 5, which are about the whole track: the detail where there is a finding.
/// Its place is 0.
fn track_detail(track: &Track, kind: u32) -> Option<usize> {
    let sectors = track.sectors.len();
    let (found, detail) = match kind {
        LGT => (track.n > MOST_USUAL_CELLS, track.n),
        SHT => (track.n < FEWEST_USUAL_CELLS, track.n),
        NOS => (sectors != USUAL_SECTORS, sectors),
        TNF => (sectors == 0 && track.drive_track <= 79, 0),
        EXT => (sectors > 0 && track.drive_track >= 80, sectors),
        _ => (false, 0),
    };
    found.then_some(detail)
}

/// How many ID marks have all their cells from `start` on and before `end`.
fn id_marks_within(track: &Track, start: usize, end: usize) -> usize {
    // The last place at which a mark still ends at `end`.
    let last = end - MARK_LENGTH;
    id_marks_between(track.bytes, track.n, start, last + 1).len()
}

/// How many ID marks stand in a sector's ID and data.
fn id_marks_in_sector(track: &Track, sector: &SectorRecord) -> usize {
    let p = sector.place;
    let mut count = id_marks_within(track, p + MARK_LENGTH, p + ID_LENGTH);
    if sector.has_data() {
        let after_mark = sector.data_place + MARK_LENGTH;
        count += id_marks_within(track, after_mark, sector.data_end);
    }
    count
}

/// Kinds 6 to 19, which are about a sector: the detail where there is a finding. Its place
/// is p. The kinds 11 and 12 are missing, as only usual marks are looked for.
fn sector_detail(track: &Track, kind: u32, index: usize) -> Option<usize> {
    let n = track.n;
    let sector = &track.sectors[index];
    let number = usize::from(sector.number);
    let q = sector.data_place;
    let (found, detail) = match kind {
        DSN => (has_earlier_duplicate(track.sectors, index), number),
        ISN => ((245..=247).contains(&sector.number), number),
        ITN => (
            u32::from(sector.track) != track.drive_track,
            usize::from(sector.track),
        ),
        IIF => (
            sector.track > 83 || sector.side > 1 || sector.size_code > 3,
            usize::from(sector.side),
        ),
        SSZ => (
            sector.size_code != USUAL_SIZE_CODE,
            usize::from(sector.size_code),
        ),
        SBI => (!sector.id_check_good, number),
        SND => (sector.id_check_good && !sector.has_data(), number),
        SBD => (sector.has_data() && !sector.data_check_good, number),
        DOI if sector.has_data() && q < n && sector.data_end > n => (true, sector.data_end - n),
        DBI if sector.has_data() && q >= n => (true, q - n),
        SWS => (lies_in_other_data(track.sectors, n, index), number),
        SID => {
            let count = id_marks_in_sector(track, sector);
            (count > 0, count)
        }
        _ => (false, 0),
    };
    found.then_some(detail)
}

/// MTV: the place is the first one with a wrong distance, the detail how many such ones
/// there are. Between two clocks a data cell may hold a one or none.
fn distance_finding(distances: &[(usize, usize)]) -> Option<Finding> {
    let wrong: Vec<usize> = distances
        .iter()
        .filter(|&&(_, distance)| distance != 1 && distance != 2)
        .map(|&(place, _)| place)
        .collect();
    wrong
        .first()
        .map(|&place| Finding::new(MTV, place, wrong.len()))
}

/// The findings of a track that is not refused, with its sector list, ordered by kind and
/// then by place.
pub fn findings_of(
    drive_track: u32,
    bytes: &[u8],
    n: usize,
    sectors: &[SectorRecord],
) -> Vec<Finding> {
    let track = Track {
        drive_track,
        bytes,
        n,
        sectors,
    };
    let mut findings = Vec::new();
    for kind in LGT..=EXT {
        if let Some(detail) = track_detail(&track, kind) {
            findings.push(Finding::new(kind, 0, detail));
        }
    }
    for kind in DSN..=SID {
        // The sectors stand in the order of their places.
        for (index, sector) in sectors.iter().enumerate() {
            if let Some(detail) = sector_detail(&track, kind, index) {
                findings.push(Finding::new(kind, sector.place, detail));
            }
        }
    }
    let distances = distances_of_ones(&places_of_ones(bytes, n), n);
    findings.extend(distance_finding(&distances));
    findings.extend(longest_run_finding(&distances, n));
    findings
}

/// The findings of a track. `room` is how many findings the caller's list holds. Refusals
/// in order: 1 to 5.
pub fn findings(
    drive_track: u32,
    drive_side: u32,
    bytes: &[u8],
    n: usize,
    room: usize,
) -> Result<Vec<Finding>, Refusal> {
    let sectors = sectors(drive_track, drive_side, bytes, n)?;
    in_room(findings_of(drive_track, bytes, n, &sectors), room)
}

/// The nanoseconds of one cell, which is the separator's window.
const CELL: i64 = 4_000;
/// Half of the nanoseconds of one cell.
const HALF_CELL: i64 = 2_000;
/// The residuals that a step takes as they are.
const LEAST_RESIDUAL: i64 = -1_000;
const MOST_RESIDUAL: i64 = 999;
/// How far a border pulse lies at least from the window's centre. The window ends 2,000 ns
/// from it.
const BORDER: i64 = 1_804;

/// What one timing gives.
#[derive(Clone, Copy, Debug, PartialEq, Eq)]
pub struct Step {
    /// n, the cells of this timing.
    pub cells: i64,
    /// e, by which the pulse lies after the window's centre.
    pub offset: i64,
}

impl Step {
    /// Whether the pulse lies so near to the border of its window that another read may
    /// put it into the next one.
    pub fn is_border_pulse(self) -> bool {
        self.offset <= -BORDER || self.offset >= BORDER
    }
}

/// One step: takes the residual and one timing, hands back the next residual. A timing out
/// of range leaves the residual as it came. A residual out of range counts as 0.
pub fn step(residual: i64, timing: u32) -> (i64, Result<Step, Refusal>) {
    if !timing_in_range(timing) {
        return (residual, Err(Refusal::timing_out_of_range(0)));
    }
    let taken = if (LEAST_RESIDUAL..=MOST_RESIDUAL).contains(&residual) {
        residual
    } else {
        0
    };
    let u = i64::from(timing) + taken;
    let n = (u + HALF_CELL).div_euclid(CELL);
    let e = u - CELL * n;
    let answer = Step {
        cells: n,
        offset: e,
    };
    // The division of i64 rounds towards zero.
    (e / 2, Ok(answer))
}

/// The steps of a list of timings, one for each, from the residual 0 on. Refusals in order:
/// 6 to 8.
pub fn steps(timings: &[u32]) -> Result<Vec<Step>, Refusal> {
    judge_timings(timings)?;
    let mut steps = Vec::with_capacity(timings.len());
    let mut residual = 0;
    for &timing in timings {
        let (next, answer) = step(residual, timing);
        steps.push(answer?);
        residual = next;
    }
    Ok(steps)
}

/// The call on a list of timings. `room` is the room for the cells in bytes. Refusals in
/// order: 6 to 10.
pub fn separate(timings: &[u32], room: usize) -> Result<Separation, Refusal> {
    let steps = steps(timings)?;
    let cells_in_all = steps.iter().map(|step| step.cells as usize).sum();
    if cells_in_all > MOST_CELLS {
        return Err(Refusal::too_many_cells(cells_in_all));
    }
    let needed = cells::bytes_needed(cells_in_all);
    if room < needed {
        return Err(Refusal::too_little_room_for_cells(needed));
    }
    let mut track_cells = Vec::with_capacity(cells_in_all);
    for step in &steps {
        for cell in 1..=step.cells {
            track_cells.push(u8::from(cell == step.cells));
        }
    }
    Ok(Separation {
        cells: cells_in_all,
        border_pulses: steps.iter().filter(|step| step.is_border_pulse()).count(),
        bytes: cells::pack(&track_cells),
    })
}
