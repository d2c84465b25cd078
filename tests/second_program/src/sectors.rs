//! Marks, the sectors of a track, and reading out (rules 6.1 to 6.18).
//!
//! In this module `n` is N, the cells of the track, and `bytes` are its packed
//! cells. A place may be N or more; reading goes round the track.

use crate::cells;
use crate::check_word::check_word;
use crate::mfm::decode_cells;
use crate::refusal::{
    Refusal, FEWEST_CELLS, HIGHEST_SIDE, HIGHEST_TRACK, MOST_CELLS, MOST_SECTORS,
};

/// Three syncs in a row (rule 6.1).
const THREE_SYNCS: u64 = 0x4489_4489_4489;
/// The cells of the three syncs.
const SYNCS_LENGTH: usize = 48;
/// The cells of the three syncs and the mark byte.
pub const MARK_LENGTH: usize = 64;
/// How far behind its place an ID ends (rule 6.7).
pub const ID_LENGTH: usize = 160;
/// How far behind a sector's place its data mark may stand (rule 6.9).
const FARTHEST_DATA_MARK: usize = 784;
/// The cells of the two check bytes.
const CHECK_LENGTH: usize = 32;
/// The cells of one byte.
const BYTE_LENGTH: usize = 16;
/// The density of MFM, which is double density (rule 6.16).
pub const DOUBLE_DENSITY: u8 = 2;

/// A sector's record (rule 6.16). The default has zeros and bad checks (rule 6.17).
#[derive(Clone, Copy, Debug, Default, PartialEq, Eq)]
pub struct SectorRecord {
    /// p, the place of the ID mark, 0 to N - 1.
    pub place: usize,
    /// The byte of the ID mark, FC to FF.
    pub mark: u8,
    /// The ID's track.
    pub track: u8,
    /// The ID's side.
    pub side: u8,
    /// The ID's number.
    pub number: u8,
    /// The ID's size code.
    pub size_code: u8,
    /// Whether the ID check is good.
    pub id_check_good: bool,
    /// q, the place of the data mark, perhaps N or more; 0 where none is found.
    pub data_place: usize,
    /// The byte of the data mark, F8 to FB; 0 where none is found.
    pub data_mark: u8,
    /// L, the bytes of data; 0 where there is no data.
    pub length: usize,
    /// Whether the data check is good; bad where there is no data.
    pub data_check_good: bool,
    /// The data end, perhaps above N; 0 where there is no data.
    pub data_end: usize,
    /// The density: 2 for MFM and 1 for FM; 0 only in the record of zeros.
    pub density: u8,
}

impl SectorRecord {
    /// Whether the sector has data: a data mark was found (rule 6.12).
    pub fn has_data(&self) -> bool {
        self.data_mark != 0
    }
}

/// The end of data that has so many bytes and whose mark stands at q (rule 6.14).
pub fn data_end_of(q: usize, length: usize) -> usize {
    q + MARK_LENGTH + BYTE_LENGTH * length + CHECK_LENGTH
}

/// Whether a mark byte makes an ID mark (rule 6.3).
pub fn is_id_mark(byte: u8) -> bool {
    (0xFC..=0xFF).contains(&byte)
}

/// Whether a mark byte makes a data mark (rule 6.3).
pub fn is_data_mark(byte: u8) -> bool {
    (0xF8..=0xFB).contains(&byte)
}

/// L of a size code: that of its remainder by 4 (rule 6.11).
pub fn length_of(size_code: u8) -> usize {
    match size_code % 4 {
        0 => 128,
        1 => 256,
        2 => 512,
        _ => 1024,
    }
}

/// The byte decoded from the 16 cells at a place.
pub fn byte_at(bytes: &[u8], n: usize, place: usize) -> u8 {
    decode_cells(cells::word(bytes, n, place, BYTE_LENGTH) as u16)
}

/// So many bytes decoded one after the other from a place on.
pub fn bytes_at(bytes: &[u8], n: usize, place: usize, count: usize) -> Vec<u8> {
    (0..count)
        .map(|i| byte_at(bytes, n, place + BYTE_LENGTH * i))
        .collect()
}

/// The least place from `from` up to and without `to` that has a mark whose byte
/// is `wanted`, with that byte (rules 6.1, 6.2 and 6.4).
fn find_mark(
    bytes: &[u8],
    n: usize,
    wanted: fn(u8) -> bool,
    from: usize,
    to: usize,
) -> Option<(usize, u8)> {
    let find_syncs = |from| cells::find_word(bytes, n, THREE_SYNCS, SYNCS_LENGTH, from, to);
    let mut place = find_syncs(from);
    while place < to {
        let mark = byte_at(bytes, n, place + SYNCS_LENGTH);
        if wanted(mark) {
            return Some((place, mark));
        }
        place = find_syncs(place + 1);
    }
    None
}

/// The places of all ID marks, in order: those of the sectors (rule 6.5).
pub fn id_mark_places(bytes: &[u8], n: usize) -> Vec<usize> {
    let mut places = Vec::new();
    let mut from = 0;
    while let Some((place, _)) = find_mark(bytes, n, is_id_mark, from, n) {
        places.push(place);
        from = place + 1;
    }
    places
}

/// q of the sector at p, and the data mark (rules 6.9 and 6.10).
fn find_data_mark(bytes: &[u8], n: usize, p: usize) -> Option<(usize, u8)> {
    let first = p + ID_LENGTH;
    let last = p + FARTHEST_DATA_MARK;
    find_mark(bytes, n, is_data_mark, first, last + 1)
}

/// Whether the mark at `place` and the `count` bytes behind it agree with the two check
/// bytes that follow, the high one first (rules 6.8 and 6.15).
fn check_is_good(bytes: &[u8], n: usize, place: usize, count: usize) -> bool {
    let after_syncs = place + SYNCS_LENGTH;
    let mut covered = vec![0xA1, 0xA1, 0xA1];
    covered.extend(bytes_at(bytes, n, after_syncs, 1 + count));
    let stored = bytes_at(bytes, n, after_syncs + BYTE_LENGTH * (1 + count), 2);
    check_word(&covered) == u16::from_be_bytes([stored[0], stored[1]])
}

/// The record of the sector whose ID mark stands at p (rule 6.16).
pub fn record_at(bytes: &[u8], n: usize, p: usize) -> SectorRecord {
    // Rule 6.6.
    let id = bytes_at(bytes, n, p + MARK_LENGTH, 4);
    let mut record = SectorRecord {
        place: p,
        mark: byte_at(bytes, n, p + SYNCS_LENGTH),
        track: id[0],
        side: id[1],
        number: id[2],
        size_code: id[3],
        id_check_good: check_is_good(bytes, n, p, 4),
        density: DOUBLE_DENSITY,
        ..SectorRecord::default()
    };
    if let Some((q, data_mark)) = find_data_mark(bytes, n, p) {
        record.data_place = q;
        record.data_mark = data_mark;
        record.length = length_of(record.size_code);
        record.data_check_good = check_is_good(bytes, n, q, record.length);
        record.data_end = data_end_of(q, record.length);
    }
    record
}

/// The records of the sectors whose ID marks stand at these places.
fn records_at(bytes: &[u8], n: usize, places: &[usize]) -> Vec<SectorRecord> {
    places.iter().map(|&p| record_at(bytes, n, p)).collect()
}

/// The sector list of a track, however many sectors there are.
pub fn list(bytes: &[u8], n: usize) -> Vec<SectorRecord> {
    records_at(bytes, n, &id_mark_places(bytes, n))
}

/// Refusals 1 to 3 in order: T and H, the number of cells, the bytes of cells.
pub(crate) fn judge_track(
    drive_track: u32,
    drive_side: u32,
    bytes: &[u8],
    n: usize,
) -> Result<(), Refusal> {
    if drive_track > HIGHEST_TRACK || drive_side > HIGHEST_SIDE {
        return Err(Refusal::drive_place_out_of_range());
    }
    if !(FEWEST_CELLS..=MOST_CELLS).contains(&n) {
        return Err(Refusal::cell_count_out_of_range(n));
    }
    let needed = cells::bytes_needed(n);
    if bytes.len() < needed {
        return Err(Refusal::too_few_bytes_of_cells(needed));
    }
    Ok(())
}

/// The sector list of a track that passes refusals 1 to 4, in this order.
pub fn accepted_list(
    drive_track: u32,
    drive_side: u32,
    bytes: &[u8],
    n: usize,
) -> Result<Vec<SectorRecord>, Refusal> {
    judge_track(drive_track, drive_side, bytes, n)?;
    let places = id_mark_places(bytes, n);
    if places.len() > MOST_SECTORS {
        return Err(Refusal::too_many_sectors(places.len()));
    }
    Ok(records_at(bytes, n, &places))
}

/// The sector of an index and how many sectors there are (rule 9.2). Refusals in order:
/// 1 to 4, 11.
pub fn sector_by_index(
    drive_track: u32,
    drive_side: u32,
    bytes: &[u8],
    n: usize,
    index: usize,
) -> Result<(SectorRecord, usize), Refusal> {
    let sectors = accepted_list(drive_track, drive_side, bytes, n)?;
    match sectors.get(index) {
        Some(record) => Ok((*record, sectors.len())),
        None => Err(Refusal::no_such_sector(sectors.len())),
    }
}

/// What reading out a sector gives.
#[derive(Clone, Debug, PartialEq, Eq)]
pub struct ReadOut {
    /// L.
    pub length: usize,
    /// Whether the data check is good.
    pub check_good: bool,
    /// The L bytes.
    pub bytes: Vec<u8>,
}

/// Reading out (rules 6.18 and 9.4). `room` is the room for the bytes. Refusals in order:
/// 1 to 4, 11, 12, 13.
pub fn read_out(
    drive_track: u32,
    drive_side: u32,
    bytes: &[u8],
    n: usize,
    index: usize,
    room: usize,
) -> Result<ReadOut, Refusal> {
    let (record, _) = sector_by_index(drive_track, drive_side, bytes, n, index)?;
    if !record.has_data() {
        return Err(Refusal::no_data());
    }
    if room < record.length {
        return Err(Refusal::too_little_room_for_bytes(record.length));
    }
    Ok(ReadOut {
        length: record.length,
        check_good: record.data_check_good,
        bytes: bytes_at(bytes, n, record.data_place + MARK_LENGTH, record.length),
    })
}
