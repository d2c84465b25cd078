//! The timings of one revolution of a SuperCard Pro track block (rules 12.1 to 12.24).
//!
//! What the papers leave open is read so:
//! - The table ends at byte 4 + 12 times the number of revolutions. A block that ends
//!   before that has no whole table, also where the number is 0 and only the track
//!   number is missing (rule 12.10).
//! - All bytes before the table's end are out of bounds for values, also the letters and
//!   the track number (rule 12.11).
//! - The track number and the index times are not judged. Values may stand in any
//!   order and at odd bytes, overlap or leave gaps, and bytes that belong to no
//!   revolution are not looked at (rule 12.14).
//! - 16 is judged for every revolution, 6, 7, 8 and 10 for the chosen one alone.

use crate::cells;
use crate::listing::{listing_of_cells, refused_line};
use crate::refusal::{Refusal, MOST_CELLS, MOST_TIMINGS};
use crate::separator::{self, Separation, LONGEST_TIMING, SHORTEST_TIMING};
use crate::track_file::TrackCells;

/// What a block begins with (rule 12.1).
pub const LETTERS: &[u8] = b"TRK";
/// Where the table begins: after the letters and the track number.
pub const TABLE_AT: usize = LETTERS.len() + 1;
/// The bytes that the table has for a revolution (rule 12.1).
pub const ENTRY_LENGTH: usize = 12;
/// The bytes of a value (rule 12.4).
pub const VALUE_LENGTH: usize = 2;
/// The nanoseconds of a unit (rule 12.4).
const UNIT: u64 = 25;
/// The units that a value of 0 stands for (rule 12.5).
const A_ZERO_ADDS: u64 = 65_536;

/// What the table says of one revolution (rules 12.1 and 12.2).
#[derive(Clone, Copy, Debug, PartialEq, Eq)]
pub struct Entry {
    /// The index time, which no rule looks at.
    pub index_time: u32,
    /// The number of values.
    pub count: u32,
    /// Where the values start, counted from the first byte of the block.
    pub offset: u32,
}

/// Where the table of so many revolutions ends. No number of 32 bits, and no sum of
/// them here, reaches the end of 64 bits.
fn table_end(revolutions: u32) -> u64 {
    TABLE_AT as u64 + ENTRY_LENGTH as u64 * u64::from(revolutions)
}

/// The table; none where the letters are wrong or bytes of it are missing (rules 12.9 and
/// 12.10).
fn table(block: &[u8], revolutions: u32) -> Option<Vec<Entry>> {
    if !block.starts_with(LETTERS) || (block.len() as u64) < table_end(revolutions) {
        return None;
    }
    let table = &block[TABLE_AT..table_end(revolutions) as usize];
    let number = |bytes: &[u8]| u32::from_le_bytes([bytes[0], bytes[1], bytes[2], bytes[3]]);
    let entries = table.chunks_exact(ENTRY_LENGTH).map(|entry| Entry {
        index_time: number(&entry[..4]),
        count: number(&entry[4..8]),
        offset: number(&entry[8..]),
    });
    Some(entries.collect())
}

/// The bytes of a revolution's values; none where they make the block no track block
/// (rule 12.11).
fn bytes_of_entry(block: &[u8], revolutions: u32, entry: Entry) -> Option<&[u8]> {
    let start = u64::from(entry.offset);
    let end = start + VALUE_LENGTH as u64 * u64::from(entry.count);
    if start < table_end(revolutions) || end > block.len() as u64 {
        return None;
    }
    let bytes = &block[start as usize..end as usize];
    if bytes.ends_with(&[0, 0]) {
        return None;
    }
    Some(bytes)
}

/// The bytes of the chosen revolution's values, which may be handed over in portions.
/// Refusals in order: 16, for which all revolutions are judged; 17 (rules 12.8 and 12.12).
pub fn revolution_bytes(block: &[u8], revolutions: u32, revolution: u32) -> Result<&[u8], Refusal> {
    let Some(entries) = table(block, revolutions) else {
        return Err(Refusal::not_a_track_block());
    };
    let mut all = Vec::new();
    for entry in entries {
        match bytes_of_entry(block, revolutions, entry) {
            Some(bytes) => all.push(bytes),
            None => return Err(Refusal::not_a_track_block()),
        }
    }
    match all.get(revolution as usize) {
        Some(bytes) => Ok(bytes),
        None => Err(Refusal::no_such_revolution()),
    }
}

/// The nanoseconds of all timings that end in these values, in range or not (rules 12.5
/// to 12.7). Zeros without a value after them, and a byte without its second one, end no
/// timing.
fn timings_ended(bytes: &[u8]) -> Vec<u64> {
    let mut timings = Vec::new();
    let mut zeros = 0;
    for value in bytes.chunks_exact(VALUE_LENGTH) {
        let value = u16::from_be_bytes([value[0], value[1]]);
        if value == 0 {
            zeros += 1;
        } else {
            timings.push(UNIT * (A_ZERO_ADDS * zeros + u64::from(value)));
            zeros = 0;
        }
    }
    timings
}

/// The index of the first timing that is out of range (rule 3.1).
fn first_out_of_range(timings: &[u64]) -> Option<usize> {
    let range = u64::from(SHORTEST_TIMING)..=u64::from(LONGEST_TIMING);
    timings.iter().position(|timing| !range.contains(timing))
}

/// How many timings are written, and which.
fn written(timings: &[u64]) -> (usize, Vec<u32>) {
    let list: Vec<u32> = timings.iter().map(|&timing| timing as u32).collect();
    (list.len(), list)
}

/// The timings of a revolution.
#[derive(Clone, Debug, PartialEq, Eq)]
pub struct RevolutionTimings {
    /// The timings, in nanoseconds.
    pub timings: Vec<u32>,
    /// The number of border pulses among them, stepped from r = 0 in double density.
    pub border_pulses: usize,
}

/// The timings of the chosen revolution, which are written to the front of a list with so
/// much room, and the number of their border pulses (rules 9.14 and 12.13). They may give
/// more cells than a track has. Refusals in order: 16, 17, 6, 7, 8, 10.
pub fn revolution_timings(
    block: &[u8],
    revolutions: u32,
    revolution: u32,
    room: usize,
) -> Result<RevolutionTimings, Refusal> {
    let bytes = revolution_bytes(block, revolutions, revolution)?;
    let timings = timings_ended(bytes);
    if timings.is_empty() {
        return Err(Refusal::no_timings());
    }
    if timings.len() > MOST_TIMINGS {
        return Err(Refusal::too_many_timings(timings.len()));
    }
    if let Some(index) = first_out_of_range(&timings) {
        return Err(Refusal::timing_out_of_range(index));
    }
    if room < timings.len() {
        return Err(Refusal::too_little_room_for_timings(timings.len()));
    }
    let (_, timings) = written(&timings);
    let border_pulses = separator::border_pulses(&timings)?;
    Ok(RevolutionTimings {
        timings,
        border_pulses,
    })
}

/// The answer to a portion: how many timings end in it, and what is written to the
/// front of the list.
pub type PortionAnswer = Result<(usize, Vec<u32>), Refusal>;

/// What a portion answers in which these timings end, after so many that ended in the
/// portions before (rule 12.17): 7, 8 and 10 are judged as by the whole call. Beside 7
/// stand the timings up to the portion's end, since no later ones are known.
fn answer_to_portion(ended_before: usize, own: &[u64], room: usize) -> PortionAnswer {
    if ended_before + own.len() > MOST_TIMINGS {
        return Err(Refusal::too_many_timings(ended_before + own.len()));
    }
    if let Some(index) = first_out_of_range(own) {
        return Err(Refusal::timing_out_of_range(ended_before + index));
    }
    if room < own.len() {
        return Err(Refusal::too_little_room_for_timings(own.len()));
    }
    Ok(written(own))
}

/// The state that is carried from portion to portion (rule 12.15), as all bytes of the
/// revolution so far.
#[derive(Clone, Debug, Default, PartialEq, Eq)]
pub struct BytesSoFar {
    /// The bytes of the portions that were not refused.
    pub bytes: Vec<u8>,
}

impl BytesSoFar {
    /// The state before the first portion.
    pub fn new() -> BytesSoFar {
        BytesSoFar::default()
    }

    /// Whether calls that began with a fresh state leave this one: exactly where a call
    /// that gets all these bytes as one portion is not refused. That a refused call hands
    /// its state back does not make it a state that calls leave.
    pub fn is_left_by_calls(&self) -> bool {
        let timings = timings_ended(&self.bytes);
        timings.len() <= MOST_TIMINGS && first_out_of_range(&timings).is_none()
    }

    /// One portion (rules 12.15 and 12.17). A state that calls cannot leave is taken as a
    /// fresh one (rule 12.19). Beside a refusal every state is handed back as it came
    /// (rule 12.18).
    pub fn portion(&self, portion: &[u8], room: usize) -> (PortionAnswer, BytesSoFar) {
        let before = if self.is_left_by_calls() {
            self.bytes.clone()
        } else {
            Vec::new()
        };
        let ended_before = timings_ended(&before).len();
        let bytes = [&before[..], portion].concat();
        let own = &timings_ended(&bytes)[ended_before..];
        match answer_to_portion(ended_before, own, room) {
            Ok(answer) => (Ok(answer), BytesSoFar { bytes }),
            Err(refusal) => (Err(refusal), self.clone()),
        }
    }
}

/// From seven zeros on a timing is out of range whatever value ends it: 7 times 65,536
/// units are 11,468,800 ns. So zeros are counted up to seven only.
pub const MOST_ZEROS_COUNTED: u64 = 7;

/// The carried state as three numbers (rule 12.16).
#[derive(Clone, Copy, Debug, Default, PartialEq, Eq)]
pub struct Carried {
    /// The first byte of a value whose second byte is still to come.
    pub held: Option<u8>,
    /// The zeros that stand before the next value, seven for all from seven on.
    pub zeros: u64,
    /// The timings that have ended since the revolution's start.
    pub timings: u64,
}

impl Carried {
    /// The state before the first portion.
    pub fn new() -> Carried {
        Carried::default()
    }

    /// The numbers of bytes that begin where a value begins, so many timings having
    /// ended before them.
    fn of_bytes(bytes: &[u8], ended_before: u64) -> Carried {
        let (values, rest) = bytes.split_at(bytes.len() - bytes.len() % VALUE_LENGTH);
        let zeros = values
            .chunks_exact(VALUE_LENGTH)
            .rev()
            .take_while(|value| **value == [0, 0])
            .count() as u64;
        Carried {
            held: rest.first().copied(),
            zeros: zeros.min(MOST_ZEROS_COUNTED),
            timings: ended_before + timings_ended(values).len() as u64,
        }
    }

    /// The numbers of a state that holds the bytes.
    pub fn of(state: &BytesSoFar) -> Carried {
        Carried::of_bytes(&state.bytes, 0)
    }

    /// Whether calls that began with a fresh state leave these numbers. None leave more
    /// than seven zeros or more than 65,536 timings; all other numbers are left after as
    /// many values of 1, the zeros and the held byte.
    pub fn is_left_by_calls(self) -> bool {
        self.zeros <= MOST_ZEROS_COUNTED && self.timings <= MOST_TIMINGS as u64
    }

    /// One portion, as `BytesSoFar::portion`: the zeros and the held byte are put
    /// before it, and the timings before are those counted.
    pub fn portion(self, portion: &[u8], room: usize) -> (PortionAnswer, Carried) {
        let before = if self.is_left_by_calls() {
            self
        } else {
            Carried::new()
        };
        let mut bytes = vec![0; VALUE_LENGTH * before.zeros as usize];
        bytes.extend(before.held);
        bytes.extend(portion);
        match answer_to_portion(before.timings as usize, &timings_ended(&bytes), room) {
            Ok(answer) => (Ok(answer), Carried::of_bytes(&bytes, before.timings)),
            Err(refusal) => (Err(refusal), self),
        }
    }
}

/// From a block to packed cells (rules 9.16 and 12.20): the timings of the chosen
/// revolution go to the separator's call on a list. Gives what that call gives; `room` is
/// the room for the cells in bytes. No list of timings is lent, so 10 is the separator's.
/// Refusals in order: 16, 17, 6, 7, 8, 9, 10.
pub fn revolution_cells(
    block: &[u8],
    revolutions: u32,
    revolution: u32,
    room: usize,
) -> Result<Separation, Refusal> {
    let read = revolution_timings(block, revolutions, revolution, MOST_TIMINGS)?;
    separator::separate(&read.timings, room)
}

/// All that the program prints that gets the block on its standard input and the four
/// numbers as arguments (rule 13.8): the listing of the track with the revolution's cells at
/// this T and H, or one line where the block is refused.
pub fn printed(
    block: &[u8],
    revolutions: u8,
    revolution: u8,
    drive_track: u8,
    drive_side: u8,
) -> Vec<u8> {
    let room = cells::bytes_needed(MOST_CELLS);
    match revolution_cells(block, revolutions.into(), revolution.into(), room) {
        Ok(separation) => listing_of_cells(&TrackCells {
            drive_track: drive_track.into(),
            drive_side: drive_side.into(),
            n: separation.cells,
            bytes: separation.bytes,
        }),
        Err(refusal) => refused_line(refusal).into_bytes(),
    }
}
