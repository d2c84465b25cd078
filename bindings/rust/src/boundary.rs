//! The library's exports as they are, on numbers and slices, for callers who lend their own memory. Nothing is allocated: what a call
//! gives goes to the front of what is lent, and what stands behind it keeps its contents. The other types and functions of this crate go
//! over these.
//!
//! A track is `cells` cells at the front of `packed`; a byte holds eight of them, the first as its highest bit (rule 1.3). `track` and
//! `side` are the drive's. A cell for which there is no byte is 0, and so are all cells of a track of none. A place may lie behind the
//! index (rule 1.2).
//!
//! The functions on a track and on timings are those of double density (MFM). Those whose name begins with `fm` are of single density: each
//! takes, gives and refuses what its namesake does, by the rules of that density (rule 9.41).
//!
//! A refused call writes nothing, except that it sets the numbers of a record or of the finding of two reads, or the counts of a histogram, to
//! 0 (rules 8.31 and 8.32).
//!
//! ```
//! use thikbromu::boundary::{finding_records, FindingRecord};
//! use thikbromu::Refusal;
//!
//! let packed = [0xAA; 12_500];
//! let mut list = [FindingRecord::default(); 1];
//! // Two findings at track 5, one at track 80.
//! assert_eq!(finding_records(&packed, 100_000, 5, 0, &mut list), Err(Refusal::ListTooShort(2)));
//! assert_eq!(finding_records(&packed, 100_000, 80, 0, &mut list), Ok(1));
//! assert_eq!(list, [FindingRecord { kind: 3, level: 3, place: 0, detail: 0 }]);
//! ```
//!
//! # Safety
//!
//! All unsafe code of the crate is here. Nothing compares the types of these declarations with those of crates/thikbromu/src: keep them
//! alike. The library asks three things of a caller, which safe Rust gives:
//! - each address is valid for its length. A slice's is; that of an empty slice may dangle, but it is not null and is aligned, which is
//!   all that a length of 0 asks;
//! - what is lent to be written overlaps nothing else that is passed. A `&mut` is the only way to its memory while it lives;
//! - a bool is 0 or 1. Rust's is.
//!
//! It asks nothing of the values, keeps no address after a call and does not unwind.

use crate::refusal::Refusal;

/// The numbers of a sector's record.
pub const SECTOR_NUMBERS: usize = 13;

/// The numbers of a finding.
pub const FINDING_NUMBERS: usize = 4;

/// The bytes of the plain image of a track: nine sectors of 512.
pub const SECTOR_IMAGE_BYTES: usize = 4_608;

/// The numbers of a place: the track and the side.
pub const PLACE_NUMBERS: usize = 2;

/// The numbers of a track of a disk: the track, the side and how many findings it has.
pub const DISK_TRACK_NUMBERS: usize = 3;

/// The first bytes of an image, which hold its header and its entries.
pub const IMAGE_HEADER_BYTES: usize = 688;

/// The numbers of an image's header.
pub const IMAGE_HEADER_NUMBERS: usize = 10;

/// The numbers of an image's entries: two for each of 168.
pub const IMAGE_PLACE_NUMBERS: usize = 336;

/// A finding as the library lays it out for C.
#[repr(C)]
#[derive(Clone, Copy, Debug, Default, PartialEq, Eq)]
pub struct FindingRecord {
    /// The number of its [`Kind`](crate::Kind), 1 to 21.
    pub kind: u8,
    /// The kind's level, 1 to 3.
    pub level: u8,
    /// Its place, in cells.
    pub place: u32,
    /// Its detail.
    pub detail: u32,
}

extern "C" {
    fn thikbromu_cell(bytes: *const u8, length: usize, n: usize, p: usize) -> u64;
    fn thikbromu_word(bytes: *const u8, length: usize, n: usize, p: usize, k: usize) -> u64;
    fn thikbromu_find_word(
        bytes: *const u8,
        length: usize,
        n: usize,
        x: u64,
        k: usize,
        from: usize,
        to: usize,
    ) -> usize;
    fn thikbromu_clear(bytes: *mut u8, length: usize, k: usize);
    fn thikbromu_put_one(bytes: *mut u8, length: usize, p: usize);
    fn thikbromu_check_word(bytes: *const u8, length: usize) -> u16;
    fn thikbromu_check_word_from(word: u16, bytes: *const u8, length: usize) -> u16;
    fn thikbromu_encode(
        bytes: *const u8,
        length: usize,
        before: bool,
        cells: *mut u8,
        room: usize,
        value: *mut usize,
    ) -> u32;
    fn thikbromu_decode(cells: *const u8, length: usize, bytes: *mut u8, room: usize, value: *mut usize) -> u32;
    fn thikbromu_write_track(list: *const u8, length: usize, cells: *mut u8, room: usize, value: *mut usize) -> u32;
    fn thikbromu_step(residual: *mut i32, timing: u32, offset: *mut i32, value: *mut usize) -> u32;
    fn thikbromu_separate(
        timings: *const u32,
        length: usize,
        cells: *mut u8,
        room: usize,
        border_pulses: *mut usize,
        value: *mut usize,
    ) -> u32;
    fn thikbromu_histogram(timings: *const u32, length: usize, counts: *mut u32, room: usize, value: *mut usize)
        -> u32;
    fn thikbromu_revolution_timings(
        block: *const u8,
        length: usize,
        revolutions: u32,
        revolution: u32,
        timings: *mut u32,
        room: usize,
        border_pulses: *mut usize,
        value: *mut usize,
    ) -> u32;
    fn thikbromu_revolution_portion(
        state: *mut u32,
        portion: *const u8,
        length: usize,
        timings: *mut u32,
        room: usize,
        value: *mut usize,
    ) -> u32;
    fn thikbromu_revolution_cells(
        block: *const u8,
        length: usize,
        revolutions: u32,
        revolution: u32,
        cells: *mut u8,
        room: usize,
        border_pulses: *mut usize,
        value: *mut usize,
    ) -> u32;
    fn thikbromu_image_header(
        first: *const u8,
        length: usize,
        image_length: usize,
        numbers: *mut u32,
        room: usize,
        value: *mut usize,
    ) -> u32;
    fn thikbromu_image_entries(
        first: *const u8,
        length: usize,
        image_length: usize,
        places: *mut u32,
        room: usize,
        value: *mut usize,
    ) -> u32;
    fn thikbromu_image_sum(sum: u32, portion: *const u8, length: usize) -> u32;
    fn thikbromu_image_check(first: *const u8, length: usize, image_length: usize, sum: u32, value: *mut usize) -> u32;
    fn thikbromu_sector(
        bytes: *const u8,
        length: usize,
        n: usize,
        track: u32,
        side: u32,
        index: usize,
        numbers: *mut u32,
        room: usize,
        value: *mut usize,
    ) -> u32;
    fn thikbromu_read_out(
        bytes: *const u8,
        length: usize,
        n: usize,
        track: u32,
        side: u32,
        index: usize,
        buffer: *mut u8,
        room: usize,
        good: *mut u32,
        value: *mut usize,
    ) -> u32;
    fn thikbromu_sector_image(
        bytes: *const u8,
        length: usize,
        n: usize,
        track: u32,
        side: u32,
        image: *mut u8,
        room: usize,
        value: *mut usize,
    ) -> u32;
    fn thikbromu_findings(
        bytes: *const u8,
        length: usize,
        n: usize,
        track: u32,
        side: u32,
        list: *mut u32,
        room: usize,
        value: *mut usize,
    ) -> u32;
    fn thikbromu_finding_records(
        bytes: *const u8,
        length: usize,
        n: usize,
        track: u32,
        side: u32,
        list: *mut FindingRecord,
        room: usize,
        value: *mut usize,
    ) -> u32;
    fn thikbromu_compare_reads(
        first: *const u8,
        first_length: usize,
        second: *const u8,
        second_length: usize,
        data_mark: u32,
        numbers: *mut u32,
        room: usize,
        value: *mut usize,
    ) -> u32;
    fn thikbromu_good_read(
        first: *const u8,
        first_length: usize,
        second: *const u8,
        second_length: usize,
        data_mark: u32,
        which: *mut usize,
        value: *mut usize,
    ) -> u32;
    fn thikbromu_fm_step(residual: *mut i32, timing: u32, offset: *mut i32, value: *mut usize) -> u32;
    fn thikbromu_fm_separate(
        timings: *const u32,
        length: usize,
        cells: *mut u8,
        room: usize,
        border_pulses: *mut usize,
        value: *mut usize,
    ) -> u32;
    fn thikbromu_fm_sector(
        bytes: *const u8,
        length: usize,
        n: usize,
        track: u32,
        side: u32,
        index: usize,
        numbers: *mut u32,
        room: usize,
        value: *mut usize,
    ) -> u32;
    fn thikbromu_fm_read_out(
        bytes: *const u8,
        length: usize,
        n: usize,
        track: u32,
        side: u32,
        index: usize,
        buffer: *mut u8,
        room: usize,
        good: *mut u32,
        value: *mut usize,
    ) -> u32;
    fn thikbromu_fm_findings(
        bytes: *const u8,
        length: usize,
        n: usize,
        track: u32,
        side: u32,
        list: *mut u32,
        room: usize,
        value: *mut usize,
    ) -> u32;
    fn thikbromu_fm_finding_records(
        bytes: *const u8,
        length: usize,
        n: usize,
        track: u32,
        side: u32,
        list: *mut FindingRecord,
        room: usize,
        value: *mut usize,
    ) -> u32;
    fn thikbromu_file_cells(
        file: *const u8,
        length: usize,
        cells: *mut u8,
        room: usize,
        place: *mut u32,
        places: usize,
        value: *mut usize,
    ) -> u32;
    fn thikbromu_convert_file(file: *const u8, length: usize, out: *mut u8, out_room: usize, value: *mut usize) -> u32;
    fn thikbromu_file_listing(file: *const u8, length: usize, out: *mut u8, out_room: usize) -> usize;
    fn thikbromu_listing(
        bytes: *const u8,
        length: usize,
        n: usize,
        track: u32,
        side: u32,
        out: *mut u8,
        out_room: usize,
    ) -> usize;
    fn thikbromu_disk_page(
        tracks: *const u32,
        track_numbers: usize,
        findings: *const u32,
        finding_numbers: usize,
        out: *mut u8,
        out_room: usize,
        value: *mut usize,
    ) -> u32;
}

/// What a call answers that returns a refusal's number, or 0, and stores a value.
#[inline]
fn answer(call: impl FnOnce(&mut usize) -> u32) -> Result<usize, Refusal> {
    // Every call stores its value; one that did not would give itself away by this.
    let mut value = usize::MAX;
    match call(&mut value) {
        0 => Ok(value),
        number => Err(refusal_of(number, value)),
    }
}

#[cold]
fn refusal_of(number: u32, value: usize) -> Refusal {
    Refusal::try_from((number, value)).expect("the library gives the refusals of its table alone")
}

/// The cell at a place, 0 or 1.
#[inline]
pub fn cell(packed: &[u8], cells: usize, place: usize) -> u64 {
    // SAFETY: the address and the length are those of one slice, which is only read.
    unsafe { thikbromu_cell(packed.as_ptr(), packed.len(), cells, place) }
}

/// The word of `length` cells from `place`, the first of them its highest bit; a length above 64 counts as 64 (rule 1.6).
#[inline]
pub fn word(packed: &[u8], cells: usize, place: usize, length: usize) -> u64 {
    // SAFETY: the address and the length are those of one slice, which is only read.
    unsafe { thikbromu_word(packed.as_ptr(), packed.len(), cells, place, length) }
}

/// The least place from `from` on and before `to` at which the word of `length` cells stands; a length above 64 counts as 64. Where there
/// is none, the greater of the two (rule 1.7).
#[inline]
pub fn find_word(packed: &[u8], cells: usize, word: u64, length: usize, from: usize, to: usize) -> usize {
    // SAFETY: the address and the length are those of one slice, which is only read.
    unsafe { thikbromu_find_word(packed.as_ptr(), packed.len(), cells, word, length, from, to) }
}

/// Sets the first `count` bytes, or all where there are fewer, to 0.
#[inline]
pub fn clear(packed: &mut [u8], count: usize) {
    // SAFETY: the address and the length are those of one slice, lent to this function alone.
    unsafe { thikbromu_clear(packed.as_mut_ptr(), packed.len(), count) }
}

/// Puts a one at cell `place`, where the bytes have such a cell.
#[inline]
pub fn put_one(packed: &mut [u8], place: usize) {
    // SAFETY: the address and the length are those of one slice, lent to this function alone.
    unsafe { thikbromu_put_one(packed.as_mut_ptr(), packed.len(), place) }
}

/// The check word of bytes (rules 2.1 and 2.2).
///
/// ```
/// assert_eq!(thikbromu::check_word(&[0xA1, 0xA1, 0xA1]), 0xCDB4);
/// ```
#[inline]
pub fn check_word(bytes: &[u8]) -> u16 {
    // SAFETY: the address and the length are those of one slice, which is only read.
    unsafe { thikbromu_check_word(bytes.as_ptr(), bytes.len()) }
}

/// The check word after bytes, from the word that the bytes before them left (rule 2.3).
#[inline]
pub fn check_word_from(word: u16, bytes: &[u8]) -> u16 {
    // SAFETY: the address and the length are those of one slice, which is only read.
    unsafe { thikbromu_check_word_from(word, bytes.as_ptr(), bytes.len()) }
}

/// Codes bytes (rule 9.8). `before` is the data bit ahead of the first. Gives how many bytes of cells it wrote to the front of `cells`, two
/// for each byte; those behind keep their contents.
///
/// Refuses [`TooManyBytes`](Refusal::TooManyBytes), [`NoRoomForBytes`](Refusal::NoRoomForBytes).
#[inline]
pub fn encode(bytes: &[u8], before: bool, cells: &mut [u8]) -> Result<usize, Refusal> {
    // SAFETY: each address and length are those of one slice; `cells` and `value` are lent to this call alone.
    answer(|value| unsafe {
        thikbromu_encode(bytes.as_ptr(), bytes.len(), before, cells.as_mut_ptr(), cells.len(), value)
    })
}

/// Decodes the data cells (rule 9.9). Two bytes of cells make a byte; where their number is odd, the last is passed over. Gives how many
/// bytes it wrote to the front of `bytes`.
///
/// Refuses [`TooManyBytes`](Refusal::TooManyBytes), [`NoRoomForBytes`](Refusal::NoRoomForBytes).
#[inline]
pub fn decode(cells: &[u8], bytes: &mut [u8]) -> Result<usize, Refusal> {
    // SAFETY: each address and length are those of one slice; `bytes` and `value` are lent to this call alone.
    answer(|value| unsafe { thikbromu_decode(cells.as_ptr(), cells.len(), bytes.as_mut_ptr(), bytes.len(), value) })
}

/// The controller's command Write Track (rules 9.63 and 17.1 to 17.9): F5 gives the sync 4489 and F6 the sync 5224, F7 gives the two check bytes,
/// and every other byte is coded. The check word counts all bytes from the first F5 of the last run of them on, or from the start of the list
/// where there is none. Gives the number of cells, 16 for each byte on the track, which stand packed at the front of `cells`; the bytes behind
/// keep their contents.
///
/// Refuses [`TooLongATrack`](Refusal::TooLongATrack), [`NoRoom`](Refusal::NoRoom).
#[inline]
pub fn write_track(list: &[u8], cells: &mut [u8]) -> Result<usize, Refusal> {
    // SAFETY: each address and length are those of one slice; `cells` and `value` are lent to this call alone.
    answer(|value| unsafe { thikbromu_write_track(list.as_ptr(), list.len(), cells.as_mut_ptr(), cells.len(), value) })
}

/// A step of the separator (rules 9.5 and 9.37) on a residual that is lent: it becomes the next one. Gives the number of cells, of which
/// the last is a one and the others are zeros; it may be 0. The offset e goes to `offset`. A residual below -500 or above 499 counts as 0.
///
/// Refuses [`TimingOutOfRange`](Refusal::TimingOutOfRange), with index 0; `residual` and `offset` then stay as they are.
///
/// ```
/// let (mut residual, mut offset) = (0, 0);
/// assert_eq!(thikbromu::boundary::step(&mut residual, 4900, &mut offset), Ok(2));
/// assert_eq!((residual, offset), (450, 900));
/// ```
#[inline]
pub fn step(residual: &mut i32, timing: u32, offset: &mut i32) -> Result<usize, Refusal> {
    // SAFETY: `residual`, `offset` and `value` are lent to this call alone.
    answer(|value| unsafe { thikbromu_step(residual, timing, offset, value) })
}

/// The separator on a list of timings (rules 9.6 and 9.38), from a residual of 0. Gives the number of cells, packed at the front of `cells`.
/// Spare bits in the last byte of the cells become 0; what stands behind that byte is kept. The number of border pulses goes to
/// `border_pulses`.
///
/// Refuses [`NoTimings`](Refusal::NoTimings), [`TooManyTimings`](Refusal::TooManyTimings),
/// [`TimingOutOfRange`](Refusal::TimingOutOfRange), [`TooManyCells`](Refusal::TooManyCells),
/// [`NoRoom`](Refusal::NoRoom); `cells` and `border_pulses` then stay as they are.
#[inline]
pub fn separate(timings: &[u32], cells: &mut [u8], border_pulses: &mut usize) -> Result<usize, Refusal> {
    // SAFETY: each address and length are those of one slice; `cells`, `border_pulses` and `value` are lent to this call alone.
    answer(|value| unsafe {
        thikbromu_separate(timings.as_ptr(), timings.len(), cells.as_mut_ptr(), cells.len(), border_pulses, value)
    })
}

/// The histogram (rules 5.1 to 5.3, 9.7 and 9.35): 256 counts to the front of `counts`, or as many as it has room for. A timing t raises
/// count t / 100, rounded down, and one from 25,500 on count 255. Gives the number of timings.
///
/// Refuses [`NoTimings`](Refusal::NoTimings), [`TooManyTimings`](Refusal::TooManyTimings),
/// [`TimingOutOfRange`](Refusal::TimingOutOfRange), all counts then 0.
#[inline]
pub fn histogram(timings: &[u32], counts: &mut [u32]) -> Result<usize, Refusal> {
    // SAFETY: each address and length are those of one slice; `counts` and `value` are lent to this call alone.
    answer(|value| unsafe {
        thikbromu_histogram(timings.as_ptr(), timings.len(), counts.as_mut_ptr(), counts.len(), value)
    })
}

/// The timings of a revolution of a SuperCard Pro track block (rules 9.14 and 9.38), in nanoseconds, at the front of `timings`; those behind
/// keep their contents. `revolutions` is how many the header of the image says there are, and `revolution` the chosen one, counted from 0.
/// Gives the number of timings. The number of border pulses among them, as [`separate`] counts them, goes to `border_pulses`, however many
/// cells they give. [`TrackBlock`](crate::TrackBlock) says what a block is.
///
/// Refuses [`NotATrackBlock`](Refusal::NotATrackBlock), [`NoSuchRevolution`](Refusal::NoSuchRevolution),
/// [`NoTimings`](Refusal::NoTimings), [`TooManyTimings`](Refusal::TooManyTimings),
/// [`TimingOutOfRange`](Refusal::TimingOutOfRange), [`NoRoom`](Refusal::NoRoom) with how many timings there are; `timings` and
/// `border_pulses` then stay as they are.
#[inline]
pub fn revolution_timings(
    block: &[u8],
    revolutions: u32,
    revolution: u32,
    timings: &mut [u32],
    border_pulses: &mut usize,
) -> Result<usize, Refusal> {
    // SAFETY: each address and length are those of one slice; `timings`, `border_pulses` and `value` are lent to this call alone.
    answer(|value| unsafe {
        thikbromu_revolution_timings(
            block.as_ptr(),
            block.len(),
            revolutions,
            revolution,
            timings.as_mut_ptr(),
            timings.len(),
            border_pulses,
            value,
        )
    })
}

/// A portion of a revolution's values (rules 12.15 to 12.24), whose bytes the caller hands over in their order, a part at a time, cut
/// anywhere. The timings whose last byte is in the portion go to the front of `timings`. Gives their number. As long as no call is refused,
/// they are together those of the whole revolution.
///
/// The state is one number, which the caller keeps from call to call; it is 0 before the first portion, and one that no call leaves counts
/// as 0. [`RevolutionReader`](crate::RevolutionReader) says what it is. Beside a refusal it is kept.
///
/// Refuses [`TooManyTimings`](Refusal::TooManyTimings) and [`TimingOutOfRange`](Refusal::TimingOutOfRange), with numbers that count all
/// timings of the revolution so far, [`NoRoom`](Refusal::NoRoom) with how many timings end in this portion.
#[inline]
pub fn revolution_portion(state: &mut u32, portion: &[u8], timings: &mut [u32]) -> Result<usize, Refusal> {
    // SAFETY: each address and length are those of one slice; `state`, `timings` and `value` are lent to this call alone.
    answer(|value| unsafe {
        thikbromu_revolution_portion(state, portion.as_ptr(), portion.len(), timings.as_mut_ptr(), timings.len(), value)
    })
}

/// The cells of a revolution of a SuperCard Pro track block (rules 9.16 and 9.38): its timings go to the separator. Gives the number of
/// cells, packed at the front of `cells` as [`separate`] leaves them. The number of border pulses goes to `border_pulses`, which is kept
/// beside a refusal. The timings take 262,144 bytes of the stack.
///
/// Refuses [`NotATrackBlock`](Refusal::NotATrackBlock), [`NoSuchRevolution`](Refusal::NoSuchRevolution),
/// [`NoTimings`](Refusal::NoTimings), [`TooManyTimings`](Refusal::TooManyTimings),
/// [`TimingOutOfRange`](Refusal::TimingOutOfRange), [`TooManyCells`](Refusal::TooManyCells), [`NoRoom`](Refusal::NoRoom) with the bytes
/// that the cells need.
#[inline]
pub fn revolution_cells(
    block: &[u8],
    revolutions: u32,
    revolution: u32,
    cells: &mut [u8],
    border_pulses: &mut usize,
) -> Result<usize, Refusal> {
    // SAFETY: each address and length are those of one slice; `cells`, `border_pulses` and `value` are lent to this call alone.
    answer(|value| unsafe {
        thikbromu_revolution_cells(
            block.as_ptr(),
            block.len(),
            revolutions,
            revolution,
            cells.as_mut_ptr(),
            cells.len(),
            border_pulses,
            value,
        )
    })
}

/// A sector (rules 6.5, 9.2 and 9.34). Its index counts from 0, in the order of their places. Its record goes to the front of `numbers`, or
/// as much of it as there is room for: the thirteen fields of [`Sector`](crate::Sector), in their order, yes as 1 and no as 0. Gives the
/// number of sectors.
///
/// Refuses [`TrackOrSide`](Refusal::TrackOrSide), [`CellCount`](Refusal::CellCount), [`TooFewBytes`](Refusal::TooFewBytes),
/// [`TooManySectors`](Refusal::TooManySectors), [`NoSuchSector`](Refusal::NoSuchSector), all numbers then 0.
#[inline]
pub fn sector(
    packed: &[u8],
    cells: usize,
    track: u32,
    side: u32,
    index: usize,
    numbers: &mut [u32],
) -> Result<usize, Refusal> {
    // SAFETY: each address and length are those of one slice; `numbers` and `value` are lent to this call alone.
    answer(|value| unsafe {
        thikbromu_sector(
            packed.as_ptr(),
            packed.len(),
            cells,
            track,
            side,
            index,
            numbers.as_mut_ptr(),
            numbers.len(),
            value,
        )
    })
}

/// Reads out the sector of an index to the front of `buffer` (rules 6.18, 9.4 and 9.32). Gives the number of bytes, and stores in `good` 1
/// where their check is good, else 0. A bad check does not refuse the call.
///
/// Refuses [`TrackOrSide`](Refusal::TrackOrSide), [`CellCount`](Refusal::CellCount), [`TooFewBytes`](Refusal::TooFewBytes),
/// [`TooManySectors`](Refusal::TooManySectors), [`NoSuchSector`](Refusal::NoSuchSector), [`NoData`](Refusal::NoData),
/// [`NoRoomForBytes`](Refusal::NoRoomForBytes).
#[inline]
pub fn read_out(
    packed: &[u8],
    cells: usize,
    track: u32,
    side: u32,
    index: usize,
    buffer: &mut [u8],
    good: &mut u32,
) -> Result<usize, Refusal> {
    // SAFETY: each address and length are those of one slice; `buffer`, `good` and `value` are lent to this call alone.
    answer(|value| unsafe {
        thikbromu_read_out(
            packed.as_ptr(),
            packed.len(),
            cells,
            track,
            side,
            index,
            buffer.as_mut_ptr(),
            buffer.len(),
            good,
            value,
        )
    })
}

/// The plain image of a track (rules 9.61 and 15.1 to 15.5) at the front of `image`: the 512 data bytes of sector 1, then those of sector 2, and
/// so on up to 9. Gives how many bytes that is, [`SECTOR_IMAGE_BYTES`]. [`Track::sector_image`](crate::Track::sector_image) says which tracks
/// have one.
///
/// Refuses [`TrackOrSide`](Refusal::TrackOrSide), [`CellCount`](Refusal::CellCount), [`TooFewBytes`](Refusal::TooFewBytes),
/// [`TooManySectors`](Refusal::TooManySectors), [`NoPlainImage`](Refusal::NoPlainImage), [`NoRoomForBytes`](Refusal::NoRoomForBytes).
#[inline]
pub fn sector_image(packed: &[u8], cells: usize, track: u32, side: u32, image: &mut [u8]) -> Result<usize, Refusal> {
    // SAFETY: each address and length are those of one slice; `image` and `value` are lent to this call alone.
    answer(|value| unsafe {
        thikbromu_sector_image(
            packed.as_ptr(),
            packed.len(),
            cells,
            track,
            side,
            image.as_mut_ptr(),
            image.len(),
            value,
        )
    })
}

/// The findings (rules 7.32, 7.34 and 9.1) at the front of the list, in the order of their kinds, those of one kind by their places. Each
/// has four numbers: its kind, level, place and detail. Gives the number of findings.
///
/// Refuses [`TrackOrSide`](Refusal::TrackOrSide), [`CellCount`](Refusal::CellCount), [`TooFewBytes`](Refusal::TooFewBytes),
/// [`TooManySectors`](Refusal::TooManySectors), [`ListTooShort`](Refusal::ListTooShort).
#[inline]
pub fn findings(packed: &[u8], cells: usize, track: u32, side: u32, list: &mut [u32]) -> Result<usize, Refusal> {
    // SAFETY: each address and length are those of one slice; `list` and `value` are lent to this call alone.
    answer(|value| unsafe {
        thikbromu_findings(packed.as_ptr(), packed.len(), cells, track, side, list.as_mut_ptr(), list.len(), value)
    })
}

/// As [`findings`], in records.
#[inline]
pub fn finding_records(
    packed: &[u8],
    cells: usize,
    track: u32,
    side: u32,
    list: &mut [FindingRecord],
) -> Result<usize, Refusal> {
    // SAFETY: each address and length are those of one slice, and a record has C's layout, all contents of which are values of its type;
    // `list` and `value` are lent to this call alone.
    answer(|value| unsafe {
        thikbromu_finding_records(
            packed.as_ptr(),
            packed.len(),
            cells,
            track,
            side,
            list.as_mut_ptr(),
            list.len(),
            value,
        )
    })
}

/// Compares two reads of one sector (rules 9.51 and 9.53). Gives how many findings they have: 0 where they are equal, and else 1. Its four
/// numbers go to the front of `numbers`, or as many as there is room for: kind, level, the least index at which the reads differ, and how many
/// bits differ. They are 0 where there is no finding. [`compare_reads`](crate::compare_reads) says what a read is. Of a data mark above 255
/// the low byte counts.
///
/// Refuses [`LengthsDiffer`](Refusal::LengthsDiffer), [`NotASectorLength`](Refusal::NotASectorLength), all numbers then 0.
#[inline]
pub fn compare_reads(first: &[u8], second: &[u8], data_mark: u32, numbers: &mut [u32]) -> Result<usize, Refusal> {
    // SAFETY: each address and length are those of one slice; `numbers` and `value` are lent to this call alone.
    answer(|value| unsafe {
        thikbromu_compare_reads(
            first.as_ptr(),
            first.len(),
            second.as_ptr(),
            second.len(),
            data_mark,
            numbers.as_mut_ptr(),
            numbers.len(),
            value,
        )
    })
}

/// Which of two reads has a good check (rules 9.52 and 9.54): `which` becomes 0 for the first, also where both are good, and 1 for the second.
/// Gives how many data bytes it has. Both are 0 where neither check is good. Of a data mark above 255 the low byte counts.
///
/// Refuses [`LengthsDiffer`](Refusal::LengthsDiffer), [`NotASectorLength`](Refusal::NotASectorLength), `which` then 0.
#[inline]
pub fn good_read(first: &[u8], second: &[u8], data_mark: u32, which: &mut usize) -> Result<usize, Refusal> {
    // SAFETY: each address and length are those of one slice; `which` and `value` are lent to this call alone.
    answer(|value| unsafe {
        thikbromu_good_read(first.as_ptr(), first.len(), second.as_ptr(), second.len(), data_mark, which, value)
    })
}

/// As [`step`], in single density (rules 3.19 to 3.22): a cell has 4,000 ns, and a residual below -1,000 or above 999 counts as 0.
///
/// ```
/// let (mut residual, mut offset) = (0, 0);
/// assert_eq!(thikbromu::boundary::fm_step(&mut residual, 9_800, &mut offset), Ok(2));
/// assert_eq!((residual, offset), (900, 1_800));
/// ```
#[inline]
pub fn fm_step(residual: &mut i32, timing: u32, offset: &mut i32) -> Result<usize, Refusal> {
    // SAFETY: `residual`, `offset` and `value` are lent to this call alone.
    answer(|value| unsafe { thikbromu_fm_step(residual, timing, offset, value) })
}

/// As [`separate`], in single density: cells of 4,000 ns, and border pulses from an offset of 1,804 ns on, early or late.
#[inline]
pub fn fm_separate(timings: &[u32], cells: &mut [u8], border_pulses: &mut usize) -> Result<usize, Refusal> {
    // SAFETY: each address and length are those of one slice; `cells`, `border_pulses` and `value` are lent to this call alone.
    answer(|value| unsafe {
        thikbromu_fm_separate(timings.as_ptr(), timings.len(), cells.as_mut_ptr(), cells.len(), border_pulses, value)
    })
}

/// As [`sector`], of a track of single density (rules 6.20 to 6.26).
#[inline]
pub fn fm_sector(
    packed: &[u8],
    cells: usize,
    track: u32,
    side: u32,
    index: usize,
    numbers: &mut [u32],
) -> Result<usize, Refusal> {
    // SAFETY: each address and length are those of one slice; `numbers` and `value` are lent to this call alone.
    answer(|value| unsafe {
        thikbromu_fm_sector(
            packed.as_ptr(),
            packed.len(),
            cells,
            track,
            side,
            index,
            numbers.as_mut_ptr(),
            numbers.len(),
            value,
        )
    })
}

/// As [`read_out`], of a track of single density.
#[inline]
pub fn fm_read_out(
    packed: &[u8],
    cells: usize,
    track: u32,
    side: u32,
    index: usize,
    buffer: &mut [u8],
    good: &mut u32,
) -> Result<usize, Refusal> {
    // SAFETY: each address and length are those of one slice; `buffer`, `good` and `value` are lent to this call alone.
    answer(|value| unsafe {
        thikbromu_fm_read_out(
            packed.as_ptr(),
            packed.len(),
            cells,
            track,
            side,
            index,
            buffer.as_mut_ptr(),
            buffer.len(),
            good,
            value,
        )
    })
}

/// As [`findings`], of a track of single density (rules 7.44 to 7.47).
#[inline]
pub fn fm_findings(packed: &[u8], cells: usize, track: u32, side: u32, list: &mut [u32]) -> Result<usize, Refusal> {
    // SAFETY: each address and length are those of one slice; `list` and `value` are lent to this call alone.
    answer(|value| unsafe {
        thikbromu_fm_findings(packed.as_ptr(), packed.len(), cells, track, side, list.as_mut_ptr(), list.len(), value)
    })
}

/// As [`finding_records`], of a track of single density.
#[inline]
pub fn fm_finding_records(
    packed: &[u8],
    cells: usize,
    track: u32,
    side: u32,
    list: &mut [FindingRecord],
) -> Result<usize, Refusal> {
    // SAFETY: each address and length are those of one slice, and a record has C's layout, all contents of which are values of its type;
    // `list` and `value` are lent to this call alone.
    answer(|value| unsafe {
        thikbromu_fm_finding_records(
            packed.as_ptr(),
            packed.len(),
            cells,
            track,
            side,
            list.as_mut_ptr(),
            list.len(),
            value,
        )
    })
}

/// The cells of a track file (rules 9.11, 9.33 and 10.16), packed at the front of `cells`; bytes behind them keep their contents. Spare bits
/// of the last byte are the file's. Gives the number of cells, and stores the track and the side at the front of `place`, or as many of the
/// two as there is room for. [`TrackFile`](crate::TrackFile) says what a track file is. The cells are first read into 16,384 bytes of the
/// stack.
///
/// Refuses at once, whatever follows (rule 10.4), [`NotATrackFile`](Refusal::NotATrackFile) where the place's count is not 2,
/// [`CellCount`](Refusal::CellCount) where there are more than 131,072 cells, [`FluxSection`](Refusal::FluxSection) where the count of
/// timings is not 0; after these [`NotATrackFile`](Refusal::NotATrackFile), and last [`NoRoom`](Refusal::NoRoom) with the bytes that the
/// cells need.
#[inline]
pub fn file_cells(file: &[u8], cells: &mut [u8], place: &mut [u32]) -> Result<usize, Refusal> {
    // SAFETY: each address and length are those of one slice; `cells`, `place` and `value` are lent to this call alone.
    answer(|value| unsafe {
        thikbromu_file_cells(
            file.as_ptr(),
            file.len(),
            cells.as_mut_ptr(),
            cells.len(),
            place.as_mut_ptr(),
            place.len(),
            value,
        )
    })
}

/// Makes a track file of an old one with flux timings, at the front of `out`; bytes behind it keep their contents. Gives its length, which is
/// at most [`LONGEST_FILE`](crate::LONGEST_FILE). It has the track and the side of the old file, which are not judged, the cells that
/// [`separate`] makes of the timings, and 0 as the count of timings; it is listed as the old file was.
///
/// Refuses at once, whatever follows, [`NotATrackFile`](Refusal::NotATrackFile) where the place's count is not 2 or that of the cells is not
/// 0, [`TooManyTimings`](Refusal::TooManyTimings); after these [`NotATrackFile`](Refusal::NotATrackFile),
/// [`TimingOutOfRange`](Refusal::TimingOutOfRange), [`TooManyCells`](Refusal::TooManyCells), [`CellCount`](Refusal::CellCount) with 0 where
/// no cells come of the timings, and last [`NoRoom`](Refusal::NoRoom) with the length of the new file.
#[inline]
pub fn convert_file(file: &[u8], out: &mut [u8]) -> Result<usize, Refusal> {
    // SAFETY: each address and length are those of one slice; `out` and `value` are lent to this call alone.
    answer(|value| unsafe { thikbromu_convert_file(file.as_ptr(), file.len(), out.as_mut_ptr(), out.len(), value) })
}

/// The listing of a track file (rules 9.13, 11.8 and 11.9) at the front of `out`, or as much of it as there is room for. Gives the length of
/// the whole, which is at most [`LONGEST_LISTING`](crate::LONGEST_LISTING). Of a refused file it is one line, the word `refused` and the
/// number: the file is refused as [`file_cells`] refuses it, without [`NoRoom`](Refusal::NoRoom), and then as its track is.
#[inline]
pub fn file_listing(file: &[u8], out: &mut [u8]) -> usize {
    // SAFETY: each address and length are those of one slice; `out` is lent to this call alone.
    unsafe { thikbromu_file_listing(file.as_ptr(), file.len(), out.as_mut_ptr(), out.len()) }
}

/// The listing of a track (rules 9.12 and 11.1 to 11.7), in the same way.
#[inline]
pub fn listing(packed: &[u8], cells: usize, track: u32, side: u32, out: &mut [u8]) -> usize {
    // SAFETY: each address and length are those of one slice; `out` is lent to this call alone.
    unsafe { thikbromu_listing(packed.as_ptr(), packed.len(), cells, track, side, out.as_mut_ptr(), out.len()) }
}

/// The header of a SuperCard Pro image (rules 9.71 and 19.1 to 19.7), of which `first` has the first 688 bytes or more, and which has `image_length`
/// bytes in all. Its ten numbers go to the front of `numbers`, or as many as there is room for: version, disk type, revolutions, first track, last
/// track, flags, cell width, heads, resolution and check sum. Gives 10. [`ImageHeader`](crate::ImageHeader) says what they are.
///
/// Refuses [`NotAnImage`](Refusal::NotAnImage), [`ImageHeader`](Refusal::ImageHeader); the numbers are then kept.
#[inline]
pub fn image_header(first: &[u8], image_length: usize, numbers: &mut [u32]) -> Result<usize, Refusal> {
    // SAFETY: each address and length are those of one slice; `numbers` and `value` are lent to this call alone.
    answer(|value| unsafe {
        thikbromu_image_header(first.as_ptr(), first.len(), image_length, numbers.as_mut_ptr(), numbers.len(), value)
    })
}

/// The entries of a SuperCard Pro image (rules 9.72 and 19.8 to 19.12), of which `first` has the first 688 bytes or more, and which has
/// `image_length` bytes in all. Two numbers for each of the 168 entries go to the front of `places`, or as many as there is room for: where the
/// block begins, and before what it has to end, both counted in bytes from the image's beginning; 0 and 0 where the track is not there. Entry
/// 2 T + H is that of track T and side H. Gives how many tracks are there.
///
/// Refuses [`NotAnImage`](Refusal::NotAnImage), [`ImageHeader`](Refusal::ImageHeader), [`ImageEntry`](Refusal::ImageEntry); the places are then kept.
#[inline]
pub fn image_entries(first: &[u8], image_length: usize, places: &mut [u32]) -> Result<usize, Refusal> {
    // SAFETY: each address and length are those of one slice; `places` and `value` are lent to this call alone.
    answer(|value| unsafe {
        thikbromu_image_entries(first.as_ptr(), first.len(), image_length, places.as_mut_ptr(), places.len(), value)
    })
}

/// The sum of an image's bytes after a portion more, from the sum that the bytes before it left (rules 9.73 and 19.13), modulo 2^32. An image's
/// sum begins with 0 and goes over all of its bytes from byte 16 on, in portions that are cut anywhere.
///
/// ```
/// let sum = thikbromu::image_sum(0, &[250, 6]);
/// assert_eq!(thikbromu::image_sum(sum, &[1]), 257);
/// ```
#[inline]
pub fn image_sum(sum: u32, portion: &[u8]) -> u32 {
    // SAFETY: the address and the length are those of one slice, which is only read.
    unsafe { thikbromu_image_sum(sum, portion.as_ptr(), portion.len()) }
}

/// Whether the sum of an image's bytes is the one in its header (rules 9.74 and 19.14). Gives the sum. An image whose flags say that it may be
/// written to is not judged by its sum.
///
/// Refuses [`NotAnImage`](Refusal::NotAnImage), [`ImageHeader`](Refusal::ImageHeader), [`ImageCheckSum`](Refusal::ImageCheckSum).
#[inline]
pub fn image_check(first: &[u8], image_length: usize, sum: u32) -> Result<usize, Refusal> {
    // SAFETY: the address and the length are those of one slice, which is only read; `value` is lent to this call alone.
    answer(|value| unsafe { thikbromu_image_check(first.as_ptr(), first.len(), image_length, sum, value) })
}

/// The page of a disk (rules 9.62 and 16.1 to 16.18) at the front of `out`, or as much of it as there is room for. Gives the length of the whole.
/// [`disk_page`](crate::disk_page) says what stands on it.
///
/// `tracks` has three numbers for each track, in any order: the track, the side, and how many findings it has. `findings` has four for each
/// finding, as [`findings`] writes them: those of the first track, then those of the second, and so on.
///
/// Refuses [`TooManyTracks`](Refusal::TooManyTracks), [`TrackOrSide`](Refusal::TrackOrSide), [`TrackGivenTwice`](Refusal::TrackGivenTwice),
/// [`NotTheirFindings`](Refusal::NotTheirFindings), the last also where the numbers are no whole tracks or no whole findings (rule 16.6).
#[inline]
pub fn disk_page(tracks: &[u32], findings: &[u32], out: &mut [u8]) -> Result<usize, Refusal> {
    // SAFETY: each address and length are those of one slice; `out` and `value` are lent to this call alone.
    answer(|value| unsafe {
        thikbromu_disk_page(
            tracks.as_ptr(),
            tracks.len(),
            findings.as_ptr(),
            findings.len(),
            out.as_mut_ptr(),
            out.len(),
            value,
        )
    })
}
