//! SuperCard Pro track blocks: the timings and the cells of a revolution, and its values in portions.

use crate::boundary;
use crate::flux::{Cells, MOST_TIMINGS};
use crate::refusal::Refusal;
use crate::track::MOST_CELL_BYTES;

/// A SuperCard Pro track block (rules 12.1 to 12.7): the three letters TRK and a track number; then a table, which has for each revolution
/// its index time, how many values it has, and at which byte of the block they begin, as numbers of four bytes, the lowest first; then the
/// values, two bytes each, the higher first. Their unit is 25 ns, and a value of 0 makes the value after it longer by 65,536 units. How many
/// revolutions there are is said by the header of the image.
///
/// Nothing is judged when it is made. The calls on a revolution, which is counted from 0, judge the block. They refuse
/// [`NotATrackBlock`](Refusal::NotATrackBlock) by rules 12.8 to 12.11: the letters are others, bytes of the table are missing, or a
/// revolution, this one or another, has an offset within the table, values that do not all lie in the block, or a 0 as its last value. Then
/// come [`NoSuchRevolution`](Refusal::NoSuchRevolution), [`NoTimings`](Refusal::NoTimings), [`TooManyTimings`](Refusal::TooManyTimings) and
/// [`TimingOutOfRange`](Refusal::TimingOutOfRange), in this order, before what they name themselves. Each revolution stands alone: the end
/// of one adds nothing to the next. In an image that the device writes, revolution 0 begins at the index, and not at a flux transition: its
/// cells there may be wrong.
///
/// One revolution of three values, which stand at byte 16, where the table ends:
///
/// ```
/// use thikbromu::{Refusal, TrackBlock};
///
/// let table = [0, 0, 0, 0, 3, 0, 0, 0, 16, 0, 0, 0];
/// let bytes = [&b"TRK\x05"[..], &table, &[0, 160, 0, 0, 0, 1]].concat();
/// let block = TrackBlock::new(&bytes, 1);
/// // 160 times 25 ns, and 65,537 times 25 ns.
/// assert_eq!(block.timings(0)?.list, [4_000, 1_638_425]);
/// // The second ends 425 ns after the centre of its window, which is far from the border.
/// assert_eq!(block.timings(0)?.border_pulses, 0);
/// assert_eq!(block.timings(1), Err(Refusal::NoSuchRevolution));
/// // 2 cells of 2,000 ns, and 819.
/// assert_eq!(block.cells(0)?.count, 821);
/// // Too few for a track.
/// assert_eq!(block.cells(0)?.track(5, 0).listing(), "refused 2\n");
/// # Ok::<(), Refusal>(())
/// ```
#[derive(Clone, Copy, Debug)]
pub struct TrackBlock<'a> {
    bytes: &'a [u8],
    revolutions: u32,
}

/// The timings of a revolution.
#[derive(Clone, Debug, PartialEq, Eq)]
pub struct Timings {
    /// The timings, in nanoseconds.
    pub list: Vec<u32>,
    /// The number of border pulses among them (rule 3.17), in double density, from a residual of 0.
    pub border_pulses: usize,
}

impl<'a> TrackBlock<'a> {
    /// The block of these bytes, with as many revolutions as the header of the image says.
    pub const fn new(bytes: &'a [u8], revolutions: u32) -> TrackBlock<'a> {
        TrackBlock { bytes, revolutions }
    }

    /// The bytes of the block.
    pub const fn bytes(&self) -> &'a [u8] {
        self.bytes
    }

    /// The number of revolutions.
    pub const fn revolutions(&self) -> u32 {
        self.revolutions
    }

    /// The timings of a revolution, with the number of their border pulses, however many cells they give. The list has room for the most
    /// timings, so that [`NoRoom`](Refusal::NoRoom) is never given.
    pub fn timings(&self, revolution: u32) -> Result<Timings, Refusal> {
        let mut list = vec![0; MOST_TIMINGS];
        let mut border_pulses = 0;
        let count =
            boundary::revolution_timings(self.bytes, self.revolutions, revolution, &mut list, &mut border_pulses)?;
        list.truncate(count);
        Ok(Timings { list, border_pulses })
    }

    /// The cells that the separator makes of a revolution's timings, in double density; [`Cells::track`] makes a track of them. There is
    /// room for the most cells, so that [`NoRoom`](Refusal::NoRoom) is never given. Refuses [`TooManyCells`](Refusal::TooManyCells). Cells
    /// of single density come of the [timings](TrackBlock::timings) by
    /// [`separate_in_density_to_vec`](crate::separate_in_density_to_vec).
    pub fn cells(&self, revolution: u32) -> Result<Cells, Refusal> {
        let mut packed = vec![0; MOST_CELL_BYTES];
        let mut border_pulses = 0;
        let count =
            boundary::revolution_cells(self.bytes, self.revolutions, revolution, &mut packed, &mut border_pulses)?;
        packed.truncate(count.div_ceil(8));
        Ok(Cells { packed, count, border_pulses })
    }
}

/// The state of a revolution whose values come in portions, cut anywhere (rules 12.15 to 12.24). It is taken on by value, a portion at a
/// time.
///
/// It is one number: held + 257 * (zeros + 8 * timings). Held is 0, or 1 more than the first byte of a value whose second is still to come;
/// zeros is how many stand before the next value, counted up to 7; timings is how many have ended, at most 65,536. A number that no call
/// leaves is taken on as if it were 0.
///
/// ```
/// use thikbromu::RevolutionReader;
///
/// let mut list = [0; 2];
/// // The values 0 and 1 are 65,537 units of 25 ns. The first portion ends no timing.
/// let taken = RevolutionReader::new().take(&[0, 0, 0], &mut list);
/// assert_eq!(taken.timings, Ok(0));
/// let taken = taken.next.take(&[1, 0, 160], &mut list);
/// assert_eq!(taken.timings, Ok(2));
/// assert_eq!(list, [1_638_425, 4_000]);
/// ```
#[derive(Clone, Copy, Debug, Default, PartialEq, Eq, Hash)]
pub struct RevolutionReader {
    number: u32,
}

/// What taking a portion hands back.
#[derive(Clone, Copy, Debug, PartialEq, Eq)]
pub struct TakenPortion {
    /// The number of timings that end in the portion, which stand at the front of the list.
    pub timings: Result<usize, Refusal>,
    /// The next state; beside a refusal, the one that came.
    pub next: RevolutionReader,
}

impl RevolutionReader {
    /// The state before the first portion.
    pub const fn new() -> RevolutionReader {
        RevolutionReader { number: 0 }
    }

    /// The state of a number.
    pub const fn from_number(number: u32) -> RevolutionReader {
        RevolutionReader { number }
    }

    /// The number of the state.
    pub const fn number(self) -> u32 {
        self.number
    }

    /// Takes a portion: the timings whose last byte is in it go to the front of `timings`, and those behind keep their contents. As long as
    /// no portion is refused, they are together those of the whole revolution. No portion is the last, so none is refused with 6, 16 or 17:
    /// zeros or half a value at the very end of a revolution give nothing.
    ///
    /// Refuses [`TooManyTimings`](Refusal::TooManyTimings) and [`TimingOutOfRange`](Refusal::TimingOutOfRange), with numbers that count all
    /// timings of the revolution so far, [`NoRoom`](Refusal::NoRoom) with how many timings end in this portion. The list is then kept.
    #[inline]
    pub fn take(self, portion: &[u8], timings: &mut [u32]) -> TakenPortion {
        let mut number = self.number;
        let timings = boundary::revolution_portion(&mut number, portion, timings);
        TakenPortion { timings, next: RevolutionReader { number } }
    }
}
