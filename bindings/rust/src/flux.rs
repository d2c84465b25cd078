//! The separator and the histogram.

use crate::boundary;
use crate::density::Density;
use crate::refusal::Refusal;
use crate::track::{Track, MOST_CELL_BYTES};

/// The shortest timing, in nanoseconds.
pub const SHORTEST_TIMING: u32 = 1;

/// The longest timing, in nanoseconds.
pub const LONGEST_TIMING: u32 = 10_000_000;

/// The most timings of one list.
pub const MOST_TIMINGS: usize = 65_536;

/// The counts of a histogram.
pub const HISTOGRAM_COUNTS: usize = 256;

/// The separator's state (rules 3.2 and 3.6), with the density that it steps in. A step makes the next state of a state and a timing.
#[derive(Clone, Copy, Debug, Default, PartialEq, Eq)]
pub struct Separator {
    density: Density,
    residual: i32,
}

/// What a step gives.
#[derive(Clone, Copy, Debug, PartialEq, Eq)]
pub struct Step {
    /// The number of cells, which may be 0. The last of them is a one, the others are zeros.
    pub cells: usize,
    /// The offset e, in nanoseconds: how far the pulse lies from the centre of its window (rule 3.15). At -902 and below and at 902 and
    /// above it is a border pulse (rule 3.16); in single density at -1,804 and below and at 1,804 and above (rule 3.21).
    pub offset: i32,
}

/// What a step by value hands back.
#[derive(Clone, Copy, Debug, PartialEq, Eq)]
pub struct Stepped {
    /// What the step gives.
    pub step: Result<Step, Refusal>,
    /// The next state; beside a refusal, the one that came.
    pub next: Separator,
}

impl Separator {
    /// The state before the first timing, in double density: the residual is 0.
    pub const fn new() -> Separator {
        Separator::with_residual(0)
    }

    /// A state with a residual, in double density. One below -500 or above 499 counts as 0 in a step.
    pub const fn with_residual(residual: i32) -> Separator {
        Separator { density: Density::Double, residual }
    }

    /// The state with its residual, in this density. In single density a residual below -1,000 or above 999 counts as 0 in a step (rule
    /// 3.20).
    ///
    /// ```
    /// use thikbromu::{Density, Separator, Step};
    ///
    /// let stepped = Separator::new().in_density(Density::Single).step(9_800);
    /// assert_eq!(stepped.step, Ok(Step { cells: 2, offset: 1_800 }));
    /// assert_eq!(stepped.next.residual(), 900);
    /// ```
    pub const fn in_density(self, density: Density) -> Separator {
        Separator { density, residual: self.residual }
    }

    /// The density that it steps in, which a step keeps.
    pub const fn density(self) -> Density {
        self.density
    }

    /// The residual, in nanoseconds.
    pub const fn residual(self) -> i32 {
        self.residual
    }

    /// Steps by one timing (rules 3.3 and 3.8). Refuses [`TimingOutOfRange`](Refusal::TimingOutOfRange), with index 0.
    ///
    /// ```
    /// use thikbromu::{Separator, Step};
    ///
    /// let stepped = Separator::new().step(4900);
    /// assert_eq!(stepped.step, Ok(Step { cells: 2, offset: 900 }));
    /// assert_eq!(stepped.next.residual(), 450);
    /// ```
    #[inline]
    pub fn step(self, timing: u32) -> Stepped {
        let mut next = self;
        let step = next.step_in_place(timing);
        Stepped { step, next }
    }

    /// Steps by one timing, leaves the next state in this one, and gives the number of cells with the offset (rule 3.9). It answers as
    /// [`step`](Separator::step) does; beside a refusal the state is kept.
    #[inline]
    pub fn step_in_place(&mut self, timing: u32) -> Result<Step, Refusal> {
        let step = match self.density {
            Density::Single => boundary::fm_step,
            Density::Double => boundary::step,
        };
        let mut offset = 0;
        let cells = step(&mut self.residual, timing, &mut offset)?;
        Ok(Step { cells, offset })
    }
}

/// Cells that the separator made.
#[derive(Clone, Debug, PartialEq, Eq)]
pub struct Cells {
    /// The packed cells (rule 1.3). Spare bits of the last byte are 0.
    pub packed: Vec<u8>,
    /// The number of cells.
    pub count: usize,
    /// The number of border pulses among the timings (rule 3.17).
    pub border_pulses: usize,
}

impl Cells {
    /// The track of these cells, at this track and side of the drive. Cells of single density are read by [`Track::in_density`].
    pub fn track(&self, track: u32, side: u32) -> Track<'_> {
        Track::new(&self.packed, self.count, track, side)
    }
}

/// What the separator gives of a list of timings.
#[derive(Clone, Copy, Debug, PartialEq, Eq)]
pub struct Separation {
    /// The number of cells.
    pub cells: usize,
    /// The number of border pulses (rule 3.17).
    pub border_pulses: usize,
}

/// The separator on a list of timings (rule 9.6), from a residual of 0, in double density: the cells are packed at the front of `cells`.
/// Spare bits in the last byte of the cells become 0; what stands behind that byte is kept.
///
/// Refuses [`NoTimings`](Refusal::NoTimings), [`TooManyTimings`](Refusal::TooManyTimings),
/// [`TimingOutOfRange`](Refusal::TimingOutOfRange), [`TooManyCells`](Refusal::TooManyCells),
/// [`NoRoom`](Refusal::NoRoom).
#[inline]
pub fn separate(timings: &[u32], cells: &mut [u8]) -> Result<Separation, Refusal> {
    separate_in_density(Density::Double, timings, cells)
}

/// As [`separate`], in this density (rules 3.19 to 3.22).
///
/// ```
/// use thikbromu::{separate_in_density, Density, Separation};
///
/// // Two cells of single density, and then three: 01, 001.
/// let mut cells = [0];
/// let separation = separate_in_density(Density::Single, &[8_000, 12_000], &mut cells)?;
/// assert_eq!((separation, cells), (Separation { cells: 5, border_pulses: 0 }, [0b0100_1000]));
/// # Ok::<(), thikbromu::Refusal>(())
/// ```
#[inline]
pub fn separate_in_density(density: Density, timings: &[u32], cells: &mut [u8]) -> Result<Separation, Refusal> {
    let separate = match density {
        Density::Single => boundary::fm_separate,
        Density::Double => boundary::separate,
    };
    let mut border_pulses = 0;
    let cells = separate(timings, cells, &mut border_pulses)?;
    Ok(Separation { cells, border_pulses })
}

/// As [`separate`], into a vector that has room for the most cells, so that room is never too little.
pub fn separate_to_vec(timings: &[u32]) -> Result<Cells, Refusal> {
    separate_in_density_to_vec(Density::Double, timings)
}

/// As [`separate_to_vec`], in this density.
pub fn separate_in_density_to_vec(density: Density, timings: &[u32]) -> Result<Cells, Refusal> {
    let mut packed = vec![0; MOST_CELL_BYTES];
    let Separation { cells: count, border_pulses } = separate_in_density(density, timings, &mut packed)?;
    packed.truncate(count.div_ceil(8));
    Ok(Cells { packed, count, border_pulses })
}

/// The histogram of timings (rules 5.1 to 5.3): a timing t raises count t / 100, rounded down, and one from 25,500 on count 255.
///
/// Refuses [`NoTimings`](Refusal::NoTimings), [`TooManyTimings`](Refusal::TooManyTimings),
/// [`TimingOutOfRange`](Refusal::TimingOutOfRange).
pub fn histogram(timings: &[u32]) -> Result<[u32; HISTOGRAM_COUNTS], Refusal> {
    let mut counts = [0; HISTOGRAM_COUNTS];
    boundary::histogram(timings, &mut counts)?;
    Ok(counts)
}
