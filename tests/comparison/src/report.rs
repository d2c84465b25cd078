//! Counting what agrees and what differs, and buffers that show a byte written outside.

use crate::terms::answer;
use second_program::refusal::Refusal;
use second_program::separator::Separation;
use std::fmt::Debug;

/// What the groups of one part came to: the lines to print, and how many cases agreed and how many did not.
#[derive(Default)]
pub struct Report {
    pub lines: Vec<String>,
    pub passed: usize,
    pub failed: usize,
}

impl Report {
    /// A line more.
    pub fn say(&mut self, line: String) {
        self.lines.push(line);
    }
}

/// The cases of one group that agreed, and those that did not, with what is told of these.
pub struct Group {
    name: &'static str,
    differences: Vec<String>,
    passed: usize,
    failed: usize,
}

/// At most so many differences of a group are printed.
const MOST_PRINTED: usize = 5;

impl Group {
    pub fn new(name: &'static str) -> Group {
        Group { name, differences: Vec::new(), passed: 0, failed: 0 }
    }

    /// One case: what the library made of an input, what it should be, and what was given.
    pub fn same<T: PartialEq + Debug>(&mut self, ours: T, expected: T, given: impl Fn() -> String) {
        if ours == expected {
            self.passed += 1;
            return;
        }
        self.failed += 1;
        if self.failed <= MOST_PRINTED {
            self.differences.push(format!("{}: given {}", self.name, given()));
            self.differences.push(format!("    library {}", short(&ours)));
            self.differences.push(format!("    expected {}", short(&expected)));
        }
    }

    /// One call that writes to the front of a lent buffer: what it answers, all of the buffer with its margins, and the input afterwards.
    /// `second` is what the second program answers and writes.
    pub fn same_written<I: Clone + PartialEq + Debug, O: Element>(
        &mut self,
        input: &[I],
        room: usize,
        call: impl FnOnce(&[I], &mut [O]) -> Result<usize, thikbromu::Refusal>,
        second: Result<(usize, Vec<O>), Refusal>,
        given: impl Fn() -> String,
    ) {
        let passed = input.to_vec();
        let mut lent = Lent::new(room);
        let ours = answer(call(&passed, lent.part()));
        let (expected, written) = match second {
            Ok((value, written)) => (Ok(value), written),
            Err(refusal) => (Err(refusal), Vec::new()),
        };
        self.same((ours, lent.into_all(), &passed[..]), (expected, Lent::expected(room, &written), input), given);
    }

    /// One call that writes to the front of a lent buffer and stores the number of border pulses in a lent variable: what it answers, all of
    /// the buffer and the variable with their margins, and the input afterwards. `second` is what the second program answers and writes, and
    /// its number. Beside a refusal the variable is kept.
    pub fn same_with_border_pulses<I: Clone + PartialEq + Debug, O: Element>(
        &mut self,
        input: &[I],
        room: usize,
        call: impl FnOnce(&[I], &mut [O], &mut usize) -> Result<usize, thikbromu::Refusal>,
        second: Result<(usize, &[O], usize), Refusal>,
        given: impl Fn() -> String,
    ) {
        let passed = input.to_vec();
        let (mut lent, mut number) = (Lent::new(room), Lent::new(1));
        let ours = answer(call(&passed, lent.part(), &mut number.part()[0]));
        let (expected, written, stored) = match second {
            Ok((value, written, border_pulses)) => (Ok(value), written, vec![border_pulses]),
            Err(refusal) => (Err(refusal), &[][..], Vec::new()),
        };
        self.same(
            (ours, lent.into_all(), number.into_all(), &passed[..]),
            (expected, Lent::expected(room, written), Lent::expected(1, &stored), input),
            given,
        );
    }

    /// The same of a call that packs cells.
    pub fn same_separation<I: Clone + PartialEq + Debug>(
        &mut self,
        input: &[I],
        room: usize,
        call: impl FnOnce(&[I], &mut [u8], &mut usize) -> Result<usize, thikbromu::Refusal>,
        second: &Result<Separation, Refusal>,
        given: impl Fn() -> String,
    ) {
        let second = second.as_ref().map(|it| (it.cells, &it.bytes[..], it.border_pulses)).map_err(|&refusal| refusal);
        self.same_with_border_pulses(input, room, call, second, given);
    }

    /// Adds the group's lines and its cases to the report.
    pub fn close(self, report: &mut Report) {
        report.lines.extend(self.differences);
        report.say(format!("{}: {} cases, {} differ", self.name, self.passed + self.failed, self.failed));
        report.passed += self.passed;
        report.failed += self.failed;
    }
}

fn short<T: Debug>(value: &T) -> String {
    let text = format!("{value:02X?}");
    match text.char_indices().nth(300) {
        Some((end, _)) => format!("{} ..", &text[..end]),
        None => text,
    }
}

/// A number that a lent buffer can hold.
pub trait Element: Copy + PartialEq + Debug {
    fn from_pattern(pattern: u32) -> Self;
}

impl Element for u8 {
    fn from_pattern(pattern: u32) -> u8 {
        pattern as u8
    }
}

impl Element for u32 {
    fn from_pattern(pattern: u32) -> u32 {
        pattern
    }
}

impl Element for i32 {
    fn from_pattern(pattern: u32) -> i32 {
        pattern as i32
    }
}

impl Element for usize {
    fn from_pattern(pattern: u32) -> usize {
        pattern as usize
    }
}

/// A buffer to lend, with elements around it that no call may touch. All are filled with a pattern first.
#[derive(Clone)]
pub struct Lent<T> {
    all: Vec<T>,
    room: usize,
}

/// The elements on each side of the lent part.
const MARGIN: usize = 64;

fn pattern(i: usize) -> u32 {
    (i.wrapping_mul(0x9E37_0049) ^ (i >> 3) ^ 0xA5) as u32
}

impl<T: Element> Lent<T> {
    pub fn new(room: usize) -> Lent<T> {
        Lent { all: (0..room + 2 * MARGIN).map(|i| T::from_pattern(pattern(i))).collect(), room }
    }

    /// The part that is lent.
    pub fn part(&mut self) -> &mut [T] {
        &mut self.all[MARGIN..MARGIN + self.room]
    }

    /// All elements, the margins with them.
    pub fn into_all(self) -> Vec<T> {
        self.all
    }

    /// All elements as they should be with `front` written at the start of the lent part and nothing else changed.
    pub fn expected(room: usize, front: &[T]) -> Vec<T> {
        let mut lent = Lent::new(room);
        lent.part()[..front.len()].copy_from_slice(front);
        lent.all
    }
}
