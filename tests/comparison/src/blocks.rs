//! Section 12 of the specification: the timings and the cells of a revolution of a track block, and its values in portions.

use crate::report::{Group, Lent, Report};
use crate::terms::answer;
use second_program::refusal::{Refusal, MOST_TIMINGS};
use second_program::separator::Separation;
use second_program::track_block::{self, revolution_bytes, BytesSoFar, Carried, PortionAnswer, RevolutionTimings};
use std::collections::HashSet;
use test_inputs::block_inputs::{any_carried, any_portion, cases, equal_portions, random_portions, with_empty_portions};
use test_inputs::random::Random;
use thikbromu::boundary::{revolution_cells, revolution_portion, revolution_timings};
use thikbromu::{RevolutionReader, TrackBlock, MOST_CELL_BYTES};

/// The whole call on all cases, with rooms around what is needed: the timings, and the number of their border pulses.
pub fn timings(report: &mut Report) {
    let mut group = Group::new("the timings of a revolution");
    let (mut without, mut with, mut too_many_cells) = (0, 0, 0);
    for case in cases() {
        let (block, revolutions, revolution) = (&case.block, case.revolutions, case.revolution);
        for room in case.rooms() {
            let second = track_block::revolution_timings(block, revolutions, revolution, room);
            group.same_with_border_pulses(
                block,
                room,
                |input, list, border_pulses| revolution_timings(input, revolutions, revolution, list, border_pulses),
                second.as_ref().map(|it| (it.timings.len(), &it.timings[..], it.border_pulses)).map_err(|&refusal| refusal),
                || format!("{}, room {room}", case.name),
            );
        }
        let second = track_block::revolution_timings(block, revolutions, revolution, MOST_TIMINGS);
        let ours = answer(TrackBlock::new(block, revolutions).timings(revolution));
        let ours = ours.map(|it| RevolutionTimings { timings: it.list, border_pulses: it.border_pulses });
        group.same(&ours, &second, || format!("{}, as a vector", case.name));
        if let Ok(read) = second {
            let cells = track_block::revolution_cells(block, revolutions, revolution, MOST_CELL_BYTES);
            too_many_cells += usize::from(cells.is_err_and(|refusal| refusal.number == 9));
            *(if read.border_pulses == 0 { &mut without } else { &mut with }) += 1;
        }
    }
    let often = without >= 1_000 && with >= 1_000 && too_many_cells >= 10;
    group.same(often, true, || format!("{without} without border pulses, {with} with, {too_many_cells} of too many cells"));
    group.close(report);
}

/// From a block to cells, and the number of its border pulses, on all cases.
pub fn cells(report: &mut Report) {
    let mut group = Group::new("the cells of a revolution");
    for case in cases() {
        let (block, revolutions, revolution) = (&case.block, case.revolutions, case.revolution);
        for room in case.rooms_for_cells() {
            group.same_separation(
                block,
                room,
                |input, packed, border_pulses| revolution_cells(input, revolutions, revolution, packed, border_pulses),
                &track_block::revolution_cells(block, revolutions, revolution, room),
                || format!("{}, room {room}", case.name),
            );
        }
        let second = track_block::revolution_cells(block, revolutions, revolution, MOST_CELL_BYTES);
        let ours = answer(TrackBlock::new(block, revolutions).cells(revolution));
        let ours = ours.map(|cells| Separation { cells: cells.count, border_pulses: cells.border_pulses, bytes: cells.packed });
        group.same(ours, second, || format!("{}, as a vector", case.name));
    }
    group.close(report);
}

/// The number that the library has for a state: held + 257 * (zeros + 8 * timings), held being 1 more than the byte, or 0 without one.
fn number_of(state: Carried) -> u32 {
    let held = state.held.map_or(0, |byte| u64::from(byte) + 1);
    let number = held + 257 * (state.zeros + 8 * state.timings);
    number.try_into().expect("zeros up to 7, and timings that 32 bits hold so")
}

/// The state of any number.
fn state_of(number: u32) -> Carried {
    Carried {
        held: (number % 257).checked_sub(1).map(|byte| byte as u8),
        zeros: u64::from(number / 257 % 8),
        timings: u64::from(number / 2_056),
    }
}

/// What the second program carries from portion to portion.
#[derive(Debug)]
enum Second {
    /// All bytes so far: none of the parts that the library's state has, and nothing capped.
    Bytes(BytesSoFar),
    /// The same three parts, for revolutions in very many portions and for states of any number.
    Numbers(Carried),
}

impl Second {
    fn portion(&self, portion: &[u8], room: usize) -> (PortionAnswer, Second) {
        match self {
            Second::Bytes(state) => {
                let (answer, next) = state.portion(portion, room);
                (answer, Second::Bytes(next))
            }
            Second::Numbers(state) => {
                let (answer, next) = state.portion(portion, room);
                (answer, Second::Numbers(next))
            }
        }
    }

    /// The numbers of the state.
    fn numbers(&self) -> Carried {
        match self {
            Second::Bytes(state) => Carried::of(state),
            Second::Numbers(state) => *state,
        }
    }
}

/// What the library did with a portion: its refusal, or the timings that it wrote.
struct Taken {
    refusal: Option<Refusal>,
    timings: Vec<u32>,
}

/// A revolution that both sides take portion by portion, each with its own state.
struct Both {
    ours: u32,
    second: Second,
}

impl Both {
    /// Before the first of a revolution's portions. To keep all bytes is to go over them again for each portion.
    fn before(portions: &[&[u8]]) -> Both {
        let length: usize = portions.iter().map(|portion| portion.len()).sum();
        let by_bytes = length <= LONG || portions.len() <= FEW_PORTIONS;
        Both { ours: 0, second: if by_bytes { Second::Bytes(BytesSoFar::new()) } else { Second::Numbers(Carried::new()) } }
    }

    fn of_number(number: u32) -> Both {
        Both { ours: number, second: Second::Numbers(state_of(number)) }
    }

    /// How many timings end in the portion, whatever the room is; none where it is refused.
    fn needed(&self, portion: &[u8]) -> usize {
        let (answer, _) = self.second.portion(portion, usize::MAX);
        answer.map_or(0, |(count, _)| count)
    }

    /// One portion, over the export and by the crate's reader: the answer, the number afterwards and the list, both with their margins, and
    /// the portion afterwards.
    fn take(&mut self, group: &mut Group, portion: &[u8], room: usize, given: impl Fn() -> String) -> Taken {
        let (second, next) = self.second.portion(portion, room);
        let (expected, written) = match second {
            Ok((count, timings)) => (Ok(count), timings),
            Err(refusal) => (Err(refusal), Vec::new()),
        };
        let passed = portion.to_vec();
        let (mut state, mut list) = (Lent::new(1), Lent::new(room));
        state.part()[0] = self.ours;
        let ours = answer(revolution_portion(&mut state.part()[0], &passed, list.part()));
        let number = state.part()[0];
        let timings = list.part()[..ours.map_or(0, |count| count.min(room))].to_vec();
        let mut list_of_reader = Lent::new(room);
        let taken = RevolutionReader::from_number(self.ours).take(&passed, list_of_reader.part());
        let by_reader = (answer(taken.timings), taken.next.number());
        let number_after = number_of(next.numbers());
        let (state_after, list_after) = (Lent::expected(1, &[number_after]), Lent::expected(room, &written));
        group.same(
            (ours, state.into_all(), list.into_all(), by_reader, list_of_reader.into_all(), &passed[..]),
            (expected, state_after, list_after.clone(), (expected, number_after), list_after, portion),
            || {
                let front = &portion[..portion.len().min(16)];
                format!("{}, {} bytes {front:02X?}, room {room}, from {:?}", given(), portion.len(), self.second.numbers())
            },
        );
        (self.ours, self.second) = (number, next);
        Taken { refusal: ours.err(), timings }
    }
}

/// A revolution's values, and the call on the whole that they are from.
struct Revolution {
    name: String,
    bytes: Vec<u8>,
    /// The timings of the whole revolution by the library's call, or its refusal.
    whole: Result<Vec<u32>, Refusal>,
}

/// The revolutions of all cases that are not refused with 16 or 17, each bytes once.
fn revolutions() -> Vec<Revolution> {
    let mut seen = HashSet::new();
    let mut all = Vec::new();
    for case in cases() {
        let Ok(bytes) = revolution_bytes(&case.block, case.revolutions, case.revolution) else { continue };
        if seen.insert(bytes.to_vec()) {
            let whole = answer(TrackBlock::new(&case.block, case.revolutions).timings(case.revolution)).map(|it| it.list);
            all.push(Revolution { name: case.name.clone(), bytes: bytes.to_vec(), whole });
        }
    }
    all
}

/// Revolutions longer than this are cut into fewer portions.
const LONG: usize = 2_000;

/// For so few portions all bytes of a long revolution are kept, too; 65,536 timings come in 32 portions of 4,096 bytes.
const FEW_PORTIONS: usize = 40;

/// Ways to cut a revolution's bytes: into portions of 1 to 7 bytes, and at random with empty ones among them.
fn cuts<'a>(random: &mut Random, bytes: &'a [u8]) -> Vec<Vec<&'a [u8]>> {
    let (sizes, most) = if bytes.len() > LONG { (vec![999, 4_096, bytes.len()], 3_000) } else { ((1..=7).collect(), 9) };
    let mut all: Vec<Vec<&[u8]>> = sizes.into_iter().map(|size| equal_portions(bytes, size)).collect();
    all.push(random_portions(random, bytes, most));
    all.push(with_empty_portions(&random_portions(random, bytes, most)));
    all
}

/// Revolutions in portions, sound ones and those that are refused with 7 and 8.
pub fn portions(report: &mut Report) {
    let mut group = Group::new("a revolution in portions");
    let mut random = Random::new(71);
    let all = revolutions();
    for Revolution { name, bytes, whole } in &all {
        for portions in cuts(&mut random, bytes) {
            let given = || format!("{name}, in {} portions", portions.len());
            let mut both = Both::before(&portions);
            let mut first_refusal = None;
            let mut timings = Vec::new();
            for portion in &portions {
                let room = both.needed(portion) + random.below(2) as usize;
                let taken = both.take(&mut group, portion, room, given);
                first_refusal = first_refusal.or(taken.refusal);
                timings.extend(taken.timings);
            }
            match (whole, first_refusal) {
                // The portion with the first timing out of range is refused, as the whole is.
                (Err(refusal), Some(first)) if refusal.number == 8 => group.same(first, *refusal, given),
                // 7 is given where the number is passed; a timing out of range may come before that.
                (Err(refusal), Some(first)) if refusal.number == 7 => {
                    group.same(first.number == 7 || first.number == 8, true, given);
                }
                // A revolution without values has no timings, which no portion can know.
                (Err(refusal), None) if refusal.number == 6 => group.same(timings, Vec::new(), given),
                _ => group.same((Ok(timings), first_refusal), (whole.clone(), None), given),
            }
        }
    }
    group.close(report);

    let mut group = Group::new("a revolution of the standard track, byte by byte");
    let standard = all.iter().find(|revolution| revolution.name.starts_with("standard track"));
    let Revolution { name, bytes, whole } = standard.expect("the standard track's flux is among the cases");
    let portions = equal_portions(bytes, 1);
    let mut both = Both::before(&portions);
    let mut timings = Vec::new();
    for portion in portions {
        timings.extend(both.take(&mut group, portion, 1, || name.clone()).timings);
    }
    group.same(Ok(timings), whole.clone(), || name.clone());
    group.close(report);
}

/// Rooms that are one short within a sequence: the portion is refused and changes nothing, and is then taken with room for it.
pub fn short_rooms(report: &mut Report) {
    let mut group = Group::new("portions with too little room, taken again");
    let mut random = Random::new(72);
    for Revolution { name, bytes, whole } in revolutions() {
        let most = if bytes.len() > LONG { 3_000 } else { 12 };
        let portions = random_portions(&mut random, &bytes, most);
        let mut both = Both::before(&portions);
        let mut timings = Vec::new();
        for portion in portions {
            let needed = both.needed(portion);
            if needed > 0 && random.one_in(2) {
                let rooms = if random.one_in(2) { vec![needed - 1] } else { vec![0, needed - 1] };
                for room in rooms {
                    both.take(&mut group, portion, room, || name.clone());
                }
            }
            let room = needed + random.below(3) as usize;
            timings.extend(both.take(&mut group, portion, room, || name.clone()).timings);
        }
        if whole.is_ok() {
            group.same(Ok(timings), whole, || name.clone());
        }
    }
    group.close(report);
}

/// A number that some calls leave, for the most part; now and then any.
fn any_number(random: &mut Random) -> u32 {
    let state = any_carried(random);
    if state.zeros <= 7 && state.timings < 2_000_000 {
        number_of(state)
    } else {
        random.next_number() as u32
    }
}

/// States that calls leave and that none leaves, with any portions.
pub fn states(report: &mut Report) {
    let mut group = Group::new("any portion after any state");
    let mut random = Random::new(73);
    for _ in 0..20_000 {
        let number = any_number(&mut random);
        let portion = any_portion(&mut random);
        let needed = Both::of_number(number).needed(&portion);
        for room in [needed, needed.saturating_sub(1), needed + 2] {
            Both::of_number(number).take(&mut group, &portion, room, || format!("{number}"));
        }
    }
    group.close(report);

    let mut group = Group::new("each byte held, after each number of zeros");
    for timings in [0, 1, 65_535, 65_536, 65_537] {
        for zeros in 0..=8 {
            for held in 0..=257 {
                // Eight zeros, and 257 for the byte, are numbers of the next timings and zeros.
                let number = held + 257 * (zeros + 8 * timings);
                for portion in [&[][..], &[0], &[1], &[0x81, 0, 0, 7]] {
                    let given = || format!("{number}");
                    Both::of_number(number).take(&mut group, portion, 2, given);
                }
            }
        }
    }
    // Around the highest number that calls leave, and the highest of all.
    for number in (134_744_000..134_744_200).chain(u32::MAX - 100..=u32::MAX) {
        for portion in [&[][..], &[5], &[0, 160, 0]] {
            for room in [0, 1] {
                Both::of_number(number).take(&mut group, portion, room, || format!("{number}"));
            }
        }
    }
    group.close(report);

    let mut group = Group::new("each value, after some zeros");
    let mut value_case = |zeros: u32, value: u16| {
        Both::of_number(257 * zeros).take(&mut group, &value.to_be_bytes(), 1, || format!("{zeros} zeros and {value}"));
    };
    for value in 0..=u16::MAX {
        value_case(u32::from(value) % 7, value);
    }
    // Six zeros and 6,784 are the longest timing.
    for value in 6_700..6_900 {
        for zeros in 0..=7 {
            value_case(zeros, value);
        }
    }
    group.close(report);
}
