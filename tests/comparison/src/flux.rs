//! Sections 3 to 5 of the specification: the separator's step on a lent residual and by value, its call on a list, border pulses, and the
//! histogram.

use crate::densities::{Calls, DOUBLE};
use crate::report::{Group, Lent, Report};
use crate::terms::answer;
use second_program::cells;
use second_program::refusal::Refusal;
use second_program::separator;
use test_inputs::flux_inputs::{
    border_lists, flux_track, flux_track_of, flux_track_within, one_sided_track, timings_at_the_limits, timings_of_cells,
    timings_of_steps, Choice, FluxTrack, Tolerance, AROUND_THE_LIMITS,
};
use test_inputs::random::Random;
use thikbromu::boundary;

/// The list call, over the export and by the crate: answer, buffer, number of border pulses and the timings afterwards.
fn list_case(group: &mut Group, timings: &[u32], room: usize) {
    list_case_in(&DOUBLE, group, timings, room);
}

pub fn list_case_in(calls: &Calls, group: &mut Group, timings: &[u32], room: usize) {
    let second = (calls.second_separate)(timings, room);
    let given = || format!("{} timings {:?}, room {room}", timings.len(), &timings[..timings.len().min(12)]);
    group.same_separation(timings, room, calls.separate, &second, given);
    // The crate's list call, its number of border pulses stored as the export stores it.
    let separate_and_store = |timings: &[u32], packed: &mut [u8], border_pulses: &mut usize| {
        let separation = (calls.separation)(timings, packed)?;
        *border_pulses = separation.border_pulses;
        Ok(separation.cells)
    };
    group.same_separation(timings, room, separate_and_store, &second, given);
}

/// What a list gives that is not refused: how many cells, and how many border pulses.
fn numbers_of(timings: &[u32], packed: &mut [u8]) -> Result<(usize, usize), Refusal> {
    numbers_in(&DOUBLE, timings, packed)
}

pub fn numbers_in(calls: &Calls, timings: &[u32], packed: &mut [u8]) -> Result<(usize, usize), Refusal> {
    answer((calls.separation)(timings, packed)).map(|separation| (separation.cells, separation.border_pulses))
}

/// What a step gives: its cells and its offset, or a refusal.
pub type StepAnswer = Result<(usize, i32), Refusal>;

/// A step of the second program: what it answers, and the residual afterwards.
pub fn second_step(calls: &Calls, residual: i32, timing: u32) -> (StepAnswer, i32) {
    let (next, step) = (calls.second_step)(i64::from(residual), timing);
    (step.map(|(cells, offset)| (cells as usize, offset as i32)), next as i32)
}

/// A step by the crate's state, by value: what it answers, and the residual afterwards.
pub fn step(calls: &Calls, residual: i32, timing: u32) -> (StepAnswer, i32) {
    let stepped = (calls.separator)(residual).step(timing);
    (answer(stepped.step).map(|step| (step.cells, step.offset)), stepped.next.residual())
}

/// A step by the crate's state, in its place.
fn step_in_place(calls: &Calls, residual: i32, timing: u32) -> (StepAnswer, i32) {
    let mut state = (calls.separator)(residual);
    let ours = answer(state.step_in_place(timing)).map(|step| (step.cells, step.offset));
    (ours, state.residual())
}

/// A residual and an offset that are lent to a step over the export.
#[derive(Clone)]
struct LentStep {
    residual: Lent<i32>,
    offset: Lent<i32>,
}

impl LentStep {
    fn new(residual: i32) -> LentStep {
        let mut lent = LentStep { residual: Lent::new(1), offset: Lent::new(1) };
        lent.residual.part()[0] = residual;
        lent
    }

    /// The number of cells, or a refusal.
    fn step(&mut self, calls: &Calls, timing: u32) -> Result<usize, Refusal> {
        answer((calls.step)(&mut self.residual.part()[0], timing, &mut self.offset.part()[0]))
    }

    /// The residual and the offset with their margins.
    fn into_all(self) -> [Vec<i32>; 2] {
        [self.residual.into_all(), self.offset.into_all()]
    }

    /// Both as they should be: the offset as none has stored it, or this one.
    fn expected(residual: i32, offset: Option<i32>) -> [Vec<i32>; 2] {
        [Lent::expected(1, &[residual]), Lent::expected(1, offset.as_slice())]
    }
}

/// A step over the export: what it answers, and what is lent afterwards, with its margins.
fn step_lent(calls: &Calls, residual: i32, timing: u32) -> (Result<usize, Refusal>, [Vec<i32>; 2]) {
    let mut lent = LentStep::new(residual);
    let ours = lent.step(calls, timing);
    (ours, lent.into_all())
}

/// One step in all three ways: the cells and the offset, or a refusal, and the residual, which beside a refusal is the one that came. A
/// lent offset is then kept as well.
fn step_case(group: &mut Group, residual: i32, timing: u32, expected: (StepAnswer, i32), given: impl Fn() -> String) {
    step_case_in(&DOUBLE, group, residual, timing, expected, given);
}

pub fn step_case_in(
    calls: &Calls,
    group: &mut Group,
    residual: i32,
    timing: u32,
    expected: (StepAnswer, i32),
    given: impl Fn() -> String,
) {
    let after = if expected.0.is_err() { residual } else { expected.1 };
    let offset = expected.0.ok().map(|(_, offset)| offset);
    let lent = (expected.0.map(|(count, _)| count), LentStep::expected(after, offset));
    group.same(
        (step(calls, residual, timing), step_in_place(calls, residual, timing), step_lent(calls, residual, timing)),
        (expected, (expected.0, after), lent),
        given,
    );
}

/// One residual stepped on and on, as the second program's: a timing out of range, which is refused, changes nothing of what follows.
pub fn steps_on(calls: &Calls, group: &mut Group, timings: &[u32]) {
    let (mut ours, mut residual) = (LentStep::new(0), 0);
    // The last offset that a step gave; before that what the variable held.
    let mut last = None;
    for (i, &timing) in timings.iter().enumerate() {
        let taken = ours.step(calls, timing);
        let (second, next) = second_step(calls, residual, timing);
        last = second.ok().map(|(_, offset)| offset).or(last);
        let expected = (second.map(|(count, _)| count), LentStep::expected(next, last));
        group.same((taken, ours.clone().into_all()), expected, || format!("step {i} by {timing}"));
        residual = next;
    }
}

/// The bytes that the cells of timings need, whatever the room is.
fn bytes_needed(timings: &[u32]) -> usize {
    bytes_needed_in(&DOUBLE, timings)
}

pub fn bytes_needed_in(calls: &Calls, timings: &[u32]) -> usize {
    (calls.second_separate)(timings, usize::MAX).map_or(0, |separation| separation.bytes.len())
}

/// The rows and the cells to know.
pub fn known(report: &mut Report) {
    let mut group = Group::new("the rows of rule 3.13 and the cells of rule 3.14");
    // Timings, n, e, r after.
    let rows: [(&[u32], &[usize], &[i32], &[i32]); 6] = [
        (&[4_900, 4_000], &[2, 2], &[900, 450], &[450, 225]),
        (&[4_999], &[2], &[999], &[499]),
        (&[5_000, 5_000], &[3, 2], &[-1_000, 500], &[-500, 250]),
        (&[5_001], &[3], &[-999], &[-499]),
        (&[500, 3_500], &[0, 2], &[500, -250], &[250, -125]),
        (&[10_000_000], &[5_000], &[0], &[0]),
    ];
    for (timings, counts, offsets, residuals) in rows {
        let mut residual = 0;
        for (i, &timing) in timings.iter().enumerate() {
            let expected = (Ok((counts[i], offsets[i])), residuals[i]);
            step_case(&mut group, residual, timing, expected, || format!("{timings:?}, timing {i}"));
            residual = residuals[i];
        }
    }
    let mut packed = [0xFF; 2];
    let ours = numbers_of(&[5_000, 5_000], &mut packed);
    group.same((ours, packed), (Ok((5, 1)), [0b0010_1000, 0xFF]), || "5000, 5000".to_string());
    group.same(numbers_of(&[500], &mut []), Ok((0, 0)), || "500, no room".to_string());
    group.close(report);

    let mut group = Group::new("the limits of border pulses");
    // Timings, cells, border pulses.
    let rows: [(&[u32], usize, usize); 12] = [
        (&[4_901], 2, 0),
        (&[4_902], 2, 1),
        (&[5_098], 3, 1),
        (&[5_099], 3, 0),
        (&[901], 0, 0),
        (&[902], 0, 1),
        (&[1_098], 1, 1),
        (&[1_099], 1, 0),
        (&[4_902, 4_451], 4, 2),
        (&[4_902, 4_450], 4, 1),
        (&[4_000, 5_098], 5, 1),
        (&[902, 451, 450], 0, 2),
    ];
    for (timings, count, border_pulses) in rows {
        group.same(numbers_of(timings, &mut [0]), Ok((count, border_pulses)), || format!("{timings:?}"));
    }
    group.close(report);
}

/// A residual in range, at its bounds, or any.
fn any_residual(random: &mut Random) -> i32 {
    match random.below(6) {
        0 => random.next_number() as i32,
        1 => [-501, -500, -499, -1, 0, 1, 498, 499, 500, i32::MIN, i32::MAX][random.below(11) as usize],
        _ => random.between(-500, 499) as i32,
    }
}

/// A timing in range, at a bound of its range or of a window, or any.
fn any_timing(random: &mut Random) -> u32 {
    match random.below(10) {
        0 => random.next_number() as u32,
        1 => [0, 1, 2, 9_999_999, 10_000_000, 10_000_001, u32::MAX][random.below(7) as usize],
        2 => random.between(1, 10_000_000) as u32,
        3 => (random.between(1, 9) * 1_000 + random.between(-2, 2)) as u32,
        _ => random.between(1, 12_000) as u32,
    }
}

pub fn steps(report: &mut Report) {
    let mut group = Group::new("separator steps, by value and lent");
    let mut random = Random::new(10);
    for _ in 0..40_000 {
        let residual = any_residual(&mut random);
        let timing = any_timing(&mut random);
        let expected = second_step(&DOUBLE, residual, timing);
        step_case(&mut group, residual, timing, expected, || format!("residual {residual}, timing {timing}"));
    }
    group.close(report);

    let mut group = Group::new("separator steps around the limits of border pulses");
    for residual in [-501, -500, -499, -452, -451, -450, -1, 0, 1, 450, 451, 452, 498, 499, 500] {
        // What a residual counts as (rule 3.6).
        let counted = if (-500..=499).contains(&residual) { i64::from(residual) } else { 0 };
        for cells in [0, 1, 2, 3, 4, 5_000] {
            for offset in AROUND_THE_LIMITS.into_iter().chain([-1_000, -999, 998, 999]) {
                // Made for this offset, whatever the second program's separator says.
                let timing = 2_000 * cells + offset - counted;
                let Ok(timing) = u32::try_from(timing) else { continue };
                let expected = if separator::timing_in_range(timing) {
                    (Ok((cells as usize, offset as i32)), (offset / 2) as i32)
                } else {
                    (Err(Refusal::timing_out_of_range(0)), residual)
                };
                step_case(&mut group, residual, timing, expected, || format!("residual {residual}, timing {timing}"));
            }
        }
    }
    group.close(report);

    let mut group = Group::new("one residual, through timings in and out of range");
    for _ in 0..200 {
        let timings: Vec<u32> = (0..50).map(|_| any_timing(&mut random)).collect();
        steps_on(&DOUBLE, &mut group, &timings);
    }
    group.close(report);
}

pub fn lists(report: &mut Report) {
    let mut group = Group::new("separator lists within demand 3's tolerance");
    let mut random = Random::new(11);
    for i in 0..3_000 {
        let most = if i % 100 == 0 { 70_000 } else { 200 };
        let length = 1 + random.below(most) as usize;
        let choice = [Choice::Any, Choice::Bounds, Choice::LongDrift][i % 3];
        let track = flux_track(&mut random, length, choice);
        // The cells written are what demand 3 asks, whatever the second program's separator says.
        let packed = cells::pack(&track.cells);
        let room = packed.len() + random.below(4) as usize;
        let mut lent = Lent::new(room);
        let ours = numbers_of(&track.timings, lent.part());
        let expected = if length > 65_536 {
            (Err(Refusal::too_many_timings(length)), Lent::expected(room, &[]))
        } else if track.cells.len() > 131_072 {
            (Err(Refusal::too_many_cells(track.cells.len())), Lent::expected(room, &[]))
        } else {
            // No border pulse (rule 4.13).
            (Ok((track.cells.len(), 0)), Lent::expected(room, &packed))
        };
        group.same((ours, lent.into_all()), expected, || {
            format!("{length} timings {:?}, {choice:?}", &track.timings[..length.min(12)])
        });
        if !packed.is_empty() {
            list_case(&mut group, &track.timings, packed.len() - 1);
        }
    }
    group.close(report);

    let mut group = Group::new("separator lists without jitter and drift");
    for _ in 0..1_000 {
        let length = 1 + random.below(400) as usize;
        let track = flux_track(&mut random, length, Choice::Any);
        let timings = timings_of_cells(&track.cells);
        let packed = cells::pack(&track.cells);
        let mut buffer = vec![0xFF; packed.len()];
        let ours = numbers_of(&timings, &mut buffer);
        group.same((ours, &buffer), (Ok((track.cells.len(), 0)), &packed), || format!("{length} timings"));
    }
    group.close(report);

    let mut group = Group::new("separator lists of any timings");
    for _ in 0..8_000 {
        let length = random.below(60) as usize;
        let wild = random.one_in(4);
        let timings: Vec<u32> = (0..length)
            .map(|_| if wild { any_timing(&mut random) } else { random.between(1, 12_000) as u32 })
            .collect();
        let needed = bytes_needed(&timings);
        for room in [needed, needed.saturating_sub(1), needed + 3] {
            list_case(&mut group, &timings, room);
        }
    }
    group.close(report);

    let mut group = Group::new("the list call beside step after step");
    for _ in 0..1_000 {
        let length = 1 + random.below(80) as usize;
        let timings: Vec<u32> = (0..length).map(|_| random.between(1, 14_000) as u32).collect();
        let mut list = Vec::new();
        let mut border_pulses = 0;
        let mut residual = 0;
        for &timing in &timings {
            let (ours, next) = step(&DOUBLE, residual, timing);
            let (count, offset) = ours.unwrap_or((0, 0));
            if count > 0 {
                list.resize(list.len() + count - 1, 0);
                list.push(1);
            }
            border_pulses += usize::from(offset <= -902 || offset >= 902);
            residual = next;
        }
        let packed = cells::pack(&list);
        let mut buffer = vec![0xFF; packed.len()];
        let ours = numbers_of(&timings, &mut buffer);
        group.same((ours, &buffer), (Ok((list.len(), border_pulses)), &packed), || format!("{timings:?}"));
    }
    group.close(report);
}

/// Any step that has a timing after any other: one to five cells, the offset around a limit of border pulses or any.
fn any_step(random: &mut Random) -> (i64, i64) {
    let offset = if random.one_in(2) { random.between(-1_000, 999) } else { AROUND_THE_LIMITS[random.below(6) as usize] };
    (random.between(1, 5), offset)
}

/// The number of border pulses: lists that are made for their offsets, so that it is known, and lists beside the second program.
pub fn borders(report: &mut Report) {
    let mut group = Group::new("border pulses at their limits");
    for list in border_lists() {
        let needed = bytes_needed(&list.timings);
        for room in [needed, needed.saturating_sub(1), needed + 1] {
            list_case(&mut group, &list.timings, room);
        }
        // The timing behind is refused, and what is in front of it counts for nothing.
        for timing in [0, 10_000_001] {
            list_case(&mut group, &[&list.timings[..], &[timing]].concat(), needed);
        }
    }
    group.close(report);

    let mut group = Group::new("border pulses of steps that are made for their offsets");
    let mut random = Random::new(14);
    for i in 0..2_000 {
        let length = 1 + random.below(if i % 100 == 0 { 20_000 } else { 100 }) as usize;
        let steps: Vec<(i64, i64)> = (0..length).map(|_| any_step(&mut random)).collect();
        let timings = timings_of_steps(&steps).expect("steps with cells");
        let count = steps.iter().map(|(cells, _)| *cells as usize).sum();
        let border_pulses = steps.iter().filter(|(_, offset)| offset.abs() >= 902).count();
        let mut packed = vec![0; 16_384];
        group.same(numbers_of(&timings, &mut packed), Ok((count, border_pulses)), || format!("{:?}", &steps[..length.min(12)]));
        list_case(&mut group, &timings, 16_384);
    }
    group.close(report);

    let mut group = Group::new("border pulses of whole tracks");
    for seed in 0..20 {
        let track = flux_track(&mut random, 30_000, Choice::Any);
        let timings = timings_at_the_limits(&mut random, &track.cells, seed);
        list_case(&mut group, &timings, 16_384);
    }
    group.close(report);
}

/// How far the farthest window centre lies from the true place of its pulse.
fn farthest_centre(track: &FluxTrack) -> i64 {
    let mut farthest = 0;
    let mut residual = 0;
    for (i, &timing) in track.timings.iter().enumerate() {
        let (ours, next) = step(&DOUBLE, residual, timing);
        // A refusal would leave no centre, which counts as one far off.
        let centre = track.pulses[i + 1] - ours.map_or(1_000_000, |(_, offset)| i64::from(offset));
        farthest = farthest.max((centre - track.true_places[i + 1]).abs());
        residual = next;
    }
    farthest
}

/// Demand 3 at its extremes.
pub fn extremes(report: &mut Report) {
    first_figures(report);
    trades(report);
    beyond_the_trades(report);
}

/// The figures that were asked first: tracks of 100,000 cells, of 1,950 and 2,050 ns, with pulses 250 ns off. No cell is lost, no centre
/// lies farther off than 651 ns, and no pulse is a border pulse.
fn first_figures(report: &mut Report) {
    let mut group = Group::new("demand 3 at its extremes, 1,000 tracks of 100,000 cells");
    let mut random = Random::new(13);
    let mut farthest = 0;
    for i in 0..1_000 {
        // Bounds chosen at random; long drifts; and all gaps of four cells drifting one way with all pulses off the other way.
        let track = match i % 3 {
            0 => flux_track(&mut random, 33_300, Choice::Bounds),
            1 => flux_track(&mut random, 33_300, Choice::LongDrift),
            _ => {
                let sign = if random.one_in(2) { 1 } else { -1 };
                let turn = 1 + random.below(60) as usize;
                let gaps = vec![4; 25_000];
                let distances: Vec<i64> =
                    (0..25_000).map(|k| if k / turn % 2 == 0 { 8_000 - sign * 200 } else { 8_000 + sign * 200 }).collect();
                let shifts: Vec<i64> =
                    (0..=25_000).map(|k| if k / turn % 2 == 0 { sign * 250 } else { -sign * 250 }).collect();
                flux_track_of(&gaps, &distances, &shifts)
            }
        };
        let packed = cells::pack(&track.cells);
        let mut buffer = vec![0xFF; packed.len()];
        let ours = numbers_of(&track.timings, &mut buffer);
        let distance = farthest_centre(&track);
        farthest = farthest.max(distance);
        group.same((ours, &buffer, distance <= 651), (Ok((track.cells.len(), 0)), &packed, true), || {
            format!("track {i}, farthest centre {distance}")
        });
    }
    group.close(report);
    report.say(format!("    the farthest centre lay {farthest} ns off"));
}

/// The drifts of the pairs of D and J that are run on long tracks. With 8 D + 2 J = 998 the first has J = 499 and the last J = 3.
const DRIFTS: [i64; 14] = [0, 1, 12, 25, 37, 50, 62, 75, 87, 100, 110, 118, 123, 124];

/// Demand 3 where D and J take all that they may, 998 ns, and where they take 900 ns, with no border pulse then (rules 4.9, 4.11, 4.13):
/// long tracks at fourteen pairs, with bounds at random, long drifts, and drift to one side with the pulses at either end; and short ones
/// at every D.
fn trades(report: &mut Report) {
    let mut group = Group::new("demand 3 at the limits of D and J");
    let mut random = Random::new(17);
    for taken in [998, 900] {
        let mut seen = Vec::new();
        for drift in 0..=taken / 8 {
            let tolerance = Tolerance::taking(drift, taken).expect("J is 0 or more");
            let long = DRIFTS.contains(&drift);
            let timings = if long { 25_000 } else { 500 };
            let mut tracks = Vec::new();
            for choice in [Choice::Any, Choice::Bounds, Choice::LongDrift] {
                tracks.push(flux_track_within(&mut random, tolerance, timings, choice));
            }
            for turn in [1, 2, 3, 8, 50] {
                tracks.push(one_sided_track(tolerance, 1, timings, turn));
                tracks.push(one_sided_track(tolerance, -1, timings, turn));
            }
            let mut farthest = 0;
            for track in tracks {
                let packed = cells::pack(&track.cells);
                let mut buffer = vec![0xFF; packed.len()];
                let ours = numbers_of(&track.timings, &mut buffer);
                let quiet = taken > 900 || ours.as_ref().is_ok_and(|numbers| numbers.1 == 0);
                let distance = farthest_centre(&track);
                farthest = farthest.max(distance);
                let near = distance <= tolerance.farthest_centre();
                let expected = (Ok(track.cells.len()), &packed, true, true);
                group.same((ours.map(|numbers| numbers.0), &buffer, near, quiet), expected, || {
                    format!("{tolerance:?}, farthest centre {distance}, timings {:?}", &track.timings[..12])
                });
            }
            if long {
                seen.push(format!("D {drift} J {} {farthest} of {}", tolerance.shift, tolerance.farthest_centre()));
            }
        }
        report.say(format!("    farthest centres where D and J take {taken} ns, beside their bounds: {}", seen.join(", ")));
    }
    group.close(report);
}

/// Beyond the limits (rule 4.15): without drift a cell is lost as soon as D and J take 1,000 ns, and a border pulse comes at 902; with drift
/// this is so at 1,002 and 904. So no greater limit would hold.
fn beyond_the_trades(report: &mut Report) {
    let mut group = Group::new("D and J beyond their limits");
    let numbers = |tolerance: Tolerance, sign: i64| {
        let track = one_sided_track(tolerance, sign, 80, if tolerance.drift == 0 { 1 } else { 40 });
        let mut buffer = vec![0; 16_384];
        let ours = numbers_of(&track.timings, &mut buffer).unwrap_or((0, 0));
        let packed = cells::pack(&track.cells);
        (ours.0 != track.cells.len() || !buffer.starts_with(&packed), ours.1 > 0)
    };
    for drift in 0..=125 {
        let some = |taken: i64| {
            let tolerance = Tolerance::taking(drift, taken).expect("J is 0 or more");
            let (long, short) = (numbers(tolerance, 1), numbers(tolerance, -1));
            (long.0 || short.0, long.1 || short.1)
        };
        group.same((some(1_000).0, some(1_002).0), (drift == 0, true), || format!("a cell is lost, D {drift}"));
        if drift <= 112 {
            group.same((some(902).1, some(904).1), (drift == 0, true), || format!("a border pulse, D {drift}"));
        }
    }
    group.close(report);
    let lost = one_sided_track(Tolerance { drift: 0, shift: 500 }, 1, 1, 1);
    let mut buffer = [0; 2];
    let ours = numbers_of(&lost.timings, &mut buffer);
    report.say(format!("    lost at 8 D + 2 J = 1,000: timings {:?}, cells written {}, cells found {ours:?}", lost.timings, lost.cells.len()));
}

pub fn limits(report: &mut Report) {
    let mut group = Group::new("separator lists at the limits of each refusal");
    // 6 and 7, and the most timings; 131,072 cells from 65,536 timings, then one and two more.
    for length in [0, 1, 65_535, 65_536, 65_537, 70_000] {
        for timing in [1, 999, 1_000, 4_000, 4_001] {
            let mut timings = vec![timing; length];
            for room in [0, 16_383, 16_384, 16_385] {
                list_case(&mut group, &timings, room);
            }
            // 8 goes before 9 and 10, and after 7.
            if length > 0 {
                timings[length / 2] = 0;
                list_case(&mut group, &timings, 16_384);
                timings[length / 2] = 10_000_001;
                list_case(&mut group, &timings, 0);
            }
        }
    }
    for extra in [1_000, 2_000, 4_000, 6_000, 8_000] {
        for length in [65_534, 65_535, 65_536] {
            let mut timings = vec![4_000; length];
            timings[length - 1] = extra;
            for room in [16_383, 16_384, 16_385] {
                list_case(&mut group, &timings, room);
            }
        }
    }
    // Few timings of many cells: up to 5,000 each, far past the limit.
    for length in 1..=40 {
        let timings = vec![10_000_000; length];
        for room in [0, 625 * length - 1, 625 * length, 625 * length + 1] {
            list_case(&mut group, &timings, room);
        }
    }
    list_case(&mut group, &vec![10_000_000; 65_536], 16_384);
    group.close(report);
}

pub fn histograms(report: &mut Report) {
    let mut group = Group::new("histograms");
    let mut random = Random::new(12);
    for i in 0..4_000 {
        let length = match i {
            0..=64 => i,
            65 => 65_535,
            66 => 65_536,
            67 => 65_537,
            _ => random.below(300) as usize,
        };
        let wild = random.one_in(4);
        let timings: Vec<u32> = (0..length)
            .map(|_| match random.below(4) {
                0 if wild => any_timing(&mut random),
                1 => (100 * random.between(1, 257) + random.between(-1, 1)) as u32,
                _ => random.between(1, 30_000) as u32,
            })
            .collect();
        let second = separator::histogram(&timings);
        group.same(answer(thikbromu::histogram(&timings)), second, || {
            format!("{length} timings {:?}", &timings[..length.min(12)])
        });
        let counts = second.unwrap_or([0; 256]);
        for room in [256, 255, 0, 300] {
            let mut lent: Lent<u32> = Lent::new(room);
            let ours = answer(boundary::histogram(&timings, lent.part()));
            let sum: usize = lent.part().iter().take(256).map(|&count| count as usize).sum();
            // The counts sum to the number of timings, where there is room for all of them.
            let sum = if room < 256 { 0 } else { sum };
            let counted = if room < 256 { 0 } else { second.map_or(0, |_| length) };
            group.same(
                (ours, lent.into_all(), sum),
                (second.map(|_| length), Lent::expected(room, &counts[..room.min(256)]), counted),
                || format!("{length} timings {:?}, room {room}", &timings[..length.min(12)]),
            );
        }
    }
    group.close(report);
}
