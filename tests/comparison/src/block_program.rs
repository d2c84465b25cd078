//! Section 13 of the specification: the program `scp_track` beside the second program, on whole blocks and on blocks that come in portions,
//! and what it does with inputs that fail and with other arguments.

use crate::program::{
    built, ends_within, in_portions, in_shell, left_after_pipe, left_after_socket, listed_alone, not_listed, says_one_line,
    sockets_as_expected, started, text, through_pipe, Seen, SocketEnd,
};
use crate::report::{Group, Report};
use second_program::listing::listing;
use second_program::track_block::printed;
use std::ffi::OsStr;
use std::fs::File;
use std::os::unix::ffi::OsStrExt;
use std::process::{Command, Stdio};
use std::time::Duration;
use test_inputs::block_inputs::{
    block_of_parts, block_of_values, border_block, bytes_of_values, odd_track_block, random_portions, samplings, standard_track_block,
    track_that_ends_in_a_one, BlockPlan, BETWEEN_SECTORS, GROUPS, IN_A_SECTOR,
};
use test_inputs::file_inputs::file_of_cells;
use test_inputs::random::Random;
use test_inputs::track_builder::standard_track as standard_track_cells;
use thikbromu::TrackBlock;

/// The most bytes of a block that the program takes.
const LONGEST_BLOCK: usize = 4_194_304;

/// The program with these arguments.
pub fn program(arguments: &[impl AsRef<OsStr>]) -> Command {
    let mut command = built("scp_track");
    command.args(arguments);
    command
}

/// The program with four numbers: the revolutions, the chosen one, the track and the side.
fn program_with(numbers: [u8; 4]) -> Command {
    program(&numbers.map(|number| number.to_string()))
}

/// What the second program prints with these numbers.
fn expected(block: &[u8], [revolutions, revolution, track, side]: [u8; 4]) -> String {
    text(&printed(block, revolutions, revolution, track, side))
}

/// What the crate lists of the revolution's cells.
fn listing_by_crate(block: &[u8], numbers: [u8; 4]) -> String {
    let [revolutions, revolution, track, side] = numbers.map(u32::from);
    match TrackBlock::new(block, revolutions).cells(revolution) {
        Ok(cells) => cells.track(track, side).listing(),
        Err(refusal) => format!("refused {}\n", refusal.number()),
    }
}

/// What is listed of flux within demand 3's tolerance: the listing of its cells.
fn within_tolerance(track: u8, side: u8, track_cells: &[u8]) -> String {
    text(&listing(&file_of_cells(track, side, track_cells)))
}

/// Flux within demand 3's tolerance has no border pulse, which the listing does not tell.
fn no_border_pulses(group: &mut Group, block: &[u8], [revolutions, revolution, _, _]: [u8; 4], given: impl Fn() -> String) {
    let timings = TrackBlock::new(block, revolutions.into()).timings(revolution.into());
    group.same(timings.map(|it| it.border_pulses), Ok(0), given);
}

/// A block through the program, and by the crate.
fn block_case(group: &mut Group, seen: &mut Seen, name: &str, block: &[u8], numbers: [u8; 4]) {
    let given = || format!("{name}, {numbers:?}");
    let expected = expected(block, numbers);
    seen.note(&expected);
    group.same(text(&through_pipe(program_with(numbers), block)), expected.clone(), given);
    group.same(listing_by_crate(block, numbers), expected, given);
}

/// Tracks and sides, the last two of which no drive has.
const PLACES: [(u8, u8); 8] = [(5, 0), (0, 0), (5, 1), (79, 1), (80, 0), (83, 1), (84, 0), (83, 2)];

/// At most so many cases of a group go through the program.
const CASES_OF_A_GROUP: usize = 120;

/// Cases of all groups, and odd tracks.
pub fn whole_blocks(report: &mut Report) {
    let mut group = Group::new("the block program on whole blocks");
    let mut seen = Seen::default();
    let mut places = PLACES.into_iter().cycle();
    for (_, make) in GROUPS {
        // Those whose numbers the arguments can be.
        let argument = |number: u32| u8::try_from(number).ok();
        let fitting: Vec<_> = make()
            .into_iter()
            .filter_map(|case| Some((argument(case.revolutions)?, argument(case.revolution)?, case)))
            .collect();
        let step = fitting.len().div_ceil(CASES_OF_A_GROUP).max(1);
        for (revolutions, revolution, case) in fitting.iter().step_by(step) {
            let (track, side) = places.next().expect("places without end");
            block_case(&mut group, &mut seen, &case.name, &case.block, [*revolutions, *revolution, track, side]);
        }
    }
    // The odd tracks are made for track 5.
    for seed in 100..500 {
        let (track, side) = if seed % 4 == 0 { places.next().expect("places without end") } else { (5, 0) };
        let block = odd_track_block(seed).bytes();
        let name = format!("odd track of seed {seed}");
        for revolution in 0..2 {
            block_case(&mut group, &mut seen, &name, &block, [2, revolution, track, side]);
        }
    }
    // There are always enough bytes and always room: 3, 5 and 10 do not arise. 11 to 15 are of other calls.
    seen.reached(&mut group, &[1, 2, 4, 6, 7, 8, 9, 16, 17]);
    group.close(report);
}

/// The standard track's flux, whose revolutions list as the track itself does.
pub fn standard_track(report: &mut Report) {
    let mut group = Group::new("the block program on the standard track's flux");
    for (seed, track, side, filler, revolutions) in [(11, 0, 0, 0xE5, 2), (12, 40, 1, 0x00, 5), (13, 79, 0, 0x4E, 3)] {
        let standard = standard_track_cells(track, side, filler);
        let turned = track_that_ends_in_a_one(&standard);
        let block = standard_track_block(seed, track, side, filler, revolutions).bytes();
        for revolution in 0..revolutions as u8 {
            for ((track, side), track_cells) in [((track, side), &standard), ((81, 1), &turned)] {
                let numbers = [revolutions as u8, revolution, track, side];
                let given = || format!("the standard track of seed {seed}, {numbers:?}");
                let ours = text(&through_pipe(program_with(numbers), &block));
                group.same(&ours, &within_tolerance(track, side, track_cells), given);
                group.same(&ours, &expected(&block, numbers), given);
                group.same(&listing_by_crate(&block, numbers), &ours, given);
                no_border_pulses(&mut group, &block, numbers, given);
            }
        }
    }
    let block = standard_track_block(14, 0, 0, 0xE5, 1).bytes();
    let ours = text(&through_pipe(program_with([1, 0, 0, 0]), &block));
    let listed = "T00 H0 cells 100000 sectors 9 findings 0\n";
    group.same(ours, listed.to_string(), || "the listing of rule 11.10".to_string());
    group.close(report);
}

/// The standard track's flux as the device samples it, from the index on: every later revolution lists as the track itself does, and where
/// the index lies in a sector, as the track turned to it. The first timing of revolution 0 is no difference of two pulses, so that demand 3
/// says nothing of it: it is only compared with the second program.
pub fn standard_track_from_index(report: &mut Report) {
    let mut group = Group::new("the block program on the standard track from the index on");
    let mut random = Random::new(75);
    let all = samplings(&[&BETWEEN_SECTORS[..], &IN_A_SECTOR].concat());
    let tracks = [(0, 0, 0xE5), (40, 1, 0x00), (79, 0, 0x4E)].into_iter().cycle();
    for (sampling, (own_track, own_side, filler)) in all.into_iter().zip(tracks) {
        let standard = standard_track_cells(own_track, own_side, filler);
        let turned = sampling.whole_revolution(&standard);
        let block = sampling.block(&mut random, &standard).bytes();
        let between = BETWEEN_SECTORS.contains(&sampling.index_cell);
        for revolution in 0..sampling.revolutions as u8 {
            for (track, side) in [(own_track, own_side), (81, 1)] {
                let numbers = [sampling.revolutions as u8, revolution, track, side];
                let given = || format!("{sampling:?}, {numbers:?}");
                let ours = text(&through_pipe(program_with(numbers), &block));
                group.same(&ours, &expected(&block, numbers), given);
                group.same(&listing_by_crate(&block, numbers), &ours, given);
                if revolution == 0 {
                    continue;
                }
                no_border_pulses(&mut group, &block, numbers, given);
                let listed = if between && track == own_track {
                    format!("T{track:02} H{side} cells 100000 sectors 9 findings 0\n")
                } else {
                    within_tolerance(track, side, &turned)
                };
                group.same(ours, listed, given);
            }
        }
    }
    group.close(report);
}

/// A short block of two revolutions, the second of 20,000 cells.
fn two_revolutions() -> Vec<u8> {
    block_of_values(&[vec![160, 240], [0, 0, 0, 0, 0, 0, 6_784].repeat(4)]).bytes()
}

/// A block of so many bytes, whose one revolution, of 20,000 cells, is at its end.
fn block_of_length(length: usize) -> BlockPlan {
    let own = bytes_of_values(&[0, 0, 0, 0, 0, 0, 6_784].repeat(4));
    let table_end = block_of_parts(Vec::new(), &[(0, 0)]).table_end();
    let mut values = vec![0; length - table_end - own.len()];
    let start = values.len();
    values.extend(&own);
    block_of_parts(values, &[(start, own.len() / 2)])
}

/// The program with these numbers, its standard error kept.
fn program_that_may_fail(numbers: [u8; 4]) -> Command {
    let mut command = program_with(numbers);
    command.stderr(Stdio::piped());
    command
}

/// Inputs through stream sockets that end, and inputs that fail once and then end: of these nothing is listed, however much was read.
pub fn failing_inputs(report: &mut Report) {
    let mut group = Group::new("the block program on inputs that fail");
    sockets_as_expected(&mut group);
    let mut random = Random::new(76);
    for (name, block, numbers) in [
        ("two revolutions", two_revolutions(), [2, 1, 5, 1]),
        // More than five get the program's longest room at once.
        ("six revolutions", standard_track_block(17, 0, 0, 0xE5, 6).bytes(), [6, 5, 0, 0]),
        ("the standard track", standard_track_block(16, 0, 0, 0xE5, 2).bytes(), [2, 1, 0, 0]),
        ("a block of 300,001 bytes", block_of_length(300_001).bytes(), [1, 0, 80, 0]),
        // Where the program's usual room is full.
        ("a block of 524,288 bytes", block_of_length(524_288).bytes(), [1, 0, 5, 0]),
        ("a block of 524,289 bytes", block_of_length(524_289).bytes(), [1, 0, 5, 0]),
        ("the longest block", block_of_length(LONGEST_BLOCK).bytes(), [1, 0, 5, 0]),
    ] {
        let mut places = vec![0, 1, 3, 4, block.len() - 1, block.len()];
        if block.len() < 100 {
            places.extend(0..block.len());
        } else {
            places.extend([4_096, 65_535, 65_536, 65_537]);
            places.extend((0..6).map(|_| random.below(block.len() as u64) as usize));
        }
        places.sort_unstable();
        places.dedup();
        for place in places {
            let front = &block[..place];
            let given = || format!("{place} bytes of {name}");
            let output = left_after_socket(program_that_may_fail(numbers), front, SocketEnd::FailsOnce);
            not_listed(&mut group, "scp_track", &output, || format!("{}, then a failure", given()));
            let output = left_after_socket(program_that_may_fail(numbers), front, SocketEnd::Ends);
            listed_alone(&mut group, &output, &expected(front, numbers), given);
        }
    }
    // No input, or one that cannot be read at all.
    let numbers = [2, 1, 5, 1];
    for redirection in ["<&-", "< /", "< /proc/self/mem"] {
        not_listed(&mut group, "scp_track", &in_shell(&program_with(numbers), redirection), || redirection.to_string());
    }

    // The longest block, and longer ones.
    let lengths = [(LONGEST_BLOCK, 0), (LONGEST_BLOCK - 1, 0), (LONGEST_BLOCK - 1, 1), (1_000, LONGEST_BLOCK - 1_000)];
    for (length, left_over) in lengths {
        let mut plan = block_of_length(length);
        plan.left_over = vec![0; left_over];
        for more in [0, 1, 65_536, LONGEST_BLOCK] {
            let given = || format!("values to {length}, {left_over} left over, {more} more");
            let block = [plan.bytes(), vec![0; more]].concat();
            for numbers in [[1, 0, 5, 0], [6, 0, 5, 0]] {
                let output = left_after_pipe(program_that_may_fail(numbers), &block);
                if block.len() > LONGEST_BLOCK {
                    not_listed(&mut group, "scp_track", &output, given);
                } else {
                    listed_alone(&mut group, &output, &expected(&block, numbers), given);
                }
            }
        }
    }
    let output = left_after_pipe(program_that_may_fail(numbers), &vec![0; LONGEST_BLOCK]);
    listed_alone(&mut group, &output, "refused 16\n", || "zeros".to_string());
    let mut child = started(program_that_may_fail(numbers), Stdio::from(File::open("/dev/zero").expect("zeros without end")));
    if !ends_within(&mut child, Duration::from_secs(20)) {
        child.kill().expect("a program that reads without end");
    }
    let output = child.wait_with_output().expect("the program's output");
    not_listed(&mut group, "scp_track", &output, || "zeros without end".to_string());
    group.close(report);
}

/// Other arguments, blocks that come in portions, and outputs that fail.
pub fn system(report: &mut Report) {
    let mut group = Group::new("the block program's arguments, and the system");
    let block = two_revolutions();
    let numbers = [2, 1, 5, 1];
    let good: [&[u8]; 4] = [b"2", b"1", b"5", b"1"];
    let listed = expected(&block, numbers);

    // The same numbers with zeros before them.
    let zeros = [b'0'; 100];
    for (place, argument) in good.iter().enumerate() {
        for count in [1, 2, 3, 20, 100] {
            let longer = [&zeros[..count], argument].concat();
            let mut arguments = good.map(OsStr::from_bytes);
            arguments[place] = OsStr::from_bytes(&longer);
            group.same(text(&through_pipe(program(&arguments), &block)), listed.clone(), || format!("{arguments:?}"));
        }
    }
    // 255 is the highest number; 16, 17 and 1 go by it.
    for place in 0..4 {
        let mut numbers = numbers;
        numbers[place] = 255;
        group.same(text(&through_pipe(program_with(numbers), &block)), expected(&block, numbers), || format!("{numbers:?}"));
    }

    let mut refused = |arguments: &[&[u8]]| {
        let arguments: Vec<&OsStr> = arguments.iter().map(|argument| OsStr::from_bytes(argument)).collect();
        let output = program(&arguments).stdin(Stdio::null()).output().expect("the program");
        let one_line = says_one_line(&output, "usage: scp_track");
        let given = || format!("{arguments:?}, which says {:?}", text(&output.stderr));
        group.same((text(&output.stdout), one_line), (String::new(), true), given);
    };
    for count in 0..4 {
        refused(&good[..count]);
        refused(&good[4 - count..]);
    }
    refused(&[&good[..], &[b"0"]].concat());
    refused(&[&good[..], &[b""]].concat());
    refused(&[&good[..], &good[..]].concat());
    let others: [&[u8]; 28] = [
        b"",
        b" ",
        b"-",
        b"-1",
        b"+1",
        b" 1",
        b"1 ",
        b"1\n",
        b"x",
        b"1x",
        b"x1",
        b"0x1",
        b"1.0",
        b"1,0",
        b"1e0",
        // The bytes beside those of the digits, and others.
        b"/",
        b":",
        b"1:",
        b"\xB1",
        b"1\xFF",
        "\u{661}".as_bytes(),
        b"256",
        b"260",
        b"999",
        b"0000256",
        // 1 in 8, 32 and 64 bits.
        b"257",
        b"4294967297",
        b"18446744073709551617",
    ];
    for place in 0..4 {
        for other in others {
            let mut arguments = good;
            arguments[place] = other;
            refused(&arguments);
        }
    }

    // Blocks in portions.
    let mut random = Random::new(74);
    for place in 1..block.len() {
        let (front, back) = block.split_at(place);
        let ours = in_portions(program_with(numbers), [front, back].into_iter());
        group.same(text(&ours), listed.clone(), || format!("in two at {place}"));
        let short = expected(front, numbers);
        group.same(text(&through_pipe(program_with(numbers), front)), short, || format!("cut short at {place}"));
    }
    for (name, block, numbers) in [
        ("the standard track", standard_track_block(15, 0, 0, 0xE5, 2).bytes(), [2, 1, 0, 0]),
        ("an odd track", odd_track_block(7).bytes(), [2, 1, 5, 0]),
        ("border pulses", border_block(50).bytes(), [3, 1, 5, 0]),
        ("a block of 300,001 bytes", block_of_length(300_001).bytes(), [1, 0, 80, 0]),
    ] {
        let expected = expected(&block, numbers);
        for size in [1, 3, 7, 1_000, 4_095, 4_096] {
            let ours = in_portions(program_with(numbers), block.chunks(size));
            group.same(text(&ours), expected.clone(), || format!("{name} in portions of {size}"));
        }
        for _ in 0..10 {
            let portions = random_portions(&mut random, &block, 4_096);
            let some = portions.into_iter().filter(|portion| !portion.is_empty());
            let ours = in_portions(program_with(numbers), some);
            group.same(text(&ours), expected.clone(), || format!("{name} in portions at random"));
        }
    }

    // An output that cannot be written, or whose reader goes away: the program ends all the same.
    let command = program_with(numbers);
    for redirection in [">&-", "> /dev/full"] {
        group.same(in_shell(&command, redirection).status.success(), true, || redirection.to_string());
    }
    let mut child = started(program_with(numbers), Stdio::null());
    drop(child.stdout.take());
    group.same(ends_within(&mut child, Duration::from_secs(20)), true, || "the output's reader has gone".to_string());
    group.same(text(&through_pipe(command, &[])), "refused 16\n".to_string(), || "no bytes".to_string());
    group.close(report);
}
