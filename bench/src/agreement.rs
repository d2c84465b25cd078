//! The tuned versions beside the second program: they give the same. Run with the argument `baseline`, in the build that is measured.

use crate::baseline::Cases;
use crate::{tuned_findings, tuned_separator};
use second_program::findings::{self, Finding};
use second_program::{cells, separator};
use test_inputs::flux_inputs::{flux_track, Choice};
use test_inputs::random::Random;
use test_inputs::track_builder::{odd_track, standard_track, turn};
use thikbromu::MOST_FINDINGS;

/// The findings of one track, in a list with room for `room`.
fn findings_of(cases: &mut Cases, (track, side): (u32, u32), bytes: &[u8], n: usize, room: usize) {
    let mut list = vec![Finding::default(); room];
    let tuned = tuned_findings::findings(track, side, bytes, n, &mut list).map(|count| list[..count].to_vec());
    cases.same(tuned, findings::findings(track, side, bytes, n, room), || format!("findings, {n} cells, track {track}, room {room}"));
}

/// Tracks with sectors of every kind, with areas without flux, of random cells, and such that are refused.
fn tracks(cases: &mut Cases, random: &mut Random) {
    for _ in 0..400 {
        let track = random.below(85) as u32;
        let track_cells = odd_track(random, track as u8);
        let mut bytes = cells::pack(&track_cells);
        if random.one_in(3) {
            let from = random.below(bytes.len() as u64 - 200) as usize;
            let length = random.below(200) as usize;
            bytes[from..from + length].fill(0);
        }
        findings_of(cases, (track, random.below(3) as u32), &bytes, track_cells.len(), random.below(40) as usize + 10);
    }
    for phase in [0, 1, 7, 500, 3_000, 50_000, 99_990] {
        let bytes = cells::pack(&turn(&standard_track(0, 0, 0xE5), phase));
        findings_of(cases, (0, 0), &bytes, 100_000, MOST_FINDINGS);
        findings_of(cases, (80, 0), &bytes, 99_999, MOST_FINDINGS);
        findings_of(cases, (0, 0), &bytes, 100_008, MOST_FINDINGS);
    }
    for n in [19_999, 20_000, 64_000, 99_999, 131_072, 131_073] {
        let any: Vec<u8> = (0..cells::bytes_needed(n)).map(|_| random.byte()).collect();
        let syncs: Vec<u8> = (0..any.len()).map(|index| [0x44, 0x89][index % 2]).collect();
        let mut one = vec![0; any.len()];
        one[random.below(2_000) as usize] = 1 << random.below(8);
        for bytes in [any, syncs, one, vec![0; cells::bytes_needed(n)]] {
            findings_of(cases, (0, 0), &bytes, n, MOST_FINDINGS);
        }
    }
}

/// Lists of timings as a drive gives them, and of any timings.
fn lists(cases: &mut Cases, random: &mut Random) {
    for round in 0..400 {
        let count = 1 + random.below(66_000) as usize;
        let most = [1_000, 3_000, 9_000, 60_000][round % 4];
        let mut timings: Vec<u32> = match random.below(3) {
            0 => flux_track(random, count.min(60_000), Choice::Any).timings,
            _ => (0..count).map(|_| 1 + random.below(most) as u32).collect(),
        };
        if random.one_in(8) {
            let place = random.below(timings.len() as u64) as usize;
            timings[place] = [0, 10_000_000, 10_000_001, u32::MAX][random.below(4) as usize];
        }
        let room = if random.one_in(4) { random.below(16_384) as usize } else { 16_384 };
        let mut packed = vec![7; room];
        let tuned = tuned_separator::separate(&timings, &mut packed);
        let plain = separator::separate(&timings, room);
        let written = plain.as_ref().map_or(0, |separation| separation.bytes.len());
        let given = || format!("separator, {} timings, room {room}", timings.len());
        cases.same(packed[written..].iter().all(|&byte| byte == 7), true, given);
        cases.same(tuned.map(|counts| (counts, packed[..written].to_vec())), plain.map(|s| ((s.cells, s.border_pulses), s.bytes)), given);
    }
}

/// The cases of both.
pub fn tuned(cases: &mut Cases) {
    let mut random = Random::new(30);
    tracks(cases, &mut random);
    lists(cases, &mut random);
}
