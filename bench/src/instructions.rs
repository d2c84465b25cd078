//! One call of one version on one input, for a tool that counts instructions. The arguments are `once`, the input's name, and whose version.

use crate::{tuned_findings, tuned_separator, tuned_tracks, Sides};
use second_program::findings::{self, Finding};
use second_program::separator;
use std::hint::black_box;
use test_inputs::flux_inputs::{flux_track, Choice};
use test_inputs::random::Random;
use thikbromu::boundary::{self, FINDING_NUMBERS};
use thikbromu::{MOST_CELL_BYTES, MOST_FINDINGS};

/// What is counted: bench/run names this function to the tool.
#[inline(never)]
fn measured<T>(work: impl FnOnce() -> T) {
    black_box(work());
}

/// The timings of the separator's rows.
pub fn timings() -> Vec<u32> {
    flux_track(&mut Random::new(3), 40_000, Choice::Any).timings
}

pub fn once(input: &str, side: Sides) {
    if input == "separator" {
        let timings = timings();
        let (mut packed, mut border_pulses) = ([0; MOST_CELL_BYTES], 0);
        match side {
            Sides::Library => measured(|| boundary::separate(black_box(&timings), &mut packed, &mut border_pulses)),
            Sides::Tuned => measured(|| tuned_separator::separate(black_box(&timings), &mut packed)),
            Sides::Plain => measured(|| separator::separate(black_box(&timings), MOST_CELL_BYTES)),
        }
        return;
    }
    let tracks = tuned_tracks();
    let (_, bytes) = tracks.iter().find(|(name, _)| *name == input).expect("an input by its name");
    let (mut list, mut plain_list) = ([0; FINDING_NUMBERS * MOST_FINDINGS], [Finding::default(); MOST_FINDINGS]);
    match side {
        Sides::Library => measured(|| boundary::findings(black_box(bytes), 100_000, 0, 0, &mut list)),
        Sides::Tuned => measured(|| tuned_findings::findings(0, 0, black_box(bytes), 100_000, &mut plain_list)),
        Sides::Plain => measured(|| findings::findings(0, 0, black_box(bytes), 100_000, MOST_FINDINGS)),
    }
}
