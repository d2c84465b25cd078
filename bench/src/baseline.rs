//! The baseline of the mark search beside the library's search, both of which find the same places, and the tuned versions (agreement).
//!
//! It runs in the very build that is measured, with the argument `baseline`; `.ci/baseline` runs it. The last line is 'N passed, M failed'.

use crate::agreement;
use crate::naive_search::{self, MARK, SYNC};
use crate::search::all_places;
use second_program::cells;
use test_inputs::random::Random;
use test_inputs::track_builder::{filled, standard_track, turn};
use thikbromu::boundary;

/// A packed track: its bytes and its number of cells.
struct Track {
    bytes: Vec<u8>,
    n: usize,
}

impl Track {
    fn of_cells(track_cells: &[u8]) -> Track {
        Track { bytes: cells::pack(track_cells), n: track_cells.len() }
    }
}

/// At most so many differences are printed.
const MOST_PRINTED: usize = 10;

/// The cases that agreed, and those that did not.
#[derive(Default)]
pub struct Cases {
    passed: usize,
    failed: usize,
}

impl Cases {
    pub fn same<T: PartialEq + std::fmt::Debug>(&mut self, ours: T, baseline: T, given: impl Fn() -> String) {
        if ours == baseline {
            self.passed += 1;
            return;
        }
        self.failed += 1;
        if self.failed <= MOST_PRINTED {
            println!("given {}: {ours:?}, and the other {baseline:?}", given());
        }
    }

    /// One search for a word of LENGTH cells.
    fn search<const LENGTH: usize>(&mut self, track: &Track, word: u64, from: usize, to: usize) {
        let Track { bytes, n } = track;
        self.same(
            boundary::find_word(bytes, *n, word, LENGTH, from, to),
            naive_search::find_word::<LENGTH>(bytes, *n, word, from, to),
            || format!("{} bytes, n {n}, word {word:X} of {LENGTH}, from {from} to {to}", bytes.len()),
        );
    }

    /// The searches for a sync and for a mark, from one place to another.
    fn sync_and_mark(&mut self, track: &Track, from: usize, to: usize) {
        let Track { bytes, n } = track;
        let given = || format!("{} bytes, n {n}, from {from} to {to}", bytes.len());
        let sync = boundary::find_word(bytes, *n, SYNC, 16, from, to);
        self.same(sync, naive_search::find_sync(bytes, *n, from, to), || format!("{}, sync", given()));
        let mark = boundary::find_word(bytes, *n, MARK, 48, from, to);
        self.same(mark, naive_search::find_mark(bytes, *n, from, to), || format!("{}, mark", given()));
    }

    /// All syncs and all marks of a track; `known` is how many of each there have to be, where that is known.
    fn all_syncs_and_marks(&mut self, track: &Track, known: Option<(usize, usize)>) {
        let Track { bytes, n } = track;
        let ours = |word, length| all_places(*n, |from, to| boundary::find_word(bytes, *n, word, length, from, to));
        let (syncs, marks) = (ours(SYNC, 16), ours(MARK, 48));
        if let Some(known) = known {
            self.same((syncs.len(), marks.len()), known, || format!("n {n}, the numbers of syncs and marks"));
        }
        self.same(syncs, all_places(*n, |from, to| naive_search::find_sync(bytes, *n, from, to)), || format!("n {n}, all syncs"));
        self.same(marks, all_places(*n, |from, to| naive_search::find_mark(bytes, *n, from, to)), || format!("n {n}, all marks"));
    }

    /// Searches for words of LENGTH cells on short tracks of random cells: words of the track, words a bit off, and any.
    fn random_cells<const LENGTH: usize>(&mut self, random: &mut Random, searches: usize) {
        for _ in 0..searches {
            let length = random.below(40) as usize;
            let sparse = random.one_in(2);
            let bytes: Vec<u8> = (0..length).map(|_| if sparse { random.byte() & random.byte() } else { random.byte() }).collect();
            // Also more cells than the bytes hold, and none.
            let n = random.below(8 * length as u64 + 20) as usize;
            let aim = random.below(n as u64) as usize;
            let word = match random.below(6) {
                0 => random.next_number(),
                1 => cells::word(&bytes, n, aim, LENGTH) ^ (1 << random.below(64)),
                _ => cells::word(&bytes, n, aim, LENGTH),
            };
            let from = random.below(3 * n as u64 + 2) as usize;
            let to = match random.below(4) {
                0 => random.below(3 * n as u64 + 2) as usize,
                1 => from + random.below(3) as usize,
                _ => from + random.below(2 * n as u64 + 3) as usize,
            };
            self.search::<LENGTH>(&Track { bytes, n }, word, from, to);
        }
    }
}

/// A mark on a track of n cells that begins so many cells before the index. The filling holds no sync.
fn mark_before_index(n: usize, before: usize, filling: u8) -> Track {
    let mut track_cells = cells::unpack(&vec![filling; cells::bytes_needed(n)], n);
    for i in 0..48 {
        track_cells[(n - before + i) % n] = (MARK >> (47 - i) & 1) as u8;
    }
    Track::of_cells(&track_cells)
}

/// Tracks shorter than a word or little longer, where a word meets its own cells again: every range of some places.
fn short_tracks(cases: &mut Cases, random: &mut Random) {
    for n in 0..=64 {
        for bytes in [vec![0x00; 8], vec![0x44, 0x89, 0x44, 0x89, 0x44, 0x89, 0x44, 0x89], (0..8).map(|_| random.byte()).collect()] {
            let track = Track { bytes, n };
            for from in [0, 1, 7, n, n + 3, 2 * n] {
                for to in [0, 1, n, n + 1, 2 * n + 5, 3 * n] {
                    cases.sync_and_mark(&track, from, to);
                    cases.search::<16>(&track, cells::word(&track.bytes, n, n / 2, 16), from, to);
                    cases.search::<48>(&track, cells::word(&track.bytes, n, n / 3, 48), from, to);
                    // A word of zeros stands at every place of a track of no cells.
                    cases.search::<16>(&track, 0, from, to);
                }
            }
        }
    }
}

/// Marks at each place from 64 cells before the index to the index itself, on tracks whose length has every remainder by 16. The word with
/// its last cell changed stands nowhere, and neither does one with more cells than the word has.
fn marks_round_index(cases: &mut Cases) {
    for n in 400..416 {
        for before in 0..=64 {
            for filling in [0xAA, 0x00] {
                let track = mark_before_index(n, before, filling);
                for (from, to) in [(0, n), (1, 2 * n), (n - before, n + 1), (n - 60, n + 60), (n, 3 * n), (n - 1, 0)] {
                    cases.sync_and_mark(&track, from, to);
                    cases.search::<48>(&track, MARK ^ 1, from, to);
                    cases.search::<16>(&track, SYNC | 1 << 16, from, to);
                }
            }
        }
    }
    for n in [100_000, 99_997, 131_071] {
        for before in 0..=48 {
            cases.sync_and_mark(&mark_before_index(n, before, 0xAA), n - 70, 2 * n);
        }
    }
}

/// The standard track in every phase, on lengths that are a multiple of 8 and on such that are none; and random cells.
fn whole_tracks(cases: &mut Cases, random: &mut Random) {
    let standard = standard_track(3, 1, 0xE5);
    for phase in 0..16 {
        // Nine sectors have an ID mark and a data mark each, of three syncs.
        cases.all_syncs_and_marks(&Track::of_cells(&turn(&standard, phase)), Some((54, 18)));
        let longer = filled(standard.clone(), 100_001 + phase);
        // The first mark goes over the index.
        cases.all_syncs_and_marks(&Track::of_cells(&turn(&longer, 100_001 + phase - 1_152 - 16 - phase)), Some((54, 18)));
    }
    for n in [100_000, 99_999, 131_072, 20_003] {
        let bytes: Vec<u8> = (0..cells::bytes_needed(n)).map(|_| random.byte()).collect();
        let track = Track { bytes, n };
        cases.all_syncs_and_marks(&track, None);
        for aim in [0, 1, n / 2, n - 40, n - 1] {
            cases.search::<48>(&track, cells::word(&track.bytes, n, aim, 48), 0, n);
            cases.search::<16>(&track, cells::word(&track.bytes, n, aim, 16), aim + 1, 2 * n);
        }
    }
}

/// Runs all cases and prints their numbers; gives whether all agree.
pub fn agrees() -> bool {
    let mut cases = Cases::default();
    let mut random = Random::new(70);
    cases.random_cells::<16>(&mut random, 20_000);
    cases.random_cells::<48>(&mut random, 20_000);
    short_tracks(&mut cases, &mut random);
    marks_round_index(&mut cases);
    whole_tracks(&mut cases, &mut random);
    agreement::tuned(&mut cases);
    println!("{} passed, {} failed", cases.passed, cases.failed);
    cases.failed == 0
}
