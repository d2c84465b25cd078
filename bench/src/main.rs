//! Times the library and the programs beside plain Rust of the second program: the same inputs, in the same run, both optimised.
//!
//! A row for each measurement, as a table in Markdown: what was done, the median time of one call of each in microseconds, and the ratio
//! of the library to plain Rust (below 1: the library is quicker). Whole files and blocks go through a process each: the program, and this
//! one with the argument `plain` or `plain-block`, which lists by the second program. Run it with bench/run; docs/BENCHMARKS.md has a run.
//! A table before it has the routines for which there is plain Rust that is written for speed. With the argument `baseline` nothing is timed: the
//! baseline of the mark search is held to the library's search, and the tuned versions to the second program. With `once` one call is made, for a
//! tool that counts instructions.

mod agreement;
mod baseline;
mod coding;
mod instructions;
#[path = "../../docs/src/naive_search.rs"]
mod naive_search;
mod revolution;
mod search;
mod tuned_findings;
mod tuned_separator;

use second_program::check_word;
use second_program::disk_page;
use second_program::findings::{self, Finding};
use second_program::listing::listing;
use second_program::separator::{self, SeparatorState};
use second_program::single_density;
use second_program::track_block;
use second_program::track_file;
use second_program::{cells, mfm, sectors};
use std::fs::File;
use std::hint::black_box;
use std::io::{Read, Write};
use std::path::Path;
use std::process::{Command, Stdio};
use std::time::Instant;
use test_inputs::block_inputs::standard_track_block;
use test_inputs::disk_inputs::{full_disks, DiskInput, TRACK_NOT_FOUND};
use test_inputs::file_inputs::file_of_cells;
use test_inputs::flux_inputs::{flux_track, Choice};
use test_inputs::random::Random;
use test_inputs::single_density_flux::fm_timings_of_cells;
use test_inputs::single_density_tracks::standard_fm_track;
use test_inputs::track_builder::{standard_track, SectorPlan, TrackBuilder};
use thikbromu::boundary::{self, FINDING_NUMBERS, PLACE_NUMBERS, SECTOR_NUMBERS};
use thikbromu::{
    RevolutionReader, Separator, TrackBlock, HISTOGRAM_COUNTS, LONGEST_LISTING, MOST_CELL_BYTES, MOST_FINDINGS, MOST_TIMINGS,
};

/// The time of one call, in microseconds, over some calls.
fn time<T>(calls: usize, work: &mut impl FnMut() -> T) -> f64 {
    let start = Instant::now();
    for _ in 0..calls {
        black_box(work());
    }
    start.elapsed().as_secs_f64() * 1e6 / calls as f64
}

fn median(mut times: Vec<f64>) -> f64 {
    times.sort_by(f64::total_cmp);
    times[times.len() / 2]
}

/// One row: the median times of the library and of plain Rust over some rounds of some calls each, and what a second of the library does
/// where that is told. Both run turn about, so that a change of the machine's speed meets both.
fn row<A, B>(
    what: &str,
    (rounds, calls): (usize, usize),
    in_a_second: Option<(usize, &str)>,
    mut ours: impl FnMut() -> A,
    mut plain: impl FnMut() -> B,
) {
    let times = (0..rounds).map(|_| (time(calls, &mut ours), time(calls, &mut plain)));
    let (ours, plain): (Vec<f64>, Vec<f64>) = times.unzip();
    let (ours, plain) = (median(ours), median(plain));
    let rate = in_a_second.map(|(count, of)| format!("{:.0} {of}", count as f64 * 1e6 / ours)).unwrap_or_default();
    println!("| {what} | {ours:.1} | {plain:.1} | {:.2} | {rate} |", ours / plain);
}

/// Whose version is run: the library's, plain Rust written for speed, or the second program.
#[derive(Clone, Copy)]
pub enum Sides {
    Library,
    Tuned,
    Plain,
}

/// A row of the first table: the least time of each of three versions over some rounds, turn about.
fn three<A, B, C>(what: &str, mut ours: impl FnMut() -> A, mut tuned: impl FnMut() -> B, mut plain: impl FnMut() -> C) {
    let mut least = [f64::MAX; 3];
    for _ in 0..100 {
        let times = [time(5, &mut ours), time(5, &mut tuned), time(1, &mut plain)];
        for (least, time) in least.iter_mut().zip(times) {
            *least = least.min(time);
        }
    }
    let [ours, tuned, plain] = least;
    println!("| {what} | {ours:.1} | {tuned:.1} | {plain:.1} | {:.2} | {:.2} |", ours / tuned, ours / plain);
}

/// The tracks of 100,000 cells that the tuned version is measured on.
fn tuned_tracks() -> [(&'static str, Vec<u8>); 8] {
    let mut random = Random::new(5);
    let mut without_flux = cells::pack(&standard_track(0, 0, 0xE5));
    without_flux[6_000..6_250].fill(0);
    [
        ("standard track", cells::pack(&standard_track(0, 0, 0xE5))),
        ("random cells", (0..12_500).map(|_| random.byte()).collect()),
        ("64 sectors", track_with(64, 100_000)),
        ("no sectors", track_with(0, 100_000)),
        ("full of syncs", (0..12_500).map(|index| [0x44, 0x89][index % 2]).collect()),
        ("an area without flux", without_flux),
        ("no flux", vec![0; 12_500]),
        ("a one in 72 cells", (0..12_500).map(|index| u8::from(index % 9 == 0)).collect()),
    ]
}

fn beside_tuned() {
    println!("| what | library, us | tuned Rust, us | clear Rust, us | library / tuned | library / clear |");
    println!("|---|---|---|---|---|---|");
    for (name, bytes) in tuned_tracks() {
        let (mut list, mut tuned_list) = ([0; FINDING_NUMBERS * MOST_FINDINGS], [Finding::default(); MOST_FINDINGS]);
        three(
            &format!("findings, {name}"),
            || boundary::findings(black_box(&bytes), 100_000, 0, 0, &mut list),
            || tuned_findings::findings(0, 0, black_box(&bytes), 100_000, &mut tuned_list),
            || findings::findings(0, 0, black_box(&bytes), 100_000, MOST_FINDINGS),
        );
    }
    let timings = instructions::timings();
    let (mut packed, mut tuned_packed, mut border_pulses) = ([0; MOST_CELL_BYTES], [0; MOST_CELL_BYTES], 0);
    three(
        "separator, 40,000 timings",
        || boundary::separate(black_box(&timings), &mut packed, &mut border_pulses),
        || tuned_separator::separate(black_box(&timings), &mut tuned_packed),
        || separator::separate(black_box(&timings), MOST_CELL_BYTES),
    );
    println!();
}

fn coding_and_checking(random: &mut Random) {
    let bytes: Vec<u8> = (0..8_192).map(|_| random.byte()).collect();
    let mut coded = vec![0; 16_384];
    let mut decoded = vec![0; 8_192];
    row(
        "coding, 8,192 bytes",
        (21, 50),
        Some((8_192, "bytes")),
        || thikbromu::encode(black_box(&bytes), false, &mut coded),
        || mfm::code(black_box(&bytes), false, 16_384),
    );
    let mut plain_coded = vec![0; 16_384];
    let table = coding::table();
    assert_eq!(coding::by_table(&table, &bytes, false, &mut plain_coded), thikbromu::encode(&bytes, false, &mut coded).ok());
    assert_eq!(plain_coded, coded);
    row(
        "the same beside plain Rust by a table, into a lent buffer",
        (21, 50),
        None,
        || thikbromu::encode(black_box(&bytes), false, &mut coded),
        || coding::by_table(&table, black_box(&bytes), false, &mut plain_coded),
    );
    row(
        "decoding, 16,384 bytes of cells",
        (21, 50),
        Some((16_384, "bytes of cells")),
        || thikbromu::decode(black_box(&coded), &mut decoded),
        || mfm::decode(black_box(&coded), 8_192),
    );
    row(
        "check word, 8,192 bytes",
        (21, 50),
        Some((8_192, "bytes")),
        || thikbromu::check_word(black_box(&bytes)),
        || check_word::check_word(black_box(&bytes)),
    );
}

fn separating(random: &mut Random) {
    for count in [7_000, 20_000, 40_000] {
        let timings = flux_track(random, count, Choice::Any).timings;
        let mut packed = vec![0; 16_384];
        row(
            &format!("separator, {count} timings in one call"),
            (21, 10),
            Some((count, "timings")),
            || thikbromu::separate(black_box(&timings), &mut packed),
            || separator::separate(black_box(&timings), 16_384),
        );
    }
    let timings = flux_track(random, 40_000, Choice::Any).timings;
    row(
        "separator, 40,000 timings step by step, over the export",
        (21, 10),
        Some((40_000, "timings")),
        || {
            let mut state = Separator::new();
            for &timing in &timings {
                let _ = black_box(state.step_in_place(timing));
            }
        },
        || {
            let mut state = SeparatorState::new();
            for &timing in &timings {
                let _ = black_box(state.advance(timing));
            }
        },
    );
    let mut counts = [0; HISTOGRAM_COUNTS];
    row(
        "histogram, 40,000 timings",
        (21, 50),
        Some((40_000, "timings")),
        || boundary::histogram(black_box(&timings), &mut counts),
        || separator::histogram(black_box(&timings)),
    );
}

/// The bytes of a portion of a revolution's values.
const PORTION: usize = 4_096;

/// The second of two revolutions of the standard track as a drive reports it.
fn track_blocks() {
    let block = standard_track_block(1, 0, 0, 0xE5, 2).bytes();
    let values = track_block::revolution_bytes(&block, 2, 1).expect("the second revolution");
    let timings = TrackBlock::new(&block, 2).timings(1).expect("its timings").list;
    let count = timings.len();
    let mut list = vec![0; MOST_TIMINGS];
    let mut plain_list = vec![0; MOST_TIMINGS];
    // What is measured beside the library does the same work.
    assert_eq!(revolution::one_pass(&block, 2, 1).as_ref(), Ok(&timings));
    assert_eq!(revolution::two_passes(&block, 2, 1, &mut plain_list), Ok(count));
    assert_eq!(plain_list[..count], timings);
    let mut border_pulses = 0;
    let mut ours = || boundary::revolution_timings(black_box(&block), 2, 1, &mut list, &mut border_pulses);
    let what = format!("timings of a revolution, {count} in one call");
    let rate = Some((count, "timings"));
    row(&what, (21, 20), rate, &mut ours, || track_block::revolution_timings(black_box(&block), 2, 1, MOST_TIMINGS));
    let what = "the same beside one pass into a vector";
    row(what, (21, 20), None, &mut ours, || revolution::one_pass(black_box(&block), 2, 1));
    let what = "the same beside two passes into a lent list";
    row(what, (21, 20), None, &mut ours, || revolution::two_passes(black_box(&block), 2, 1, &mut plain_list));
    let mut list = [0; PORTION / 2];
    let mut plain_list = Vec::with_capacity(PORTION / 2);
    let mut carried = revolution::Carried::default();
    let mut all: Vec<u32> = Vec::new();
    for portion in values.chunks(999) {
        carried.take(portion, &mut plain_list).expect("no refusal");
        all.extend(&plain_list);
    }
    assert_eq!(all, timings);
    row(
        &format!("the same revolution in portions of {PORTION} bytes, beside one pass over each into a vector"),
        (21, 20),
        rate,
        || {
            let mut reader = RevolutionReader::new();
            for portion in black_box(values).chunks(PORTION) {
                reader = black_box(reader.take(portion, &mut list)).next;
            }
            reader
        },
        || {
            let mut carried = revolution::Carried::default();
            for portion in black_box(values).chunks(PORTION) {
                let _ = black_box(carried.take(portion, &mut plain_list));
            }
            carried
        },
    );
    let mut packed = [0; MOST_CELL_BYTES];
    let mut border_pulses = 0;
    row(
        &format!("cells of a revolution, {count} timings"),
        (21, 10),
        rate,
        || boundary::revolution_cells(black_box(&block), 2, 1, &mut packed, &mut border_pulses),
        || track_block::revolution_cells(black_box(&block), 2, 1, MOST_CELL_BYTES),
    );
}

fn searching(name: &str, bytes: &[u8], n: usize) {
    // A word that stands nowhere: the whole track is searched.
    let word = 0x4489_4489_4488;
    let ours = || boundary::find_word(black_box(bytes), n, word, 48, 0, n);
    let what = format!("mark search, {name}, {n} cells");
    row(&what, (21, 20), Some((n, "cells")), ours, || cells::find_word(black_box(bytes), n, word, 48, 0, n));
    if n == 100_000 {
        let what = "the same beside a search that fetches 48 cells at each place";
        row(what, (3, 1), None, ours, || naive_search::find_word::<48>(black_box(bytes), n, word, 0, n));
        let what = "the same beside a search of eight places at a time";
        row(what, (21, 20), None, ours, || search::word_parallel(black_box(bytes), n, word));
    }
}

/// All syncs and all marks of a track, beside the baseline of the search. Both are asked again after each place that they find, so both go
/// over the whole track.
fn searching_all(name: &str, bytes: &[u8], n: usize) {
    // The compiler is not to know the number of cells, as the library does not.
    let n = black_box(n);
    let ours = |word, length| search::all_places(n, |from, to| boundary::find_word(black_box(bytes), n, word, length, from, to));
    let syncs = || search::all_places(n, |from, to| naive_search::find_sync(black_box(bytes), n, from, to));
    let marks = || search::all_places(n, |from, to| naive_search::find_mark(black_box(bytes), n, from, to));
    // What is measured beside the library finds the same.
    assert_eq!(ours(naive_search::SYNC, 16), syncs());
    assert_eq!(ours(naive_search::MARK, 48), marks());
    let what = format!("all syncs of 16 cells, {name}, {n} cells, beside the baseline that fetches 16 cells at each place");
    row(&what, (21, 5), Some((n, "cells")), || ours(naive_search::SYNC, 16), syncs);
    let what = format!("all marks of 48 cells, {name}, {n} cells, beside the baseline that fetches 48 cells at each place");
    row(&what, (21, 5), Some((n, "cells")), || ours(naive_search::MARK, 48), marks);
}

/// A track of n cells with so many sectors; IDs alone where there are more than twelve.
fn track_with(sector_count: usize, n: usize) -> Vec<u8> {
    let mut builder = TrackBuilder::new();
    for number in 0..sector_count {
        let mut plan = SectorPlan::standard(0, 0, number as u8, 0xE5);
        if sector_count > 12 {
            (plan.data_mark, plan.gap_cells) = (None, 0);
        }
        builder.write_repeated(0x00, 4);
        builder.write_sector(&plan);
        builder.write_repeated(0x4E, 4);
    }
    while builder.cells().len() < n {
        builder.write_byte(0x4E);
    }
    cells::pack(&builder.cells()[..n])
}

fn listing_sectors(name: &str, bytes: &[u8], n: usize) {
    let mut numbers = [0; SECTOR_NUMBERS];
    row(
        &format!("sector list, {name}, {n} cells"),
        (21, 10),
        Some((1, "tracks")),
        || boundary::sector(black_box(bytes), n, 0, 0, 0, &mut numbers),
        || sectors::list(black_box(bytes), n),
    );
    let mut list = [0; FINDING_NUMBERS * MOST_FINDINGS];
    row(
        &format!("findings, {name}, {n} cells"),
        (21, 10),
        Some((1, "tracks")),
        || boundary::findings(black_box(bytes), n, 0, 0, &mut list),
        || findings::findings(0, 0, black_box(bytes), n, MOST_FINDINGS),
    );
}

/// The standard track of single density: from its timings to cells, its sectors, its findings.
fn tracks_of_single_density() {
    let track_cells = standard_fm_track(0, 0, 0xE5);
    let (bytes, n) = (cells::pack(&track_cells), track_cells.len());
    let timings = fm_timings_of_cells(&track_cells);
    let count = timings.len();
    let mut packed = vec![0; MOST_CELL_BYTES];
    let mut border_pulses = 0;
    row(
        &format!("separator of single density, {count} timings in one call"),
        (21, 10),
        Some((count, "timings")),
        || boundary::fm_separate(black_box(&timings), &mut packed, &mut border_pulses),
        || single_density::separate(black_box(&timings), MOST_CELL_BYTES),
    );
    let mut numbers = [0; SECTOR_NUMBERS];
    row(
        &format!("sector list of single density, 18 sectors, {n} cells"),
        (21, 10),
        Some((1, "tracks")),
        || boundary::fm_sector(black_box(&bytes), n, 0, 0, 0, &mut numbers),
        || single_density::list(black_box(&bytes), n),
    );
    let mut list = [0; FINDING_NUMBERS * MOST_FINDINGS];
    row(
        &format!("findings of single density, 18 sectors, {n} cells"),
        (21, 10),
        Some((1, "tracks")),
        || boundary::fm_findings(black_box(&bytes), n, 0, 0, &mut list),
        || single_density::findings(0, 0, black_box(&bytes), n, MOST_FINDINGS),
    );
}

/// The page of a disk, into a lent buffer that has room for all of it.
fn page(what: &str, disk: &DiskInput) {
    let (tracks, findings) = (&disk.tracks[..], &disk.findings[..]);
    let expected = disk_page::disk_page(tracks, findings).expect("a disk that is not refused");
    let (mut out, mut plain_out) = (vec![0; expected.len()], vec![0; expected.len()]);
    // What is measured beside the library writes the same.
    assert_eq!(boundary::disk_page(tracks, findings, &mut out), Ok(expected.len()));
    assert_eq!(out, expected);
    row(
        what,
        (21, 10),
        Some((1, "pages")),
        || boundary::disk_page(black_box(tracks), black_box(findings), &mut out),
        || disk_page::write_disk_page(black_box(tracks), black_box(findings), &mut plain_out),
    );
}

/// Whole disks: every track with many findings, and no track with sectors.
fn pages() {
    let disks = full_disks(&mut Random::new(8));
    let many = disks.iter().find(|disk| disk.name == "40 findings a track").expect("a disk with 40 findings a track");
    assert_eq!((many.tracks.len(), many.findings.len()), (168 * 3, 168 * 40 * FINDING_NUMBERS));
    page("disk page, 168 tracks with 40 findings each", many);
    let blank = DiskInput {
        name: String::from("no sectors"),
        tracks: (0..160).flat_map(|place| [place / 2, place % 2, 1]).collect(),
        findings: TRACK_NOT_FOUND.repeat(160),
    };
    page("disk page, TNF on all of 160 tracks", &blank);
}

/// The cells and the listing of a whole file that is in memory, without a process of its own.
fn file_in_memory(name: &str, file: &[u8]) {
    let mut packed = [0; MOST_CELL_BYTES];
    let mut place = [0; PLACE_NUMBERS];
    row(
        &format!("cells of a file, {name}"),
        (21, 10),
        Some((1, "files")),
        || boundary::file_cells(black_box(file), &mut packed, &mut place),
        || track_file::read_cells(black_box(file)),
    );
    let mut out = [0; LONGEST_LISTING];
    row(
        &format!("whole listing, {name}"),
        (21, 10),
        Some((1, "files")),
        || boundary::file_listing(black_box(file), &mut out),
        || listing(black_box(file)),
    );
}

/// Lists a file by a process of its own.
fn list_by(command: &mut Command, file: &Path) {
    let input = File::open(file).expect("the file");
    let status = command.stdin(input).stdout(Stdio::null()).status().expect("the program");
    assert!(status.success());
}

/// The path of a program that is built.
fn built(name: &str) -> String {
    format!("{}/../target/bin/{name}", env!("CARGO_MANIFEST_DIR"))
}

/// A whole block: the second of the standard track's two revolutions.
fn whole_block() {
    let program = built("scp_track");
    let own = std::env::current_exe().expect("a path");
    let path = std::env::temp_dir().join(format!("thikbromu-bench-{}.block", std::process::id()));
    std::fs::write(&path, standard_track_block(1, 0, 0, 0xE5, 2).bytes()).expect("a block to list");
    row(
        "whole block through the program, standard track, two revolutions",
        (21, 10),
        Some((1, "blocks")),
        || list_by(Command::new(&program).args(["2", "1", "0", "0"]), &path),
        || list_by(Command::new(&own).arg("plain-block"), &path),
    );
    std::fs::remove_file(&path).expect("the block to list");
}

/// Whole files of more and fewer cells.
fn whole_files() {
    let program = built("track_listing");
    let own = std::env::current_exe().expect("a path");
    let mut files = vec![("standard track".to_string(), file_of_cells(0, 0, &standard_track(0, 0, 0xE5)))];
    for n in [20_000, 50_000, 100_000, 131_072] {
        let track_cells = cells::unpack(&track_with(n / 11_000, n), n);
        files.push((format!("{} sectors, {n} cells", n / 11_000), file_of_cells(0, 0, &track_cells)));
    }
    let path = std::env::temp_dir().join(format!("thikbromu-bench-{}.track", std::process::id()));
    for (name, file) in files {
        file_in_memory(&name, &file);
        std::fs::write(&path, file).expect("a file to list");
        row(
            &format!("whole file through the program, {name}"),
            (21, 10),
            Some((1, "files")),
            || list_by(&mut Command::new(&program), &path),
            || list_by(Command::new(&own).arg("plain"), &path),
        );
    }
    std::fs::remove_file(&path).expect("the file to list");
}

fn main() {
    if let Some(mode) = std::env::args().nth(1) {
        if mode == "baseline" {
            std::process::exit(i32::from(!baseline::agrees()));
        }
        if mode == "once" {
            let input = std::env::args().nth(2).expect("the name of an input");
            let side = match std::env::args().nth(3).as_deref() {
                Some("library") => Sides::Library,
                Some("tuned") => Sides::Tuned,
                _ => Sides::Plain,
            };
            instructions::once(&input, side);
            return;
        }
        let mut input = Vec::new();
        std::io::stdin().read_to_end(&mut input).expect("standard input");
        let listed = if mode == "plain-block" { track_block::printed(&input, 2, 1, 0, 0) } else { listing(&input) };
        std::io::stdout().write_all(&listed).expect("standard output");
        return;
    }
    beside_tuned();
    println!("| what | library, us | plain Rust, us | ratio | library in a second |");
    println!("|---|---|---|---|---|");
    let mut random = Random::new(1);
    coding_and_checking(&mut random);
    separating(&mut random);
    track_blocks();
    for n in [20_000, 50_000, 100_000, 131_072] {
        let any: Vec<u8> = (0..cells::bytes_needed(n)).map(|_| random.byte()).collect();
        searching("random cells", &any, n);
    }
    let standard = cells::pack(&standard_track(0, 0, 0xE5));
    searching("the standard track", &standard, 100_000);
    searching_all("the standard track", &standard, 100_000);
    // A source of its own, so that the random cells of the other rows stay as they are.
    let mut own_random = Random::new(7);
    let any: Vec<u8> = (0..12_500).map(|_| own_random.byte()).collect();
    searching_all("random cells", &any, 100_000);
    for n in [20_000, 50_000, 100_000, 131_072] {
        listing_sectors("no sectors", &track_with(0, n), n);
    }
    for n in [100_000, 131_072] {
        listing_sectors("9 sectors", &track_with(9, n), n);
        listing_sectors("64 sectors", &track_with(64, n), n);
    }
    let any: Vec<u8> = (0..12_500).map(|_| random.byte()).collect();
    listing_sectors("random cells", &any, 100_000);
    tracks_of_single_density();
    pages();
    whole_files();
    whole_block();
}
