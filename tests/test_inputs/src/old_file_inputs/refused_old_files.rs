//! Old files at and past each limit of the converter, cut or too long: each of its refusals,
//! and each order of two of them.

use crate::file_inputs::refused_files::{
    four_timings, timings_of_count, LONGEST, SIDES, TOO_LONG, TRACKS,
};
use crate::file_inputs::{cut, file_of_timings, named, FilePlan, Files, NamedFile};
use crate::flux_inputs::timings_of_cells;
use crate::track_builder::standard_track;

/// 15 at once: cell counts other than 0, with and without the cells that they promise, before
/// timings of every kind.
pub(super) fn cell_counts() -> Vec<NamedFile> {
    let mut files = Files::default();
    for count in [1, 2, 8, 9, 256, 65_536, 131_072, 131_073, 1 << 24, u32::MAX] {
        for with_cells in [false, true] {
            for (what, flux_count, timings) in [
                ("no timings", 0, vec![]),
                ("four timings", 4, four_timings()),
                ("a timing 0", 1, vec![0]),
                ("65,537 timings", 65_537, vec![4_000]),
            ] {
                let cells = if with_cells { count.min(131_080) } else { 0 };
                let mut plan = FilePlan::of_timings(5, 0, &timings);
                plan.cell_count = count;
                plan.packed_cells = vec![0xAA; cells.div_ceil(8) as usize];
                plan.flux_count = flux_count;
                let written = if with_cells { "written" } else { "missing" };
                let name = format!("cell count {count}, cells {written}, then {what}");
                let file = plan.bytes();
                files.add(format!("{name}, cut after the count"), cut(&file, 10));
                files.add(format!("{name}, cut within the count"), cut(&file, 9));
                files.add(name, file);
            }
        }
    }
    files.0
}

/// Flux counts of 0 and at the limit of 7, with fewer timings than they promise, as many, and
/// more.
pub(super) fn flux_counts() -> Vec<NamedFile> {
    let mut files = Files::default();
    for count in [0, 1, 2, 3, 65_535, 65_536, 65_537, u32::MAX] {
        for timings in [0, 1, 2, 3, 4, 65_535, 65_536, 65_537] {
            for timing in [2_000, 1, 0] {
                let mut plan = FilePlan::of_timings(79, 1, &vec![timing; timings]);
                plan.flux_count = count;
                let name = format!("flux count {count}, {timings} timings {timing}");
                files.add(name, plan.bytes());
            }
        }
    }
    files.0
}

/// Small files, to be cut at any byte, made longer and handed over in portions: sound ones,
/// and one for each refusal.
pub fn small_old_files() -> Vec<NamedFile> {
    let mut late_zero = vec![LONGEST; 27];
    late_zero.push(0);
    let mut many = FilePlan::of_timings(5, 0, &[4_000; 2]);
    many.flux_count = 65_537;
    let mut with_cells = FilePlan::of_timings(5, 0, &[4_000; 2]);
    with_cells.cell_count = 12;
    with_cells.packed_cells = vec![0xAA, 0xA0];
    let mut many_cells = with_cells.clone();
    many_cells.cell_count = 131_073;
    let mut wrong_place = FilePlan::of_timings(5, 0, &four_timings());
    wrong_place.place_count = 3;
    wrong_place.place.push(0);
    let of_timings = |timings: &[u32]| file_of_timings(5, 0, timings);
    vec![
        named("one cell", of_timings(&[2_000])),
        named("nine cells", of_timings(&[4_000, 6_000, 8_000])),
        named("four timings", of_timings(&four_timings())),
        named(
            "four timings at T 84",
            file_of_timings(84, 0, &four_timings()),
        ),
        named(
            "four timings at H 255",
            file_of_timings(5, 255, &four_timings()),
        ),
        named("three of 5,000 cells", of_timings(&[LONGEST; 3])),
        named("131,072 cells", of_timings(&timings_of_count(131_072))),
        named("a timing 0", of_timings(&[4_000, 0, 4_000])),
        named("131,073 cells", of_timings(&timings_of_count(131_073))),
        named("135,000 cells, then a timing 0", of_timings(&late_zero)),
        named("no cells", of_timings(&[500])),
        named("no cells at H 2", file_of_timings(5, 2, &[999, 500])),
        named("no timings", of_timings(&[])),
        named("65,537 timings", many.bytes()),
        named("12 cells and two timings", with_cells.bytes()),
        named("131,073 cells before timings", many_cells.bytes()),
        named("place count 3", wrong_place.bytes()),
    ]
}

/// Small files cut at any byte; files of real sizes short by each number of bytes up to two
/// timings, and cut at places further in front.
pub(super) fn cut_files() -> Vec<NamedFile> {
    let mut files = Files::default();
    for whole in small_old_files() {
        for length in 0..=whole.bytes.len() {
            files.add(
                format!("{}, cut after {length} bytes", whole.name),
                cut(&whole.bytes, length),
            );
        }
    }
    for (name, timings) in [
        (
            "the standard track",
            timings_of_cells(&standard_track(0, 0, 0xE5)),
        ),
        ("65,536 timings", vec![4_000; 65_536]),
        ("65,536 timings without cells", vec![1; 65_536]),
        ("65,536 timings of 5,000 cells", vec![LONGEST; 65_536]),
    ] {
        let file = file_of_timings(0, 0, &timings);
        for missing in 1..=9 {
            files.add(
                format!("{name}, {missing} bytes missing"),
                cut(&file, file.len() - missing),
            );
        }
        for length in [13, 14, 15, 18, 4_096, 65_536, file.len() / 2] {
            files.add(
                format!("{name}, cut after {length} bytes"),
                cut(&file, length),
            );
        }
    }
    files.0
}

/// 15 for bytes left over.
pub(super) fn left_over_bytes() -> Vec<NamedFile> {
    let mut files = Files::default();
    let mut wholes = small_old_files();
    wholes.push(named(
        "65,536 timings",
        file_of_timings(0, 0, &vec![4_000; 65_536]),
    ));
    for whole in wholes {
        for added in 1..=9 {
            let file = [&whole.bytes[..], &vec![0; added]].concat();
            files.add(format!("{}, then {added} bytes 0", whole.name), file);
        }
        for (what, added) in [
            ("a byte FF", vec![0xFF]),
            ("a timing", 4_000u32.to_le_bytes().to_vec()),
            ("a line end", b"\n".to_vec()),
            ("4,096 bytes", vec![0xAA; 4_096]),
            ("the file again", whole.bytes.clone()),
        ] {
            let file = [&whole.bytes[..], &added].concat();
            files.add(format!("{}, then {what}", whole.name), file);
        }
    }
    files.0
}

/// 8: timings in and out of their range at the first, a middle and the last place of
/// lists that would be accepted, or refused with 1, 2 or 9. Each also with 15.
pub(super) fn timings_at_their_limits() -> Vec<NamedFile> {
    let mut files = Files::default();
    for (list, timings) in [
        ("one", vec![LONGEST]),
        ("three of two cells", vec![4_000; 3]),
        ("six of 5,000 cells", vec![LONGEST; 6]),
        ("30 of 5,000 cells", vec![LONGEST; 30]),
    ] {
        for value in [
            0,
            1,
            2,
            999,
            1_000,
            1_001,
            2_999,
            3_000,
            LONGEST - 1,
            LONGEST,
            TOO_LONG,
            1 << 24,
            1 << 31,
            u32::MAX,
        ] {
            let mut indexes = vec![0, timings.len() / 2, timings.len() - 1];
            indexes.dedup();
            for index in indexes {
                for drive_track in [5, 84] {
                    let mut changed = timings.clone();
                    changed[index] = value;
                    let name = format!(
                        "timings: {list}, number {index} being {value}, at T {drive_track}"
                    );
                    let file = file_of_timings(drive_track, 0, &changed);
                    let mut longer = file.clone();
                    longer.push(0);
                    let shorter = cut(&file, file.len() - 1);
                    files.add(name.clone(), file);
                    files.add(format!("{name}, one byte more"), longer);
                    files.add(format!("{name}, one byte missing"), shorter);
                }
            }
        }
    }
    // The last of the most timings; and two that are out of range.
    for value in [0, TOO_LONG] {
        let mut most = vec![1_000; 65_536];
        most[65_535] = value;
        let name = format!("65,536 timings, the last being {value}");
        files.add(name, file_of_timings(5, 0, &most));
        most[3] = value;
        let name = format!("65,536 timings, the fourth and the last being {value}");
        files.add(name, file_of_timings(5, 0, &most));
    }
    files.0
}

/// The rows of rule 3.13, alone and after and before 20,000 cells that make the track long
/// enough.
pub(super) fn separator_rows() -> Vec<NamedFile> {
    let mut files = Files::default();
    for row in [
        vec![4_900, 4_000],
        vec![4_999],
        vec![5_000, 5_000],
        vec![5_001],
        vec![500, 3_500],
        vec![10_000_000],
        // Where 5,001 left -500 instead of -499, 1,499 would make no cell.
        vec![5_001, 1_499],
        vec![5_001, 1_500],
        vec![999, 501],
        vec![999, 500],
    ] {
        let name = format!("timings {row:?}");
        files.add(name.clone(), file_of_timings(5, 1, &row));
        let mut after = four_timings();
        after.extend(&row);
        files.add(
            format!("{name} after 20,000 cells"),
            file_of_timings(5, 1, &after),
        );
        let mut before = row.clone();
        before.extend(four_timings());
        files.add(
            format!("{name} before 20,000 cells"),
            file_of_timings(5, 1, &before),
        );
    }
    files.0
}

/// 9: cells in all at and above 131,072; 2: below 20,000. Also followed by timings
/// that make no cell, that make one, and that are out of range.
pub(super) fn cells_in_all() -> Vec<NamedFile> {
    let mut files = Files::default();
    for count in [
        1, 19_998, 19_999, 20_000, 131_071, 131_072, 131_073, 131_080, 262_144, 1_000_000,
    ] {
        for (what, added) in [
            ("", vec![]),
            (", then no cell", vec![999]),
            (", then a cell", vec![1_000]),
            (", then a timing 0", vec![0]),
            (", then one too long", vec![TOO_LONG]),
            (", then 30 of 5,000 cells and a timing 0", {
                let mut added = vec![LONGEST; 30];
                added.push(0);
                added
            }),
        ] {
            for drive_track in [80, 84] {
                let mut timings = timings_of_count(count);
                timings.extend(&added);
                let name = format!("{count} cells in all at T {drive_track}{what}");
                let file = file_of_timings(drive_track, 0, &timings);
                let shorter = cut(&file, file.len() - 1);
                files.add(name.clone(), file);
                files.add(format!("{name}, one byte missing"), shorter);
            }
        }
    }
    // The most timings: no cell at all; as many cells as fit, and one and two more; the
    // most cells that can be.
    for (timing, last) in [
        (1, 1),
        (4_000, 3_999),
        (4_000, 4_000),
        (4_000, 6_000),
        (4_000, 8_000),
        (LONGEST, LONGEST),
    ] {
        let mut timings = vec![timing; 65_536];
        timings[65_535] = last;
        let name = format!("65,535 timings {timing} and one {last}");
        files.add(name, file_of_timings(80, 0, &timings));
    }
    files.0
}

/// 2 with no cells: timings in range that make none, at places that a drive has and at others,
/// with 15 and with 8; and with a cell at last.
pub(super) fn no_cells() -> Vec<NamedFile> {
    let mut files = Files::default();
    for (what, timings) in [
        ("one of 1 ns", vec![1]),
        ("one of 500 ns", vec![500]),
        ("one of 999 ns", vec![999]),
        ("999 ns and 500 ns", vec![999, 500]),
        ("902 ns and 451 ns", vec![902, 451]),
        ("many of 500 ns", vec![500; 1_000]),
        ("999 ns and many of 500 ns", {
            let mut timings = vec![500; 1_000];
            timings[0] = 999;
            timings
        }),
        ("the most of 1 ns", vec![1; 65_535]),
    ] {
        for (drive_track, drive_side) in [(0, 0), (83, 1), (84, 0), (83, 2), (255, 255)] {
            let place = format!("at T {drive_track}, H {drive_side}");
            let file_of = |timings: &[u32]| file_of_timings(drive_track, drive_side, timings);
            let file = file_of(&timings);
            let name = format!("{what} {place}");
            files.add(
                format!("{name}, one byte missing"),
                cut(&file, file.len() - 1),
            );
            files.add(format!("{name}, one byte more"), [&file[..], &[0]].concat());
            files.add(name.clone(), file);
            // 1,501 and the highest residual are a cell, 1,000 alone is one.
            for last in [0, TOO_LONG, 501, 1_000, 1_501, LONGEST] {
                let longer = [&timings[..], &[last]].concat();
                files.add(format!("{name}, then {last} ns"), file_of(&longer));
            }
        }
    }
    files.0
}

/// T and H, which the converter does not judge, with timings of every kind.
pub(super) fn drive_places() -> Vec<NamedFile> {
    let mut files = Files::default();
    for drive_track in TRACKS {
        for drive_side in SIDES {
            for (what, timings) in [
                ("20,000 cells", four_timings()),
                ("a cell", vec![2_000]),
                ("no cells", vec![500]),
                ("too many cells", vec![LONGEST; 27]),
                ("a timing 0", vec![0]),
            ] {
                files.add(
                    format!("T {drive_track}, H {drive_side}, {what}"),
                    file_of_timings(drive_track, drive_side, &timings),
                );
            }
        }
    }
    files.0
}
