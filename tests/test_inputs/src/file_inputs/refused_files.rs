//! Files at and past each limit of sections 8 and 10 of the specification, cut or too
//! long: each refusal of the program, and each order of two refusals.

use super::made_tracks::ids_on;
use super::{cut, file_of_cells, file_of_timings, named, FilePlan, Files, NamedFile};
use crate::flux_inputs::timings_of_cells;
use crate::track_builder::standard_track;
use second_program::cells;

/// The longest timing that is in range: 5,000 cells where r is 0.
pub(crate) const LONGEST: u32 = 10_000_000;
/// The shortest of the timings that are too long.
pub(crate) const TOO_LONG: u32 = 10_000_001;

/// Tracks and sides at and past their limits.
pub(crate) const TRACKS: [u8; 14] = [0, 1, 9, 10, 79, 80, 82, 83, 84, 85, 100, 127, 128, 255];
pub(crate) const SIDES: [u8; 7] = [0, 1, 2, 3, 127, 128, 255];

/// Four timings that make the fewest cells of a track, 20,000.
pub(crate) fn four_timings() -> Vec<u32> {
    vec![LONGEST; 4]
}

/// A track of 20,000 cells, one in every second cell.
fn fewest_cells() -> Vec<u8> {
    [1, 0].repeat(10_000)
}

/// 15 at once: place counts that are not 2, whatever follows.
pub(crate) fn place_counts() -> Vec<NamedFile> {
    let mut files = Files::default();
    // Also those whose lowest byte is 2, and 2 with its high byte first.
    for count in [0, 1, 3, 4, 0x102, 0x1_0002, 0x0200_0000, u32::MAX] {
        for place_bytes in [2, count.min(5) as usize] {
            let place = vec![1; place_bytes];
            let mut whole = FilePlan::of_timings(1, 1, &four_timings());
            whole.place_count = count;
            whole.place = place;
            let mut too_many_cells = whole.clone();
            too_many_cells.cell_count = 131_073;
            let mut too_many_timings = whole.clone();
            too_many_timings.flux_count = 65_537;
            for (rest, plan) in [
                ("four timings", &whole),
                ("131,073 cells", &too_many_cells),
                ("65,537 timings", &too_many_timings),
            ] {
                let name = format!("place count {count}, {place_bytes} bytes, then {rest}");
                files.add(name, plan.bytes());
            }
        }
        let name = format!("place count {count} and nothing else");
        files.add(name, count.to_le_bytes().to_vec());
    }
    files.0
}

/// 2 at once: cell counts at and above 131,072, whatever follows.
pub(crate) fn cell_counts() -> Vec<NamedFile> {
    let mut files = Files::default();
    for count in [
        131_071,
        131_072,
        131_073,
        131_080,
        1 << 24,
        1 << 31,
        u32::MAX,
    ] {
        for drive_track in [0, 84] {
            let mut plan = FilePlan::of_cells(drive_track, 0, 0, &[]);
            plan.cell_count = count;
            let name = format!("cell count {count} at T {drive_track}");
            // The count ends at the tenth byte of the file.
            let file = plan.bytes();
            files.add(format!("{name}, cut after it"), cut(&file, 10));
            files.add(format!("{name}, cut within it"), cut(&file, 9));
            for packed_bytes in [0, 1, 16_383, 16_384, 16_385] {
                plan.packed_cells = vec![0xAA; packed_bytes];
                for (flux_count, timings) in [
                    (0, vec![]),
                    (1, vec![4_000]),
                    (65_537, vec![4_000]),
                    (u32::MAX, vec![]),
                ] {
                    plan.flux_count = flux_count;
                    plan.timings = timings;
                    files.add(
                        format!("{name}, {packed_bytes} bytes, flux count {flux_count}"),
                        plan.bytes(),
                    );
                }
            }
        }
    }
    files.0
}

/// 23 at once: flux counts other than 0, whatever follows, after no cells and after some. Of
/// old files they are at the limit of 7.
pub(crate) fn flux_counts() -> Vec<NamedFile> {
    let mut files = Files::default();
    for count in [
        1,
        1 << 8,
        65_535,
        65_536,
        65_537,
        0x1_0100,
        1 << 24,
        1 << 31,
        u32::MAX,
    ] {
        for n in [0, 1, 8, 9, 20_000, 131_072] {
            for drive_track in [79, 84] {
                let packed = vec![0xAA; cells::bytes_needed(n)];
                let mut plan = FilePlan::of_cells(drive_track, 1, n, &packed);
                plan.flux_count = count;
                let name = format!("flux count {count} after {n} cells at T {drive_track}");
                let file = plan.bytes();
                let within = cut(&file, file.len() - 1);
                files.add(format!("{name}, cut after it"), file);
                files.add(format!("{name}, cut within it"), within);
                plan.timings = vec![0];
                files.add(format!("{name}, one timing 0"), plan.bytes());
                plan.left_over = vec![0xFF];
                files.add(format!("{name}, one byte more"), plan.bytes());
            }
        }
    }
    // All the timings that the count promises, of two cells each.
    for count in [65_535, 65_536, 65_537] {
        for n in [0, 8] {
            for timing in [4_000, 0] {
                let packed = vec![0xAA; cells::bytes_needed(n)];
                let mut plan = FilePlan::of_cells(79, 1, n, &packed);
                plan.flux_count = count;
                plan.timings = vec![timing; count as usize];
                let name = format!("{count} timings {timing} after {n} cells");
                files.add(name, plan.bytes());
            }
        }
    }
    files.0
}

/// Cells and timings both in the file, which is 23 at once, or neither of them, which is 15
/// (rule 10.7) and goes before every refusal that is not given at once.
pub(crate) fn two_counts_or_none() -> Vec<NamedFile> {
    let mut files = Files::default();
    for n in [1, 8, 9, 19_999, 20_000, 131_072] {
        for timings in [
            vec![4_000],
            vec![0],
            vec![TOO_LONG],
            vec![LONGEST; 4],
            vec![LONGEST; 27],
        ] {
            for drive_track in [5, 84] {
                let packed = vec![0xAA; cells::bytes_needed(n)];
                let mut plan = FilePlan::of_cells(drive_track, 0, n, &packed);
                plan.flux_count = timings.len() as u32;
                plan.timings = timings.clone();
                let name = format!(
                    "{n} cells and {} timings {} at T {drive_track}",
                    timings.len(),
                    timings[0]
                );
                files.add(name.clone(), plan.bytes());
                plan.left_over = vec![0];
                files.add(format!("{name}, one byte more"), plan.bytes());
                plan.left_over.clear();
                plan.timings.pop();
                files.add(format!("{name}, the last missing"), plan.bytes());
            }
        }
    }
    let mut both = FilePlan::of_cells(5, 0, 8, &[0xAA]);
    both.flux_count = 65_536;
    both.timings = vec![4_000; 65_536];
    files.add("8 cells and 65,536 timings", both.bytes());
    for drive_track in [5, 84] {
        let mut neither = FilePlan::of_cells(drive_track, 0, 0, &[]);
        let name = format!("no cells and no timings at T {drive_track}");
        files.add(name.clone(), neither.bytes());
        for left_over in [1, 4, 8] {
            neither.left_over = vec![0; left_over];
            files.add(format!("{name}, {left_over} bytes more"), neither.bytes());
        }
    }
    files.0
}

/// Whole files, most of them short, to be cut, made longer or changed.
pub(super) fn short_files() -> Vec<NamedFile> {
    let mut late_zero = vec![LONGEST; 27];
    late_zero.push(0);
    let mut both = FilePlan::of_cells(5, 0, 12, &[0xAA, 0xA0]);
    both.flux_count = 2;
    both.timings = vec![4_000; 2];
    let mut many_after_cells = FilePlan::of_cells(5, 0, 12, &[0xAA, 0xA0]);
    many_after_cells.flux_count = 65_537;
    many_after_cells.timings = vec![4_000; 2];
    let mut many_cells = FilePlan::of_cells(5, 0, 131_073, &[0xAA; 8]);
    many_cells.flux_count = 65_537;
    let mut wrong_place = FilePlan::of_timings(5, 0, &four_timings());
    wrong_place.place_count = 3;
    wrong_place.place.push(0);
    vec![
        named("four timings", file_of_timings(5, 0, &four_timings())),
        named(
            "four timings at T 84",
            file_of_timings(84, 0, &four_timings()),
        ),
        named("a timing 0", file_of_timings(5, 0, &[4_000, 0, 4_000])),
        named("135,000 cells", file_of_timings(5, 0, &[LONGEST; 27])),
        named(
            "135,000 cells, then a timing 0",
            file_of_timings(5, 0, &late_zero),
        ),
        named("no cells from a timing", file_of_timings(5, 0, &[500])),
        named("20 cells", file_of_cells(5, 0, &[1; 20])),
        named("20 cells at T 84", file_of_cells(84, 0, &[1; 20])),
        named("cells and timings", both.bytes()),
        named("cells and 65,537 timings", many_after_cells.bytes()),
        named("131,073 cells", many_cells.bytes()),
        named("place count 3", wrong_place.bytes()),
        named("neither cells nor timings", file_of_timings(5, 0, &[])),
        named("20,000 cells", file_of_cells(5, 0, &fewest_cells())),
    ]
}

/// Short files cut at any byte, and files of real sizes cut at many.
pub(super) fn cut_files() -> Vec<NamedFile> {
    let mut files = Files::default();
    for whole in short_files() {
        for length in 0..=whole.bytes.len() {
            files.add(
                format!("{}, cut after {length} bytes", whole.name),
                cut(&whole.bytes, length),
            );
        }
    }
    let standard = standard_track(0, 0, 0xE5);
    for (name, file) in [
        ("the standard track", file_of_cells(0, 0, &standard)),
        (
            "the standard track as timings",
            file_of_timings(0, 0, &timings_of_cells(&standard)),
        ),
        (
            "65,536 timings",
            file_of_timings(0, 0, &vec![4_000; 65_536]),
        ),
    ] {
        let end = file.len();
        for length in [9, 10, 4_096, end / 2, end - 5, end - 4, end - 3, end - 1] {
            files.add(
                format!("{name}, cut after {length} bytes"),
                cut(&file, length),
            );
        }
    }
    files.0
}

/// 15 for bytes left over.
pub(super) fn left_over_bytes() -> Vec<NamedFile> {
    let mut files = Files::default();
    let mut wholes = short_files();
    wholes.push(named(
        "65,536 timings",
        file_of_timings(0, 0, &vec![4_000; 65_536]),
    ));
    for whole in wholes {
        for (what, added) in [
            ("a byte 0", vec![0]),
            ("a byte FF", vec![0xFF]),
            ("two bytes", vec![0; 2]),
            ("three bytes", vec![0; 3]),
            ("a count of 0", vec![0; 4]),
            ("a timing", 4_000u32.to_le_bytes().to_vec()),
            ("100 bytes", vec![0xAA; 100]),
            ("4,096 bytes", vec![0; 4_096]),
            ("a line end", b"\n".to_vec()),
            ("the file again", whole.bytes.clone()),
        ] {
            let mut file = whole.bytes.clone();
            file.extend(added);
            files.add(format!("{}, then {what}", whole.name), file);
        }
    }
    files.0
}

/// Timings without residuals that make so many cells in all.
pub(crate) fn timings_of_count(cells_in_all: u32) -> Vec<u32> {
    let mut timings = vec![LONGEST; (cells_in_all / 5_000) as usize];
    let rest = cells_in_all % 5_000;
    if rest > 0 {
        timings.push(2_000 * rest);
    }
    timings
}

/// 1, and that it goes before 2 and 4; T and H of the header.
pub(super) fn drive_places() -> Vec<NamedFile> {
    let mut files = Files::default();
    let standard = standard_track(0, 0, 0xE5);
    for drive_track in TRACKS {
        for drive_side in SIDES {
            for (what, track_cells) in [
                ("20,000 cells", fewest_cells()),
                ("19,999 cells", vec![1; 19_999]),
                ("65 sectors", ids_on(65, 25_000, 0)),
            ] {
                files.add(
                    format!("T {drive_track}, H {drive_side}, {what}"),
                    file_of_cells(drive_track, drive_side, &track_cells),
                );
            }
        }
        files.add(
            format!("the standard track at T {drive_track}"),
            file_of_cells(drive_track, 0, &standard),
        );
    }
    files.0
}
