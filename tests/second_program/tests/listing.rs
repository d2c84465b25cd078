//! Rules 11.1 to 11.10: whole listings, among them those of rule 11.10.

use second_program::listing::{listing, listing_of_cells};
use second_program::track_file::read_cells;
use test_inputs::file_inputs::{file_of_cells, file_of_timings, FilePlan};
use test_inputs::track_builder::{nine_sectors, standard_track};

fn assert_prints(file: &[u8], expected: &str) {
    assert_eq!(String::from_utf8(listing(file)).unwrap(), expected);
    // The listing of its cells alone is the same.
    if let Ok(cells) = read_cells(file) {
        assert_eq!(listing_of_cells(&cells), expected.as_bytes());
    }
}

#[test]
fn all_bytes_aa() {
    assert_prints(
        &FilePlan::of_cells(5, 0, 100_000, &[0xAA; 12_500]).bytes(),
        "T05 H0 cells 100000 sectors 0 findings 2\n\
         3 NOS level 3 place 0 detail 0\n\
         4 TNF level 2 place 0 detail 0\n",
    );
    // The same further in: T 80 has no TNF.
    assert_prints(
        &FilePlan::of_cells(80, 0, 100_000, &[0xAA; 12_500]).bytes(),
        "T80 H0 cells 100000 sectors 0 findings 1\n\
         3 NOS level 3 place 0 detail 0\n",
    );
}

#[test]
fn the_standard_track() {
    assert_prints(
        &file_of_cells(0, 0, &standard_track(0, 0, 0xE5)),
        "T00 H0 cells 100000 sectors 9 findings 0\n",
    );
}

#[test]
fn all_zero_cells() {
    assert_prints(
        &FilePlan::of_cells(80, 0, 100_000, &[0x00; 12_500]).bytes(),
        "T80 H0 cells 100000 sectors 0 findings 2\n\
         3 NOS level 3 place 0 detail 0\n\
         21 NFA level 1 place 0 detail 100000\n",
    );
}

#[test]
fn places_and_details_of_a_sector_kind() {
    // The standard track of T 0 at T 80: EXT, and ITN for each of its sectors.
    let mut expected = String::from("T80 H1 cells 100000 sectors 9 findings 10\n");
    expected += "5 EXT level 2 place 0 detail 9\n";
    for place in [
        1_152, 10_976, 20_800, 30_624, 40_448, 50_272, 60_096, 69_920, 79_744,
    ] {
        expected += &format!("8 ITN level 2 place {place} detail 0\n");
    }
    assert_prints(
        &file_of_cells(80, 1, &standard_track(0, 0, 0xE5)),
        &expected,
    );
}

#[test]
fn size_code_6_reads_512_bytes() {
    // Sector 3 has a good data check, sector 7 a bad one.
    let mut builder = nine_sectors(22, 0, 0xE5, |plan| {
        if plan.number == 3 || plan.number == 7 {
            plan.size_code = 6;
            plan.data_check_error = u16::from(plan.number == 7);
        }
    });
    builder.write_repeated(0x4E, 664);
    assert_prints(
        &file_of_cells(22, 0, builder.cells()),
        "T22 H0 cells 100000 sectors 9 findings 5\n\
         9 IIF level 2 place 20800 detail 0\n\
         9 IIF level 2 place 60096 detail 0\n\
         10 SSZ level 2 place 20800 detail 6\n\
         10 SSZ level 2 place 60096 detail 6\n\
         15 SBD level 1 place 60096 detail 7\n",
    );
}

#[test]
fn refused_files_print_one_line() {
    assert_prints(b"", "refused 15\n");
    assert_prints(&[3, 0, 0, 0], "refused 15\n");
    assert_prints(&[2, 0, 0, 0, 0, 0, 1, 0, 2, 0], "refused 2\n");
    assert_prints(&file_of_cells(0, 0, &[1; 19_999]), "refused 2\n");
    assert_prints(&file_of_cells(84, 0, &[1; 20_000]), "refused 1\n");
    // A flux section, whatever is in it.
    assert_prints(&[2, 0, 0, 0, 0, 0, 0, 0, 0, 0, 1, 0, 1, 0], "refused 23\n");
    for timings in [&[0][..], &[10_000_000; 27], &[10_000_000; 4], &[902]] {
        assert_prints(&file_of_timings(0, 0, timings), "refused 23\n");
        assert_prints(&file_of_timings(84, 2, timings), "refused 23\n");
    }
    // Neither cells nor timings.
    assert_prints(&file_of_timings(0, 0, &[]), "refused 15\n");
}
