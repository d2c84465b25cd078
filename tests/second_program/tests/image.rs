//! Whole images: what the header says, where blocks can stand, and the check sum.

use second_program::image::{blocks, header, judge_sum, page, sum, tracks, Header, HEADER_LENGTH};
use second_program::refusal::Refusal;
use std::ops::Range;
use test_inputs::block_inputs::{block_of_values, values_of_timings};
use test_inputs::flux_inputs::timings_of_cells;
use test_inputs::track_builder::standard_track;

/// The header of an image with two revolutions and all tracks, without blocks.
fn front() -> Vec<u8> {
    let mut first = b"SCP\x22\x15\x02\x00\xA7\x01\x00\x00\x00\x04\x03\x02\x01".to_vec();
    first.resize(HEADER_LENGTH, 0);
    first
}

fn with_byte(place: usize, byte: u8) -> Vec<u8> {
    let mut first = front();
    first[place] = byte;
    first
}

fn with_entries(entries: &[(usize, u32)]) -> Vec<u8> {
    let mut first = front();
    for &(entry, start) in entries {
        first[16 + 4 * entry..20 + 4 * entry].copy_from_slice(&start.to_le_bytes());
    }
    first
}

fn refused<T>(number: u32, value: u64) -> Result<T, Refusal> {
    Err(Refusal { number, value })
}

/// The places of the blocks that are there, each after its entry.
fn places(first: &[u8], image_length: u64) -> Result<Vec<(usize, Range<u64>)>, Refusal> {
    let all = blocks(first, image_length)?;
    let there = all.into_iter().enumerate();
    Ok(there
        .filter_map(|(entry, block)| Some((entry, block?)))
        .collect())
}

#[test]
fn the_header_as_it_stands() {
    let expected = Header {
        version: 0x22,
        disk_type: 0x15,
        revolutions: 2,
        first_track: 0,
        last_track: 167,
        flags: 1,
        cell_width: 0,
        heads: 0,
        resolution: 0,
        check_sum: 0x0102_0304,
    };
    assert_eq!(header(&front(), 688), Ok(expected));
    assert_eq!(header(&front(), 4_294_967_295), Ok(expected));
}

#[test]
fn what_is_no_image() {
    assert_eq!(header(&front()[..687], 688), refused(26, 0));
    assert_eq!(header(&front(), 687), refused(26, 0));
    assert_eq!(header(&front(), 4_294_967_296), refused(26, 0));
    for place in 0..3 {
        assert_eq!(header(&with_byte(place, b'X'), 688), refused(26, 0));
    }
}

#[test]
fn bytes_that_are_not_taken() {
    let not_taken = [
        (5, 0),
        (7, 168),
        (8, 0x40),
        (9, 8),
        (9, 15),
        (9, 17),
        (10, 3),
        (11, 1),
    ];
    for (place, byte) in not_taken {
        assert_eq!(
            header(&with_byte(place, byte), 688),
            refused(27, place as u64)
        );
    }
    assert_eq!(header(&with_byte(6, 168), 688), refused(27, 6));
    for (place, byte) in [
        (3, 0xFF),
        (4, 0),
        (6, 167),
        (7, 0),
        (8, 0xBF),
        (9, 16),
        (10, 2),
    ] {
        assert!(header(&with_byte(place, byte), 688).is_ok());
    }
    // The first place is given.
    let mut both = with_byte(11, 1);
    both[5] = 0;
    assert_eq!(header(&both, 688), refused(27, 5));
}

#[test]
fn blocks_end_before_the_next() {
    let first = with_entries(&[(0, 800), (1, 688), (5, 772)]);
    let expected = vec![(0, 800..1_000), (1, 688..772), (5, 772..800)];
    assert_eq!(places(&first, 1_000), Ok(expected));
    assert_eq!(places(&front(), 688), Ok(Vec::new()));
}

#[test]
fn blocks_that_cannot_stand_there() {
    // Two revolutions have a table that ends 28 bytes on.
    assert_eq!(
        places(&with_entries(&[(3, 700)]), 728),
        Ok(vec![(3, 700..728)])
    );
    assert_eq!(places(&with_entries(&[(3, 700)]), 727), refused(28, 3));
    assert_eq!(places(&with_entries(&[(3, 687)]), 900), refused(28, 3));
    assert_eq!(places(&with_entries(&[(3, 1)]), 900), refused(28, 3));
    assert_eq!(places(&with_entries(&[(3, 900)]), 900), refused(28, 3));
    assert_eq!(places(&with_entries(&[(3, u32::MAX)]), 900), refused(28, 3));
    // The one that has no room is given, and of two at one place the first.
    assert_eq!(
        places(&with_entries(&[(3, 715), (9, 688)]), 900),
        refused(28, 9)
    );
    assert_eq!(
        places(&with_entries(&[(3, 688), (9, 688)]), 900),
        refused(28, 3)
    );
}

#[test]
fn blocks_of_tracks_that_the_header_does_not_name() {
    let mut first = with_entries(&[(4, 700), (5, 800)]);
    (first[6], first[7]) = (4, 5);
    assert!(places(&first, 900).is_ok());
    (first[6], first[7]) = (5, 5);
    assert_eq!(places(&first, 900), refused(28, 4));
    (first[6], first[7]) = (4, 4);
    assert_eq!(places(&first, 900), refused(28, 5));
    (first[6], first[7], first[10]) = (0, 167, 1);
    assert_eq!(places(&first, 900), refused(28, 5));
    first[10] = 2;
    assert_eq!(places(&first, 900), refused(28, 4));
}

#[test]
fn a_footer_has_48_bytes() {
    let mut first = with_entries(&[(3, 700)]);
    first[8] = 0x20;
    assert_eq!(places(&first, 776), Ok(vec![(3, 700..728)]));
    assert_eq!(places(&first, 775), refused(28, 3));
    assert_eq!(places(&first, 688), refused(28, 3));
}

#[test]
fn the_sum_of_all_bytes_behind_the_header() {
    let mut image = front();
    image.extend([250, 6, 1]);
    assert_eq!(sum(&image), 257);
    assert_eq!(judge_sum(&image, 691, 257), refused(29, 257));
    assert_eq!(judge_sum(&image, 691, 0x0102_0304), Ok(()));
    assert_eq!(judge_sum(&with_byte(8, 0x10), 691, 257), Ok(()));
    assert_eq!(judge_sum(&with_byte(5, 0), 691, 0), refused(27, 5));
    assert_eq!(judge_sum(&image[..687], 691, 0), refused(26, 0));
    // Many bytes of FF go beyond 32 bits.
    let mut long = front();
    long.resize(HEADER_LENGTH + 16_843_010, 0xFF);
    assert_eq!(sum(&long), 254);
}

#[test]
fn the_page_of_two_tracks() {
    let timings = timings_of_cells(&standard_track(0, 0, 0xE5));
    let values = values_of_timings(&timings);
    let block = block_of_values(&[values.clone(), values]).bytes();
    let second = (HEADER_LENGTH + block.len()) as u32;
    let mut image = with_entries(&[(0, HEADER_LENGTH as u32), (2, second)]);
    image[8] = 0x10;
    image.extend(&block);
    image.extend(&block[..100]);
    let read = tracks(&image, None).expect("an image");
    let (page, refusals) = page(&read);
    // The two zeros behind the last one bring no timing, so that it has its next one too near.
    assert_eq!(page, b"T00 H0 20 MTV level 3 place 99997 detail 1\n");
    assert_eq!(
        refusals,
        [(
            1,
            0,
            Refusal {
                number: 16,
                value: 0
            }
        )]
    );
    // The same cells at another track.
    image = with_entries(&[(2, HEADER_LENGTH as u32)]);
    image[8] = 0x10;
    image.extend(&block);
    for revolution in [None, Some(0), Some(1)] {
        let (page, refusals) =
            second_program::image::page(&tracks(&image, revolution).expect("an image"));
        let lines = String::from_utf8(page).expect("text");
        assert_eq!(
            lines
                .lines()
                .filter(|line| line.starts_with("T01 H0 8 ITN "))
                .count(),
            9
        );
        assert!(refusals.is_empty());
    }
    let (_, refusals) = second_program::image::page(&tracks(&image, Some(2)).expect("an image"));
    assert_eq!(
        refusals,
        [(
            1,
            0,
            Refusal {
                number: 17,
                value: 0
            }
        )]
    );
}
