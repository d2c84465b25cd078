//! Two reads of one sector: the refusals, the first byte and the bits that differ, and
//! which of the reads is good.

use second_program::findings::{level_of, name_of, Finding, FZD};
use second_program::refusal::Refusal;
use second_program::two_reads::{check_of_read_is_good, compare_reads, good_read, GoodRead};

fn refused<T>(number: u32) -> Result<T, Refusal> {
    Err(Refusal { number, value: 0 })
}

/// A finding of kind 22 and level 1.
fn differs(place: usize, detail: usize) -> Result<Option<Finding>, Refusal> {
    Ok(Some(Finding {
        kind: 22,
        level: 1,
        place,
        detail,
    }))
}

/// A read of so many bytes with this check.
fn read(data: u8, length: usize, check: u16) -> Vec<u8> {
    let mut bytes = vec![data; length];
    bytes.extend(check.to_be_bytes());
    bytes
}

/// The read with one byte combined by exclusive or.
fn changed(read: &[u8], index: usize, by: u8) -> Vec<u8> {
    let mut bytes = read.to_vec();
    bytes[index] ^= by;
    bytes
}

/// The good checks of bytes 00 and E5 behind A1 A1 A1 and a mark: mark, length, both checks.
const CHECKS: [(u8, usize, u16, u16); 16] = [
    (0xFB, 128, 0x77BE, 0x62A7),
    (0xFB, 256, 0xE122, 0x7827),
    (0xFB, 512, 0xDA6E, 0xC40B),
    (0xFB, 1_024, 0x2722, 0x1B30),
    (0xF8, 128, 0x2CB3, 0x39AA),
    (0xF8, 256, 0xA09A, 0x399F),
    (0xF8, 512, 0x7B09, 0x656C),
    (0xF8, 1_024, 0xE5B6, 0xD9A4),
    (0x00, 128, 0xDA88, 0xCF91),
    (0x00, 256, 0x6CCE, 0xF5CB),
    (0x00, 512, 0xF60D, 0xE868),
    (0x00, 1_024, 0xB20B, 0x8E19),
    (0xFF, 128, 0xAC52, 0xB94B),
    (0xFF, 256, 0x1C82, 0x8587),
    (0xFF, 512, 0xB924, 0xA741),
    (0xFF, 1_024, 0x3133, 0x0D21),
];

#[test]
fn kind_22_has_a_name_and_level_1() {
    assert_eq!((FZD, name_of(22), level_of(22)), (22, "FZD", 1));
}

#[test]
fn equal_reads_bring_nothing() {
    for (mark, length, check, _) in CHECKS {
        for check in [check, check ^ 1, 0] {
            let one = read(0x00, length, check);
            assert_eq!(compare_reads(&one, &one.clone(), mark), Ok(None));
        }
    }
}

#[test]
fn the_first_byte_and_all_bits() {
    let one = read(0x00, 128, 0x77BE);
    for (index, by, bits) in [
        (0, 0x01, 1),
        (0, 0x80, 1),
        (0, 0xFF, 8),
        (64, 0x5A, 4),
        (127, 0x10, 1),
        // The check bytes.
        (128, 0x03, 2),
        (129, 0x01, 1),
        (129, 0xFE, 7),
    ] {
        let other = changed(&one, index, by);
        // The mark decides nothing, and neither does the order of the reads.
        for mark in [0xFB, 0xF8, 0x00] {
            assert_eq!(compare_reads(&one, &other, mark), differs(index, bits));
            assert_eq!(compare_reads(&other, &one, mark), differs(index, bits));
        }
    }
    // Several bytes: 1 bit in byte 3, 8 in byte 90, 2 in the last check byte.
    let other = changed(&changed(&changed(&one, 90, 0xFF), 3, 0x20), 129, 0x81);
    assert_eq!(compare_reads(&one, &other, 0xFB), differs(3, 11));
    // 00 and E5 differ in five bits of each byte. 77BE and 62A7 differ in 1519, six bits.
    let e5 = read(0xE5, 128, 0x62A7);
    assert_eq!(compare_reads(&one, &e5, 0xFB), differs(0, 5 * 128 + 6));
    // All bits of the longest reads.
    let zeros = [0x00; 1_026];
    assert_eq!(
        compare_reads(&zeros, &[0xFF; 1_026], 0xFB),
        differs(0, 8_208)
    );
    assert_eq!(
        compare_reads(&zeros, &changed(&zeros, 1_025, 1), 0xFB),
        differs(1_025, 1)
    );
}

#[test]
fn refusal_18_then_19() {
    for length in 0..=1_030 {
        let one = vec![0xE5; length];
        let answer = compare_reads(&one, &one, 0xFB);
        if [130, 258, 514, 1_026].contains(&length) {
            assert_eq!(answer, Ok(None));
        } else {
            assert_eq!(answer, refused(19), "length {length}");
        }
    }
    for (first, second) in [
        (130, 258),
        (258, 130),
        (130, 131),
        (129, 130),
        (0, 130),
        (0, 1),
        (5, 6),
        (1_026, 1_025),
    ] {
        let (one, other) = (vec![0; first], vec![0; second]);
        assert_eq!(compare_reads(&one, &other, 0xFB), refused(18));
    }
    assert_eq!(compare_reads(&[0; 2_050], &[0; 2_050], 0xFB), refused(19));
}

#[test]
fn checks_of_reads() {
    for (mark, length, zero_check, e5_check) in CHECKS {
        for (data, check) in [(0x00, zero_check), (0xE5, e5_check)] {
            assert!(check_of_read_is_good(&read(data, length, check), mark));
            for bit in 0..16 {
                let bad = read(data, length, check ^ (1 << bit));
                assert!(!check_of_read_is_good(&bad, mark));
            }
            // The low byte first is wrong, and so is another mark.
            assert!(!check_of_read_is_good(
                &read(data, length, check.swap_bytes()),
                mark
            ));
            assert!(!check_of_read_is_good(&read(data, length, check), mark ^ 1));
        }
    }
}

#[test]
fn the_good_read_of_each_pair() {
    for (mark, length, zero_check, e5_check) in CHECKS {
        let good_zeros = read(0x00, length, zero_check);
        let good_e5 = read(0xE5, length, e5_check);
        let bad_zeros = read(0x00, length, zero_check ^ 0x0100);
        let bad_e5 = changed(&good_e5, length / 2, 0x08);
        let zeros = vec![0x00; length];
        let e5 = vec![0xE5; length];
        let nothing: &[u8] = &[];
        for (first, second, read, part) in [
            (&good_zeros, &good_e5, 0, &zeros[..]),
            (&good_e5, &good_zeros, 0, &e5[..]),
            (&good_zeros, &bad_e5, 0, &zeros[..]),
            (&bad_e5, &good_zeros, 1, &zeros[..]),
            (&bad_zeros, &good_zeros, 1, &zeros[..]),
            (&good_zeros, &bad_zeros, 0, &zeros[..]),
            (&bad_zeros, &bad_e5, 0, nothing),
            (&bad_zeros, &bad_zeros, 0, nothing),
            (&good_zeros, &good_zeros, 0, &zeros[..]),
        ] {
            assert_eq!(good_read(first, second, mark), GoodRead { read, part });
        }
        // With another mark neither is good.
        let other_mark = good_read(&good_zeros, &good_e5, mark ^ 0x10);
        assert_eq!((other_mark.read, other_mark.part), (0, nothing));
    }
}

#[test]
fn the_part_lies_within_the_read() {
    let first = read(0xE5, 512, 0xC40B);
    let second = read(0x00, 512, 0xDA6E);
    let part = good_read(&first, &second, 0xFB).part;
    assert_eq!(part.as_ptr(), first.as_ptr());
    let bad = changed(&first, 511, 0x40);
    let good = good_read(&bad, &second, 0xFB);
    assert_eq!((good.read, good.part.len()), (1, 512));
    assert_eq!(good.part.as_ptr(), second.as_ptr());
}

#[test]
fn refused_pairs_have_no_good_read() {
    // Each read is good alone, but they are not equally long.
    let short = read(0x00, 128, 0x77BE);
    let long = read(0x00, 256, 0xE122);
    let nothing = GoodRead { read: 0, part: &[] };
    assert_eq!(good_read(&short, &long, 0xFB), nothing);
    assert_eq!(good_read(&long, &short, 0xFB), nothing);
    // E295 is the check of no data at all behind FB.
    assert_eq!(good_read(&[0xE2, 0x95], &[0xE2, 0x95], 0xFB), nothing);
    assert_eq!(good_read(&[], &[], 0xFB), nothing);
    assert_eq!(good_read(&[], &short, 0xFB), nothing);
    assert_eq!(good_read(&[7], &[7], 0xFB), nothing);
}
