//! Write Track (section 17 of the specification): the standard track, the three commands, and the refusals.

use thikbromu::*;

/// The standard track, at track 0 and side 0, in a track file.
const STANDARD: &[u8] = include_bytes!("../../../samples/standard.track");

/// The list of a track with sectors 1 to 9, each with data of its own (rule 17.10).
fn list_of(track: u8, side: u8, data: impl Fn(u8) -> [u8; 512]) -> Vec<u8> {
    let mut list = vec![0x4E; 60];
    for number in 1..=9 {
        list.extend([0; 12]);
        list.extend([0xF5, 0xF5, 0xF5, 0xFE, track, side, number, 2, 0xF7]);
        list.extend([0x4E; 22]);
        list.extend([0; 12]);
        list.extend([0xF5, 0xF5, 0xF5, 0xFB]);
        list.extend(data(number));
        list.push(0xF7);
        list.extend([0x4E; 40]);
    }
    list.extend([0x4E; 664]);
    list
}

/// The cells of bytes that are coded after a data bit.
fn coded(bytes: &[u8], before: bool) -> Vec<u8> {
    encode_to_vec(bytes, before).unwrap()
}

#[test]
fn the_standard_track() {
    let list = list_of(0, 0, |_| [0xE5; 512]);
    assert_eq!(list.len(), 6_232);
    let written = write_track_to_vec(&list).unwrap();
    assert_eq!(written.count, 100_000);
    assert_eq!(written.packed, STANDARD[10..STANDARD.len() - 4]);
    assert_eq!(written.track(0, 0).findings(), Ok(vec![]));
    let findings = written.track(83, 0).findings().unwrap();
    let kinds: Vec<Kind> = findings.iter().map(|finding| finding.kind).collect();
    // Each of the nine IDs has another track than the drive.
    assert_eq!(kinds, [vec![Kind::Ext], vec![Kind::Itn; 9]].concat());
    for track in 79..=83 {
        let written = write_track_to_vec(&list_of(track, 1, |_| [0xE5; 512])).unwrap();
        let findings = written.track(u32::from(track), 1).findings().unwrap();
        let expected = Finding { kind: Kind::Ext, place: 0, detail: 9 };
        assert_eq!(findings, if track == 79 { vec![] } else { vec![expected] });
    }
}

#[test]
fn data_reads_back() {
    let data_of = |number: u8| std::array::from_fn(|index| (index as u8).wrapping_mul(number) % 0xF5);
    let written = write_track_to_vec(&list_of(7, 1, data_of)).unwrap();
    let track = written.track(7, 1);
    assert_eq!(track.findings(), Ok(vec![]));
    for index in 0..9 {
        let read = track.read_out_to_vec(index).unwrap();
        assert_eq!(read.bytes, data_of(index as u8 + 1));
        assert!(read.check_good);
    }
}

#[test]
fn two_bytes_for_the_check() {
    let list = list_of(0, 0, |_| [0xE5; 512]);
    let check_at = 60 + 4 * 612 + 571;
    assert_eq!(list[check_at - 1..=check_at + 1], [0xE5, 0xF7, 0x4E]);
    let check = check_word(&[&[0xA1, 0xA1, 0xA1, 0xFB][..], &[0xE5; 512]].concat()).to_be_bytes();
    for (two, bad) in [(check, false), ([check[0], check[1] ^ 1], true), ([0, 0], true)] {
        let mut list = list.clone();
        list.splice(check_at..=check_at, two);
        let written = write_track_to_vec(&list).unwrap();
        let found: Vec<_> = written.track(0, 0).findings().unwrap().iter().map(|it| (it.kind, it.detail)).collect();
        assert_eq!(found, if bad { vec![(Kind::Sbd, 5)] } else { vec![] });
    }
}

#[test]
fn commands() {
    let made = |list: &[u8]| write_track_to_vec(list).unwrap().packed;
    assert_eq!(made(&[]), []);
    assert_eq!(made(&[0xF5, 0xF6]), [0x44, 0x89, 0x52, 0x24]);
    // The bit before the list is 0; after the sync of A1 it is 1, and after that of C2 it is 0.
    assert_eq!(made(&[0x00]), coded(&[0x00], false));
    assert_eq!(made(&[0xF5, 0x00])[2..], coded(&[0x00], true));
    assert_eq!(made(&[0xF6, 0x00])[2..], coded(&[0x00], false));
    // The check word is FFFF at the start and before a run of F5, and counts all else.
    for (list, checked, bit) in [
        (&[0xF7][..], &[][..], false),
        (&[0x12, 0x34, 0xF7], &[0x12, 0x34], false),
        (&[0xF6, 0xF7], &[0xC2], false),
        (&[0x12, 0xF5, 0xF7], &[0xA1], true),
        (&[0xF5, 0xF5, 0xF5, 0xFE, 0xF7], &[0xA1, 0xA1, 0xA1, 0xFE], false),
        (&[0xF5, 0xF6, 0xF5, 0xF7], &[0xA1], true),
    ] {
        let check = check_word(checked).to_be_bytes();
        let cells = made(list);
        assert_eq!(cells[cells.len() - 4..], coded(&check, bit), "{list:02X?}");
    }
    // Both check bytes are counted, so that a second F7 gives 0000.
    assert_eq!(made(&[0x12, 0xF7, 0xF7])[6..], coded(&[0, 0], check_word(&[0x12]) % 2 == 1));
}

#[test]
fn lent_cells_and_refusals() {
    for room in 0..9 {
        let mut cells = vec![7; room];
        let answer = write_track(&[0x4E, 0xF7], &mut cells);
        if room < 6 {
            assert_eq!(answer, Err(Refusal::NoRoom(6)));
            assert!(cells.iter().all(|&byte| byte == 7));
        } else {
            assert_eq!(answer, Ok(48));
            assert_eq!(cells[..2], [0x92, 0x54]);
            assert!(cells[6..].iter().all(|&byte| byte == 7));
        }
    }
    assert_eq!(write_track(&[], &mut []), Ok(0));
    for (list, count) in [(vec![0x4E; 8_192], 131_072), (vec![0xF7; 4_096], 131_072), (vec![0xF7; 4_095], 131_040)] {
        assert_eq!(
            write_track_to_vec(&list).map(|written| (written.count, written.packed.len())),
            Ok((count, count / 8))
        );
    }
    for list in [vec![0x4E; 8_193], vec![0xF7; 4_097], [vec![0x4E; 8_191], vec![0xF7]].concat(), vec![0xF5; 1_000_000]]
    {
        assert_eq!(write_track_to_vec(&list), Err(Refusal::TooLongATrack));
        for room in [0, 16_384, 20_000] {
            let mut cells = vec![7; room];
            assert_eq!(write_track(&list, &mut cells), Err(Refusal::TooLongATrack));
            assert!(cells.iter().all(|&byte| byte == 7));
        }
    }
}
