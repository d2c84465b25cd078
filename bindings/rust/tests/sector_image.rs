//! The plain image of a track (section 15 of the specification), on the standard track with other numbers and other data.

use thikbromu::*;

/// The standard track, at track 0 and side 0, in a track file; its data bytes are E5.
const STANDARD: &[u8] = include_bytes!("../../../samples/standard.track");

const CELLS: usize = 100_000;

/// The numbers of the sectors, in the order of their places.
const NUMBERS: [u8; 9] = [5, 1, 9, 3, 7, 2, 8, 4, 6];

/// The cells of the standard track. What is written to it begins at a whole byte of cells.
struct Disk(Vec<u8>);

impl Disk {
    fn standard() -> Disk {
        Disk(STANDARD[10..STANDARD.len() - 4].to_vec())
    }

    /// The sectors with the numbers of [`NUMBERS`], each with data of its own.
    fn shuffled() -> Disk {
        let mut disk = Disk::standard();
        for (index, number) in NUMBERS.into_iter().enumerate() {
            disk.write(place(index), 0xFE, &[0, 0, number, 2]);
            disk.write(place(index) + 704, 0xFB, &data_of(number));
        }
        disk
    }

    /// Writes three syncs, a mark, bytes and their check.
    fn write(&mut self, place: usize, mark: u8, bytes: &[u8]) {
        let mut all = [&[0xA1, 0xA1, 0xA1, mark], bytes].concat();
        all.extend(check_word(&all).to_be_bytes());
        let mut cells = [0x44, 0x89].repeat(3);
        cells.extend(encode_to_vec(&all[3..], true).unwrap());
        self.0[place / 8..][..cells.len()].copy_from_slice(&cells);
    }

    fn track(&self) -> Track<'_> {
        Track::new(&self.0, CELLS, 0, 0)
    }

    /// It has no image, and this number is why: by the array, by a lent buffer, in any room, all of which is kept.
    fn refuses(&self, number: usize) {
        let refusal = Refusal::NoPlainImage(number);
        assert_eq!(self.track().sector_image(), Err(refusal));
        for room in [0, SECTOR_IMAGE_BYTES - 1, SECTOR_IMAGE_BYTES, SECTOR_IMAGE_BYTES + 9] {
            let mut image = vec![7; room];
            assert_eq!(self.track().write_sector_image(&mut image), Err(refusal));
            assert_eq!(boundary::sector_image(&self.0, CELLS, 0, 0, &mut image), Err(refusal));
            assert!(image.iter().all(|&byte| byte == 7));
        }
    }
}

/// The place of the sector of an index; that of index 9 is in the last gap.
fn place(index: usize) -> usize {
    1_152 + 9_824 * index
}

fn data_of(number: u8) -> [u8; 512] {
    std::array::from_fn(|index| number.wrapping_mul(29).wrapping_add((index * index) as u8))
}

#[test]
fn the_sectors_stand_in_the_order_of_their_numbers() {
    assert_eq!(SECTOR_IMAGE_BYTES, 4_608);
    assert_eq!(Disk::standard().track().sector_image(), Ok([0xE5; 4_608]));
    let disk = Disk::shuffled();
    let image = disk.track().sector_image().unwrap();
    for number in 1..=9 {
        assert_eq!(image[512 * (usize::from(number) - 1)..][..512], data_of(number));
    }
    // Each is what reading out gives.
    for (index, number) in NUMBERS.into_iter().enumerate() {
        let data = disk.track().read_out_to_vec(index).unwrap();
        assert_eq!(image[512 * (usize::from(number) - 1)..][..512], data.bytes);
    }
}

#[test]
fn what_stands_behind_the_image_is_kept() {
    let disk = Disk::shuffled();
    let image = disk.track().sector_image().unwrap();
    for room in [4_608, 4_609, 5_000] {
        let mut lent = vec![7; room];
        assert_eq!(disk.track().write_sector_image(&mut lent), Ok(4_608));
        assert_eq!(lent[..4_608], image);
        assert!(lent[4_608..].iter().all(|&byte| byte == 7));
    }
}

#[test]
fn too_little_room() {
    let disk = Disk::shuffled();
    for room in [0, 1, 512, 4_607] {
        let mut lent = vec![7; room];
        assert_eq!(disk.track().write_sector_image(&mut lent), Err(Refusal::NoRoomForBytes(4_608)));
        assert!(lent.iter().all(|&byte| byte == 7));
    }
}

#[test]
fn marks_and_the_place_in_an_id_do_not_count() {
    let mut disk = Disk::shuffled();
    let image = disk.track().sector_image().unwrap();
    disk.write(place(0), 0xFC, &[83, 1, 5, 2]);
    disk.write(place(1), 0xFF, &[255, 255, 1, 2]);
    disk.write(place(2) + 704, 0xF8, &data_of(9));
    disk.write(place(3) + 704, 0xFA, &data_of(3));
    assert_eq!(disk.track().sector_image(), Ok(image));
    assert_eq!(Track::new(&disk.0, CELLS, 83, 1).sector_image(), Ok(image));
}

#[test]
fn each_condition_for_each_number() {
    for (index, number) in NUMBERS.into_iter().enumerate() {
        // Missing, with a number besides the nine in its stead; code 6, whose data has 512 bytes too, and the other codes to 3.
        for id in [[0, 0, 0, 2], [0, 0, 10, 2], [0, 0, 255, 2], [0, 0, number, 6], [0, 0, number, 0], [0, 0, number, 3]]
        {
            let mut disk = Disk::shuffled();
            disk.write(place(index), 0xFE, &id);
            disk.refuses(number.into());
        }
        // A wrong bit in the ID check and in the data check.
        for cell in [place(index) + 64 + 16 * 4 + 15, place(index) + 704 + 64 + 16 * 512 + 1] {
            let mut disk = Disk::shuffled();
            disk.0[cell / 8] ^= 0x80 >> (cell % 8);
            disk.refuses(number.into());
        }
        // No data mark.
        let mut disk = Disk::shuffled();
        clear(&mut disk.0[(place(index) + 704) / 8..], 6);
        disk.refuses(number.into());
        // A second time, whole or not.
        for size_code in [2, 1] {
            let mut disk = Disk::shuffled();
            disk.write(place(9), 0xFE, &[0, 0, number, size_code]);
            disk.refuses(number.into());
        }
    }
}

#[test]
fn a_number_besides_the_nine() {
    for number in [0, 10, 11, 247, 255] {
        let mut disk = Disk::shuffled();
        // It has no data; nothing of it but the number counts.
        disk.write(place(9), 0xFE, &[0, 0, number, 3]);
        disk.refuses(0);
        // A sector of the nine that is not plain comes first.
        disk.write(place(2), 0xFE, &[0, 0, 9, 1]);
        disk.refuses(9);
    }
}

#[test]
fn the_least_number_of_two() {
    for (first, one) in NUMBERS.into_iter().enumerate() {
        for (second, other) in NUMBERS.into_iter().enumerate().skip(first + 1) {
            let mut disk = Disk::shuffled();
            disk.write(place(first), 0xFE, &[0, 0, one, 1]);
            clear(&mut disk.0[(place(second) + 704) / 8..], 6);
            disk.refuses(one.min(other).into());
        }
    }
}

#[test]
fn the_track_is_judged_first() {
    let packed = Disk::standard().0;
    for (track, refusal) in [
        (Track::new(&[], 0, 84, 0), Refusal::TrackOrSide),
        (Track::new(&packed, CELLS, 0, 2), Refusal::TrackOrSide),
        (Track::new(&packed, 19_999, 0, 0), Refusal::CellCount(19_999)),
        (Track::new(&packed, 131_073, 0, 0), Refusal::CellCount(131_073)),
        (Track::new(&packed[1..], CELLS, 0, 0), Refusal::TooFewBytes(12_500)),
        // The first two sectors alone.
        (Track::new(&packed, 20_000, 0, 0), Refusal::NoPlainImage(3)),
    ] {
        assert_eq!(track.sector_image(), Err(refusal));
        assert_eq!(track.write_sector_image(&mut []), Err(refusal));
    }
}

#[test]
fn what_a_refusal_says() {
    assert!(Refusal::NoPlainImage(0).to_string().starts_with("refused 24: no plain image: "));
    assert!(Refusal::NoPlainImage(3).to_string().contains("sector 3"));
    assert_eq!((Refusal::NoPlainImage(3).number(), Refusal::NoPlainImage(3).value()), (24, 3));
}
