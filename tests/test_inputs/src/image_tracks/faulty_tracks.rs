//! Tracks without an image: each fault in each sector, two at once, sectors besides the
//! nine, and a random mixture of all of it.

use super::{nine_shuffled, plain_sectors, track_of, vary, ImageTrack};
use crate::random::Random;
use crate::track_builder::SectorPlan;

/// One way in which a number fails to have its one plain sector.
#[derive(Clone, Copy, Debug, PartialEq, Eq)]
pub enum Fault {
    /// No sector has the number.
    Missing,
    /// Its sector has another number instead, one outside 1 to 9.
    Renumbered(u8),
    /// Two sound sectors have the number.
    Twice,
    /// Two sectors have the number, and the first has a bad ID check.
    TwiceFirstBad,
    /// Two sectors have the number, and the second has a bad data check.
    TwiceSecondBad,
    /// The sector has this size code and data of its length.
    SizeCode(u8),
    /// These bits of the ID check are wrong.
    IdCheck(u16),
    /// These bits of the data check are wrong.
    DataCheck(u16),
    /// There is no data.
    NoData,
    /// Before the data stands this byte instead of a data mark.
    NoDataMark(u8),
    /// The data mark stands one cell farther off than is looked for it.
    FarDataMark,
}

/// Every fault that the lists try.
pub fn all_faults() -> Vec<Fault> {
    let mut faults = vec![
        Fault::Missing,
        Fault::Twice,
        Fault::TwiceFirstBad,
        Fault::TwiceSecondBad,
        Fault::IdCheck(0x0001),
        Fault::IdCheck(0x8000),
        Fault::IdCheck(0xFFFF),
        Fault::DataCheck(0x0001),
        Fault::DataCheck(0x8000),
        Fault::DataCheck(0x0100),
        Fault::NoData,
        Fault::NoDataMark(0xF7),
        Fault::NoDataMark(0x00),
        Fault::FarDataMark,
    ];
    faults.extend([0, 10, 128, 255].map(Fault::Renumbered));
    // The codes 6, 10, 130 and 254 have the right length and are wrong all the same.
    faults.extend([0, 1, 3, 4, 5, 6, 7, 10, 130, 254, 255].map(Fault::SizeCode));
    faults
}

/// Puts a fault into the first sector of a number, where there is one.
fn put(sectors: &mut Vec<SectorPlan>, number: u8, fault: Fault) {
    let Some(index) = sectors.iter().position(|sector| sector.number == number) else {
        return;
    };
    let sector = &mut sectors[index];
    let copy = sector.clone();
    match fault {
        Fault::Missing => {
            sectors.remove(index);
        }
        Fault::Renumbered(other) => sector.number = other,
        Fault::Twice => sectors.push(copy),
        Fault::TwiceFirstBad => {
            sector.id_check_error = 0x0040;
            sectors.push(copy);
        }
        Fault::TwiceSecondBad => sectors.push(SectorPlan {
            data_check_error: 0x0040,
            ..copy
        }),
        Fault::SizeCode(code) => {
            sector.size_code = code;
            sector.data.resize(128 << (code % 4), 0x6B);
        }
        Fault::IdCheck(bits) => sector.id_check_error = bits,
        Fault::DataCheck(bits) => sector.data_check_error = bits,
        Fault::NoData => sector.data_mark = None,
        Fault::NoDataMark(byte) => sector.data_mark = Some(byte),
        Fault::FarDataMark => sector.gap_cells = 625,
    }
}

/// One of all faults.
fn random_fault(random: &mut Random) -> Fault {
    let faults = all_faults();
    faults[random.below(faults.len() as u64) as usize]
}

/// For each number in turn a track with each fault.
pub fn fault_tracks(random: &mut Random) -> Vec<ImageTrack> {
    let mut tracks = Vec::new();
    for number in 1..=9 {
        for fault in all_faults() {
            let mut sectors = nine_shuffled(random);
            put(&mut sectors, number, fault);
            tracks.push(track_of(
                random,
                format!("number {number}: {fault:?}"),
                &sectors,
            ));
        }
    }
    tracks
}

/// For each number in turn and each second number, the same one too, a track with a fault of
/// both.
pub fn two_fault_tracks(random: &mut Random) -> Vec<ImageTrack> {
    let mut tracks = Vec::new();
    for first in 1..=9 {
        for second in 1..=9 {
            let faults = (random_fault(random), random_fault(random));
            let mut sectors = nine_shuffled(random);
            put(&mut sectors, first, faults.0);
            put(&mut sectors, second, faults.1);
            tracks.push(track_of(
                random,
                format!("numbers {first} and {second}: {faults:?}"),
                &sectors,
            ));
        }
    }
    tracks
}

/// The sectors with another one at a random place among them.
fn insert(random: &mut Random, sectors: &mut Vec<SectorPlan>, sector: SectorPlan) {
    let index = random.below(sectors.len() as u64 + 1) as usize;
    sectors.insert(index, sector);
}

/// Nine sound sectors and one or two with numbers outside 1 to 9, these sound or not, and
/// the same with a fault of each number.
pub fn besides_tracks(random: &mut Random) -> Vec<ImageTrack> {
    let mut tracks = Vec::new();
    let outside = [0, 10, 11, 127, 128, 245, 254, 255];
    for number in outside {
        for fault in [
            None,
            Some(Fault::SizeCode(3)),
            Some(Fault::IdCheck(0x0200)),
            Some(Fault::DataCheck(0x0002)),
            Some(Fault::NoData),
            Some(Fault::Twice),
        ] {
            let mut besides = plain_sectors(random, &[number]);
            if let Some(fault) = fault {
                put(&mut besides, number, fault);
            }
            let mut sectors = nine_shuffled(random);
            for sector in besides {
                insert(random, &mut sectors, sector);
            }
            let name = format!("number {number} besides, with fault {fault:?}");
            tracks.push(track_of(random, name, &sectors));
        }
    }
    for (one, other) in [(0, 10), (10, 11), (0, 255), (255, 128), (10, 10), (0, 0)] {
        for fault_of in [None, Some(1), Some(5), Some(9)] {
            let mut sectors = nine_shuffled(random);
            for sector in plain_sectors(random, &[one, other]) {
                insert(random, &mut sectors, sector);
            }
            if let Some(number) = fault_of {
                put(&mut sectors, number, Fault::DataCheck(0x1000));
            }
            let name = format!("numbers {one} and {other} besides, fault of {fault_of:?}");
            tracks.push(track_of(random, name, &sectors));
        }
    }
    for number in 1..=9 {
        let besides = plain_sectors(random, &[outside[usize::from(number) % 8]]);
        let fault = random_fault(random);
        let mut sectors = nine_shuffled(random);
        put(&mut sectors, number, fault);
        for sector in besides {
            insert(random, &mut sectors, sector);
        }
        let name = format!("a sector besides, and number {number}: {fault:?}");
        tracks.push(track_of(random, name, &sectors));
    }
    tracks
}

/// A random track of nine sectors: sound ones that differ where an image does not mind it,
/// now and then with faults, with sectors besides, with wrong cells or from a wrong place.
pub fn odd_image_track(random: &mut Random) -> ImageTrack {
    let mut sectors = nine_shuffled(random);
    for sector in &mut sectors {
        if random.one_in(3) {
            vary(random, sector);
        }
    }
    let faults = [0, 0, 0, 1, 1, 2, 3][random.below(7) as usize];
    for _ in 0..faults {
        let number = 1 + random.below(9) as u8;
        put(&mut sectors, number, random_fault(random));
    }
    if random.one_in(5) {
        for _ in 0..random.between(1, 2) {
            let number = [0, 10, 255, random.byte()][random.below(4) as usize];
            let besides = plain_sectors(random, &[number]);
            insert(random, &mut sectors, besides[0].clone());
        }
    }
    let name = format!("random track with {faults} faults");
    let mut track = track_of(random, name, &sectors);
    if random.one_in(8) {
        for _ in 0..random.between(1, 4) {
            let place = random.below(track.n as u64) as usize;
            track.bytes[place / 8] ^= 0x80 >> (place % 8);
        }
    }
    track.drive_track = random.below(84) as u32;
    track.drive_side = random.below(2) as u32;
    if random.one_in(40) {
        track.drive_track = 84;
    }
    track
}
