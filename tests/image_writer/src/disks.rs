//! Whole disks: plain ones with any content, and such with protections, blank sides or missing tracks.

use crate::drive::{revolutions, Fault};
use crate::image::Image;
use test_inputs::random::Random;
use test_inputs::track_builder::{filled, odd_track, turn, SectorPlan, TrackBuilder};

/// The data bytes of a plain track: nine sectors of 512.
pub const TRACK_BYTES: usize = 9 * 512;

/// What stands on a side of a track.
#[derive(Clone, Debug)]
pub enum Surface {
    /// Nine sectors with these bytes.
    Plain(Vec<u8>),
    /// Nothing that was ever written: pulses at random distances, others in each revolution.
    Unformatted,
    /// A protection.
    Protected(Protection),
    /// The block has no values at all.
    NoValues,
    /// The image has no block of it.
    Missing,
}

/// A protection that a disk can have.
#[derive(Clone, Copy, Debug, PartialEq, Eq)]
pub enum Protection {
    /// A sector whose bits are not the same in two revolutions, and the one of this number has a bad check.
    WeakSector(u8),
    /// The data check of the sector of this number is wrong.
    BadData(u8),
    /// The sector of this number is there twice.
    Twice(u8),
    /// The number of the last sector is one that no controller formats.
    InvalidNumber,
    /// A long run without flux behind the last sector.
    NoFlux,
    /// A track with 5 % more cells.
    Long,
    /// Anything at all, by chance.
    Odd,
}

/// All protections.
pub const PROTECTIONS: [Protection; 7] = [
    Protection::WeakSector(4),
    Protection::BadData(7),
    Protection::Twice(5),
    Protection::InvalidNumber,
    Protection::NoFlux,
    Protection::Long,
    Protection::Odd,
];

/// A disk to make an image of.
#[derive(Clone, Debug)]
pub struct Disk {
    pub name: &'static str,
    pub revolutions: u8,
    /// The byte of the header: 0 for both sides, 1 for side 0 alone, 2 for side 1 alone.
    pub heads: u8,
    pub fault: Fault,
    /// Track, side and what stands there.
    pub tracks: Vec<(u8, u8, Surface)>,
}

impl Disk {
    /// A plain disk of so many tracks on these sides, with any content.
    pub fn plain(random: &mut Random, name: &'static str, tracks: u8, sides: &[u8], revolutions: u8) -> Disk {
        let mut surfaces = Vec::new();
        for track in 0..tracks {
            for &side in sides {
                let bytes = (0..TRACK_BYTES).map(|_| random.byte()).collect();
                surfaces.push((track, side, Surface::Plain(bytes)));
            }
        }
        Disk { name, revolutions, heads: 0, fault: Fault::USUAL, tracks: surfaces }
    }

    /// A disk with a protection on each seventh track and side, in turn, or on each second where there are few.
    pub fn protected(random: &mut Random, name: &'static str, tracks: u8, revolutions: u8) -> Disk {
        let mut disk = Disk::plain(random, name, tracks, &[0, 1], revolutions);
        let step = if tracks > 10 { 7 } else { 2 };
        for (index, (.., surface)) in disk.tracks.iter_mut().enumerate().filter(|(index, _)| index % step == 0) {
            *surface = Surface::Protected(PROTECTIONS[index / step % PROTECTIONS.len()]);
        }
        disk
    }

    /// What stands at a track and side.
    pub fn surface(&mut self, track: u8, side: u8) -> &mut Surface {
        let found = self.tracks.iter_mut().find(|(t, s, _)| (*t, *s) == (track, side));
        &mut found.expect("the disk has this track").2
    }

    /// The bytes of all plain tracks in the order of a plain image: by track, and by side on each.
    pub fn content(&self) -> Vec<u8> {
        let plain = self.tracks.iter().filter_map(|(_, _, surface)| match surface {
            Surface::Plain(bytes) => Some(&bytes[..]),
            _ => None,
        });
        plain.flatten().copied().collect()
    }

    /// The image, as the device writes it.
    pub fn image(&self, random: &mut Random) -> Image {
        let mut image = Image::new(self.revolutions);
        image.heads = self.heads;
        for (track, side, surface) in &self.tracks {
            if matches!(surface, Surface::Missing) {
                continue;
            }
            let rounds: Vec<Vec<u8>> = cells_of(random, *track, *side, surface, self.revolutions.into());
            let read = revolutions(random, self.fault, &rounds);
            image.put(2 * usize::from(*track) + usize::from(*side), &read);
        }
        image
    }
}

/// The image samples/small.scp: two tracks of a disk, two revolutions of each. Track 0 is plain on side 0, and has a weak sector 4 on track 1, whose
/// sector 5 is there twice; side 1 was never formatted. The data bytes have few flux transitions, which keeps the image small.
pub fn sample() -> Image {
    let mut random = Random::new(19);
    let mut image = Image::new(2);
    let plain: Vec<SectorPlan> = (1..=9).map(|number| SectorPlan::standard(0, 0, number, 0x55)).collect();
    let protected = |random: &mut Random| {
        let mut sectors: Vec<SectorPlan> = (1..=9).map(|number| SectorPlan::standard(1, 0, number, 0x55)).collect();
        sectors[3].data_check_error = 1;
        sectors[3].data[256..].iter_mut().for_each(|byte| *byte = random.byte());
        sectors.push(sectors[4].clone());
        track_of(&sectors, 100_000)
    };
    let tracks = [
        (0, vec![track_of(&plain, 100_000); 2]),
        (1, vec![noise(&mut random), noise(&mut random)]),
        (2, vec![protected(&mut random), protected(&mut random)]),
        (3, vec![noise(&mut random), noise(&mut random)]),
    ];
    for (entry, rounds) in tracks {
        image.put(entry, &revolutions(&mut random, Fault::USUAL, &rounds));
    }
    image
}

/// The nine sectors of plain bytes.
fn nine(track: u8, side: u8, bytes: &[u8]) -> Vec<SectorPlan> {
    let sectors = bytes.chunks(512).zip(1..);
    sectors
        .map(|(data, number)| SectorPlan { data: data.to_vec(), ..SectorPlan::standard(track, side, number, 0) })
        .collect()
}

/// A track of sectors, with the gaps of the standard track.
fn track_of(sectors: &[SectorPlan], cells: usize) -> Vec<u8> {
    let mut builder = TrackBuilder::new();
    builder.write_repeated(0x4E, 60);
    for sector in sectors {
        builder.write_repeated(0x00, 12);
        builder.write_sector(sector);
        builder.write_repeated(0x4E, 40);
    }
    filled(builder.cells().to_vec(), cells)
}

/// The cells of each revolution.
fn cells_of(random: &mut Random, track: u8, side: u8, surface: &Surface, rounds: usize) -> Vec<Vec<u8>> {
    match surface {
        Surface::Plain(bytes) => vec![track_of(&nine(track, side, bytes), 100_000); rounds],
        Surface::Unformatted => (0..rounds).map(|_| noise(random)).collect(),
        Surface::Protected(protection) => protected(random, track, side, *protection, rounds),
        Surface::NoValues | Surface::Missing => vec![Vec::new(); rounds],
    }
}

/// Pulses at distances of 2 to 30 cells.
fn noise(random: &mut Random) -> Vec<u8> {
    let mut cells = Vec::new();
    while cells.len() < 100_000 {
        cells.resize(cells.len() + random.between(1, 29) as usize, 0);
        cells.push(1);
    }
    cells
}

fn protected(random: &mut Random, track: u8, side: u8, protection: Protection, rounds: usize) -> Vec<Vec<u8>> {
    let bytes: Vec<u8> = (0..TRACK_BYTES).map(|_| random.byte()).collect();
    let mut sectors = nine(track, side, &bytes);
    let mut cells = 100_000;
    match protection {
        Protection::WeakSector(number) => {
            let one_round = |_| {
                let weak = &mut sectors[usize::from(number) - 1];
                // The check of the bytes that were meant stays, so that each read has a bad one.
                weak.data_check_error = 1;
                weak.data[100..200].iter_mut().for_each(|byte| *byte = random.byte());
                track_of(&sectors, cells)
            };
            return (0..rounds).map(one_round).collect();
        }
        Protection::BadData(number) => sectors[usize::from(number) - 1].data_check_error = 0x0100,
        Protection::Twice(number) => {
            // There is room for a tenth.
            sectors.push(sectors[usize::from(number) - 1].clone());
        }
        Protection::InvalidNumber => sectors[8].number = 247,
        Protection::NoFlux => {
            let mut round = track_of(&sectors, cells);
            round[92_000..96_000].fill(0);
            return vec![round; rounds];
        }
        Protection::Long => cells = 105_000,
        Protection::Odd => return vec![odd_track(random, track); rounds],
    }
    vec![turn(&track_of(&sectors, cells), 1_000); rounds]
}
