//! Tracks that Write Track makes beside those that floptool makes of the same sectors, field by field: the zeros before an ID, its syncs, its
//! mark, its four bytes and its check, and the same of the data. The gaps between the fields are those of other computers, and are not compared.

use crate::mfm_file::MfmFile;
use crate::{Counts, Disk, SECTOR};
use second_program::write_track::standard_list;
use test_inputs::random::Random;
use thikbromu::Sector;

/// The cells of a byte, and the bytes of the parts of a field.
const BYTE: usize = 16;
const ZEROS: usize = 12;
const SYNCS_AND_MARK: usize = 4;
const ID: usize = 4;
const CHECK: usize = 2;

/// Random bytes without those that are commands in a list.
pub fn plain_bytes(random: &mut Random, count: usize) -> Vec<u8> {
    let plain = |byte: u8| if (0xF5..=0xF7).contains(&byte) { byte - 0x80 } else { byte };
    (0..count).map(|_| plain(random.byte())).collect()
}

/// The cells of a track, each 0 or 1.
struct Cells(Vec<u8>);

impl Cells {
    fn new(packed: &[u8], count: usize) -> Cells {
        Cells((0..count).map(|place| packed[place / 8] >> (7 - place % 8) & 1).collect())
    }

    /// A field whose syncs begin at this place: the zeros before them, the syncs and the mark, so many bytes, and their check.
    fn field(&self, syncs: u32, bytes: usize) -> Vec<u8> {
        let n = self.0.len();
        let length = BYTE * (ZEROS + SYNCS_AND_MARK + bytes + CHECK);
        (0..length).map(|index| self.0[(syncs as usize + n - BYTE * ZEROS + index) % n]).collect()
    }
}

/// A field as floptool wrote it and as Write Track did, which have to be the same cells.
fn same_field(name: &str, theirs: Vec<u8>, ours: Vec<u8>) -> Result<(), String> {
    match theirs.iter().zip(&ours).position(|(a, b)| a != b) {
        Some(cell) => Err(format!("{name} differs at its cell {cell}, of byte {}", cell / BYTE)),
        None if theirs.len() != ours.len() => Err(format!("{name} differs in length")),
        None => Ok(()),
    }
}

/// One track of both.
fn same_fields(packed: &[u8], track: u8, side: u8, part: &[u8]) -> Result<(), String> {
    let mut data = [[0; SECTOR]; 9];
    data.iter_mut().zip(part.chunks(SECTOR)).for_each(|(data, bytes)| data.copy_from_slice(bytes));
    let words = |refusal: thikbromu::Refusal| refusal.to_string();
    let written = thikbromu::write_track_to_vec(&standard_list(track, side, &data)).map_err(words)?;
    let theirs = crate::typed(packed, track.into(), side.into());
    let found = written.track(track.into(), side.into()).findings().map_err(words)?;
    if !found.is_empty() {
        return Err(format!("of ours {} is found", found[0]));
    }
    let our_sectors: Vec<Sector> = written.track(track.into(), side.into()).sectors().map_err(words)?.collect();
    let their_sectors: Vec<Sector> = theirs.sectors().map_err(words)?.collect();
    if (our_sectors.len(), their_sectors.len()) != (9, 9) {
        return Err(format!("{} sectors of ours and {} of theirs", our_sectors.len(), their_sectors.len()));
    }
    let (our_cells, their_cells) = (Cells::new(&written.packed, written.count), Cells::new(packed, 8 * packed.len()));
    for ours in &our_sectors {
        let theirs = their_sectors.iter().find(|theirs| theirs.number == ours.number);
        let theirs = theirs.ok_or_else(|| format!("they have no sector {}", ours.number))?;
        let name = format!("the ID of sector {}", ours.number);
        same_field(&name, their_cells.field(theirs.place, ID), our_cells.field(ours.place, ID))?;
        let name = format!("the data of sector {}", ours.number);
        same_field(&name, their_cells.field(theirs.data_place, SECTOR), our_cells.field(ours.data_place, SECTOR))?;
    }
    Ok(())
}

/// Every track of a disk. Gives how many have the same fields.
pub fn compare(counts: &mut Counts, disk: &Disk, bytes: &[u8], file: &MfmFile) -> usize {
    let mut parts = bytes.chunks(disk.track_bytes());
    let mut same = 0;
    for track in 0..disk.tracks {
        for side in 0..disk.sides {
            let part = parts.next().expect("the disk has a part for each track");
            let held = file.cells(track, side).and_then(|packed| same_fields(packed, track as u8, side as u8, part));
            same += usize::from(held.is_ok());
            counts.expect(held.is_ok(), || format!("{}, track {track}, side {side}: {}", disk.name(), held.unwrap_err()));
        }
    }
    same
}
