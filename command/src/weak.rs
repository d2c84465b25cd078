//! Weak sectors: the reads of a sector in two revolutions, compared.

use thikbromu::{compare_reads, decode_to_vec, Finding, Refusal, Track};

/// The cells of a data mark, behind which the data begins.
const MARK_CELLS: usize = 64;
/// The cells of two bytes.
const TWO_BYTES: usize = 32;

/// A sector whose read in another revolution is not the same.
#[derive(Clone, Copy, Debug)]
pub struct Weak {
    /// The sector's number.
    pub sector: u8,
    /// The revolution that it is compared with.
    pub other_revolution: u32,
    /// The finding FZD.
    pub finding: Finding,
}

/// A read of a sector: the four bytes of its ID, its data mark, its data bytes and its check bytes.
pub struct Read {
    id: [u8; 4],
    data_mark: u8,
    bytes: Vec<u8>,
}

/// The reads of all sectors of a track that have data.
pub fn reads(track: &Track) -> Result<Vec<Read>, Refusal> {
    let mut reads = Vec::new();
    for sector in track.sectors()? {
        if sector.has_data() {
            // The data bytes and the two check bytes, two at a time. Reading out a sector would look for all sectors again.
            let places = (sector.data_place as usize + MARK_CELLS..sector.end as usize).step_by(TWO_BYTES);
            let cells: Vec<u8> = places.flat_map(|place| (track.word(place, TWO_BYTES) as u32).to_be_bytes()).collect();
            let bytes = decode_to_vec(&cells)?;
            let id = [sector.track, sector.side, sector.number, sector.size_code];
            reads.push(Read { id, data_mark: sector.data_mark, bytes });
        }
    }
    Ok(reads)
}

/// The sectors that differ. Two reads are of one sector where their IDs are the same; of several sectors with one ID the first belongs to the
/// first, and so on. A sector that one of the revolutions lacks is compared with nothing.
pub fn compared(reads: &[Read], others: &[Read], other_revolution: u32) -> Result<Vec<Weak>, Refusal> {
    let mut weak = Vec::new();
    for (index, read) in reads.iter().enumerate() {
        let before = reads[..index].iter().filter(|earlier| earlier.id == read.id).count();
        if let Some(other) = others.iter().filter(|other| other.id == read.id).nth(before) {
            let finding = compare_reads(&read.bytes, &other.bytes, read.data_mark)?;
            weak.extend(finding.map(|finding| Weak { sector: read.id[2], other_revolution, finding }));
        }
    }
    Ok(weak)
}
