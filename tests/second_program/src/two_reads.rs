//! Two reads of one sector: where they differ, and which of them is good.
//!
//! A read is the data bytes as they were decoded, with the two check bytes behind them.
//! A weak sector reads otherwise each time, so two reads of it show that it is weak.

use crate::check_word::check_word;
use crate::findings::{Finding, FZD};
use crate::refusal::Refusal;

/// The lengths that a read can have: those of the four size codes, with two check bytes.
pub const READ_LENGTHS: [usize; 4] = [130, 258, 514, 1_026];
/// The check bytes of a read.
const CHECK_BYTES: usize = 2;

/// Refusals 18 and 19, in this order.
fn judge_reads(first: &[u8], second: &[u8]) -> Result<(), Refusal> {
    if first.len() != second.len() {
        return Err(Refusal::reads_differ_in_length());
    }
    if !READ_LENGTHS.contains(&first.len()) {
        return Err(Refusal::no_length_of_a_read());
    }
    Ok(())
}

/// Compares two reads of one sector: FZD where they differ. Its place counts the bytes before
/// the first difference, its detail the bits that are not the same. Check bytes count
/// like data bytes, and the data mark decides nothing here. Refusals in order: 18, 19.
pub fn compare_reads(
    first: &[u8],
    second: &[u8],
    _data_mark: u8,
) -> Result<Option<Finding>, Refusal> {
    judge_reads(first, second)?;
    let mut place = None;
    let mut bits = 0;
    for (index, (one, other)) in first.iter().zip(second).enumerate() {
        for bit in 0..8 {
            if (one >> bit) & 1 != (other >> bit) & 1 {
                bits += 1;
                place = place.or(Some(index));
            }
        }
    }
    Ok(place.map(|place| Finding::new(FZD, place, bits)))
}

/// Whether a read's check bytes, the high one first, agree with the three syncs, the data
/// mark and the data. A read has at least two bytes.
pub fn check_of_read_is_good(read: &[u8], data_mark: u8) -> bool {
    let (data, stored) = read.split_at(read.len() - CHECK_BYTES);
    let mut covered = vec![0xA1, 0xA1, 0xA1, data_mark];
    covered.extend(data);
    check_word(&covered) == u16::from_be_bytes([stored[0], stored[1]])
}

/// A part of one of two lent reads.
#[derive(Clone, Copy, Debug, PartialEq, Eq)]
pub struct GoodRead<'a> {
    /// Which read it is a part of: 0 for the first, 1 for the second.
    pub read: usize,
    /// The data of that read without its check bytes; empty where no read is good.
    pub part: &'a [u8],
}

/// The data of the read whose check is good: that of the first read goes before. Without a
/// good check, and of reads that cannot be compared, it is empty and counts as the first's.
pub fn good_read<'a>(first: &'a [u8], second: &'a [u8], data_mark: u8) -> GoodRead<'a> {
    if compare_reads(first, second, data_mark).is_ok() {
        for (read, bytes) in [first, second].into_iter().enumerate() {
            if check_of_read_is_good(bytes, data_mark) {
                let part = &bytes[..bytes.len() - CHECK_BYTES];
                return GoodRead { read, part };
            }
        }
    }
    GoodRead {
        read: 0,
        part: &first[..0],
    }
}
