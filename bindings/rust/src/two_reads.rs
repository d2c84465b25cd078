//! Two reads of one sector.

use crate::boundary::{self, FINDING_NUMBERS};
use crate::finding::{Finding, Kind};
use crate::refusal::Refusal;
use crate::sector::LONGEST_SECTOR;

/// How many check bytes stand behind the data bytes of a read.
pub const CHECK_BYTES: usize = 2;

/// The longest read, in bytes.
pub const LONGEST_READ: usize = LONGEST_SECTOR + CHECK_BYTES;

/// Compares two reads of one sector (rules 14.2 to 14.5). A read is the data bytes, 128, 256, 512 or 1,024, with the two check bytes behind
/// them. Equal reads have no finding; others have [`Fzd`](Kind::Fzd), whose place is the least index at which they differ and whose
/// detail is how many bits differ. A sector that gives such reads is weak.
///
/// Refuses [`LengthsDiffer`](Refusal::LengthsDiffer), [`NotASectorLength`](Refusal::NotASectorLength).
///
/// ```
/// let first = [0xE5; 514];
/// let mut second = first;
/// second[100] = 0xE4;
/// second[513] = 0x1A;
/// assert_eq!(thikbromu::compare_reads(&first, &first, 0xFB)?, None);
/// let finding = thikbromu::compare_reads(&first, &second, 0xFB)?;
/// assert_eq!(finding.map(|finding| finding.to_string()), Some("22 FZD level 1 place 100 detail 9".to_string()));
/// # Ok::<(), thikbromu::Refusal>(())
/// ```
pub fn compare_reads(first: &[u8], second: &[u8], data_mark: u8) -> Result<Option<Finding>, Refusal> {
    let mut numbers = [0; FINDING_NUMBERS];
    let findings = boundary::compare_reads(first, second, data_mark.into(), &mut numbers)?;
    let [_, _, place, detail] = numbers;
    Ok((findings == 1).then_some(Finding { kind: Kind::Fzd, place, detail }))
}

/// The data bytes of whichever read has a good check, as a part of that read: of the first where both are good. Where neither is, an empty
/// part of the first (rules 14.6 to 14.9). The check covers A1 A1 A1, the data mark, which may be any byte, and the data bytes.
///
/// Refuses what [`compare_reads`] refuses.
pub fn good_read<'a>(first: &'a [u8], second: &'a [u8], data_mark: u8) -> Result<&'a [u8], Refusal> {
    let mut which = 0;
    let length = boundary::good_read(first, second, data_mark.into(), &mut which)?;
    let read = if which == 0 { first } else { second };
    Ok(&read[..length])
}

#[cfg(test)]
mod tests {
    use super::*;

    /// A read of data bytes, with the check bytes that its mark and its data ask for.
    fn read_of(data: &[u8], data_mark: u8) -> Vec<u8> {
        let before = crate::check_word(&[0xA1, 0xA1, 0xA1, data_mark]);
        let mut read = data.to_vec();
        read.extend(crate::check_word_from(before, data).to_be_bytes());
        read
    }

    #[test]
    fn a_part_of_the_read_with_a_good_check() {
        let good = read_of(&[0xE5; 512], 0xFB);
        let other = read_of(&[0x4E; 512], 0xFB);
        let mut bad = good.clone();
        bad[7] ^= 1;
        let part = |first: &[u8], second: &[u8]| {
            let part = good_read(first, second, 0xFB).expect("two reads");
            let from = |read: &[u8]| part.as_ptr() == read.as_ptr();
            (from(first), from(second), part.len())
        };
        assert_eq!(part(&good, &other), (true, false, 512));
        assert_eq!(part(&other, &good), (true, false, 512));
        assert_eq!(part(&good, &bad), (true, false, 512));
        assert_eq!(part(&bad, &good), (false, true, 512));
        assert_eq!(part(&bad, &bad.clone()), (true, false, 0));
        // The same bytes after another mark have another check word.
        assert_eq!(good_read(&good, &other, 0xF8), Ok(&[][..]));
        assert_eq!(good_read(&other, &read_of(&[1; 512], 0xF8), 0xF8), Ok(&[1; 512][..]));
    }

    #[test]
    fn the_kind_and_the_level_are_those_of_the_numbers() {
        let mut numbers = [7; 6];
        assert_eq!(boundary::compare_reads(&[0; 130], &[0xFF; 130], 0xFB, &mut numbers), Ok(1));
        let [kind, level, ..] = numbers;
        assert_eq!((kind, level), (Kind::Fzd.number().into(), Kind::Fzd.level().into()));
        assert_eq!(numbers[2..], [0, 1_040, 7, 7]);
    }

    #[test]
    fn lengths_are_judged_first_by_their_difference() {
        assert_eq!(compare_reads(&[0; 129], &[0; 130], 0), Err(Refusal::LengthsDiffer));
        assert_eq!(compare_reads(&[0; 128], &[0; 128], 0), Err(Refusal::NotASectorLength));
        assert_eq!(good_read(&[], &[0], 0), Err(Refusal::LengthsDiffer));
        assert_eq!(good_read(&[], &[], 0), Err(Refusal::NotASectorLength));
        assert_eq!(compare_reads(&[0; LONGEST_READ], &[0; LONGEST_READ], 0), Ok(None));
    }
}
