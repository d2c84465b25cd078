//! The findings of a track, and the one of two reads of a sector.

use crate::boundary::FindingRecord;
use std::error::Error;
use std::fmt;

/// The most findings of a track: 64 sectors bring no more (rule 7.35).
pub const MOST_FINDINGS: usize = 901;

/// The kinds of findings, in the order of their numbers: rule 7.K is that of kind K, up to 21. Kind 22 is that of two reads (rule 14.3). Where
/// a kind has other numbers in single density, they are named after those of double density (rules 7.44 to 7.46).
#[derive(Clone, Copy, Debug, PartialEq, Eq, PartialOrd, Ord, Hash)]
#[repr(u8)]
pub enum Kind {
    /// More than 103,000 cells; in single density 51,500. Detail: the cells.
    Lgt = 1,
    /// Less than 97,000 cells; in single density 48,500. Detail: the cells.
    Sht = 2,
    /// Less than 9 sectors, or more than 10; in single density other than 18. Detail: the sectors.
    Nos = 3,
    /// There are no sectors, and the drive's track is 79 or less.
    Tnf = 4,
    /// There are sectors, and the drive's track is 80 or more. Detail: how many.
    Ext = 5,
    /// A sector with a smaller place has the same number. Detail: the number.
    Dsn = 6,
    /// The number is 245, 246 or 247. Detail: the number.
    Isn = 7,
    /// The track in the ID differs from the drive's. Detail: the track in the ID.
    Itn = 8,
    /// The ID has a track from 84 on, a side from 2 on, or a size code from 4 on. Detail: the ID's side.
    Iif = 9,
    /// The size code is not 2 and not 3; in single density not 0. Detail: the size code.
    Ssz = 10,
    /// The ID mark is FC, FD or FF, which does not occur in single density. Detail: the mark.
    Nsi = 11,
    /// The data mark is F9 or FA, which does not occur in single density. Detail: the data mark.
    Nsd = 12,
    /// The ID check is bad. Detail: the number.
    Sbi = 13,
    /// The ID check is good, but there is no data. Detail: the number.
    Snd = 14,
    /// There is data, and its check is bad. Detail: the number.
    Sbd = 15,
    /// Data goes over the index. Detail: the cells behind it.
    Doi = 16,
    /// The data mark lies behind the index. Detail: by how many cells.
    Dbi = 17,
    /// The data of another sector covers this one's place (rule 7.37). Detail: the number.
    Sws = 18,
    /// Syncs stand in the ID or in the data (rule 7.38); in single density ID marks, F57E (rule 7.45). Detail: how many.
    Sid = 19,
    /// Ones with a distance of 1, or of 5 or more, to the next one; in single density of 3 or more. Place: the first of them. Detail: how
    /// many.
    Mtv = 20,
    /// A run of 1,000 zeros or more. Place: the start of the longest. Detail: its length.
    Nfa = 21,
    /// Two reads of a sector differ. Place: the least index of a byte that does. Detail: how many bits do. No track has it.
    Fzd = 22,
}

impl Kind {
    /// All kinds, in the order of their numbers.
    pub const ALL: [Kind; 22] = [
        Kind::Lgt,
        Kind::Sht,
        Kind::Nos,
        Kind::Tnf,
        Kind::Ext,
        Kind::Dsn,
        Kind::Isn,
        Kind::Itn,
        Kind::Iif,
        Kind::Ssz,
        Kind::Nsi,
        Kind::Nsd,
        Kind::Sbi,
        Kind::Snd,
        Kind::Sbd,
        Kind::Doi,
        Kind::Dbi,
        Kind::Sws,
        Kind::Sid,
        Kind::Mtv,
        Kind::Nfa,
        Kind::Fzd,
    ];

    /// Its number, 1 to 22.
    pub const fn number(self) -> u8 {
        self as u8
    }

    /// Its name, three letters.
    pub const fn name(self) -> &'static str {
        NAMES_AND_LEVELS[self as usize - 1].0
    }

    /// Its level, 1 to 3 (rule 7.33).
    pub const fn level(self) -> u8 {
        NAMES_AND_LEVELS[self as usize - 1].1
    }
}

/// Names and levels, by kind.
const NAMES_AND_LEVELS: [(&str, u8); 22] = [
    ("LGT", 1),
    ("SHT", 1),
    ("NOS", 3),
    ("TNF", 2),
    ("EXT", 2),
    ("DSN", 1),
    ("ISN", 1),
    ("ITN", 2),
    ("IIF", 2),
    ("SSZ", 2),
    ("NSI", 2),
    ("NSD", 2),
    ("SBI", 1),
    ("SND", 1),
    ("SBD", 1),
    ("DOI", 1),
    ("DBI", 1),
    ("SWS", 1),
    ("SID", 3),
    ("MTV", 3),
    ("NFA", 1),
    ("FZD", 1),
];

/// A number that is no kind.
#[derive(Clone, Copy, Debug, PartialEq, Eq)]
pub struct NotAKind(pub u8);

impl TryFrom<u8> for Kind {
    type Error = NotAKind;

    fn try_from(number: u8) -> Result<Kind, NotAKind> {
        let index = usize::from(number).checked_sub(1);
        index.and_then(|index| Kind::ALL.get(index).copied()).ok_or(NotAKind(number))
    }
}

impl fmt::Display for Kind {
    fn fmt(&self, out: &mut fmt::Formatter<'_>) -> fmt::Result {
        out.pad(self.name())
    }
}

impl fmt::Display for NotAKind {
    fn fmt(&self, out: &mut fmt::Formatter<'_>) -> fmt::Result {
        write!(out, "{} is not the number of a kind", self.0)
    }
}

impl Error for NotAKind {}

/// A finding (rule 7.31).
#[derive(Clone, Copy, Debug, PartialEq, Eq, PartialOrd, Ord, Hash)]
pub struct Finding {
    /// What was found.
    pub kind: Kind,
    /// Where, in cells: the sector's place for the kinds on sectors, 0 for those on the whole track. For [`Fzd`](Kind::Fzd) it is the index
    /// of a byte.
    pub place: u32,
    /// What [`Kind`] says of it.
    pub detail: u32,
}

impl Finding {
    /// The level of its kind.
    pub const fn level(&self) -> u8 {
        self.kind.level()
    }
}

/// The finding of a record, whose level is its kind's.
impl TryFrom<FindingRecord> for Finding {
    type Error = NotAKind;

    fn try_from(record: FindingRecord) -> Result<Finding, NotAKind> {
        Ok(Finding { kind: Kind::try_from(record.kind)?, place: record.place, detail: record.detail })
    }
}

/// A line of the listing, without its line feed (rule 11.3).
impl fmt::Display for Finding {
    fn fmt(&self, out: &mut fmt::Formatter<'_>) -> fmt::Result {
        let Finding { kind, place, detail } = self;
        write!(out, "{} {kind} level {} place {place} detail {detail}", kind.number(), self.level())
    }
}

#[cfg(test)]
mod tests {
    use super::*;

    #[test]
    fn every_kind_has_its_number() {
        for (index, kind) in Kind::ALL.into_iter().enumerate() {
            assert_eq!(usize::from(kind.number()), index + 1);
            assert_eq!(Kind::try_from(kind.number()), Ok(kind));
            assert_eq!(kind.name().to_lowercase(), format!("{kind:?}").to_lowercase());
        }
    }

    #[test]
    fn other_numbers_are_no_kinds() {
        for number in [0, 23, 255] {
            assert_eq!(Kind::try_from(number), Err(NotAKind(number)));
        }
    }
}
