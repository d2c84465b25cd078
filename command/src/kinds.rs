//! What findings mean, in words.

use thikbromu::Kind;

/// What the levels mean.
pub const LEVELS: [(u8, &str); 3] = [
    (1, "almost certainly there to protect the disk from being copied"),
    (2, "probably there to protect the disk"),
    (3, "a hint: it may belong to a protection, and is often harmless"),
];

/// What is known of a kind of finding: what was found, what the detail is, and what the papers say of originals and copies.
pub struct About {
    pub kind: Kind,
    pub name: &'static str,
    pub when: &'static str,
    pub detail: &'static str,
    pub copies: &'static str,
}

pub const KINDS: [About; 22] = [
    About {
        kind: Kind::Lgt,
        name: "long track",
        when: "The track has more than 103,000 cells; 100,000 are usual.",
        detail: "how many cells",
        copies: "A mastering machine writes it with narrower cells. To copy it takes special hardware.",
    },
    About {
        kind: Kind::Sht,
        name: "short track",
        when: "The track has less than 97,000 cells; 100,000 are usual.",
        detail: "how many cells",
        copies: "A mastering machine writes it with wider cells. To copy it takes special hardware.",
    },
    About {
        kind: Kind::Nos,
        name: "number of sectors",
        when: "The track has less than 9 or more than 10 sectors.",
        detail: "how many sectors",
        copies: "No protection by itself: many disks have 11 sectors to hold more, or few long ones. Software copies up to 10 easily, and 11 with \
                 care. 12 do not fit on a track, so that some of them lie within others.",
    },
    About {
        kind: Kind::Tnf,
        name: "track not found",
        when: "The track has no sector, and is one of the tracks 0 to 79.",
        detail: "0",
        copies: "Originals can have tracks that were never formatted. Software copies it where only the lack of sectors is tested; data may be \
                 hidden in such a track. A whole side of them is that of a single-sided disk.",
    },
    About {
        kind: Kind::Ext,
        name: "extra track",
        when: "The track has sectors, and is one of the tracks 80 to 83.",
        detail: "how many sectors",
        copies: "Software copies it, on a drive that goes so far.",
    },
    About {
        kind: Kind::Dsn,
        name: "duplicate sector number",
        when: "A sector before this one has the same number.",
        detail: "the number",
        copies: "An Atari can format it, and software copies it.",
    },
    About {
        kind: Kind::Isn,
        name: "invalid sector number",
        when: "The number is 245, 246 or 247, which the controller takes for commands when it formats.",
        detail: "the number",
        copies: "Making and copying it takes special hardware.",
    },
    About {
        kind: Kind::Itn,
        name: "invalid track number",
        when: "The ID has another track than the one that the head stood on.",
        detail: "the ID's track",
        copies: "An Atari can format it, and software copies it.",
    },
    About {
        kind: Kind::Iif,
        name: "invalid ID field",
        when: "The ID has a track above 83, a side above 1 or a size code above 3.",
        detail: "the ID's side",
        copies: "An Atari can format it, and software copies it.",
    },
    About {
        kind: Kind::Ssz,
        name: "sector size",
        when: "The size code is neither 2 nor 3, so that the sector has not 512 or 1,024 bytes.",
        detail: "the size code",
        copies: "No protection by itself, and easily copied.",
    },
    About {
        kind: Kind::Nsi,
        name: "non-standard ID mark",
        when: "The ID begins with FC, FD or FF in place of FE.",
        detail: "the mark",
        copies: "The controller takes these marks too, so that it is hard to notice; once noticed it is easily copied.",
    },
    About {
        kind: Kind::Nsd,
        name: "non-standard data mark",
        when: "The data begins with F9 or FA in place of FB or F8.",
        detail: "the mark",
        copies: "The controller takes these marks too, so that it is hard to notice; once noticed it is easily copied.",
    },
    About {
        kind: Kind::Sbi,
        name: "sector with bad ID",
        when: "The check of the ID is wrong, so that the sector cannot be read in the usual way.",
        detail: "the number",
        copies: "An Atari can format it, and software copies it.",
    },
    About {
        kind: Kind::Snd,
        name: "sector with no data",
        when: "No data follows a good ID.",
        detail: "the number",
        copies: "An Atari can format it, and software copies it.",
    },
    About {
        kind: Kind::Sbd,
        name: "sector with bad data",
        when: "The check of the data is wrong.",
        detail: "the number",
        copies: "Software can copy it at times. A weak or a damaged sector looks the same in one read: compare the revolutions with --weak.",
    },
    About {
        kind: Kind::Doi,
        name: "data over the index",
        when: "The data begins before the index and ends behind it.",
        detail: "how many cells lie behind the index",
        copies: "Software copies it once it is noticed. A copier that goes from index to index cuts the sector in two.",
    },
    About {
        kind: Kind::Dbi,
        name: "data beyond the index",
        when: "The ID stands before the index and its data behind it.",
        detail: "how many cells behind the index the data begins",
        copies: "An Atari cannot place an ID so near to the index, so that a copy takes special hardware.",
    },
    About {
        kind: Kind::Sws,
        name: "sector within a sector",
        when: "The ID lies in the data of another sector.",
        detail: "the number",
        copies: "An Atari can make few of these; a copy takes special hardware.",
    },
    About {
        kind: Kind::Sid,
        name: "sync in ID or data",
        when: "Syncs stand in the ID or in the data of the sector.",
        detail: "how many",
        copies: "The papers say nothing of copies. Beside SWS it can mean that clocks are to be read as data.",
    },
    About {
        kind: Kind::Mtv,
        name: "MFM timing violation",
        when: "Ones follow each other at a distance that MFM does not have: 1 cell, or 5 and more.",
        detail: "how many such ones",
        copies: "Mostly a part of the track was never formatted, which makes bits that read otherwise each time (FZD).",
    },
    About {
        kind: Kind::Nfa,
        name: "no flux area",
        when: "1,000 or more cells follow each other without a one.",
        detail: "how many cells",
        copies: "Hard to make even with special hardware, and so hard to copy.",
    },
    About {
        kind: Kind::Fzd,
        name: "fuzzy data",
        when: "Two reads of the sector differ. Only --weak finds it, since it takes two revolutions.",
        detail: "how many bits differ",
        copies: "An Atari cannot make it. A copy of one read gives the same bytes each time, which is how programs tell a copy from an original.",
    },
];

#[cfg(test)]
mod tests {
    use super::*;

    #[test]
    fn each_kind_stands_at_its_number() {
        for (about, kind) in KINDS.iter().zip(Kind::ALL) {
            assert_eq!(about.kind, kind);
        }
    }
}
