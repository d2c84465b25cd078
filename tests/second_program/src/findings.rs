//! The findings of a track: rule 7.K is the rule of kind K, and rules 7.31 to 7.43 hold
//! of all of them.

use crate::cells;
use crate::mfm::SYNC_A1;
use crate::refusal::Refusal;
use crate::sectors::{self, SectorRecord, ID_LENGTH, MARK_LENGTH};

/// Rule 7.1: long track.
pub const LGT: u32 = 1;
/// Rule 7.2: short track.
pub const SHT: u32 = 2;
/// Rule 7.3: number of sectors.
pub const NOS: u32 = 3;
/// Rule 7.4: track not found.
pub const TNF: u32 = 4;
/// Rule 7.5: extra track.
pub const EXT: u32 = 5;
/// Rule 7.6: duplicate sector number.
pub const DSN: u32 = 6;
/// Rule 7.7: invalid sector number.
pub const ISN: u32 = 7;
/// Rule 7.8: invalid track number.
pub const ITN: u32 = 8;
/// Rule 7.9: invalid ID field.
pub const IIF: u32 = 9;
/// Rule 7.10: sector size.
pub const SSZ: u32 = 10;
/// Rule 7.11: non-standard ID mark.
pub const NSI: u32 = 11;
/// Rule 7.12: non-standard data mark.
pub const NSD: u32 = 12;
/// Rule 7.13: sector with bad ID.
pub const SBI: u32 = 13;
/// Rule 7.14: sector with no data.
pub const SND: u32 = 14;
/// Rule 7.15: sector with bad data.
pub const SBD: u32 = 15;
/// Rule 7.16: data over the index.
pub const DOI: u32 = 16;
/// Rule 7.17: data beyond the index.
pub const DBI: u32 = 17;
/// Rule 7.18: sector within a sector.
pub const SWS: u32 = 18;
/// Rule 7.19: sync in ID or data.
pub const SID: u32 = 19;
/// Rule 7.20: MFM timing violation.
pub const MTV: u32 = 20;
/// Rule 7.21: no flux area.
pub const NFA: u32 = 21;

/// Fuzzy data: two reads of one sector differ.
pub const FZD: u32 = 22;

/// How many kinds a track can have. Kind 22 is about two reads and not about a track.
pub const KINDS: usize = 21;

/// The names of the kinds, from kind 1 on (rule 11.6).
const NAMES: [&str; KINDS + 1] = [
    "LGT", "SHT", "NOS", "TNF", "EXT", "DSN", "ISN", "ITN", "IIF", "SSZ", "NSI", "NSD", "SBI",
    "SND", "SBD", "DOI", "DBI", "SWS", "SID", "MTV", "NFA", "FZD",
];

/// The levels of the kinds, from kind 1 on (rule 7.33).
const LEVELS: [u32; KINDS + 1] = [
    1, 1, 3, 2, 2, 1, 1, 2, 2, 2, 2, 2, 1, 1, 1, 1, 1, 1, 3, 3, 1, 1,
];

/// The name of a kind, 1 to 22.
pub fn name_of(kind: u32) -> &'static str {
    NAMES[kind as usize - 1]
}

/// The level of a kind, 1 to 22.
pub fn level_of(kind: u32) -> u32 {
    LEVELS[kind as usize - 1]
}

/// A finding (rule 7.31).
#[derive(Clone, Copy, Debug, Default, PartialEq, Eq)]
pub struct Finding {
    /// The kind, 1 to 22.
    pub kind: u32,
    /// The level of the kind.
    pub level: u32,
    /// The place, 0 to N - 1; of kind 22, the index of a byte.
    pub place: usize,
    /// The detail.
    pub detail: usize,
}

impl Finding {
    /// A finding of a kind, 1 to 22, with the level of its kind.
    pub fn new(kind: u32, place: usize, detail: usize) -> Finding {
        Finding {
            kind,
            level: level_of(kind),
            place,
            detail,
        }
    }
}

/// What the rules look at: T, the cells and the sector list.
struct Track<'a> {
    drive_track: u32,
    bytes: &'a [u8],
    n: usize,
    sectors: &'a [SectorRecord],
}

/// Kinds 1 to 5, which are about the whole track: the detail where there is a finding.
/// Its place is 0.
fn track_detail(track: &Track, kind: u32) -> Option<usize> {
    let sectors = track.sectors.len();
    let (found, detail) = match kind {
        LGT => (track.n > 103_000, track.n),
        SHT => (track.n < 97_000, track.n),
        NOS => (!(9..=10).contains(&sectors), sectors),
        TNF => (sectors == 0 && track.drive_track <= 79, 0),
        EXT => (sectors > 0 && track.drive_track >= 80, sectors),
        _ => (false, 0),
    };
    found.then_some(detail)
}

/// Whether a sector before this one has the same number (rule 7.36).
pub(crate) fn has_earlier_duplicate(sectors: &[SectorRecord], index: usize) -> bool {
    sectors[..index]
        .iter()
        .any(|earlier| earlier.number == sectors[index].number)
}

/// Whether another sector's data covers this sector's place (rule 7.37).
pub(crate) fn lies_in_other_data(sectors: &[SectorRecord], n: usize, index: usize) -> bool {
    let p = sectors[index].place;
    sectors.iter().enumerate().any(|(other_index, other)| {
        let covered = other.data_place..other.data_end;
        other_index != index
            && other.has_data()
            && (covered.contains(&p) || covered.contains(&(p + n)))
    })
}

/// How many syncs have all their cells from `start` on and before `end`.
fn syncs_between(track: &Track, start: usize, end: usize) -> usize {
    // A sync of 16 cells that ends at `end` at the latest.
    let to = end - 15;
    let find_sync = |from| cells::find_word(track.bytes, track.n, u64::from(SYNC_A1), 16, from, to);
    let mut count = 0;
    let mut place = find_sync(start);
    while place < to {
        count += 1;
        place = find_sync(place + 1);
    }
    count
}

/// How many syncs stand in a sector's ID and data (rule 7.38).
fn syncs_in_sector(track: &Track, sector: &SectorRecord) -> usize {
    let p = sector.place;
    let mut count = syncs_between(track, p + MARK_LENGTH, p + ID_LENGTH);
    if sector.has_data() {
        let after_mark = sector.data_place + MARK_LENGTH;
        count += syncs_between(track, after_mark, sector.data_end);
    }
    count
}

/// Kinds 6 to 19, which are about a sector: the detail where there is a finding. Its
/// place is p.
fn sector_detail(track: &Track, kind: u32, index: usize) -> Option<usize> {
    let n = track.n;
    let sector = &track.sectors[index];
    let number = usize::from(sector.number);
    let q = sector.data_place;
    let (found, detail) = match kind {
        DSN => (has_earlier_duplicate(track.sectors, index), number),
        ISN => ((245..=247).contains(&sector.number), number),
        ITN => (
            u32::from(sector.track) != track.drive_track,
            usize::from(sector.track),
        ),
        IIF => (
            sector.track > 83 || sector.side > 1 || sector.size_code > 3,
            usize::from(sector.side),
        ),
        SSZ => (
            sector.size_code != 2 && sector.size_code != 3,
            usize::from(sector.size_code),
        ),
        NSI => (sector.mark != 0xFE, usize::from(sector.mark)),
        NSD => (
            sector.has_data() && sector.data_mark != 0xF8 && sector.data_mark != 0xFB,
            usize::from(sector.data_mark),
        ),
        SBI => (!sector.id_check_good, number),
        SND => (sector.id_check_good && !sector.has_data(), number),
        SBD => (sector.has_data() && !sector.data_check_good, number),
        DOI if sector.has_data() && q < n && sector.data_end > n => (true, sector.data_end - n),
        DBI if sector.has_data() && q >= n => (true, q - n),
        SWS => (lies_in_other_data(track.sectors, n, index), number),
        SID => {
            let count = syncs_in_sector(track, sector);
            (count > 0, count)
        }
        _ => (false, 0),
    };
    found.then_some(detail)
}

/// The places of all ones of the track, in order.
pub(crate) fn places_of_ones(bytes: &[u8], n: usize) -> Vec<usize> {
    let track_cells = cells::unpack(bytes, n);
    (0..n).filter(|&p| track_cells[p] == 1).collect()
}

/// For each one, its place and how far on the next one stands, over the index too
/// (rules 7.39 and 7.40).
pub(crate) fn distances_of_ones(ones: &[usize], n: usize) -> Vec<(usize, usize)> {
    let mut distances = Vec::with_capacity(ones.len());
    for pair in ones.windows(2) {
        distances.push((pair[0], pair[1] - pair[0]));
    }
    if let (Some(&first), Some(&last)) = (ones.first(), ones.last()) {
        distances.push((last, n + first - last));
    }
    distances
}

/// MTV (rules 7.20 and 7.39): the place is the first one with a wrong distance, the detail
/// how many such ones there are.
fn distance_finding(distances: &[(usize, usize)]) -> Option<Finding> {
    let violates = |distance: usize| distance == 1 || distance > 4;
    let mut first = None;
    let mut count = 0;
    for &(place, distance) in distances {
        if violates(distance) {
            first = first.or(Some(place));
            count += 1;
        }
    }
    first.map(|place| Finding::new(MTV, place, count))
}

/// NFA (rules 7.21, 7.41 and 7.42): the place is where the longest run of zeros starts,
/// the detail its length.
pub(crate) fn longest_run_finding(distances: &[(usize, usize)], n: usize) -> Option<Finding> {
    let mut runs: Vec<(usize, usize)> = distances
        .iter()
        .map(|&(one, distance)| (cells::place_on_track(n, one, 1), distance - 1))
        .collect();
    if runs.is_empty() {
        runs.push((0, n));
    }
    let mut longest = runs[0];
    for &(start, length) in &runs {
        let equal_and_earlier = length == longest.1 && start < longest.0;
        if length > longest.1 || equal_and_earlier {
            longest = (start, length);
        }
    }
    let (start, length) = longest;
    (length >= 1_000).then(|| Finding::new(NFA, start, length))
}

/// The findings of a track that is not refused, with its sector list, in the order of
/// rule 7.32.
pub fn findings_of(
    drive_track: u32,
    bytes: &[u8],
    n: usize,
    sectors: &[SectorRecord],
) -> Vec<Finding> {
    let track = Track {
        drive_track,
        bytes,
        n,
        sectors,
    };
    let mut findings = Vec::new();
    for kind in LGT..=EXT {
        if let Some(detail) = track_detail(&track, kind) {
            findings.push(Finding::new(kind, 0, detail));
        }
    }
    for kind in DSN..=SID {
        // The sectors stand in the order of their places.
        for (index, sector) in sectors.iter().enumerate() {
            if let Some(detail) = sector_detail(&track, kind, index) {
                findings.push(Finding::new(kind, sector.place, detail));
            }
        }
    }
    let distances = distances_of_ones(&places_of_ones(bytes, n), n);
    findings.extend(distance_finding(&distances));
    findings.extend(longest_run_finding(&distances, n));
    findings
}

/// The call of rule 9.1. `room` is how many findings the caller's list holds. Refusals in
/// order: 1 to 5.
pub fn findings(
    drive_track: u32,
    drive_side: u32,
    bytes: &[u8],
    n: usize,
    room: usize,
) -> Result<Vec<Finding>, Refusal> {
    let sectors = sectors::accepted_list(drive_track, drive_side, bytes, n)?;
    in_room(findings_of(drive_track, bytes, n, &sectors), room)
}

/// Findings for a list that holds so many records: refused where it is too short.
pub fn in_room(findings: Vec<Finding>, room: usize) -> Result<Vec<Finding>, Refusal> {
    if room < findings.len() {
        return Err(Refusal::findings_list_too_short(findings.len()));
    }
    Ok(findings)
}
