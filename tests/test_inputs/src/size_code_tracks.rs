//! Tracks for each size code. The length that a code has by rule 6.11 decides where the
//! data ends, and most of these tracks have something just there.

use crate::random::Random;
use crate::track_builder::{filled, turn, SectorPlan, TrackBuilder};

/// The cells of each track: not a multiple of eight, and enough for the longest data.
pub const CELLS: usize = 20_003;
/// p of the sector, before a track is turned.
pub const PLACE: usize = 160;
/// q of the sector, before a track is turned.
pub const DATA_PLACE: usize = PLACE + 704;

/// How many bytes a size code has (rule 6.11).
fn length_of(size_code: u8) -> usize {
    128 << (size_code % 4)
}

/// A track with one sector of number 1, as the plan says.
fn track_of(plan: &SectorPlan) -> Vec<u8> {
    let mut builder = TrackBuilder::new();
    builder.write_repeated(0x00, PLACE / 16);
    builder.write_sector(plan);
    filled(builder.cells().to_vec(), CELLS)
}

/// The track with other cells from a place on.
fn overwritten(track_cells: &[u8], place: usize, written: &TrackBuilder) -> Vec<u8> {
    let written = written.cells();
    let mut changed = track_cells.to_vec();
    changed[place..place + written.len()].copy_from_slice(written);
    changed
}

/// The track turned so that the cell at `place` stands `after` cells after the index.
fn turned_to_index(track_cells: &[u8], place: usize, after: usize) -> Vec<u8> {
    turn(track_cells, CELLS - place + after)
}

/// Tracks at T 0 with a sector of this size code, one cell to an element: the first has
/// data and a good check. Any other sector on them has this size code too.
pub fn size_code_tracks(random: &mut Random, size_code: u8) -> Vec<Vec<u8>> {
    let length = length_of(size_code);
    let end = DATA_PLACE + 64 + 16 * length + 32;
    let mut plan = SectorPlan::standard(0, 0, 1, 0x00);
    plan.size_code = size_code;
    plan.data = (0..length).map(|_| random.byte()).collect();
    let sound = track_of(&plan);
    let within = DATA_PLACE + 64 + random.below(16 * length as u64 - 800) as usize;
    let mut tracks = vec![sound.clone()];

    // A bad check, data as long as that of another size code, no data mark.
    let bad_check = SectorPlan {
        data_check_error: 1 << random.below(16),
        ..plan.clone()
    };
    let other_length = 128 << ((u64::from(size_code) + random.between(1, 3) as u64) % 4);
    let mut other_data = plan.data.clone();
    other_data.resize(other_length, 0x33);
    let other = SectorPlan {
        data: other_data,
        ..plan.clone()
    };
    let without_data = SectorPlan {
        data_mark: None,
        ..plan.clone()
    };
    tracks.extend([bad_check, other, without_data].iter().map(track_of));

    // The index round the data's end and round the data mark, and within the data.
    for place in [end, DATA_PLACE] {
        for after in [0, 1] {
            tracks.push(turned_to_index(&sound, place, after));
        }
        tracks.push(turned_to_index(&sound, place + 1, 0));
    }
    tracks.push(turned_to_index(&sound, within, 0));

    // An ID at the first cell of the data, within it, at its last cell and just after it,
    // and a whole sector within it; two of these over the index as well.
    let mut id = TrackBuilder::new();
    id.write_id(0xFE, [0, 0, 2, size_code], 0);
    for place in [DATA_PLACE + 64, within, end - 1, end] {
        tracks.push(overwritten(&sound, place, &id));
    }
    for place in [within, end - 1] {
        let cut = overwritten(&sound, place, &id);
        tracks.push(turned_to_index(&cut, place, random.below(64) as usize));
    }
    let mut second_sector = id.clone();
    second_sector.write_three_syncs();
    second_sector.write_byte(0xF8);
    tracks.push(overwritten(&sound, within, &second_sector));

    // A data mark at the first cell of the data, where the search would still find it,
    // within the data, and with its last sync at the data's end and one cell further.
    let mut data_mark = TrackBuilder::new();
    data_mark.write_three_syncs();
    data_mark.write_byte(0xF9);
    for place in [DATA_PLACE + 64, within, end - 48, end - 47] {
        tracks.push(overwritten(&sound, place, &data_mark));
    }
    tracks
}

#[cfg(test)]
mod tests {
    use super::*;
    use second_program::cells;
    use second_program::findings::{self, DBI, DOI, IIF, SBD, SID, SND, SSZ, SWS};
    use second_program::sectors;

    #[test]
    fn the_first_track_has_sound_data() {
        for size_code in 0..=255 {
            let tracks = size_code_tracks(&mut Random::new(1), size_code);
            let list = sectors::list(&cells::pack(&tracks[0]), CELLS);
            assert_eq!(list.len(), 1);
            assert_eq!(list[0].place, PLACE);
            assert_eq!(list[0].data_place, DATA_PLACE);
            assert!(list[0].id_check_good && list[0].data_check_good);
        }
    }

    #[test]
    fn all_sectors_have_the_size_code() {
        for size_code in [0, 3, 6, 255] {
            for track_cells in size_code_tracks(&mut Random::new(2), size_code) {
                assert_eq!(track_cells.len(), CELLS);
                let list = sectors::list(&cells::pack(&track_cells), CELLS);
                assert!((1..=2).contains(&list.len()));
                assert!(list.iter().all(|sector| sector.size_code == size_code));
            }
        }
    }

    #[test]
    fn the_tracks_of_a_code_reach_the_kinds_about_data() {
        for size_code in [0, 1, 2, 3, 4, 5, 6, 7, 254, 255] {
            let tracks = size_code_tracks(&mut Random::new(3), size_code);
            let mut seen = [false; 22];
            for track_cells in tracks {
                let bytes = cells::pack(&track_cells);
                for finding in findings::findings(0, 0, &bytes, CELLS, 901).unwrap() {
                    seen[finding.kind as usize] = true;
                }
            }
            for kind in [SND, SBD, DOI, DBI, SWS, SID] {
                assert!(seen[kind as usize], "size code {size_code}, kind {kind}");
            }
            assert_eq!(seen[IIF as usize], size_code > 3);
            assert_eq!(seen[SSZ as usize], size_code != 2 && size_code != 3);
        }
    }
}
