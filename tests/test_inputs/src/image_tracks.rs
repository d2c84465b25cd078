//! Tracks for the plain sector image: some that have one in each form that it may take, and
//! some that have none because of one fault or two, or of sectors besides the nine.

mod border_tracks;
mod faulty_tracks;

use crate::random::Random;
use crate::track_builder::{filled, turn, SectorPlan, TrackBuilder};
use second_program::cells;

pub use border_tracks::{
    count_tracks, index_tracks, order_tracks, refused_tracks, shared_data_tracks,
};
pub use faulty_tracks::{
    all_faults, besides_tracks, fault_tracks, odd_image_track, two_fault_tracks, Fault,
};

/// Rooms for the image around those that decide something.
pub const ROOMS: [usize; 8] = [0, 1, 511, 512, 4_607, 4_608, 4_609, 6_000];

/// The most cells of a track that is not refused.
const MOST_CELLS: usize = 131_072;
/// The fewest cells of a track that is not refused.
const FEWEST_CELLS: usize = 20_000;

/// A call for the image of a track, without the room.
#[derive(Clone, Debug, PartialEq, Eq)]
pub struct ImageTrack {
    /// What the track tries, in a few words.
    pub name: String,
    /// T.
    pub drive_track: u32,
    /// H.
    pub drive_side: u32,
    /// N.
    pub n: usize,
    /// The packed cells, for the most part as many bytes as N cells need.
    pub bytes: Vec<u8>,
}

/// The call at T 0 and H 0 for cells that stand one to an element.
fn call_of(name: String, track_cells: &[u8]) -> ImageTrack {
    ImageTrack {
        name,
        drive_track: 0,
        drive_side: 0,
        n: track_cells.len(),
        bytes: cells::pack(track_cells),
    }
}

/// Random bytes.
fn random_bytes(random: &mut Random, length: usize) -> Vec<u8> {
    (0..length).map(|_| random.byte()).collect()
}

/// Sound sectors with these numbers in this order, each with data of its own.
fn plain_sectors(random: &mut Random, numbers: &[u8]) -> Vec<SectorPlan> {
    numbers
        .iter()
        .map(|&number| SectorPlan {
            data: random_bytes(random, 512),
            ..SectorPlan::standard(0, 0, number, 0)
        })
        .collect()
}

/// The numbers 1 to 9 in a random order.
fn shuffled_numbers(random: &mut Random) -> Vec<u8> {
    let mut numbers: Vec<u8> = (1..=9).collect();
    random.shuffle(&mut numbers);
    numbers
}

/// Nine sound sectors with the numbers 1 to 9 in a random order.
fn nine_shuffled(random: &mut Random) -> Vec<SectorPlan> {
    let numbers = shuffled_numbers(random);
    plain_sectors(random, &numbers)
}

/// Changes of a sector that an image does not mind: its marks, the place that its ID names,
/// and the way from its ID to its data.
fn vary(random: &mut Random, sector: &mut SectorPlan) {
    sector.id_mark = 0xFC + random.below(4) as u8;
    sector.data_mark = Some(0xF8 + random.below(4) as u8);
    sector.track = random.byte();
    sector.side = random.byte();
    sector.gap_cells = random.below(625) as usize;
}

/// The sectors with gaps between them, one cell to an element. A gap is long enough that the
/// data of the next sector stays out of reach of an ID without data.
fn written(random: &mut Random, sectors: &[SectorPlan]) -> Vec<u8> {
    let mut builder = TrackBuilder::new();
    for sector in sectors {
        builder.write_gap_cells(random.between(192, 300) as usize);
        builder.write_sector(sector);
    }
    builder.cells().to_vec()
}

/// A track of these sectors, its gap at the end and its index at random.
fn track_of(random: &mut Random, name: String, sectors: &[SectorPlan]) -> ImageTrack {
    let track_cells = written(random, sectors);
    let least = track_cells.len().max(FEWEST_CELLS);
    let most = (least + 2_000).min(MOST_CELLS);
    let n = random.between(least as i64, most as i64) as usize;
    let by = random.below(n as u64) as usize;
    call_of(name, &turn(&filled(track_cells, n), by))
}

/// So many tracks for a comparison, each made when it is asked for: first those of the
/// lists, then random ones. The same seed gives the same tracks.
pub fn image_tracks(seed: u64, count: usize) -> impl Iterator<Item = ImageTrack> {
    let mut random = Random::new(seed);
    let made: [fn(&mut Random) -> Vec<ImageTrack>; 8] = [
        order_tracks,
        fault_tracks,
        two_fault_tracks,
        besides_tracks,
        shared_data_tracks,
        count_tracks,
        refused_tracks,
        index_tracks,
    ];
    let mut list_random = Random::new(random.next_number());
    let listed = made
        .into_iter()
        .flat_map(move |make| make(&mut list_random));
    let at_random = std::iter::repeat_with(move || odd_image_track(&mut random));
    listed.chain(at_random).take(count)
}

#[cfg(test)]
mod tests {
    use super::*;
    use second_program::refusal::Refusal;
    use second_program::sector_image::sector_image;
    use second_program::sectors;

    /// The answer with room enough.
    fn answer(track: &ImageTrack) -> Result<usize, Refusal> {
        let mut image = [0; 4_608];
        sector_image(
            track.drive_track,
            track.drive_side,
            &track.bytes,
            track.n,
            &mut image,
        )
    }

    fn refused(number: u32, value: u64) -> Result<usize, Refusal> {
        Err(Refusal { number, value })
    }

    /// The numbers of a track's sectors in the order of their places.
    fn numbers_of(track: &ImageTrack) -> Vec<u8> {
        let list = sectors::list(&track.bytes, track.n);
        list.iter().map(|sector| sector.number).collect()
    }

    #[test]
    fn the_orders_all_have_an_image() {
        let tracks = order_tracks(&mut Random::new(1));
        let mut orders = std::collections::BTreeSet::new();
        for track in &tracks {
            assert_eq!(answer(track), Ok(4_608), "{}", track.name);
            let mut numbers = numbers_of(track);
            orders.insert(numbers.clone());
            numbers.sort();
            assert_eq!(numbers, [1, 2, 3, 4, 5, 6, 7, 8, 9], "{}", track.name);
        }
        assert!(tracks.len() >= 50 && orders.len() >= 40);
    }

    #[test]
    fn each_fault_of_each_number_is_at_fault() {
        let tracks = fault_tracks(&mut Random::new(2));
        let faults = all_faults().len();
        assert_eq!(tracks.len(), 9 * faults);
        for (index, track) in tracks.iter().enumerate() {
            let number = 1 + (index / faults) as u64;
            assert_eq!(answer(track), refused(24, number), "{}", track.name);
        }
    }

    #[test]
    fn of_two_faults_the_least_number_counts() {
        let tracks = two_fault_tracks(&mut Random::new(3));
        assert_eq!(tracks.len(), 81);
        for (index, track) in tracks.iter().enumerate() {
            let least = 1 + (index / 9).min(index % 9) as u64;
            assert_eq!(answer(track), refused(24, least), "{}", track.name);
        }
    }

    #[test]
    fn sectors_besides_the_nine_give_0_or_the_fault_of_another() {
        let tracks = besides_tracks(&mut Random::new(4));
        let mut with_number = [0; 10];
        let mut eleven = 0;
        for track in &tracks {
            let refusal = answer(track).unwrap_err();
            assert_eq!(refusal.number, 24, "{}", track.name);
            with_number[refusal.value as usize] += 1;
            eleven += usize::from(numbers_of(track).len() == 11);
        }
        assert_eq!(with_number[0], 8 * 6 + 6);
        assert!(with_number[1..].iter().all(|&count| count > 0));
        assert!(eleven >= 8);
    }

    #[test]
    fn ids_that_share_data_have_an_image_within_reach() {
        let tracks = shared_data_tracks(&mut Random::new(5));
        let accepted = tracks.iter().filter(|track| answer(track).is_ok()).count();
        // Five of the gaps are within reach of the first of four IDs, two are not.
        assert_eq!((accepted, tracks.len()), (5 * 6, 7 * 6));
    }

    #[test]
    fn counts_end_in_refusal_4() {
        let tracks = count_tracks(&mut Random::new(6));
        let (mut images, mut besides, mut too_many) = (0, 0, 0);
        for track in &tracks {
            let sectors = numbers_of(track).len() as u64;
            match answer(track) {
                Ok(_) => images += 1,
                Err(refusal) if refusal.number == 24 => {
                    assert!(sectors <= 64);
                    besides += usize::from(refusal.value == 0);
                }
                Err(refusal) => {
                    assert_eq!((refusal.number, refusal.value), (4, sectors));
                    assert!(sectors > 64);
                    too_many += 1;
                }
            }
        }
        // 55 IDs are the most beside nine sectors; 65, 66 and 90 are too many alone.
        assert_eq!((images, too_many), (2, 5 + 1 + 3));
        assert!(besides >= 55);
    }

    #[test]
    fn the_refused_tracks_reach_1_to_4_alone_and_before_others() {
        let tracks = refused_tracks(&mut Random::new(7));
        let mut numbers = [0; 25];
        for track in &tracks {
            match answer(track) {
                Ok(_) => numbers[0] += 1,
                Err(refusal) => numbers[refusal.number as usize] += 1,
            }
        }
        for number in [0, 1, 2, 3, 4, 24] {
            assert!(numbers[number] >= 5, "refusal {number}: {numbers:?}");
        }
    }

    #[test]
    fn the_index_does_not_matter() {
        let tracks = index_tracks(&mut Random::new(8));
        assert!(tracks.len() >= 60);
        let mut image = [0; 4_608];
        sector_image(0, 0, &tracks[0].bytes, tracks[0].n, &mut image).unwrap();
        let (mut over_index, mut beyond_index) = (0, 0);
        for track in &tracks {
            for sector in sectors::list(&track.bytes, track.n) {
                beyond_index += usize::from(sector.data_place >= track.n);
                over_index += usize::from(sector.data_end > track.n);
            }
            let mut turned = [0; 4_608];
            let answer = sector_image(0, 0, &track.bytes, track.n, &mut turned);
            assert_eq!(answer, Ok(4_608), "{}", track.name);
            assert!(turned == image, "{}", track.name);
        }
        assert!(beyond_index >= 10 && over_index >= 40);
    }

    #[test]
    fn random_tracks_reach_every_answer() {
        let mut random = Random::new(9);
        let mut with_number = [0; 10];
        let mut images = 0;
        for _ in 0..200 {
            match answer(&odd_image_track(&mut random)) {
                Ok(_) => images += 1,
                Err(refusal) if refusal.number == 24 => {
                    with_number[refusal.value as usize] += 1;
                }
                Err(_) => {}
            }
        }
        assert!(images >= 30, "{images}");
        assert!(
            with_number.iter().all(|&count| count >= 3),
            "{with_number:?}"
        );
    }

    #[test]
    fn the_same_seed_gives_the_same_tracks() {
        let all: Vec<ImageTrack> = image_tracks(1, 60).collect();
        assert_eq!(all.len(), 60);
        assert!(image_tracks(1, 60).eq(all));
    }
}
