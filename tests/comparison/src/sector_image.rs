//! Section 15 of the specification: the plain image of a track. Its answers and its bytes are held to the second program, to what the track was
//! made of, and to what the library reads out.

use crate::report::{Group, Lent, Report};
use crate::terms::answer;
use second_program::cells;
use second_program::refusal::Refusal;
use second_program::sector_image;
use test_inputs::image_tracks::{image_tracks, ImageTrack, ROOMS};
use test_inputs::random::Random;
use test_inputs::track_builder::{filled, odd_track, turn, SectorPlan, TrackBuilder};
use thikbromu::boundary::{self, SECTOR_IMAGE_BYTES, SECTOR_NUMBERS};

/// How many bytes an image has (rule 15.1), and each of its nine sectors. The crate's own number is compared with it.
const IMAGE: usize = 4_608;
const SECTOR: usize = 512;

/// How many tracks come of the lists and at random, and how many are made of plans here.
const TRACKS: usize = 2_000;
const PLANNED: usize = 1_000;

/// What the second program answers, and the image that it writes where there is room.
fn second_image(track: &ImageTrack, room: usize) -> Result<Vec<u8>, Refusal> {
    let mut image = Lent::new(room);
    let (drive_track, drive_side) = (track.drive_track, track.drive_side);
    let length = sector_image::sector_image(drive_track, drive_side, &track.bytes, track.n, image.part())?;
    Ok(image.part()[..length].to_vec())
}

/// One call in a room: the answer, all of the buffer with its margins, so that no byte behind the image and none beside a refusal may change,
/// and the cells afterwards; and the same by the crate's track.
fn image_case(group: &mut Group, track: &ImageTrack, room: usize, expected: &Result<Vec<u8>, Refusal>) {
    let given = || format!("{}, n {}, room {room}", track.name, track.n);
    let second = expected.clone().map(|image| (image.len(), image));
    group.same_written(
        &track.bytes,
        room,
        |bytes, image| boundary::sector_image(bytes, track.n, track.drive_track, track.drive_side, image),
        second.clone(),
        given,
    );
    group.same_written(&track.bytes, room, |bytes, image| typed(track, bytes).write_sector_image(image), second, given);
}

fn typed<'a>(track: &ImageTrack, bytes: &'a [u8]) -> thikbromu::Track<'a> {
    thikbromu::Track::new(bytes, track.n, track.drive_track, track.drive_side)
}

/// The image by the crate's array. Each sector that is read out stands where its number says, and all nine fill the image.
fn held_to_reading_out(group: &mut Group, track: &ImageTrack) {
    let given = || format!("{}, n {}, read out", track.name, track.n);
    let Ok(image) = typed(track, &track.bytes).sector_image() else { return };
    let mut made = [[0; SECTOR]; 9];
    let mut numbers = [0; SECTOR_NUMBERS];
    for index in 0..9 {
        let (mut data, mut good) = ([0; SECTOR], 0);
        let (bytes, n) = (&track.bytes[..], track.n);
        let sectors = boundary::sector(bytes, n, track.drive_track, track.drive_side, index, &mut numbers);
        let read = boundary::read_out(bytes, n, track.drive_track, track.drive_side, index, &mut data, &mut good);
        group.same((sectors, read, good), (Ok(9), Ok(SECTOR), 1), given);
        // The number is the fifth of a record (rule 9.34).
        if let Some(part) = (numbers[4] as usize).checked_sub(1).and_then(|place| made.get_mut(place)) {
            *part = data;
        }
    }
    group.same(image.to_vec(), made.concat(), given);
}

/// Tracks of the lists, and random ones: in the room that is just enough, and in another.
pub fn tracks(report: &mut Report) {
    let mut group = Group::new("the plain image, 2,000 tracks");
    let mut read_out = Group::new("the plain image beside reading out");
    let mut random = Random::new(60);
    let mut count = 0;
    group.same(SECTOR_IMAGE_BYTES, IMAGE, || String::from("the bytes of an image"));
    for (index, track) in image_tracks(61, TRACKS).enumerate() {
        let other = if index % 2 == 0 { ROOMS[index / 2 % ROOMS.len()] } else { random.below(6_000) as usize };
        let second = second_image(&track, IMAGE);
        image_case(&mut group, &track, IMAGE, &second);
        image_case(&mut group, &track, other, &second_image(&track, other));
        let array = typed(&track, &track.bytes).sector_image();
        group.same(answer(array.map(Vec::from)), second, || track.name.clone());
        held_to_reading_out(&mut read_out, &track);
        count += 1;
    }
    group.same(count, TRACKS, || String::from("the number of tracks"));
    group.close(report);
    read_out.close(report);
}

/// Sectors that a track is made of, and what stands in the way of an image by these plans alone.
struct Plans(Vec<SectorPlan>);

impl Plans {
    /// The nine in some order, most of them plain, and some besides.
    fn at_random(random: &mut Random) -> Plans {
        let mut plans: Vec<SectorPlan> = (1..=9).map(|number| plan(random, number)).collect();
        for place in (1..plans.len()).rev() {
            plans.swap(place, random.below(place as u64 + 1) as usize);
        }
        // No way to break a condition, one, two, or three.
        for _ in 0..random.below(4) {
            let index = random.below(plans.len() as u64) as usize;
            match random.below(10) {
                0 => plans[index].number = [0, 10, 255][random.below(3) as usize],
                1 => plans[index].number = 1 + random.below(9) as u8,
                2 => resize(&mut plans[index], random.below(4) as u8),
                3 => resize(&mut plans[index], [6, 10, 66, 130][random.below(4) as usize]),
                4 => plans[index].id_check_error = 1 << random.below(16),
                5 => plans[index].data_check_error = 1 << random.below(16),
                6 => plans[index].data_mark = None,
                7 => drop(plans.remove(index)),
                8 => {
                    let number = [0, 10, 11, 247, 255][random.below(5) as usize];
                    plans.insert(index, plan(random, number));
                }
                // One sector more or two, of any number from 0 to 11.
                _ => {
                    for _ in 0..1 + random.below(2) {
                        let number = random.below(12) as u8;
                        plans.insert(index, plan(random, number));
                    }
                }
            }
        }
        Plans(plans)
    }

    /// The track of these sectors, with its index anywhere.
    fn track(&self, random: &mut Random) -> ImageTrack {
        let mut builder = TrackBuilder::new();
        for plan in &self.0 {
            // So far from the next that a sector without data does not take the next one's.
            builder.write_repeated(0x4E, 40);
            builder.write_repeated(0x00, 12);
            builder.write_sector(plan);
        }
        let n = (builder.cells().len() + random.below(1_500) as usize).max(20_000);
        let track_cells = turn(&filled(builder.cells().to_vec(), n), random.below(n as u64) as usize);
        ImageTrack {
            name: format!("sectors {:?}", self.0.iter().map(|plan| plan.number).collect::<Vec<_>>()),
            drive_track: random.below(84) as u32,
            drive_side: random.below(2) as u32,
            n,
            bytes: cells::pack(&track_cells),
        }
    }

    /// Whether a number has one sector, with size code 2 and good checks.
    fn in_order(&self, number: u8) -> bool {
        let all: Vec<&SectorPlan> = self.0.iter().filter(|plan| plan.number == number).collect();
        all.len() == 1
            && all[0].size_code == 2
            && all[0].id_check_error == 0
            && all[0].data_check_error == 0
            && all[0].data_mark.is_some()
    }

    /// What the call has to answer in a room, and the image.
    fn expected(&self, room: usize) -> Result<Vec<u8>, Refusal> {
        if let Some(number) = (1..=9).find(|&number| !self.in_order(number)) {
            return Err(Refusal { number: 24, value: u64::from(number) });
        }
        if self.0.len() > 9 {
            return Err(Refusal { number: 24, value: 0 });
        }
        if room < IMAGE {
            return Err(Refusal { number: 13, value: 4_608 });
        }
        let mut plans: Vec<&SectorPlan> = self.0.iter().collect();
        plans.sort_by_key(|plan| plan.number);
        Ok(plans.iter().flat_map(|plan| plan.data.clone()).collect())
    }
}

/// A plain sector with data of its own, any mark, and any place in its ID.
fn plan(random: &mut Random, number: u8) -> SectorPlan {
    let mut plan = SectorPlan::standard(random.byte(), random.byte(), number, 0);
    plan.data.iter_mut().for_each(|byte| *byte = random.byte());
    plan.id_mark = 0xFC + random.below(4) as u8;
    plan.data_mark = Some(0xF8 + random.below(4) as u8);
    plan
}

/// Another size code, and data of its length.
fn resize(plan: &mut SectorPlan, size_code: u8) {
    plan.size_code = size_code;
    plan.data.resize(128 << (size_code % 4), 0x5A);
}

/// Tracks made of plans: what they have to answer comes of these, and not of a second reading of the cells.
pub fn planned(report: &mut Report) {
    let mut group = Group::new("the plain image of planned sectors, 1,000 tracks");
    let mut random = Random::new(62);
    let mut seen = [0; 12];
    for _ in 0..PLANNED {
        let plans = Plans::at_random(&mut random);
        let track = plans.track(&mut random);
        for room in [0, IMAGE - 1, IMAGE, IMAGE + 1 + random.below(600) as usize] {
            image_case(&mut group, &track, room, &plans.expected(room));
        }
        match plans.expected(IMAGE) {
            Ok(_) => seen[10] += 1,
            Err(refusal) => seen[refusal.value as usize] += 1,
        }
        // A wrong place of the drive, number of cells and number of bytes come before all of it, in this order.
        let short = track.bytes.len() - 1;
        for (drive_track, drive_side, n, length, number, value) in [
            (84, 0, 19_999, 0, 1, 0),
            (0, 2, track.n, short, 1, 0),
            (83, 1, 19_999, 0, 2, 19_999),
            (0, 0, 131_073, short, 2, 131_073),
            (0, 1, track.n, short, 3, short as u64 + 1),
        ] {
            let bytes = track.bytes[..length].to_vec();
            let refused = ImageTrack { name: track.name.clone(), drive_track, drive_side, n, bytes };
            let room = [0, IMAGE][random.below(2) as usize];
            image_case(&mut group, &refused, room, &Err(Refusal { number, value }));
        }
    }
    // Each number in the way, none with a number besides the nine, and an image.
    let often = seen[..=10].iter().all(|&tracks| tracks >= 20);
    group.same(often, true, || format!("the answers of the tracks, {seen:?}"));
    group.close(report);
}

/// Tracks of every kind, of which few have an image.
pub fn any_tracks(report: &mut Report) {
    let mut group = Group::new("the plain image of any tracks");
    let mut random = Random::new(63);
    for _ in 0..400 {
        let drive_track = random.below(86) as u8;
        let track_cells = odd_track(&mut random, drive_track);
        let track = ImageTrack {
            name: String::from("an odd track"),
            drive_track: drive_track.into(),
            drive_side: random.below(3) as u32,
            n: track_cells.len(),
            bytes: cells::pack(&track_cells),
        };
        let room = ROOMS[random.below(ROOMS.len() as u64) as usize];
        image_case(&mut group, &track, room, &second_image(&track, room));
    }
    group.close(report);
}
