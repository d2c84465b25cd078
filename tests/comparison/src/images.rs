//! Section 19 of the specification: the header of a whole image, where its blocks are, and its check sum.

use crate::report::{Group, Lent, Report};
use crate::terms::answer;
use second_program::image::{self, ENTRIES, HEADER_LENGTH};
use second_program::refusal::Refusal;
use test_inputs::random::Random;
use thikbromu::{boundary, Image, ImageBlock};

/// How many random images each part has.
const IMAGES: usize = 20_000;

/// The first bytes of an image, and how many it has in all.
#[derive(Clone, Debug)]
struct Front {
    first: Vec<u8>,
    image_length: usize,
}

impl Front {
    fn set_entry(&mut self, entry: usize, start: u32) {
        self.first[16 + 4 * entry..20 + 4 * entry].copy_from_slice(&start.to_le_bytes());
    }
}

/// A front that is taken: some blocks in any order, from the entries' end on, with any room between them.
fn sound(random: &mut Random) -> Front {
    let mut first: Vec<u8> = (0..HEADER_LENGTH).map(|_| 0).collect();
    first[..3].copy_from_slice(b"SCP");
    let revolutions = random.between(1, 5) as u8;
    let heads = random.below(3) as u8;
    let one = random.below(ENTRIES as u64) as u8;
    let other = random.below(ENTRIES as u64) as u8;
    let (low, high) = if random.one_in(2) { (0, ENTRIES as u8 - 1) } else { (one.min(other), one.max(other)) };
    // Any flags but the one of images whose entries stand elsewhere.
    let flags = random.byte() & 0xBF;
    first[3..12].copy_from_slice(&[
        random.byte(),
        random.byte(),
        revolutions,
        low,
        high,
        flags,
        16 * random.below(2) as u8,
        heads,
        0,
    ]);
    first[12..16].copy_from_slice(&(random.next_number() as u32).to_le_bytes());
    let mut entries: Vec<usize> = (usize::from(low)..=usize::from(high)).filter(|_| random.one_in(3)).collect();
    // A side that the header says is not there has no blocks.
    entries.retain(|entry| heads == 0 || entry % 2 == usize::from(heads) - 1);
    random.shuffle(&mut entries);
    let mut front = Front { first, image_length: 0 };
    let mut end = HEADER_LENGTH as u32;
    for entry in entries {
        end += if random.one_in(3) { random.below(100) as u32 } else { 0 };
        front.set_entry(entry, end);
        end += 4 + 12 * u32::from(revolutions) + if random.one_in(3) { random.below(9) as u32 } else { 0 };
    }
    // A footer finds room behind the blocks.
    front.image_length = end as usize + [0, 1, 47, 48, 49, 1_000][random.below(6) as usize];
    front
}

/// The same with something changed.
fn changed(random: &mut Random, mut front: Front) -> Front {
    match random.below(9) {
        0 => front.image_length = random.below((front.image_length as u64).saturating_add(100)) as usize,
        1 => front.image_length = [0, 687, 688, 689, u32::MAX as usize, 1 << 32, usize::MAX][random.below(7) as usize],
        2 => front.first.truncate(random.below(700) as usize),
        3 => front.first.extend(vec![7; random.below(20) as usize]),
        4 => front.first[random.below(16) as usize] = random.byte(),
        5 => front.first[random.below(16) as usize] ^= 1 << random.below(8),
        6 => {
            let from = random.below(ENTRIES as u64) as usize;
            let start = [
                front.first[16 + 4 * from],
                front.first[17 + 4 * from],
                front.first[18 + 4 * from],
                front.first[19 + 4 * from],
            ];
            let near = u32::from_le_bytes(start).wrapping_add(random.between(-30, 30) as u32);
            front.set_entry(random.below(ENTRIES as u64) as usize, near);
        }
        7 => {
            let any = [1, 687, 688, front.image_length as u32, u32::MAX, random.next_number() as u32];
            front.set_entry(random.below(ENTRIES as u64) as usize, any[random.below(6) as usize]);
        }
        _ => front.first[16 + random.below(4 * ENTRIES as u64) as usize] = random.byte(),
    }
    front
}

/// A front as it is, or changed up to three times.
fn any_front(random: &mut Random) -> Front {
    let mut front = sound(random);
    for _ in 0..random.below(4) {
        if front.first.len() >= HEADER_LENGTH {
            front = changed(random, front);
        }
    }
    front
}

/// The ten numbers of a header.
fn numbers(header: image::Header) -> Vec<u32> {
    let bytes = [
        header.version,
        header.disk_type,
        header.revolutions,
        header.first_track,
        header.last_track,
        header.flags,
        header.cell_width,
        header.heads,
        header.resolution,
    ];
    bytes.iter().map(|&byte| u32::from(byte)).chain([header.check_sum]).collect()
}

/// One front: the header and the entries in rooms of any length, the judgement of a sum, and the crate's types over them.
fn case(header_group: &mut Group, entry_group: &mut Group, sum_group: &mut Group, random: &mut Random, front: &Front) {
    let Front { first, image_length } = front;
    let given = || format!("length {image_length}, {} bytes {:02X?}", first.len(), &first[..first.len().min(40)]);
    let room = if random.one_in(3) { random.below(14) as usize } else { 10 };
    let header = image::header(first, *image_length as u64);
    let all = header.map(numbers);
    let written = all.clone().map(|numbers| (numbers.len(), numbers[..room.min(10)].to_vec()));
    header_group.same_written(
        first,
        room,
        |first, numbers| boundary::image_header(first, *image_length, numbers),
        written,
        given,
    );

    let room = if random.one_in(3) { random.below(340) as usize } else { 2 * ENTRIES };
    let blocks = image::blocks(first, *image_length as u64);
    let written = blocks.as_ref().map_err(|refusal| *refusal).map(|blocks| {
        let places = blocks.iter().flat_map(|block| match block {
            Some(place) => [place.start as u32, place.end as u32],
            None => [0, 0],
        });
        (blocks.iter().flatten().count(), places.take(room).collect())
    });
    entry_group.same_written(
        first,
        room,
        |first, places| boundary::image_entries(first, *image_length, places),
        written,
        given,
    );

    let right = header.map_or(0, |header| header.check_sum);
    let sum = if random.one_in(2) { right } else { right.wrapping_add(random.below(3) as u32) };
    let second = image::judge_sum(first, *image_length as u64, sum).map(|()| sum as usize);
    sum_group.same(answer(boundary::image_check(first, *image_length, sum)), second, given);

    let ours = answer(Image::new(first, *image_length));
    let expected = blocks.map(|blocks| {
        let there = blocks.into_iter().enumerate().filter_map(|(entry, block)| {
            let (track, side) = (entry as u32 / 2, entry as u32 % 2);
            block.map(|place| ImageBlock { track, side, start: place.start as usize, end: place.end as usize })
        });
        there.collect::<Vec<_>>()
    });
    entry_group.same(ours.as_ref().map(|image| image.blocks().collect()).map_err(|refusal| *refusal), expected, given);
    if let Ok(image) = ours {
        let judged = image::judge_sum(first, *image_length as u64, sum);
        sum_group.same(answer(image.judge_sum(sum)), judged, given);
    }
}

/// Fronts that are taken, and such with something changed.
pub fn fronts(report: &mut Report) {
    let mut headers = Group::new("headers of images, 20,000 and each byte changed");
    let mut entries = Group::new("entries of images, 20,000 and each byte changed");
    let mut sums = Group::new("judged sums of images");
    let mut random = Random::new(1_900);
    let mut run = |random: &mut Random, front: &Front| case(&mut headers, &mut entries, &mut sums, random, front);
    for _ in 0..IMAGES {
        let front = any_front(&mut random);
        run(&mut random, &front);
    }
    let whole = sound(&mut random);
    for place in 0..HEADER_LENGTH {
        let values: Vec<u8> =
            if place < 16 { (0..=255).collect() } else { (0..8).map(|bit| whole.first[place] ^ 1 << bit).collect() };
        for value in values {
            let mut front = whole.clone();
            front.first[place] = value;
            run(&mut random, &front);
        }
    }
    headers.close(report);
    entries.close(report);
    sums.close(report);
}

/// The sum of bytes, in one portion and cut into several, from any sum on.
pub fn sums(report: &mut Report) {
    let mut group = Group::new("sums of images in portions");
    let mut random = Random::new(1_901);
    for round in 0..2_000 {
        let length = if round % 100 == 0 { 200_000 } else { random.below(3_000) as usize };
        let bytes: Vec<u8> = (0..length).map(|_| if random.one_in(2) { 0xFF } else { random.byte() }).collect();
        let before = random.next_number() as u32;
        let expected = bytes.iter().fold(u64::from(before), |sum, &byte| sum + u64::from(byte)) as u32;
        let mut kept = Lent::<u8>::new(0);
        group.same((boundary::image_sum(before, &bytes), kept.part().len()), (expected, 0), || {
            format!("{length} bytes from {before}")
        });
        let mut sum = before;
        let mut rest = &bytes[..];
        while !rest.is_empty() {
            let (portion, after) = rest.split_at(random.below(rest.len() as u64 + 1) as usize);
            sum = thikbromu::image_sum(sum, portion);
            rest = if random.one_in(8) { &rest[rest.len()..] } else { after };
            if rest.is_empty() && !after.is_empty() {
                sum = thikbromu::image_sum(sum, after);
            }
        }
        group.same(sum, expected, || format!("{length} bytes from {before}, in portions"));
        let mut image = vec![0x55; 16];
        image.extend(&bytes);
        group.same(thikbromu::image_sum(0, &image[16..]), image::sum(&image), || format!("an image of {length} bytes"));
    }
    group.close(report);
}

/// A refusal that no part gives would show here: each of the three is reached.
pub fn reached(report: &mut Report) {
    let mut group = Group::new("refusals of images that are reached");
    let mut random = Random::new(1_902);
    let mut seen = std::collections::BTreeSet::new();
    for _ in 0..IMAGES {
        let Front { first, image_length } = any_front(&mut random);
        if let Err(Refusal { number, .. }) = image::blocks(&first, image_length as u64) {
            seen.insert(number);
        } else {
            seen.insert(0);
        }
    }
    group.same(seen.into_iter().collect::<Vec<_>>(), vec![0, 26, 27, 28], || "all fronts".to_string());
    group.close(report);
}
