//! Rules 1.1 to 1.9: cells of the ring, words of cells, the least place of a word, and packing.

use crate::report::{Group, Lent, Report};
use second_program::cells;
use test_inputs::random::Random;
use thikbromu::{boundary, clear, put_one, Track};

fn track(random: &mut Random) -> (Vec<u8>, usize) {
    let length = random.below(40) as usize;
    let sparse = random.one_in(2);
    let bytes: Vec<u8> =
        (0..length).map(|_| if sparse { random.byte() & random.byte() } else { random.byte() }).collect();
    // Also fewer and more cells than the bytes hold, and none.
    let n = match random.below(8) {
        0 => random.below(4) as usize,
        1 => 8 * length + random.below(30) as usize,
        _ => random.below(8 * length as u64 + 1) as usize,
    };
    (bytes, n)
}

/// A place on the track, past its end, or anywhere.
fn place(random: &mut Random, n: usize) -> usize {
    match random.below(6) {
        0 => usize::MAX - random.below(100) as usize,
        1 => random.next_number() as usize,
        _ => random.below(3 * n as u64 + 2) as usize,
    }
}

fn word_length(random: &mut Random) -> usize {
    match random.below(12) {
        0 => 64,
        1 => 65,
        2 => random.next_number() as usize,
        3 => 0,
        4 => 16,
        5 => 48,
        _ => random.below(65) as usize,
    }
}

pub fn reading(report: &mut Report) {
    let mut group = Group::new("cells and words of a track");
    let mut random = Random::new(5);
    for _ in 0..20_000 {
        let (bytes, n) = track(&mut random);
        let p = place(&mut random, n);
        let k = word_length(&mut random);
        let input = bytes.clone();
        let typed = Track::new(&input, n, 0, 0);
        let (cell, word) = (cells::cell(&bytes, n, p), cells::word(&bytes, n, p, k));
        group.same(
            (boundary::cell(&input, n, p), boundary::word(&input, n, p, k), typed.cell(p), typed.word(p, k), &input),
            (u64::from(cell), word, cell == 1, word, &bytes),
            || format!("{bytes:02X?}, n {n}, p {p}, k {k}"),
        );
    }
    group.close(report);
}

pub fn finding(report: &mut Report) {
    let mut group = Group::new("the least place of a word");
    let mut random = Random::new(6);
    for _ in 0..20_000 {
        let (bytes, n) = track(&mut random);
        let k = if random.one_in(2) { random.below(7) as usize } else { word_length(&mut random) };
        let aim = place(&mut random, n);
        // A word of the track, one a bit off it, or any.
        let x = match random.below(6) {
            0 => random.next_number(),
            1 => cells::word(&bytes, n, aim, k) ^ (1 << random.below(64)),
            _ => cells::word(&bytes, n, aim, k),
        };
        let from = place(&mut random, n);
        let to = match random.below(4) {
            0 => place(&mut random, n),
            1 => from.saturating_add(random.below(3) as usize),
            _ => from.saturating_add(random.below(2 * n as u64 + 3) as usize),
        };
        let input = bytes.clone();
        let found = cells::find_word(&bytes, n, x, k, from, to);
        group.same(
            (boundary::find_word(&input, n, x, k, from, to), Track::new(&input, n, 0, 0).find_word(x, k, from, to), &input),
            (found, (found < to).then_some(found), &bytes),
            || format!("{bytes:02X?}, n {n}, word {x:X} of {k}, from {from} to {to}"),
        );
    }
    group.close(report);
}

/// Three syncs 4489 on tracks of real sizes, at places round the index in every phase.
pub fn marks(report: &mut Report) {
    const SYNCS: u64 = 0x4489_4489_4489;
    let mut group = Group::new("three syncs on whole tracks");
    let mut random = Random::new(8);
    for n in [20_000, 19_999, 100_000, 131_072, 131_071] {
        for back in 0..=56 {
            // The filling, lawful cells or none, holds no sync.
            let filling = if random.one_in(2) { 0xAA } else { 0x00 };
            let mut bytes = vec![filling; cells::bytes_needed(n)];
            for i in 0..48 {
                let p = cells::place_on_track(n, n - back, i);
                let weight = 0x80 >> (p % 8);
                bytes[p / 8] &= !weight;
                if SYNCS >> (47 - i) & 1 == 1 {
                    bytes[p / 8] |= weight;
                }
            }
            for (from, to) in [(0, n), (1, 2 * n), (n - 60, n + 60), (n, 3 * n)] {
                for (x, k) in [(SYNCS, 48), (0x4489, 16), (0x5224, 16)] {
                    group.same(
                        boundary::find_word(&bytes, n, x, k, from, to),
                        cells::find_word(&bytes, n, x, k, from, to),
                        || format!("n {n}, syncs {back} before the index, word {x:X}, from {from} to {to}"),
                    );
                }
            }
        }
    }
    group.close(report);
}

pub fn packing(report: &mut Report) {
    let mut group = Group::new("packing cells");
    let mut random = Random::new(7);
    for _ in 0..4_000 {
        let count = random.below(200) as usize;
        let list: Vec<u8> = (0..count).map(|_| u8::from(random.one_in(3))).collect();
        let packed = cells::pack(&list);
        let room = packed.len() + random.below(4) as usize;
        let mut lent = Lent::new(room);
        clear(lent.part(), packed.len());
        for (i, &one) in list.iter().enumerate() {
            if one == 1 {
                put_one(lent.part(), i);
                // A one that is put twice stays.
                put_one(lent.part(), i);
            }
        }
        // Places that the buffer does not have change nothing.
        put_one(lent.part(), 8 * room);
        put_one(lent.part(), usize::MAX);
        group.same(lent.into_all(), Lent::expected(room, &packed), || format!("cells {list:?}, room {room}"));
    }
    for room in 0..20 {
        for k in [0, 1, 7, 19, 20, 21, usize::MAX] {
            let mut lent = Lent::new(room);
            clear(lent.part(), k);
            let zeros = vec![0; k.min(room)];
            group.same(lent.into_all(), Lent::expected(room, &zeros), || format!("clear {k} of {room}"));
        }
    }
    group.close(report);
}
