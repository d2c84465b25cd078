//! Pairs of reads of one sector: good and bad checks, single bits, all lengths around
//! those that are accepted, and random ones.

use crate::random::Random;
use second_program::check_word::check_word;
use second_program::two_reads::READ_LENGTHS;

/// Two reads of one sector, each the data with two check bytes behind them.
#[derive(Clone, Debug, PartialEq, Eq)]
pub struct ReadPair {
    /// What the pair tries, in a few words.
    pub name: String,
    /// The first read.
    pub first: Vec<u8>,
    /// The second read.
    pub second: Vec<u8>,
    /// The data mark.
    pub data_mark: u8,
}

/// A read: the data and the check word of the three syncs, the mark and the data. A bit set
/// in `check_error` is written wrong.
pub fn read_of(data: &[u8], data_mark: u8, check_error: u16) -> Vec<u8> {
    let mut covered = vec![0xA1, 0xA1, 0xA1, data_mark];
    covered.extend(data);
    let check = check_word(&covered) ^ check_error;
    let mut read = data.to_vec();
    read.extend(check.to_be_bytes());
    read
}

/// Random bytes.
fn random_bytes(random: &mut Random, length: usize) -> Vec<u8> {
    (0..length).map(|_| random.byte()).collect()
}

/// A data mark: one of the four usual ones or, once in four times, any byte.
fn random_mark(random: &mut Random) -> u8 {
    if random.one_in(4) {
        random.byte()
    } else {
        0xF8 + random.below(4) as u8
    }
}

/// The read with some bits of one byte changed.
fn with_change(read: &[u8], index: usize, bits: u8) -> Vec<u8> {
    let mut changed = read.to_vec();
    changed[index] ^= bits;
    changed
}

/// For each length and data mark: every pair of good and bad checks, with equal data and
/// with other data.
pub fn check_pairs(random: &mut Random) -> Vec<ReadPair> {
    let mut pairs = Vec::new();
    for length in READ_LENGTHS {
        for data_mark in [0xF8, 0xF9, 0xFA, 0xFB, 0x00, 0xFE, 0xFF, random.byte()] {
            let data = random_bytes(random, length - 2);
            let other = random_bytes(random, length - 2);
            for (first_good, second_good) in
                [(true, true), (true, false), (false, true), (false, false)]
            {
                let mut error = |good: bool| if good { 0 } else { 1 << random.below(16) };
                let first = read_of(&data, data_mark, error(first_good));
                for second_data in [&data, &other] {
                    pairs.push(ReadPair {
                        name: format!(
                            "length {length}, mark {data_mark:02X}, good {first_good} and {second_good}"
                        ),
                        first: first.clone(),
                        second: read_of(second_data, data_mark, error(second_good)),
                        data_mark,
                    });
                }
            }
            // Good for another mark only.
            pairs.push(ReadPair {
                name: format!("length {length}, checks of another mark than {data_mark:02X}"),
                first: read_of(&data, data_mark ^ 1, 0),
                second: read_of(&other, !data_mark, 0),
                data_mark,
            });
        }
    }
    pairs
}

/// Pairs that differ in one byte: in each bit of the shortest reads, in each byte of the
/// longer ones, check bytes included.
pub fn single_byte_pairs(random: &mut Random) -> Vec<ReadPair> {
    let mut pairs = Vec::new();
    for length in READ_LENGTHS {
        let data_mark = random_mark(random);
        let sound = read_of(&random_bytes(random, length - 2), data_mark, 0);
        for index in 0..length {
            let changes = if length == 130 {
                (0..8).map(|bit| 1 << bit).collect()
            } else {
                vec![1 << random.below(8), random.byte() | 1]
            };
            for bits in changes {
                let changed = with_change(&sound, index, bits);
                let (first, second) = if random.one_in(2) {
                    (sound.clone(), changed)
                } else {
                    (changed, sound.clone())
                };
                pairs.push(ReadPair {
                    name: format!("length {length}, byte {index} differs by {bits:02X}"),
                    first,
                    second,
                    data_mark,
                });
            }
        }
    }
    pairs
}

/// Pairs that differ in the first byte and the last, in all bits, or in the check bytes
/// alone.
pub fn end_pairs(random: &mut Random) -> Vec<ReadPair> {
    let mut pairs = Vec::new();
    for length in READ_LENGTHS {
        let data_mark = random_mark(random);
        let sound = read_of(&random_bytes(random, length - 2), data_mark, 0);
        let mut add = |name: &str, second: Vec<u8>| {
            pairs.push(ReadPair {
                name: format!("length {length}, {name}"),
                first: sound.clone(),
                second,
                data_mark,
            });
        };
        let ends = with_change(&with_change(&sound, 0, 0x80), length - 1, 0x01);
        add("first and last byte differ", ends);
        let last_data = with_change(&sound, length - 3, 0x01);
        add("last data byte differs", last_data);
        add("all bits differ", sound.iter().map(|byte| !byte).collect());
        for _ in 0..100 {
            let high = with_change(&sound, length - 2, random.byte());
            add(
                "check bytes differ",
                with_change(&high, length - 1, random.byte()),
            );
        }
    }
    pairs
}

/// Pairs of each length up to 1,030 and of some longer ones, and pairs of different
/// lengths around those that are accepted. Where there is room, the checks are good.
pub fn length_pairs(random: &mut Random) -> Vec<ReadPair> {
    let mut sound = |length: usize, data_mark: u8| match length.checked_sub(2) {
        Some(data) => read_of(&random_bytes(random, data), data_mark, 0),
        None => vec![0xE5; length],
    };
    let mut pairs = Vec::new();
    for length in (0..=1_030).chain([2_048, 2_049, 2_050, 2_051, 4_098, 65_538]) {
        let first = sound(length, 0xFB);
        pairs.push(ReadPair {
            name: format!("both of length {length}, equal"),
            first: first.clone(),
            second: first.clone(),
            data_mark: 0xFB,
        });
        pairs.push(ReadPair {
            name: format!("both of length {length}"),
            first,
            second: sound(length, 0xFB),
            data_mark: 0xFB,
        });
    }
    let around = [
        0, 1, 2, 3, 128, 129, 130, 131, 256, 257, 258, 259, 512, 513, 514, 515, 1_024, 1_025,
        1_026, 1_027,
    ];
    for first in around {
        for second in around {
            if first != second {
                pairs.push(ReadPair {
                    name: format!("lengths {first} and {second}"),
                    first: sound(first, 0xF8),
                    second: sound(second, 0xF8),
                    data_mark: 0xF8,
                });
            }
        }
    }
    pairs
}

/// A random pair: a read and another of it with some bytes changed, each with a good or a
/// bad check; now and then of an odd length.
pub fn odd_pair(random: &mut Random) -> ReadPair {
    let data_mark = random_mark(random);
    let length = if random.one_in(12) {
        2 + random.below(1_100) as usize
    } else {
        READ_LENGTHS[random.below(4) as usize]
    };
    let data = random_bytes(random, length - 2);
    let mut other = data.clone();
    if !other.is_empty() {
        let most = if random.one_in(3) {
            0
        } else {
            random.below(80)
        };
        let changes = random.below(most + 1);
        for _ in 0..changes {
            let index = random.below(other.len() as u64) as usize;
            other[index] = random.byte();
        }
    }
    let mut error = || match random.below(6) {
        0..=2 => 0,
        3 | 4 => 1 << random.below(16),
        _ => random.next_number() as u16,
    };
    let first = read_of(&data, data_mark, error());
    // The check of the second is its own, or that of the first.
    let mut second = read_of(&other, data_mark, error());
    if random.one_in(3) {
        second[length - 2..].copy_from_slice(&first[length - 2..]);
    }
    if random.one_in(40) {
        second.truncate(random.below(length as u64 + 1) as usize);
    }
    let (first, second) = if random.one_in(2) {
        (first, second)
    } else {
        (second, first)
    };
    ReadPair {
        name: format!("odd pair of length {length}"),
        first,
        second,
        data_mark,
    }
}

/// So many pairs for a comparison, each made when it is asked for: first those at the
/// limits, then random ones. The same seed gives the same pairs.
pub fn read_pairs(seed: u64, count: usize) -> impl Iterator<Item = ReadPair> {
    let mut random = Random::new(seed);
    let made: [fn(&mut Random) -> Vec<ReadPair>; 4] =
        [check_pairs, end_pairs, length_pairs, single_byte_pairs];
    let mut list_random = Random::new(random.next_number());
    let at_limits = made
        .into_iter()
        .flat_map(move |make| make(&mut list_random));
    let at_random = std::iter::repeat_with(move || odd_pair(&mut random));
    at_limits.chain(at_random).take(count)
}

#[cfg(test)]
mod tests {
    use super::*;
    use second_program::two_reads::{compare_reads, good_read};

    #[test]
    fn reads_have_the_checks_asked_for() {
        // 512 bytes E5 behind FB have the check C40B.
        let read = read_of(&[0xE5; 512], 0xFB, 0);
        assert_eq!((read.len(), &read[512..]), (514, &[0xC4, 0x0B][..]));
        assert_eq!(read_of(&[0xE5; 512], 0xFB, 0x0100)[512..], [0xC5, 0x0B]);
    }

    #[test]
    fn the_lists_have_their_lengths() {
        let mut random = Random::new(1);
        assert_eq!(check_pairs(&mut random).len(), 4 * 8 * 9);
        assert_eq!(end_pairs(&mut random).len(), 4 * 103);
        assert_eq!(length_pairs(&mut random).len(), 2 * 1_037 + 20 * 19);
        let single = 130 * 8 + 2 * (258 + 514 + 1_026);
        assert_eq!(single_byte_pairs(&mut random).len(), single);
    }

    #[test]
    fn the_pairs_reach_every_answer() {
        let (mut equal, mut refused_18, mut refused_19) = (0, 0, 0);
        let mut places = vec![false; 1_026];
        let (mut from_first, mut from_second, mut from_none) = (0, 0, 0);
        let mut most_bits = 0;
        for pair in read_pairs(1, 20_000) {
            match compare_reads(&pair.first, &pair.second, pair.data_mark) {
                Ok(None) => equal += 1,
                Ok(Some(finding)) => {
                    places[finding.place] = true;
                    most_bits = most_bits.max(finding.detail);
                }
                Err(refusal) if refusal.number == 18 => refused_18 += 1,
                Err(_) => refused_19 += 1,
            }
            let good = good_read(&pair.first, &pair.second, pair.data_mark);
            match (good.part.is_empty(), good.read) {
                (true, _) => from_none += 1,
                (false, 0) => from_first += 1,
                (false, _) => from_second += 1,
            }
        }
        assert!(equal >= 500 && refused_18 >= 500 && refused_19 >= 2_000);
        assert!(from_first >= 2_000 && from_second >= 2_000 && from_none >= 2_000);
        assert!(places.iter().all(|&seen| seen));
        assert_eq!(most_bits, 8_208);
    }
}
