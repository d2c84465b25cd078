//! Lists for Write Track: every short one of the bytes that matter, runs of F5, lists around
//! the most cells, standard tracks, and random ones.

use crate::random::Random;
use second_program::write_track::{standard_list, standard_list_with_check, StandardData};

/// A list of bytes to write.
#[derive(Clone, Debug, PartialEq, Eq)]
pub struct WriteList {
    /// What the list tries, in a few words.
    pub name: String,
    /// The bytes.
    pub list: Vec<u8>,
}

fn named(name: String, list: Vec<u8>) -> WriteList {
    WriteList { name, list }
}

/// How many bytes a track can hold, the two of a check counted.
const MOST_BYTES: usize = 8_192;
/// The three commands.
const COMMANDS: [u8; 3] = [0xF5, 0xF6, 0xF7];
/// The commands, the bytes beside them, and bytes with other first and last bits.
const BYTES_THAT_MATTER: [u8; 8] = [0xF5, 0xF6, 0xF7, 0xF4, 0xF8, 0x00, 0xFF, 0x4E];

/// The list of no bytes, every single byte, and every list of two, three and four of the
/// bytes that matter.
pub fn short_lists(_random: &mut Random) -> Vec<WriteList> {
    let mut lists = vec![named("no bytes".to_string(), Vec::new())];
    for byte in 0..=255 {
        lists.push(named(format!("{byte:02X} alone"), vec![byte]));
    }
    let mut longest: Vec<Vec<u8>> = vec![Vec::new()];
    for length in 1..=4 {
        longest = longest
            .iter()
            .flat_map(|list| BYTES_THAT_MATTER.map(|byte| [&list[..], &[byte]].concat()))
            .collect();
        if length > 1 {
            lists.extend(
                longest
                    .iter()
                    .map(|list| named(format!("{list:02X?}"), list.clone())),
            );
        }
    }
    lists
}

/// A random byte that is no command.
fn plain_byte(random: &mut Random) -> u8 {
    loop {
        let byte = random.byte();
        if !COMMANDS.contains(&byte) {
            return byte;
        }
    }
}

/// So many random bytes that are no commands.
fn plain_bytes(random: &mut Random, length: usize) -> Vec<u8> {
    (0..length).map(|_| plain_byte(random)).collect()
}

/// Runs of F5 of each length up to 40, at the start and behind other bytes, each with a check
/// behind it; two runs with one byte between them; and every byte behind three syncs.
pub fn run_lists(random: &mut Random) -> Vec<WriteList> {
    let mut lists = Vec::new();
    for length in 0..=40 {
        let run = vec![0xF5; length];
        for before in [
            vec![],
            vec![0x00],
            vec![0xF7],
            vec![0xF6],
            plain_bytes(random, 9),
        ] {
            let data_length = random.below(20) as usize;
            let data = plain_bytes(random, data_length);
            let list = [&before[..], &run, &data, &[0xF7, 0xF7]].concat();
            lists.push(named(format!("{length} of F5 behind {before:02X?}"), list));
        }
    }
    for between in 0..=255 {
        for (first, second) in [(1, 1), (3, 2)] {
            let list = [
                vec![0xF5; first],
                vec![between],
                vec![0xF5; second],
                vec![0xF7],
            ]
            .concat();
            lists.push(named(
                format!("runs of F5 with {between:02X} between"),
                list,
            ));
        }
        let mark = vec![0x00, 0xF5, 0xF5, 0xF5, between, 0x12, 0x34, 0xF7, 0x4E];
        lists.push(named(format!("{between:02X} as a mark"), mark));
        let index_mark = vec![0x00, 0xF6, 0xF6, 0xF6, between, 0xF7, 0x4E];
        lists.push(named(format!("{between:02X} as an index mark"), index_mark));
    }
    lists
}

/// Lists of 8,190 to 8,194 bytes on the track, with none, few and as many checks as can be:
/// these at the start, at the end or anywhere, the other bytes being any but F7; and lists
/// that are much too long.
pub fn limit_lists(random: &mut Random) -> Vec<WriteList> {
    let mut lists = Vec::new();
    for bytes in MOST_BYTES - 2..=MOST_BYTES + 2 {
        for checks in [0, 1, 2, 3, 100, 2_048, bytes / 2 - 1, bytes / 2] {
            let others = bytes - 2 * checks;
            let mut list: Vec<u8> = (0..others)
                .map(|_| match random.byte() {
                    0xF7 => 0xF5,
                    byte => byte,
                })
                .collect();
            let commands = vec![0xF7; checks];
            let name = format!("{bytes} bytes on the track, {checks} checks");
            match random.below(3) {
                0 => list.splice(0..0, commands),
                1 => list.splice(others.., commands),
                _ => {
                    let at = random.below(others as u64 + 1) as usize;
                    list.splice(at..at, commands)
                }
            };
            lists.push(named(name.clone(), list.clone()));
            random.shuffle(&mut list);
            lists.push(named(name, list));
        }
        for byte in [0x00, 0x4E, 0xF5, 0xF6] {
            lists.push(named(
                format!("{bytes} times {byte:02X}"),
                vec![byte; bytes],
            ));
        }
    }
    for (byte, count) in [
        (0xF7, 8_192),
        (0x4E, 16_384),
        (0xF5, 65_536),
        (0xF7, 65_536),
    ] {
        lists.push(named(
            format!("{count} times {byte:02X}"),
            vec![byte; count],
        ));
    }
    lists
}

/// Random data for the nine sectors of a standard track, without commands.
pub fn random_standard_data(random: &mut Random) -> StandardData {
    let mut data = [[0; 512]; 9];
    for byte in data.iter_mut().flatten() {
        *byte = plain_byte(random);
    }
    data
}

/// Standard tracks of E5 and of random data for every track, on either side, with the check
/// of some sectors replaced by two bytes.
pub fn standard_lists(random: &mut Random) -> Vec<WriteList> {
    let mut lists = Vec::new();
    for track in 0..=83 {
        let side = random.below(2) as u8;
        for (what, data) in [
            ("E5", [[0xE5; 512]; 9]),
            ("random data", random_standard_data(random)),
        ] {
            let name = format!("standard track {track} of side {side} with {what}");
            let list = standard_list(track, side, &data);
            lists.push(named(name.clone(), list));
            let number = 1 + random.below(9) as u8;
            let check_bytes = if what == "E5" && random.one_in(2) {
                // The check of 512 bytes E5 behind FB.
                [0xC4, 0x0B]
            } else {
                [plain_byte(random), plain_byte(random)]
            };
            let list = standard_list_with_check(track, side, &data, number, check_bytes);
            let name = format!("{name}, check {check_bytes:02X?} of sector {number}");
            lists.push(named(name, list));
        }
    }
    lists
}

/// A random list: any bytes, or for the most part commands, or whole fields as a formatter
/// would send them with something odd now and then. Once in a while it is a standard track
/// with commands in its data.
pub fn odd_list(random: &mut Random) -> WriteList {
    if random.one_in(200) {
        let mut data = random_standard_data(random);
        for _ in 0..random.below(6) {
            let sector = random.below(9) as usize;
            let index = random.below(512) as usize;
            data[sector][index] = COMMANDS[random.below(3) as usize];
        }
        let (track, side) = (random.byte(), random.byte());
        let name = format!("random standard track {track} of side {side}");
        return named(name, standard_list(track, side, &data));
    }
    let length = match random.below(20) {
        0 => random.below(4) as usize,
        1 => random.below(4_000) as usize,
        _ => random.below(200) as usize,
    };
    let kind = random.below(3);
    let mut list = Vec::new();
    while list.len() < length {
        match kind {
            0 => list.push(random.byte()),
            1 => {
                let byte = BYTES_THAT_MATTER[random.below(8) as usize];
                let most = if random.one_in(5) { 12 } else { 1 };
                let count = random.between(1, most) as usize;
                list.extend(vec![byte; count]);
            }
            _ => {
                list.extend(vec![0x00; random.below(13) as usize]);
                let sync = if random.one_in(6) { 0xF6 } else { 0xF5 };
                list.extend(vec![sync; random.between(1, 4) as usize]);
                list.push([0xFE, 0xFB, 0xF8, random.byte()][random.below(4) as usize]);
                let data_length = random.below(40) as usize;
                list.extend((0..data_length).map(|_| random.byte()));
                list.extend(vec![0xF7; [1, 1, 1, 2, 0][random.below(5) as usize]]);
                list.extend(vec![0x4E; random.below(23) as usize]);
            }
        }
    }
    let what = ["any bytes", "commands", "fields"][kind as usize];
    named(format!("random list of {what}"), list)
}

/// So many lists for a comparison, each made when it is asked for: first those made by rule,
/// which are some 6,600, then random ones. The same seed gives the same lists.
pub fn write_lists(seed: u64, count: usize) -> impl Iterator<Item = WriteList> {
    let mut random = Random::new(seed);
    let made: [fn(&mut Random) -> Vec<WriteList>; 4] =
        [short_lists, run_lists, limit_lists, standard_lists];
    let mut list_random = Random::new(random.next_number());
    let by_rule = made
        .into_iter()
        .flat_map(move |make| make(&mut list_random));
    let at_random = std::iter::repeat_with(move || odd_list(&mut random));
    by_rule.chain(at_random).take(count)
}

#[cfg(test)]
mod tests {
    use super::*;
    use second_program::findings::{findings, EXT, SBD};
    use second_program::refusal::Refusal;
    use second_program::sectors;
    use second_program::write_track::{cells_of, written_cells};
    use std::collections::BTreeSet;

    #[test]
    fn short_lists_are_all_there() {
        let lists = short_lists(&mut Random::new(1));
        assert_eq!(lists.len(), 1 + 256 + 64 + 512 + 4_096);
        let different: BTreeSet<&Vec<u8>> = lists.iter().map(|it| &it.list).collect();
        assert_eq!(different.len(), lists.len());
        assert!(different.contains(&vec![]));
        assert!(different.contains(&vec![0xF7, 0xF5, 0xF5, 0xF7]));
    }

    #[test]
    fn runs_have_every_length_and_every_byte_between() {
        let lists = run_lists(&mut Random::new(2));
        assert_eq!(lists.len(), 41 * 5 + 256 * 4);
        let longest_run = |list: &[u8]| {
            list.split(|&byte| byte != 0xF5)
                .map(|run| run.len())
                .max()
                .unwrap()
        };
        let lengths: BTreeSet<usize> = lists.iter().map(|it| longest_run(&it.list)).collect();
        assert_eq!(lengths, (0..=40).collect());
        for between in 0..=255 {
            let sought = vec![0xF5, between, 0xF5, 0xF7];
            assert!(lists.iter().any(|it| it.list == sought));
        }
    }

    #[test]
    fn limits_of_refusal_20() {
        let lists = limit_lists(&mut Random::new(3));
        let mut counts = BTreeSet::new();
        for WriteList { name, list } in &lists {
            let count = cells_of(list);
            counts.insert(count);
            let answer = written_cells(list);
            if count <= 131_072 {
                assert_eq!(answer.unwrap().len(), count / 8, "{name}");
            } else {
                let refusal = Refusal {
                    number: 20,
                    value: 0,
                };
                assert_eq!(answer, Err(refusal), "{name}");
            }
        }
        let around: Vec<usize> = (8_190..=8_194).map(|bytes| 16 * bytes).collect();
        assert!(around.iter().all(|count| counts.contains(count)));
        assert!(counts.contains(&2_097_152));
    }

    #[test]
    fn standard_lists_read_back() {
        let lists = standard_lists(&mut Random::new(4));
        assert_eq!(lists.len(), 84 * 4);
        let (mut sound, mut sound_by_two_bytes, mut bad) = (0, 0, 0);
        for (index, WriteList { name, list }) in lists.iter().enumerate().step_by(5) {
            let packed = written_cells(list).unwrap();
            let n = cells_of(list);
            assert_eq!(n, 100_000, "{name}");
            let track = index as u32 / 4;
            let side = u32::from(sectors::list(&packed, n)[0].side);
            let mut found = findings(track, side, &packed, n, 901).unwrap();
            found.retain(|finding| finding.kind != EXT);
            match &found[..] {
                [] if name.contains("check") => sound_by_two_bytes += 1,
                [] => sound += 1,
                [finding] if finding.kind == SBD => bad += 1,
                _ => panic!("{name}: {found:?}"),
            }
        }
        assert!(sound >= 30 && sound_by_two_bytes >= 4 && bad >= 15);
    }

    #[test]
    fn random_lists_have_commands_anywhere() {
        let mut random = Random::new(5);
        let mut first: BTreeSet<u8> = BTreeSet::new();
        let mut last: BTreeSet<u8> = BTreeSet::new();
        let mut pairs = BTreeSet::new();
        let (mut empty, mut standard) = (0, 0);
        for _ in 0..3_000 {
            let WriteList { name, list } = odd_list(&mut random);
            assert!(cells_of(&list) <= 131_072);
            standard += usize::from(name.contains("standard"));
            empty += usize::from(list.is_empty());
            first.extend(list.first().filter(|byte| COMMANDS.contains(byte)));
            last.extend(list.last().filter(|byte| COMMANDS.contains(byte)));
            for pair in list.windows(2) {
                if COMMANDS.contains(&pair[0]) && COMMANDS.contains(&pair[1]) {
                    pairs.insert((pair[0], pair[1]));
                }
            }
        }
        assert_eq!((first.len(), last.len(), pairs.len()), (3, 3, 9));
        assert!(empty >= 10 && standard >= 5);
    }

    #[test]
    fn the_same_seed_gives_the_same_lists() {
        let all: Vec<WriteList> = write_lists(1, 7_000).collect();
        assert_eq!(all.len(), 7_000);
        let by_rule = all.iter().position(|it| it.name.starts_with("random"));
        assert_eq!(by_rule, Some(4_929 + 1_229 + 104 + 336));
        assert!(write_lists(1, 7_000).eq(all));
    }
}
