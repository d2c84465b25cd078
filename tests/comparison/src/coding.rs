//! Coding and decoding (rules 1.10 to 1.19), and the check word (section 2 of the specification).

use crate::report::{Group, Report};
use crate::terms::answer;
use second_program::{check_word, mfm};
use test_inputs::random::Random;

fn bytes_of(random: &mut Random, length: usize) -> Vec<u8> {
    // Runs of equal bytes now and then: the clock rule looks at neighbours.
    let mut bytes = Vec::with_capacity(length);
    let mut byte = random.byte();
    for _ in 0..length {
        if !random.one_in(4) {
            byte = if random.one_in(6) { 0 } else { random.byte() };
        }
        bytes.push(byte);
    }
    bytes
}

fn code_case(group: &mut Group, bytes: &[u8], before: bool, room: usize) {
    group.same_written(
        bytes,
        room,
        |input, cells| thikbromu::encode(input, before, cells),
        mfm::code(bytes, before, room).map(|cells| (cells.len(), cells)),
        || format!("{} bytes {:02X?}, before {before}, room {room}", bytes.len(), &bytes[..bytes.len().min(16)]),
    );
}

fn decode_case(group: &mut Group, cells: &[u8], room: usize) {
    group.same_written(
        cells,
        room,
        thikbromu::decode,
        mfm::decode(cells, room).map(|bytes| (bytes.len(), bytes)),
        || format!("{} bytes of cells {:02X?}, room {room}", cells.len(), &cells[..cells.len().min(16)]),
    );
}

/// Rooms around what is needed: one too small, exact, and larger.
fn rooms(needed: usize) -> [usize; 5] {
    [needed.saturating_sub(1), needed, needed + 1, needed + 37, 0]
}

/// The table of rule 1.20, as the text of its source file: two halves of 32 lines, each with the cells of eight bytes and, in a comment, the
/// first of these bytes.
fn printed_table(group: &mut Group) {
    let path = concat!(env!("CARGO_MANIFEST_DIR"), "/../../crates/mfm/src/table.rt");
    let text = std::fs::read_to_string(path).expect("the table's source");
    let lines: Vec<&str> = text.lines().filter(|line| line.starts_with("    0x")).collect();
    group.same(lines.len(), 64, || "the number of the table's lines".to_string());
    for (index, line) in lines.iter().enumerate() {
        let first = (8 * index % 256) as u8;
        let (entries, comment) = line.split_once(" // ").unwrap_or((line, ""));
        group.same(comment, format!("{first:02X}").as_str(), || format!("the comment of line {index}"));
        let printed: Vec<&str> = entries.trim().split(' ').collect();
        group.same(printed.len(), 8, || format!("the entries of line {index}"));
        for (byte, entry) in (first..=first + 7).zip(printed) {
            let expected = format!("0x{:04X},", mfm::code_byte(byte, index >= 32));
            group.same(entry, expected.as_str(), || format!("the entry of {byte:02X} in line {index}"));
        }
    }
}

pub fn coding(report: &mut Report) {
    let mut group = Group::new("coding, every length to 64 and around 8,192");
    let mut random = Random::new(1);
    for length in (0..=64).chain([8_191, 8_192, 8_193, 8_194, 20_000]) {
        let bytes = bytes_of(&mut random, length);
        for before in [false, true] {
            for room in rooms(2 * length) {
                code_case(&mut group, &bytes, before, room);
            }
        }
    }
    group.close(report);

    let mut group = Group::new("coding, each byte after each bit");
    for byte in 0..=255 {
        for before in [false, true] {
            code_case(&mut group, &[byte], before, 2);
        }
    }
    group.close(report);

    let mut group = Group::new("coding, each entry of the table as it is printed in the source");
    printed_table(&mut group);
    group.close(report);

    let mut group = Group::new("coding, random");
    for _ in 0..8_000 {
        let most = if random.one_in(50) { 9_000 } else { 200 };
        let length = random.below(most) as usize;
        let bytes = bytes_of(&mut random, length);
        let room = (2 * length + random.below(6) as usize).saturating_sub(3);
        code_case(&mut group, &bytes, random.one_in(2), room);
    }
    group.close(report);
}

pub fn decoding(report: &mut Report) {
    let mut group = Group::new("decoding, every length to 64 and around 16,384");
    let mut random = Random::new(2);
    for length in (0..=64).chain([16_383, 16_384, 16_385, 16_386, 40_000]) {
        let cells = bytes_of(&mut random, length);
        for room in rooms(length / 2) {
            decode_case(&mut group, &cells, room);
        }
    }
    group.close(report);

    let mut group = Group::new("decoding, each pair of bytes");
    for first in 0..=255 {
        for second in 0..=255 {
            decode_case(&mut group, &[first, second], 1);
        }
    }
    group.close(report);

    let mut group = Group::new("decoding, random");
    for _ in 0..8_000 {
        let most = if random.one_in(50) { 17_000 } else { 400 };
        let length = random.below(most) as usize;
        let cells = bytes_of(&mut random, length);
        let room = (length / 2 + random.below(6) as usize).saturating_sub(3);
        decode_case(&mut group, &cells, room);
    }
    group.close(report);
}

pub fn round_trip(report: &mut Report) {
    let mut group = Group::new("decoding what was coded");
    let mut random = Random::new(3);
    for length in (0..=64).chain([8_191, 8_192]) {
        let bytes = bytes_of(&mut random, length);
        for before in [false, true] {
            let mut cells = vec![0; 2 * length];
            let mut back = vec![0; length];
            let coded = answer(thikbromu::encode(&bytes, before, &mut cells));
            let decoded = answer(thikbromu::decode(&cells, &mut back));
            group.same((coded, decoded, &back), (Ok(2 * length), Ok(length), &bytes), || {
                format!("{length} bytes, before {before}")
            });
        }
    }
    group.close(report);
}

/// The codings and check words to know.
pub fn known(report: &mut Report) {
    let mut group = Group::new("the codings of rule 1.17 and the check words of rule 2.4");
    let codings: [(u8, &[bool], [u8; 2]); 6] = [
        (0x4E, &[false], [0x92, 0x54]),
        (0x00, &[false], [0xAA, 0xAA]),
        (0x00, &[true], [0x2A, 0xAA]),
        (0xFF, &[false, true], [0x55, 0x55]),
        (0xA1, &[false, true], [0x44, 0xA9]),
        (0xC2, &[false, true], [0x52, 0xA4]),
    ];
    for (byte, bits, cells) in codings {
        for &before in bits {
            let mut coded = [0; 2];
            let ours = answer(thikbromu::encode(&[byte], before, &mut coded));
            group.same((ours, coded), (Ok(2), cells), || format!("{byte:02X} after {before}"));
        }
    }
    let words: [(&[u8], u16); 3] = [
        (&[0xA1, 0xA1, 0xA1], 0xCDB4),
        (&[0xA1, 0xA1, 0xA1, 0xFE], 0xB230),
        (&[0xA1, 0xA1, 0xA1, 0xFB], 0xE295),
    ];
    for (bytes, word) in words {
        group.same(thikbromu::check_word(bytes), word, || format!("{bytes:02X?}"));
    }
    group.close(report);
}

pub fn check_words(report: &mut Report) {
    let mut group = Group::new("check words, every length to 64 and random");
    let mut random = Random::new(4);
    for i in 0..8_000 {
        let length = if i <= 64 { i } else { random.below(1_200) as usize };
        let bytes = bytes_of(&mut random, length);
        let start = random.next_number() as u16;
        let input = bytes.clone();
        group.same(
            (thikbromu::check_word(&input), thikbromu::check_word_from(start, &input), &input),
            (check_word::check_word(&bytes), check_word::check_word_from(start, &bytes), &bytes),
            || format!("{length} bytes {:02X?}, from {start:04X}", &bytes[..length.min(16)]),
        );
    }
    group.close(report);
}
