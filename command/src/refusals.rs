//! What refusals mean, in words.

use thikbromu::Refusal;

/// The refusals: the number, what it means, and what is to be done.
pub const REFUSALS: [(u32, &str, &str); 29] = [
    (1, "the track is above 83 or the side above 1", "Give the track and the side of the drive."),
    (
        2,
        "a track has 20,000 to 131,072 cells, and this one has not",
        "It is no whole revolution of a track: read the track again.",
    ),
    (3, "bytes of the cells are missing", "A caller of the library handed over too few; the command never does."),
    (4, "more than 64 sectors", "Read the track again; where it comes again, keep the image for someone to look at."),
    (5, "the list is too short for the findings", "Only callers of the library meet it."),
    (6, "there are no timings", "Take another revolution, or read the track again."),
    (7, "more than 65,536 timings", "It is more than one revolution of a track: read the track again."),
    (8, "a timing is 0 or longer than 10,000,000 ns", "Take another revolution, or read the track again."),
    (
        9,
        "more than 131,072 cells come of the timings",
        "It is more than one revolution of a track: read the track again.",
    ),
    (10, "the buffer is too short for the cells, or the list for the timings", "Only callers of the library meet it."),
    (11, "there is no sector of that index", "Only callers of the library meet it."),
    (12, "the sector has no data", "Only callers of the library meet it."),
    (13, "the buffer is too short for the bytes", "Only callers of the library meet it."),
    (14, "more than 8,192 bytes to code, or more than 16,384 to decode", "Only callers of the library meet it."),
    (15, "it is not a track file", "A count is wrong, or bytes are missing or left over: make or copy the file again."),
    (
        16,
        "it is not a track block",
        "It does not begin with TRK, or its table points to what is not there: copy or read the track again.",
    ),
    (17, "there is no such revolution", "They are counted from 0. Weak sectors need two of them."),
    (18, "two reads of a sector differ in length", "Only callers of the library meet it."),
    (19, "reads of a sector have 130, 258, 514 or 1,026 bytes", "Only callers of the library meet it."),
    (20, "the list makes more than 131,072 cells", "It is too long for a track: make it shorter."),
    (21, "a track and side is there twice", "The files are not of one disk, or one was given twice."),
    (22, "more than 168 tracks", "A disk has 84 on each of two sides."),
    (23, "the track file has flux timings", "It is of an older kind: convert-track of the checkout gives it cells."),
    (
        24,
        "the track has no plain image",
        "It has not just the sectors 1 to 9 of 512 bytes with good checks. A protected disk is kept as it is.",
    ),
    (25, "these are not the findings of the tracks", "Only callers of the library meet it."),
    (26, "it is not a SuperCard Pro image", "It is too short, or does not begin with SCP."),
    (
        27,
        "a byte of the image's header is not taken",
        "Ask for an image of whole revolutions, with values of 16 bits in units of 25 ns.",
    ),
    (28, "a block of the image is not where it can stand", "The image is damaged or cut short: copy it again."),
    (29, "the check sum of the image is wrong", "Bytes were changed since it was written: copy it again."),
];

/// What the bytes of an image's header say, where one of them can be refused.
const HEADER_BYTES: [(usize, &str); 7] = [
    (5, "the number of revolutions"),
    (6, "the first track"),
    (7, "the last track"),
    (8, "the flags"),
    (9, "the width of the values"),
    (10, "the heads"),
    (11, "the resolution"),
];

/// A refusal as it is told: its number, and what it means with the value beside it.
pub fn in_words(refusal: Refusal) -> String {
    format!("refused {}: {}", refusal.number(), meaning(refusal))
}

/// What a refusal means, with the value beside it.
pub fn meaning(refusal: Refusal) -> String {
    let value = refusal.value();
    let many = grouped(value);
    match refusal.number() {
        2 => format!("{many} cells, not 20,000 to 131,072"),
        4 => format!("{many} sectors, more than 64"),
        7 => format!("{many} timings, more than 65,536"),
        8 => format!("timing {many} is 0 or longer than 10,000,000 ns"),
        9 => format!("{many} cells come of the timings, more than 131,072"),
        24 if value == 0 => "no plain image: there is a sector with a number besides 1 to 9".to_string(),
        24 => format!("no plain image: sector {value} is missing, there twice, of another size or with a bad check"),
        27 => {
            let what = HEADER_BYTES.iter().find(|(place, _)| *place == value).map_or("a byte", |(_, what)| what);
            format!("byte {value} of the header, {what}, is not taken")
        }
        28 => format!("the block of T{:02} H{} is not where it can stand (entry {value})", value / 2, value % 2),
        29 => format!("the check sum of the image is wrong: its bytes add up to {many}"),
        number => REFUSALS.iter().find(|row| row.0 == number).map_or(refusal.to_string(), |row| row.1.to_string()),
    }
}

/// A number with a comma before each three digits.
pub fn grouped(number: usize) -> String {
    let digits = number.to_string();
    let mut grouped = String::new();
    for (index, digit) in digits.chars().enumerate() {
        if index > 0 && (digits.len() - index).is_multiple_of(3) {
            grouped.push(',');
        }
        grouped.push(digit);
    }
    grouped
}

#[cfg(test)]
mod tests {
    use super::*;

    #[test]
    fn values_are_told() {
        let words = [
            (Refusal::TooManyTimings(70_000), "refused 7: 70,000 timings, more than 65,536"),
            (Refusal::NoTimings, "refused 6: there are no timings"),
            (Refusal::ImageHeader(11), "refused 27: byte 11 of the header, the resolution, is not taken"),
            (Refusal::ImageEntry(11), "refused 28: the block of T05 H1 is not where it can stand (entry 11)"),
        ];
        for (refusal, expected) in words {
            assert_eq!(in_words(refusal), expected);
        }
    }

    #[test]
    fn rows_stand_at_their_numbers() {
        for (row, number) in REFUSALS.iter().zip(1..) {
            assert_eq!(row.0, number);
        }
    }

    #[test]
    fn three_digits_to_a_group() {
        let numbers = [(0, "0"), (999, "999"), (1_000, "1,000"), (65_536, "65,536"), (1_234_567, "1,234,567")];
        for (number, expected) in numbers {
            assert_eq!(grouped(number), expected);
        }
    }
}
