//! Section 14 of the specification: two reads of one sector compared, and the part of the one whose check is good.

use crate::report::{Group, Lent, Report};
use crate::terms::{self, answer};
use second_program::findings::Finding;
use second_program::two_reads;
use test_inputs::random::Random;
use test_inputs::read_pairs::{read_pairs, ReadPair};
use thikbromu::boundary;

/// How many pairs are compared: those at the limits, and then random ones.
const PAIRS: usize = 40_000;

/// How many numbers a finding has (rule 7.34).
const FINDING_NUMBERS: usize = 4;

/// A finding as the library's numbers.
fn numbers(finding: Finding) -> [u32; FINDING_NUMBERS] {
    [finding.kind, finding.level, finding.place as u32, finding.detail as u32]
}

/// A pair compared: how many findings, its numbers in a room of any length, zeros where there is none and beside a refusal, and the reads
/// afterwards; and the crate's finding. The data mark goes over with other bits above its byte.
fn compare_case(group: &mut Group, pair: &ReadPair, data_mark: u32, room: usize) {
    let given = || format!("{}, mark {data_mark:X}, room {room}", pair.name);
    let second = two_reads::compare_reads(&pair.first, &pair.second, pair.data_mark);
    let (one, other) = (pair.first.clone(), pair.second.clone());
    let mut lent = Lent::new(room);
    let ours = answer(boundary::compare_reads(&one, &other, data_mark, lent.part()));
    let left = second.unwrap_or(None).map_or([0; FINDING_NUMBERS], numbers);
    let front = &left[..room.min(FINDING_NUMBERS)];
    group.same(
        (ours, lent.into_all(), &one, &other),
        (second.map(|finding| usize::from(finding.is_some())), Lent::expected(room, front), &pair.first, &pair.second),
        given,
    );
    let ours = answer(thikbromu::compare_reads(&one, &other, pair.data_mark));
    group.same(ours.map(|finding| finding.map(terms::finding)), second, given);
}

/// The part of a good read: which read it is of and how long it is, both 0 beside a refusal, and the reads afterwards. And the crate's part,
/// which has to begin at the address of that read.
fn good_case(group: &mut Group, pair: &ReadPair, data_mark: u32) {
    let given = || format!("{}, mark {data_mark:X}", pair.name);
    let refused = two_reads::compare_reads(&pair.first, &pair.second, pair.data_mark).map(|_| ());
    let (one, other) = (pair.first.clone(), pair.second.clone());
    let second = two_reads::good_read(&one, &other, pair.data_mark);
    let mut which = Lent::new(1);
    let ours = answer(boundary::good_read(&one, &other, data_mark, &mut which.part()[0]));
    group.same(
        (ours, which.into_all(), &one, &other),
        (refused.map(|()| second.part.len()), Lent::expected(1, &[second.read]), &pair.first, &pair.second),
        given,
    );
    let ours = answer(thikbromu::good_read(&one, &other, pair.data_mark));
    group.same(ours, refused.map(|()| second.part), given);
    if let Ok(part) = ours {
        group.same(part.as_ptr(), [&one, &other][second.read].as_ptr(), given);
    }
}

/// Pairs of every kind, in rooms around four numbers.
pub fn pairs(report: &mut Report) {
    let mut compared = Group::new("two reads compared, 40,000 pairs");
    let mut good = Group::new("the part of a good read, 40,000 pairs");
    let mut random = Random::new(50);
    let mut pairs = 0;
    for (index, pair) in read_pairs(51, PAIRS).enumerate() {
        let data_mark = u32::from(pair.data_mark) | if random.one_in(3) { (random.next_number() as u32) << 8 } else { 0 };
        let room = if index % 2 == 0 { FINDING_NUMBERS } else { random.below(7) as usize };
        compare_case(&mut compared, &pair, data_mark, room);
        good_case(&mut good, &pair, data_mark);
        pairs += 1;
    }
    compared.same(pairs, PAIRS, || "the number of pairs".to_string());
    compared.close(report);
    good.close(report);
}

/// One pair after every data mark: its check is good after one of them alone, and the comparison does not look at it.
pub fn data_marks(report: &mut Report) {
    let mut group = Group::new("two reads after each data mark");
    for pair in read_pairs(52, 40) {
        for data_mark in 0..=255 {
            let pair = ReadPair { data_mark, ..pair.clone() };
            compare_case(&mut group, &pair, data_mark.into(), FINDING_NUMBERS);
            good_case(&mut group, &pair, data_mark.into());
        }
    }
    group.close(report);
}
