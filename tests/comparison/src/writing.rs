//! Section 17 of the specification: Write Track. Its answers and its cells are held to the second program, to the coder, and to how the tests
//! build the standard track; the tracks that it makes are read back.

use crate::report::{Group, Lent, Report};
use crate::terms::{answer, finding, record};
use second_program::cells;
use second_program::findings::{findings, Finding, EXT, SBD};
use second_program::refusal::Refusal;
use second_program::sectors;
use second_program::write_track::{cells_of, standard_list, standard_list_with_check, write_track};
use test_inputs::random::Random;
use test_inputs::track_builder::standard_track;
use test_inputs::write_lists::{random_standard_data, write_lists, WriteList};
use thikbromu::boundary;

/// How many lists are written.
const LISTS: usize = 24_000;

/// The cells of the standard track, and the most of any.
const STANDARD_CELLS: usize = 100_000;
const MOST_CELLS: usize = 131_072;

/// What the second program answers in a room, and the cells that it writes.
fn second_written(list: &[u8], room: usize) -> Result<(usize, Vec<u8>), Refusal> {
    let mut packed = Lent::new(room);
    let count = write_track(list, packed.part())?;
    Ok((count, packed.part()[..count / 8].to_vec()))
}

/// One call in a room: the answer, all of the buffer with its margins, and the list afterwards.
fn list_case(group: &mut Group, WriteList { name, list }: &WriteList, room: usize) {
    let given = || format!("{name}, {} bytes, room {room}", list.len());
    group.same_written(list, room, boundary::write_track, second_written(list, room), given);
}

/// A list through the crate's vector.
fn in_vector(group: &mut Group, WriteList { name, list }: &WriteList) {
    let ours = thikbromu::write_track_to_vec(list).map(|written| (written.count, written.packed));
    group.same(answer(ours), second_written(list, MOST_CELLS / 8), || name.clone());
}

/// Lists made by rule and at random: in the room that is just enough, in one that is too little, and in another.
pub fn lists(report: &mut Report) {
    let mut group = Group::new("Write Track, 24,000 lists");
    let mut random = Random::new(80);
    let (mut count, mut too_long, mut coded) = (0, 0, 0);
    for list in write_lists(81, LISTS) {
        let needed = cells_of(&list.list) / 8;
        list_case(&mut group, &list, needed);
        list_case(&mut group, &list, needed.saturating_sub(1 + random.below(3) as usize));
        list_case(&mut group, &list, random.below(2 * needed as u64 + 9) as usize);
        in_vector(&mut group, &list);
        // Without a command the cells are those of the coder.
        if list.list.iter().all(|byte| !(0xF5..=0xF7).contains(byte)) && needed <= MOST_CELLS / 8 {
            let by_coder = thikbromu::encode_to_vec(&list.list, false);
            let written = thikbromu::write_track_to_vec(&list.list).map(|written| written.packed);
            group.same(written, by_coder, || format!("{}, coded", list.name));
            coded += 1;
        }
        too_long += usize::from(needed > MOST_CELLS / 8);
        count += 1;
    }
    let often = count == LISTS && too_long >= 30 && coded >= 500;
    group.same(often, true, || format!("{count} lists, {too_long} too long, {coded} without a command"));
    group.close(report);
}

/// What a track is made of.
struct Written {
    track: u8,
    data: [[u8; 512]; 9],
    /// The number of a sector with two bytes for its check, and whether they are another word.
    check: Option<(u8, bool)>,
    list: Vec<u8>,
}

impl Written {
    /// Random data, or E5, with the check of a sector replaced in every second track.
    fn at_random(random: &mut Random, track: u8, side: u8) -> Written {
        let data = if random.one_in(4) { [[0xE5; 512]; 9] } else { random_standard_data(random) };
        let mut written = Written { track, data, check: None, list: standard_list(track, side, &data) };
        if random.one_in(2) {
            let number = 1 + random.below(9) as u8;
            let mark_and_data = [&[0xA1, 0xA1, 0xA1, 0xFB], &data[usize::from(number) - 1][..]].concat();
            let right = thikbromu::check_word(&mark_and_data).to_be_bytes();
            let mut two = right;
            while two.iter().any(|byte| (0xF5..=0xF7).contains(byte)) || (two == right && random.one_in(2)) {
                two = [random.byte(), random.byte()];
            }
            written.check = Some((number, two != right));
            written.list = standard_list_with_check(track, side, &data, number, two);
        }
        written
    }

    /// The place of a sector (rule 6.19).
    fn place(index: usize) -> usize {
        1_152 + 9_824 * index
    }

    /// What is found at the place that the list is made for (rules 17.11 to 17.13).
    fn findings(&self) -> Vec<Finding> {
        let mut expected = Vec::new();
        if self.track >= 80 {
            expected.push(Finding { kind: EXT, level: 2, place: 0, detail: 9 });
        }
        if let Some((number, true)) = self.check {
            let place = Written::place(usize::from(number) - 1);
            expected.push(Finding { kind: SBD, level: 1, place, detail: usize::from(number) });
        }
        expected
    }
}

/// Standard tracks of every place: their sectors, their findings, and what is read out.
pub fn read_back(report: &mut Report) {
    let mut group = Group::new("standard tracks that Write Track made, read back");
    let mut random = Random::new(82);
    let mut seen = [0; 3];
    for turn in 0..504 {
        let (track, side) = ((turn / 2 % 84) as u8, (turn % 2) as u8);
        let made = Written::at_random(&mut random, track, side);
        let given = || format!("track {track}, side {side}, check {:?}", made.check);
        let written = thikbromu::write_track_to_vec(&made.list).expect("a list of a whole track");
        group.same(written.count, STANDARD_CELLS, given);
        let read = written.track(track.into(), side.into());
        let found: Vec<Finding> = read.findings().expect("a sound track").into_iter().map(finding).collect();
        group.same(&found, &made.findings(), given);
        let second = findings(track.into(), side.into(), &written.packed, written.count, 901);
        group.same(Ok(found), second, given);
        let records: Vec<_> = read.sectors().expect("a sound track").map(record).collect();
        group.same(&records, &sectors::list(&written.packed, written.count), given);
        let places: Vec<usize> = records.iter().map(|record| record.place).collect();
        group.same(places, (0..9).map(Written::place).collect(), given);
        for (index, data) in made.data.iter().enumerate() {
            let number = index as u8 + 1;
            let good = made.check != Some((number, true));
            let (mut bytes, mut check) = ([0; 512], 77);
            let answer = boundary::read_out(&written.packed, written.count, track.into(), side.into(), index, &mut bytes, &mut check);
            group.same((answer, bytes.to_vec(), check), (Ok(512), data.to_vec(), u32::from(good)), given);
            let id = (records[index].track, records[index].side, records[index].number, records[index].size_code);
            group.same(id, (track, side, number, 2), given);
        }
        match made.check {
            None => seen[0] += 1,
            Some((_, false)) => seen[1] += 1,
            Some((_, true)) => seen[2] += 1,
        }
        // The tests build the standard track without a list.
        if made.check.is_none() {
            let filler = random.below(0xF5) as u8;
            let list = standard_list(track, side, &[[filler; 512]; 9]);
            let ours = thikbromu::write_track_to_vec(&list).map(|written| written.packed);
            group.same(answer(ours), Ok(cells::pack(&standard_track(track, side, filler))), given);
        }
    }
    group.same(seen.iter().all(|&tracks| tracks >= 60), true, || format!("the tracks by their checks, {seen:?}"));
    group.close(report);
}
