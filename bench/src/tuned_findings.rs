//! The findings of a track in plain Rust that is written for speed: 64 cells at a time. A measure of what the machine can do.

use second_program::cells::bytes_needed;
use second_program::findings::Finding;
use second_program::refusal::Refusal;

/// The words of the longest track, and of 18,432 cells more: a data mark 784 cells past its end may begin 1,024 bytes of data.
const WORDS: usize = 2_048 + 288 + 4;

type Map = [u64; WORDS];

/// The check word of 0 after a byte and so many zero bytes.
const CHECK_STEPS: [[u16; 256]; 4] = check_steps();

const fn check_steps() -> [[u16; 256]; 4] {
    let mut steps = [[0; 256]; 4];
    let mut byte = 0;
    while byte < 256 {
        let mut word = (byte as u16) << 8;
        let mut bits = 0;
        while bits < 32 {
            word = (word << 1) ^ (if word >> 15 == 1 { 0x1021 } else { 0 });
            bits += 1;
            if bits % 8 == 0 {
                steps[bits / 8 - 1][byte] = word;
            }
        }
        byte += 1;
    }
    steps
}

/// The check word after four bytes more, the first of them the highest.
fn check_four(word: u16, four: u32) -> u16 {
    let [a, b, c, d] = (four ^ u32::from(word) << 16).to_be_bytes().map(usize::from);
    (CHECK_STEPS[3][a] ^ CHECK_STEPS[2][b]) ^ (CHECK_STEPS[1][c] ^ CHECK_STEPS[0][d])
}

/// The check word after A1 A1 A1 and a mark byte.
fn check_mark(mark: u8) -> u16 {
    0xB4 << 8 ^ CHECK_STEPS[0][usize::from(0xCD ^ mark)]
}

/// The 32 data bits of 64 cells.
fn data_bits(cells: u64) -> u32 {
    let mut x = cells & 0x5555_5555_5555_5555;
    for (shift, mask) in
        [(1, 0x3333_3333_3333_3333), (2, 0x0F0F_0F0F_0F0F_0F0F), (4, 0x00FF_00FF_00FF_00FF), (8, 0x0000_FFFF_0000_FFFF), (16, 0xFFFF_FFFF)]
    {
        x = (x | x >> shift) & mask;
    }
    x as u32
}

/// The 64 places from any place of a map.
fn from(map: &Map, place: usize) -> u64 {
    let (word, skipped) = (place / 64, place % 64);
    map[word] << skipped | map[word + 1] >> 1 >> (63 - skipped)
}

/// How many of the places from one to another are set.
fn count(map: &Map, start: usize, end: usize) -> usize {
    let (mut place, mut found) = (start, 0);
    while place < end {
        let step = (64 - place % 64).min(end - place);
        let part = map[place / 64] << (place % 64) >> (64 - step);
        found += part.count_ones() as usize;
        place += step;
    }
    found
}

/// The cells of a track as a map, the track going on round.
fn load(packed: &[u8], n: usize, map: &mut Map) {
    let mut eights = packed[..bytes_needed(n)].chunks_exact(8);
    for (word, eight) in map.iter_mut().zip(&mut eights) {
        *word = u64::from_be_bytes(eight.try_into().expect("eight bytes"));
    }
    for (index, &byte) in eights.remainder().iter().enumerate() {
        map[n.div_ceil(8) / 8] |= u64::from(byte) << (56 - 8 * index);
    }
    let (last, over) = (n / 64, n % 64);
    if over > 0 {
        map[last] &= !(u64::MAX >> over);
    }
    // Cell n + i is cell i.
    let first = map[0];
    map[last] |= first >> over;
    for index in last + 1..last + 291 {
        map[index] = from(map, 64 * index - n);
    }
}

/// A sector: its ID mark and what is read from it, its data mark where it has one, and the syncs within.
#[derive(Clone, Copy, Default)]
struct Sector {
    place: usize,
    mark: u8,
    id: [u8; 4],
    id_good: bool,
    data: usize,
    data_mark: u8,
    end: usize,
    data_good: bool,
    syncs: usize,
}

/// The places of data marks, in order, with their bytes.
type DataMarks = Vec<(usize, u8)>;

fn sector(cells: &Map, syncs: &Map, place: usize, data_marks: &[(usize, u8)]) -> Sector {
    let mark = (data_bits(from(cells, place + 48)) >> 24) as u8;
    let id = data_bits(from(cells, place + 64));
    let check = (data_bits(from(cells, place + 128)) >> 16) as u16;
    let mut sector = Sector { place, mark, id: id.to_be_bytes(), id_good: check_four(check_mark(mark), id) == check, ..Sector::default() };
    sector.syncs = count(syncs, place + 64, place + 145);
    if let Some(&(data, data_mark)) = data_marks.first().filter(|found| found.0 <= place + 784) {
        let length = 128 << (sector.id[3] % 4);
        let check_place = data + 64 + 16 * length;
        let word =
            (data + 64..check_place).step_by(64).fold(check_mark(data_mark), |word, at| check_four(word, data_bits(from(cells, at))));
        sector.data_good = word == (data_bits(from(cells, check_place)) >> 16) as u16;
        (sector.data, sector.data_mark, sector.end) = (data, data_mark, check_place + 32);
        sector.syncs += count(syncs, data + 64, check_place + 17);
    }
    sector
}

/// Where the longest run of zeros starts, and its length. Asked only where a whole word is 0.
fn longest_run(cells: &Map, n: usize) -> (usize, usize) {
    let (mut best, mut place) = ((0, 0), 0);
    while place < n {
        let mut end = place;
        while end < place + n && from(cells, end % n) == 0 {
            end += 64;
        }
        end = (end + from(cells, end % n).leading_zeros() as usize).min(place + n);
        // A run that goes over the index starts before it.
        if end - place > best.1 {
            best = (place, end - place);
        }
        place = end + 1;
    }
    best
}

/// The findings, at the front of a lent list. The refusals are those of the second program.
pub fn findings(track: u32, side: u32, packed: &[u8], n: usize, list: &mut [Finding]) -> Result<usize, Refusal> {
    if track > 83 || side > 1 {
        return Err(Refusal::drive_place_out_of_range());
    }
    if !(20_000..=131_072).contains(&n) {
        return Err(Refusal::cell_count_out_of_range(n));
    }
    if packed.len() < bytes_needed(n) {
        return Err(Refusal::too_few_bytes_of_cells(bytes_needed(n)));
    }
    let mut cells = [0; WORDS];
    load(packed, n, &mut cells);
    let words = n / 64 + 290;
    // One pass: the gaps between ones, whether a word is 0, and the places of 10001001, of which two make a sync.
    let mut halves = [0; WORDS];
    let (mut first_gap, mut gaps, mut empty_word) = (n, 0, false);
    for word in 0..words {
        let (x, y) = (cells[word], cells[word + 1]);
        let on = |k: u32| x << k | y >> (64 - k);
        let near = on(1) | on(2) | on(3);
        halves[word] = x & !near & on(4) & !(on(5) | on(6)) & on(7);
        let mut gap = x & (on(1) | !(near | on(4)));
        if 64 * word + 64 > n {
            gap &= if 64 * word >= n { 0 } else { !(u64::MAX >> (n % 64)) };
        }
        if gap != 0 {
            if gaps == 0 {
                first_gap = 64 * word + gap.leading_zeros() as usize;
            }
            gaps += gap.count_ones() as usize;
        }
        empty_word |= x == 0;
    }
    let mut syncs = [0; WORDS];
    for word in 0..words - 1 {
        let (x, y) = (halves[word], halves[word + 1]);
        syncs[word] = (x << 1 | y >> 63) & (x << 8 | y >> 56) & !cells[word];
    }
    // The marks, in order: those of IDs on the track, and those of data also past its end.
    let (mut ids, mut data_marks) = (Vec::with_capacity(64), DataMarks::with_capacity(64));
    for word in 0..(n + 1_024) / 64 {
        let (x, y) = (syncs[word], syncs[word + 1]);
        let mut marks = x & (x << 16 | y >> 48) & (x << 32 | y >> 32);
        while marks != 0 {
            let bit = marks.leading_zeros() as usize;
            marks ^= 1 << (63 - bit);
            let place = 64 * word + bit;
            match (data_bits(from(&cells, place + 48)) >> 24) as u8 {
                0xFC..=0xFF if place < n => ids.push(place),
                byte @ 0xF8..=0xFB => data_marks.push((place, byte)),
                _ => {}
            }
        }
    }
    if ids.len() > 64 {
        return Err(Refusal::too_many_sectors(ids.len()));
    }
    let mut rest = &data_marks[..];
    let sectors: Vec<Sector> = ids
        .iter()
        .map(|&place| {
            rest = &rest[rest.iter().take_while(|mark| mark.0 < place + 160).count()..];
            sector(&cells, &syncs, place, rest)
        })
        .collect();
    let run = if empty_word { longest_run(&cells, n) } else { (0, 0) };
    let mut found: Vec<(u32, usize, usize)> = Vec::with_capacity(901);
    let mut put = |holds: bool, kind: u32, place: usize, detail: usize| {
        if holds {
            found.push((kind, place, detail));
        }
    };
    let number_of_sectors = sectors.len();
    put(n > 103_000, 1, 0, n);
    put(n < 97_000, 2, 0, n);
    put(!(9..=10).contains(&number_of_sectors), 3, 0, number_of_sectors);
    put(number_of_sectors == 0 && track <= 79, 4, 0, 0);
    put(number_of_sectors > 0 && track >= 80, 5, 0, number_of_sectors);
    let mut seen = [false; 256];
    for s in &sectors {
        let number = usize::from(s.id[2]);
        put(std::mem::replace(&mut seen[number], true), 6, s.place, number);
    }
    for kind in 7..=19 {
        for s in &sectors {
            let [id_track, id_side, number, size] = s.id;
            let has_data = s.data_mark != 0;
            let within = |other: &Sector, place: usize| other.data <= place && place < other.end;
            let (holds, detail) = match kind {
                7 => ((245..=247).contains(&number), usize::from(number)),
                8 => (u32::from(id_track) != track, usize::from(id_track)),
                9 => (id_track > 83 || id_side > 1 || size > 3, usize::from(id_side)),
                10 => (size != 2 && size != 3, usize::from(size)),
                11 => (s.mark != 0xFE, usize::from(s.mark)),
                12 => (has_data && s.data_mark != 0xF8 && s.data_mark != 0xFB, usize::from(s.data_mark)),
                13 => (!s.id_good, usize::from(number)),
                14 => (s.id_good && !has_data, usize::from(number)),
                15 => (has_data && !s.data_good, usize::from(number)),
                16 => (has_data && s.data < n && s.end > n, s.end.wrapping_sub(n)),
                17 => (has_data && s.data >= n, s.data.wrapping_sub(n)),
                18 => {
                    let starts_in = |other: &Sector| {
                        other.place != s.place && other.data_mark != 0 && (within(other, s.place) || within(other, s.place + n))
                    };
                    (sectors.iter().any(starts_in), usize::from(number))
                }
                _ => (s.syncs > 0, s.syncs),
            };
            put(holds, kind, s.place, detail);
        }
    }
    put(gaps > 0, 20, first_gap, gaps);
    put(run.1 >= 1_000, 21, run.0, run.1);
    if list.len() < found.len() {
        return Err(Refusal::findings_list_too_short(found.len()));
    }
    for (place_in_list, &(kind, place, detail)) in list.iter_mut().zip(&found) {
        *place_in_list = Finding::new(kind, place, detail);
    }
    Ok(found.len())
}
