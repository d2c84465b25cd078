//! The page of a disk: its lines and their order, shared lines, the last line, the refusals,
//! and writing into too little room.

use second_program::disk_page::{disk_page, write_disk_page};
use second_program::findings;
use second_program::refusal::Refusal;
use test_inputs::disk_inputs::{disk_inputs, DiskInput};
use test_inputs::track_builder::standard_track;

/// TNF as a track has it.
const TNF: [u32; 4] = [4, 2, 0, 0];

/// A track, a side and the findings.
type Given = (u32, u32, Vec<[u32; 4]>);

/// The numbers of tracks and of findings.
fn numbers_of(disk: &[Given]) -> (Vec<u32>, Vec<u32>) {
    let mut tracks = Vec::new();
    let mut findings = Vec::new();
    for (track, side, of_track) in disk {
        tracks.extend([*track, *side, of_track.len() as u32]);
        findings.extend(of_track.iter().flatten());
    }
    (tracks, findings)
}

fn answer(disk: &[Given]) -> Result<String, Refusal> {
    let (tracks, findings) = numbers_of(disk);
    let page = disk_page(&tracks, &findings)?;
    Ok(String::from_utf8(page).unwrap())
}

fn page(disk: &[Given]) -> String {
    answer(disk).unwrap()
}

fn refused<T>(number: u32) -> Result<T, Refusal> {
    Err(Refusal { number, value: 0 })
}

/// Tracks of a side with TNF alone.
fn empty(side: u32, tracks: impl IntoIterator<Item = u32>) -> Vec<Given> {
    tracks
        .into_iter()
        .map(|track| (track, side, vec![TNF]))
        .collect()
}

#[test]
fn no_tracks_and_no_findings_give_an_empty_page() {
    assert_eq!(page(&[]), "");
    assert_eq!(page(&[(5, 0, vec![]), (83, 1, vec![])]), "");
    let all: Vec<Given> = (0..168).map(|it| (it / 2, it % 2, vec![])).collect();
    assert_eq!(page(&all), "");
}

#[test]
fn the_line_of_the_request() {
    assert_eq!(
        page(&[(5, 0, vec![[3, 3, 0, 0]])]),
        "T05 H0 3 NOS level 3 place 0 detail 0\n"
    );
    // The track of the listing in which all bytes are AA.
    assert_eq!(
        page(&[(5, 0, vec![[3, 3, 0, 0], TNF])]),
        "T05 H0 3 NOS level 3 place 0 detail 0\nT05 H0 4 TNF level 2 place 0 detail 0\n"
    );
}

#[test]
fn each_kind_has_its_name() {
    let names = [
        "LGT", "SHT", "NOS", "TNF", "EXT", "DSN", "ISN", "ITN", "IIF", "SSZ", "NSI", "NSD", "SBI",
        "SND", "SBD", "DOI", "DBI", "SWS", "SID", "MTV", "NFA",
    ];
    for (kind, name) in (1..).zip(names) {
        let finding = if kind == 4 { TNF } else { [kind, 9, 1_152, 77] };
        let [_, level, place, detail] = finding;
        assert_eq!(
            page(&[(79, 1, vec![finding])]),
            format!("T79 H1 {kind} {name} level {level} place {place} detail {detail}\n")
        );
    }
}

#[test]
fn numbers_may_be_any() {
    let most = u32::MAX;
    assert_eq!(
        page(&[(83, 1, vec![[6, 0, most, 1], [21, most, 0, most]])]),
        "T83 H1 6 DSN level 0 place 4294967295 detail 1\n\
         T83 H1 21 NFA level 4294967295 place 0 detail 4294967295\n"
    );
}

#[test]
fn sides_before_tracks_before_kinds_before_places() {
    let mut disk: Vec<Given> = vec![
        (10, 0, vec![[1, 1, 0, 1]]),
        (9, 1, vec![[2, 1, 0, 2]]),
        (9, 0, vec![[13, 1, 5, 3], [13, 1, 40, 4], [15, 1, 2, 5]]),
        (80, 0, vec![[5, 2, 0, 9]]),
    ];
    let expected = "T09 H0 13 SBI level 1 place 5 detail 3\n\
         T09 H0 13 SBI level 1 place 40 detail 4\n\
         T09 H0 15 SBD level 1 place 2 detail 5\n\
         T10 H0 1 LGT level 1 place 0 detail 1\n\
         T80 H0 5 EXT level 2 place 0 detail 9\n\
         T09 H1 2 SHT level 1 place 0 detail 2\n";
    for _ in 0..disk.len() {
        disk.rotate_left(1);
        assert_eq!(page(&disk), expected);
        disk.swap(0, 2);
        assert_eq!(page(&disk), expected);
    }
}

#[test]
fn consecutive_tracks_share_the_first_ones_line() {
    assert_eq!(
        page(&empty(0, 74..=79)),
        "T74-79 H0 4 TNF level 2 place 0 detail 0\n"
    );
    assert_eq!(
        page(&empty(1, (0..=1).rev())),
        "T00-01 H1 4 TNF level 2 place 0 detail 0\n"
    );
    assert_eq!(
        page(&empty(1, [3])),
        "T03 H1 4 TNF level 2 place 0 detail 0\n"
    );
    // A track that is not given ends a range, and so does one with sectors.
    assert_eq!(
        page(&empty(0, [7, 5, 4, 9, 8])),
        "T04-05 H0 4 TNF level 2 place 0 detail 0\nT07-09 H0 4 TNF level 2 place 0 detail 0\n"
    );
    let mut disk = empty(0, [4, 5, 7]);
    disk.push((6, 0, vec![[3, 3, 0, 8]]));
    assert_eq!(
        page(&disk),
        "T04-05 H0 4 TNF level 2 place 0 detail 0\n\
         T06 H0 3 NOS level 3 place 0 detail 8\n\
         T07 H0 4 TNF level 2 place 0 detail 0\n"
    );
}

#[test]
fn a_range_is_of_one_side() {
    let disk = [empty(0, [5, 7, 79]), empty(1, [6, 0])].concat();
    assert_eq!(
        page(&disk),
        "T05 H0 4 TNF level 2 place 0 detail 0\n\
         T07 H0 4 TNF level 2 place 0 detail 0\n\
         T79 H0 4 TNF level 2 place 0 detail 0\n\
         T00 H1 4 TNF level 2 place 0 detail 0\n\
         T06 H1 4 TNF level 2 place 0 detail 0\n"
    );
    let disk = [empty(1, 5..=6), empty(0, 5..=6)].concat();
    assert_eq!(
        page(&disk),
        "T05-06 H0 4 TNF level 2 place 0 detail 0\nT05-06 H1 4 TNF level 2 place 0 detail 0\n"
    );
}

#[test]
fn other_findings_of_a_range_keep_their_own_lines() {
    let disk = [
        (31, 1, vec![[3, 3, 0, 0], TNF, [21, 1, 9, 1_000]]),
        (30, 1, vec![[1, 1, 0, 103_001], TNF, [20, 3, 1, 2]]),
        (32, 1, vec![TNF]),
        (33, 1, vec![[20, 3, 4, 5]]),
    ];
    assert_eq!(
        page(&disk),
        "T30 H1 1 LGT level 1 place 0 detail 103001\n\
         T30-32 H1 4 TNF level 2 place 0 detail 0\n\
         T30 H1 20 MTV level 3 place 1 detail 2\n\
         T31 H1 3 NOS level 3 place 0 detail 0\n\
         T31 H1 21 NFA level 1 place 9 detail 1000\n\
         T33 H1 20 MTV level 3 place 4 detail 5\n"
    );
}

#[test]
fn exactly_one_empty_side_is_single_sided() {
    let whole = |side| format!("T00-79 H{side} 4 TNF level 2 place 0 detail 0\n");
    for side in [0, 1] {
        let other = 1 - side;
        let empty_side = empty(side, 0..80);
        let alone = whole(side) + "single-sided\n";
        assert_eq!(page(&empty_side), alone);
        // Tracks without findings change nothing, 80 and above among them.
        let mut with_more = empty_side.clone();
        with_more.extend((0..84).map(|track| (track, other, vec![])));
        with_more.extend((80..84).map(|track| (track, side, vec![])));
        assert_eq!(page(&with_more), alone);
        // The last line comes behind all others.
        let mut with_lines = empty_side.clone();
        with_lines.push((83, 1, vec![[5, 2, 0, 9]]));
        assert!(
            page(&with_lines).ends_with("T83 H1 5 EXT level 2 place 0 detail 9\nsingle-sided\n")
        );
        let both = [empty_side.clone(), empty(other, 0..80)].concat();
        assert_eq!(page(&both), whole(0) + &whole(1));
        // One empty side and one nearly empty.
        let nearly = [empty_side.clone(), empty(other, 0..79)].concat();
        assert!(page(&nearly).ends_with("\nsingle-sided\n"));
        for missing in [0, 1, 40, 78, 79] {
            let mut nearly = empty_side.clone();
            nearly.remove(missing);
            assert!(!page(&nearly).contains("single"));
            nearly.push((missing as u32, side, vec![[3, 3, 0, 8]]));
            assert!(!page(&nearly).contains("single"));
            nearly.extend(empty(other, 0..80));
            assert!(page(&nearly).ends_with("\nsingle-sided\n"));
        }
    }
}

#[test]
fn refusal_22_for_more_than_168_tracks() {
    let of = |count: u32| -> Vec<Given> { (0..count).map(|it| (it / 2, it % 2, vec![])).collect() };
    assert_eq!(answer(&of(168)), Ok(String::new()));
    // The 169th is no track of a drive, and the same track so often is given twice.
    assert_eq!(answer(&of(169)), refused(22));
    assert_eq!(answer(&vec![(7, 0, vec![]); 169]), refused(22));
    assert_eq!(answer(&vec![(7, 0, vec![]); 168]), refused(21));
    assert_eq!(disk_page(&[0; 3 * 169], &[1; 9]), refused(22));
}

#[test]
fn refusal_1_for_a_place_that_a_drive_lacks() {
    for (track, side) in [(84, 0), (0, 2), (84, 2), (u32::MAX, 0), (0, u32::MAX)] {
        let mut disk = empty(0, 3..6);
        disk.push((track, side, vec![]));
        assert_eq!(answer(&disk), refused(1));
        // Before 21 and 25.
        disk.push((3, 0, vec![[22, 0, 0, 0]]));
        assert_eq!(answer(&disk), refused(1));
        disk.rotate_left(2);
        assert_eq!(answer(&disk), refused(1));
    }
}

#[test]
fn refusal_21_for_a_place_given_twice() {
    let twice = [
        (5, 1, vec![]),
        (5, 0, vec![]),
        (6, 1, vec![]),
        (5, 1, vec![]),
    ];
    assert_eq!(answer(&twice), refused(21));
    assert_eq!(answer(&twice[..3]), Ok(String::new()));
    // Equal findings or others make no difference, and it comes before 25.
    assert_eq!(
        answer(&[empty(0, [9]), empty(0, [9])].concat()),
        refused(21)
    );
    assert_eq!(disk_page(&[9, 0, 1, 9, 0, 0], &[]), refused(21));
}

#[test]
fn refusal_25_where_the_numbers_do_not_add_up() {
    let finding = [1, 1, 0, 5];
    assert_eq!(disk_page(&[5, 0, 1], &finding).map(|it| it.len()), Ok(38));
    assert_eq!(disk_page(&[5, 0, 0], &finding), refused(25));
    assert_eq!(disk_page(&[5, 0, 2], &finding), refused(25));
    assert_eq!(disk_page(&[], &finding), refused(25));
    // Sums and products that turn over at 2^32.
    let most = u32::MAX;
    for counts in [
        [most, 2],
        [2, most],
        [1 << 31, (1 << 31) + 1],
        [1 << 30, 1],
        [most, most],
    ] {
        let tracks = [5, 0, counts[0], 5, 1, counts[1]];
        assert_eq!(disk_page(&tracks, &finding), refused(25));
        assert_eq!(disk_page(&tracks, &[]), refused(25));
    }
    let all_most: Vec<u32> = (0..168).flat_map(|it| [it / 2, it % 2, most]).collect();
    assert_eq!(disk_page(&all_most, &finding), refused(25));
    // The whole list has the right length, but its parts go to the tracks in their order.
    let list = [13, 1, 5, 1, 6, 1, 2, 1];
    assert!(disk_page(&[5, 0, 1, 6, 0, 1], &list).is_ok());
    assert_eq!(disk_page(&[5, 0, 2, 6, 0, 0], &list), refused(25));
    assert_eq!(disk_page(&[5, 0, 0, 6, 0, 2], &list), refused(25));
}

#[test]
fn refusal_25_where_numbers_are_left_over() {
    for length in 0..12 {
        let tracks: Vec<u32> = [5, 0, 0, 6, 0, 0, 7, 0, 0, 8, 0, 0][..length].to_vec();
        assert_eq!(disk_page(&tracks, &[]).is_ok(), length % 3 == 0);
        let findings: Vec<u32> = [1, 1, 0, 5, 2, 1, 0, 5, 3, 3, 0, 5][..length].to_vec();
        let count = length as u32 / 4;
        assert_eq!(
            disk_page(&[5, 0, count], &findings).is_ok(),
            length % 4 == 0
        );
    }
    // They make no track, so they are none of those that 22, 1 and 21 are about.
    let mut full: Vec<u32> = (0..168).flat_map(|it| [it / 2, it % 2, 0]).collect();
    full.push(0);
    assert_eq!(disk_page(&full, &[]), refused(25));
    full.push(0);
    assert_eq!(disk_page(&full, &[]), refused(25));
    full.push(0);
    assert_eq!(disk_page(&full, &[]), refused(22));
    assert_eq!(disk_page(&[84], &[]), refused(25));
    assert_eq!(disk_page(&[84, 0, 0, 84], &[]), refused(1));
    assert_eq!(disk_page(&[5, 0, 0, 5, 0], &[]), refused(25));
}

#[test]
fn refusal_25_where_findings_are_not_strictly_in_order() {
    let accepted = |findings: &[[u32; 4]]| answer(&[(5, 0, findings.to_vec())]).is_ok();
    assert!(accepted(&[[6, 1, 3, 0], [6, 1, 4, 0], [7, 1, 0, 0]]));
    assert!(!accepted(&[[6, 1, 4, 0], [6, 1, 3, 0]]));
    assert!(!accepted(&[[7, 1, 0, 0], [6, 1, 4, 0]]));
    // One kind and place twice, whatever level and detail are.
    assert!(!accepted(&[[6, 1, 4, 0], [6, 1, 4, 0]]));
    assert!(!accepted(&[[6, 1, 4, 0], [6, 2, 4, 9]]));
    assert!(!accepted(&[TNF, TNF]));
    assert!(!accepted(&[[1, 1, 0, 0], [3, 3, 0, 0], [2, 1, 0, 0]]));
    // The order begins anew with each track.
    let disk = [(5, 0, vec![[21, 1, 9, 0]]), (4, 0, vec![[1, 1, 0, 0]])];
    assert!(answer(&disk).is_ok());
    let last_is_wrong = [
        (5, 0, vec![[21, 1, 9, 0]]),
        (4, 0, vec![[2, 1, 0, 0], [1, 1, 0, 0]]),
    ];
    assert_eq!(answer(&last_is_wrong), refused(25));
}

#[test]
fn refusal_25_for_kinds_and_tnf_that_no_track_has() {
    for kind in [0, 22, 23, 256, u32::MAX] {
        assert_eq!(answer(&[(5, 0, vec![[kind, 1, 0, 0]])]), refused(25));
        // Where the order of kinds lets it stand.
        let mut three = vec![[1, 1, 0, 0], [kind, 1, 0, 0], [21, 1, 0, 0]];
        three.sort();
        assert_eq!(answer(&[(5, 0, three)]), refused(25));
    }
    for tnf in [
        [4, 1, 0, 0],
        [4, 3, 0, 0],
        [4, 0, 0, 0],
        [4, 2, 1, 0],
        [4, 2, 0, 1],
    ] {
        assert_eq!(answer(&[(5, 0, vec![tnf])]), refused(25));
    }
    for track in [0, 79] {
        assert!(answer(&empty(1, [track])).is_ok());
    }
    for track in [80, 81, 83] {
        assert_eq!(answer(&empty(1, [track])), refused(25));
    }
    // The levels of other kinds are not judged.
    for kind in (1..=21).filter(|&kind| kind != 4) {
        for level in [0, 1, 2, 3, 4, u32::MAX] {
            assert!(answer(&[(5, 0, vec![[kind, level, 0, 0]])]).is_ok());
        }
    }
}

#[test]
fn findings_of_a_track_are_never_refused() {
    let mut disk: Vec<Given> = Vec::new();
    for (track, n) in [
        (0, 100_000),
        (3, 20_000),
        (79, 131_072),
        (80, 99_000),
        (83, 103_001),
    ] {
        for side in [0, 1] {
            let mut track_cells = standard_track(2, side as u8, 0x00);
            track_cells.resize(n, 0);
            let bytes = second_program::cells::pack(&track_cells);
            let list = findings::findings(track, side, &bytes, n, 901).unwrap();
            let numbers = list
                .iter()
                .map(|it| [it.kind, it.level, it.place as u32, it.detail as u32]);
            disk.push((track, side, numbers.collect()));
        }
    }
    let lines: usize = disk.iter().map(|(_, _, findings)| findings.len()).sum();
    assert!(lines > 50);
    assert_eq!(page(&disk).lines().count(), lines);
}

#[test]
fn each_finding_stands_on_the_page_once() {
    for DiskInput {
        name,
        tracks,
        findings,
    } in disk_inputs(11, 2_500)
    {
        let Ok(page) = disk_page(&tracks, &findings) else {
            continue;
        };
        let page = String::from_utf8(page).unwrap();
        let mut read = Vec::new();
        for line in page.lines().filter(|line| *line != "single-sided") {
            let words: Vec<&str> = line.split(' ').collect();
            let number = |index: usize| words[index].parse::<u32>().unwrap();
            let (first, last) = match words[0][1..].split_once('-') {
                Some((first, last)) => (first.parse().unwrap(), last.parse().unwrap()),
                None => {
                    let track: u32 = words[0][1..].parse().unwrap();
                    (track, track)
                }
            };
            assert!(first == last || words[3] == "TNF", "{name}: {line}");
            let side: u32 = words[1][1..].parse().unwrap();
            for track in first..=last {
                read.push([side, track, number(2), number(5), number(7), number(9)]);
            }
        }
        let mut given = Vec::new();
        let mut rest = findings.chunks(4);
        for track in tracks.chunks(3) {
            for finding in rest.by_ref().take(track[2] as usize) {
                let [kind, level, place, detail] = finding.try_into().unwrap();
                given.push([track[1], track[0], kind, level, place, detail]);
            }
        }
        read.sort();
        given.sort();
        assert_eq!(read, given, "{name}");
    }
}

#[test]
fn as_much_is_written_as_there_is_room_for() {
    let (tracks, findings) = numbers_of(&[(5, 0, vec![[3, 3, 0, 0], TNF])]);
    let whole = disk_page(&tracks, &findings).unwrap();
    assert_eq!(whole.len(), 76);
    for room in [0, 1, 37, 75, 76, 77, 100] {
        let mut out = vec![b'#'; room];
        assert_eq!(write_disk_page(&tracks, &findings, &mut out), Ok(76));
        let written = room.min(76);
        assert_eq!(out[..written], whole[..written]);
        assert!(out[written..].iter().all(|&byte| byte == b'#'));
    }
    let mut out = [b'#'; 40];
    assert_eq!(write_disk_page(&tracks, &[], &mut out), refused(25));
    assert_eq!(out, [b'#'; 40]);
}
