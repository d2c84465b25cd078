//! What the library's crate answers, in the second program's terms. Each is set out by its names, so that a number, a value or a field
//! that the crate mixes up shows as a difference.

use crate::report::{Group, Report};
use second_program::findings::{self, Finding};
use second_program::refusal::Refusal;
use second_program::sectors::SectorRecord;
use thikbromu::{Kind, NotARefusal};

/// A refusal of the crate, by its name.
fn refusal(ours: thikbromu::Refusal) -> Refusal {
    use thikbromu::Refusal as Ours;
    match ours {
        Ours::TrackOrSide => Refusal::drive_place_out_of_range(),
        Ours::CellCount(cells) => Refusal::cell_count_out_of_range(cells),
        Ours::TooFewBytes(needed) => Refusal::too_few_bytes_of_cells(needed),
        Ours::TooManySectors(sectors) => Refusal::too_many_sectors(sectors),
        Ours::ListTooShort(findings) => Refusal::findings_list_too_short(findings),
        Ours::NoTimings => Refusal::no_timings(),
        Ours::TooManyTimings(timings) => Refusal::too_many_timings(timings),
        Ours::TimingOutOfRange(index) => Refusal::timing_out_of_range(index),
        Ours::TooManyCells(cells) => Refusal::too_many_cells(cells),
        // The same row for timings and for a new file: `too_little_room_for_timings` and `too_little_room_for_a_file` have its number and value.
        Ours::NoRoom(needed) => Refusal::too_little_room_for_cells(needed),
        Ours::NoSuchSector(sectors) => Refusal::no_such_sector(sectors),
        Ours::NoData => Refusal::no_data(),
        Ours::NoRoomForBytes(needed) => Refusal::too_little_room_for_bytes(needed),
        Ours::TooManyBytes(given) => Refusal::too_many_bytes(given),
        Ours::NotATrackFile => Refusal::not_a_track_file(),
        Ours::NotATrackBlock => Refusal::not_a_track_block(),
        Ours::NoSuchRevolution => Refusal::no_such_revolution(),
        Ours::LengthsDiffer => Refusal::reads_differ_in_length(),
        Ours::NotASectorLength => Refusal::no_length_of_a_read(),
        Ours::TooLongATrack => Refusal::too_many_cells_to_write(),
        Ours::TrackGivenTwice => Refusal::place_given_twice(),
        Ours::TooManyTracks => Refusal::too_many_tracks(),
        Ours::FluxSection => Refusal::flux_section(),
        // The second program has a byte there: another number shows as a difference.
        Ours::NoPlainImage(number) => Refusal::no_plain_image(u8::try_from(number).unwrap_or(u8::MAX)),
        Ours::NotTheirFindings => Refusal::not_findings_of_a_disk(),
        Ours::NotAnImage => Refusal::not_an_image(),
        Ours::ImageHeader(place) => Refusal::header_byte_not_taken(place),
        Ours::ImageEntry(entry) => Refusal::no_place_for_a_block(entry),
        Ours::ImageCheckSum(sum) => Refusal::other_check_sum(u32::try_from(sum).unwrap_or(u32::MAX)),
    }
}

/// What a call of the crate gives, or its refusal.
pub fn answer<T>(ours: Result<T, thikbromu::Refusal>) -> Result<T, Refusal> {
    ours.map_err(refusal)
}

/// A record of the crate, field by field.
pub fn record(ours: thikbromu::Sector) -> SectorRecord {
    SectorRecord {
        place: ours.place as usize,
        mark: ours.mark,
        track: ours.track,
        side: ours.side,
        number: ours.number,
        size_code: ours.size_code,
        id_check_good: ours.id_check_good,
        data_place: ours.data_place as usize,
        data_mark: ours.data_mark,
        length: ours.data_length,
        data_check_good: ours.data_check_good,
        data_end: ours.end as usize,
        density: ours.density,
    }
}

/// A finding of the crate.
pub fn finding(ours: thikbromu::Finding) -> Finding {
    Finding {
        kind: u32::from(ours.kind.number()),
        level: u32::from(ours.level()),
        place: ours.place as usize,
        detail: ours.detail as usize,
    }
}

/// The tables of refusals and kinds, as the crate and as the second program has them.
pub fn tables(report: &mut Report) {
    let mut group = Group::new("the tables of refusals and kinds");
    let rows = [
        Refusal::drive_place_out_of_range(),
        Refusal::cell_count_out_of_range(7),
        Refusal::too_few_bytes_of_cells(7),
        Refusal::too_many_sectors(7),
        Refusal::findings_list_too_short(7),
        Refusal::no_timings(),
        Refusal::too_many_timings(7),
        Refusal::timing_out_of_range(7),
        Refusal::too_many_cells(7),
        Refusal::too_little_room_for_cells(7),
        Refusal::too_little_room_for_timings(7),
        Refusal::too_little_room_for_a_file(7),
        Refusal::no_such_sector(7),
        Refusal::no_data(),
        Refusal::too_little_room_for_bytes(7),
        Refusal::too_many_bytes(7),
        Refusal::not_a_track_file(),
        Refusal::not_a_track_block(),
        Refusal::no_such_revolution(),
        Refusal::reads_differ_in_length(),
        Refusal::no_length_of_a_read(),
        Refusal::too_many_cells_to_write(),
        Refusal::place_given_twice(),
        Refusal::too_many_tracks(),
        Refusal::flux_section(),
        Refusal::no_plain_image(7),
        Refusal::not_findings_of_a_disk(),
        Refusal::not_an_image(),
        Refusal::header_byte_not_taken(7),
        Refusal::no_place_for_a_block(7),
        Refusal::other_check_sum(7),
    ];
    for row in rows {
        let ours = thikbromu::Refusal::try_from((row.number, row.value as usize));
        group.same(ours.map(refusal), Ok(row), || format!("{row:?}, by name"));
        let numbers = ours.map(|ours| Refusal { number: ours.number(), value: ours.value() as u64 });
        group.same(numbers, Ok(row), || format!("{row:?}, by number"));
        // A row whose value is 0 has no other: the crate does not drop a value.
        if row.value == 0 {
            let (number, value) = (row.number, 7);
            let ours = thikbromu::Refusal::try_from((number, value));
            group.same(ours, Err(NotARefusal { number, value }), || format!("{row:?} with {value}"));
        }
    }
    for kind in 1..=findings::FZD as u8 {
        let number = u32::from(kind);
        let ours = Kind::try_from(kind).map(|kind| (kind.number(), kind.name(), u32::from(kind.level())));
        let second = (kind, findings::name_of(number), findings::level_of(number));
        group.same(ours, Ok(second), || format!("kind {kind}"));
    }
    group.close(report);
}
