//! Old files of timings around the limits of border pulses (rule 3.16), listed and refused.

use crate::file_inputs::refused_files::{LONGEST, TOO_LONG};
use crate::file_inputs::{cut, file_of_timings, Files, NamedFile};
use crate::flux_inputs::{border_lists, timings_at_the_limits, NamedTimings};
use crate::random::Random;
use crate::track_builder::{odd_track, standard_track};

/// Four timings that make 20,000 cells, enough for a track.
const ENOUGH: [u32; 4] = [LONGEST; 4];

pub(super) fn border_files() -> Vec<NamedFile> {
    let mut files = Files::default();
    for NamedTimings { name, timings } in border_lists() {
        // Too few cells for a track; or enough, the list at their end and at their beginning.
        files.add(name.clone(), file_of_timings(80, 0, &timings));
        let last = [&ENOUGH[..], &timings].concat();
        files.add(
            format!("{name}, after 20,000 cells"),
            file_of_timings(80, 0, &last[last.len().saturating_sub(65_536)..]),
        );
        let first = [&timings[..], &ENOUGH].concat();
        files.add(
            format!("{name}, before 20,000 cells"),
            file_of_timings(80, 0, &first[..first.len().min(65_536)]),
        );
    }
    // Refused in other ways: 8 behind, 9, 1 and 15.
    for timing in [4_901, 4_902, 5_098, 5_099] {
        let timings = [&[timing][..], &ENOUGH].concat();
        let many = [&[timing][..], &[LONGEST; 27]].concat();
        for value in [0, TOO_LONG] {
            let broken = [&timings[..], &[value, timing]].concat();
            let name = format!("{timing} ns, 20,000 cells, then {value} ns");
            files.add(name, file_of_timings(80, 0, &broken));
        }
        files.add(
            format!("{timing} ns, 135,000 cells"),
            file_of_timings(80, 0, &many),
        );
        let name = format!("{timing} ns, 20,000 cells");
        let file = file_of_timings(80, 0, &timings);
        files.add(format!("{name}, cut"), cut(&file, file.len() - 1));
        let longer = [&file[..], &[0]].concat();
        files.add(format!("{name}, one byte more"), longer);
        files.add(format!("{name}, T 84"), file_of_timings(84, 0, &timings));
        files.add(format!("{name}, H 2"), file_of_timings(80, 2, &timings));
        files.add(name, file);
    }
    // Whole tracks, of tens of thousands of border pulses and of few.
    let mut random = Random::new(95);
    for times in [1, 2, 10, 0] {
        for (name, drive_track, track_cells) in [
            ("the standard track", 0, standard_track(0, 0, 0xE5)),
            ("an odd track", 12, odd_track(&mut random, 12)),
        ] {
            let timings = timings_at_the_limits(&mut random, &track_cells, times);
            files.add(
                format!("{name}, one timing in {times} even"),
                file_of_timings(drive_track, 0, &timings),
            );
        }
    }
    files.0
}
