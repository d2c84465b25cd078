//! A drive that reads cells: its speed drifts, its pulses shake, and the device counts in units of 25 ns.

use crate::image::Revolution;
use test_inputs::random::Random;

/// The nanoseconds of a cell at the right speed.
const CELL: i64 = 2_000;
/// The nanoseconds of a unit.
const UNIT: i64 = 25;

/// How far a drive is off: by how many nanoseconds a cell may be longer or shorter, and how far a pulse may be away from its place.
#[derive(Clone, Copy, Debug)]
pub struct Fault {
    pub drift: i64,
    pub jitter: i64,
}

impl Fault {
    /// A drive in good order.
    pub const NONE: Fault = Fault { drift: 0, jitter: 0 };
    /// What a drive may do without a cell being lost (rule 4.14), the 13 ns that counting in units can add among it: 8 D + 2 J is at most 998.
    pub const USUAL: Fault = Fault { drift: 40, jitter: 220 };
}

/// The revolutions that a device reports of a track, the cells of each given one to an element. As it starts at the index, the first value of
/// the first revolution goes from there to a pulse; each later revolution begins with the whole interval over the index.
pub fn revolutions(random: &mut Random, fault: Fault, rounds: &[Vec<u8>]) -> Vec<Revolution> {
    let mut reported = Vec::new();
    let (mut time, mut drift, mut last_pulse) = (0, 0, 0);
    for cells in rounds {
        let began = time;
        let mut units = Vec::new();
        for &cell in cells {
            // The speed changes slowly.
            drift = (drift + random.between(-1, 1)).clamp(-fault.drift, fault.drift);
            time += CELL + drift;
            if cell == 1 {
                let pulse = (time + random.between(-fault.jitter, fault.jitter) + UNIT / 2) / UNIT;
                // Two pulses are never told at one place.
                let pulse = pulse.max(last_pulse + 1);
                units.push((pulse - last_pulse) as u32);
                last_pulse = pulse;
            }
        }
        reported.push(Revolution { index_time: ((time - began) / UNIT) as u32, units });
    }
    reported
}

#[cfg(test)]
mod tests {
    use super::*;

    #[test]
    fn intervals_over_the_index_are_whole() {
        let rounds = vec![vec![0, 1, 0, 0, 1, 0]; 2];
        let read = revolutions(&mut Random::new(1), Fault::NONE, &rounds);
        assert_eq!(read[0], Revolution { index_time: 480, units: vec![160, 240] });
        assert_eq!(read[1], Revolution { index_time: 480, units: vec![240, 240] });
    }

    #[test]
    fn the_usual_fault_loses_no_cell() {
        let Fault { drift, jitter } = Fault::USUAL;
        assert!(8 * drift + 2 * (jitter + 13) <= 998);
    }
}
