//! The separator on a list in plain Rust that is written for speed: one pass after the judging, into a room of its own.

use second_program::refusal::Refusal;

/// Half of an offset e, and whether it is a border pulse, by the reading without its whole windows: entry part + 500.
struct Windows {
    residuals: [i16; 3_000],
    borders: [u8; 3_000],
}

static WINDOWS: Windows = windows();

const fn windows() -> Windows {
    let mut windows = Windows { residuals: [0; 3_000], borders: [0; 3_000] };
    let mut index = 0;
    while index < 3_000 {
        let part = index as i16 - 500;
        let offset = if part < 1_000 { part } else { part - 2_000 };
        windows.residuals[index] = offset / 2;
        windows.borders[index] = (offset <= -902 || offset >= 902) as u8;
        index += 1;
    }
    windows
}

/// The number of cells and of border pulses. Where the call is refused, nothing is written.
pub fn separate(timings: &[u32], packed: &mut [u8]) -> Result<(usize, usize), Refusal> {
    if timings.is_empty() {
        return Err(Refusal::no_timings());
    }
    if timings.len() > 65_536 {
        return Err(Refusal::too_many_timings(timings.len()));
    }
    let out = |timing: u32| timing.wrapping_sub(1) >= 10_000_000;
    if timings.iter().fold(false, |some, &timing| some | out(timing)) {
        return Err(Refusal::timing_out_of_range(timings.iter().position(|&timing| out(timing)).expect("one is out")));
    }
    let mut room = [0_u8; 16_385];
    let (mut cells, mut border_pulses, mut residual) = (0, 0, 0_i16);
    for &timing in timings {
        let index = ((timing % 2_000) as usize).wrapping_add_signed(isize::from(residual) + 500).min(2_999);
        residual = WINDOWS.residuals[index];
        border_pulses += usize::from(WINDOWS.borders[index]);
        let more = (timing / 2_000) as usize + usize::from(index >= 1_500);
        cells += more;
        // A one as the last of the cells; where there are none, nothing.
        let last = cells.wrapping_sub(1);
        room[(last / 8).min(16_384)] |= u8::from(more > 0) << (7 - last % 8);
    }
    if cells > 131_072 {
        return Err(Refusal::too_many_cells(cells));
    }
    let needed = cells.div_ceil(8);
    let front = packed.get_mut(..needed).ok_or(Refusal::too_little_room_for_cells(needed))?;
    front.copy_from_slice(&room[..needed]);
    Ok((cells, border_pulses))
}
