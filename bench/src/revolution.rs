//! The timings of a revolution of a track block in plain Rust, as measures: in one pass into a vector, in two passes into a lent list, and
//! in portions. A refusal is its number alone.

/// The values of the chosen revolution, or 16 or 17.
fn values(block: &[u8], revolutions: u32, revolution: u32) -> Result<&[u8], u32> {
    let table_end = 4 + 12 * revolutions as usize;
    if !block.starts_with(b"TRK") || block.len() < table_end {
        return Err(16);
    }
    let mut chosen = Err(17);
    for (index, entry) in block[4..table_end].chunks_exact(12).enumerate() {
        let number = |at: usize| u32::from_le_bytes(entry[at..at + 4].try_into().expect("four bytes")) as usize;
        let (start, end) = (number(8), number(8) + 2 * number(4));
        if start < table_end || end > block.len() || block[start..end].ends_with(&[0, 0]) {
            return Err(16);
        }
        if index == revolution as usize {
            chosen = Ok(&block[start..end]);
        }
    }
    chosen
}

/// Hands the timings that end in these values to `each`, with the zeros before the first of them; gives those after the last. From seven
/// zeros on a timing is out of range whatever value ends it.
#[inline]
fn each_timing(values: &[u8], mut zeros: u32, mut each: impl FnMut(u32)) -> u32 {
    for value in values.chunks_exact(2) {
        let value = u32::from(u16::from_be_bytes([value[0], value[1]]));
        if value == 0 {
            zeros = (zeros + 1).min(7);
        } else {
            each(25 * (65_536 * zeros + value));
            zeros = 0;
        }
    }
    zeros
}

/// The refusal of so many timings, one of which may be out of range.
fn judged(count: usize, out_of_range: bool) -> Result<(), u32> {
    match count {
        0 => Err(6),
        65_537.. => Err(7),
        _ if out_of_range => Err(8),
        _ => Ok(()),
    }
}

/// All timings put into a vector as they come, and judged after that.
pub fn one_pass(block: &[u8], revolutions: u32, revolution: u32) -> Result<Vec<u32>, u32> {
    let values = values(block, revolutions, revolution)?;
    let mut timings = Vec::with_capacity(values.len() / 2);
    let mut out_of_range = false;
    each_timing(values, 0, |timing| {
        out_of_range |= timing > 10_000_000;
        timings.push(timing);
    });
    judged(timings.len(), out_of_range)?;
    Ok(timings)
}

/// The timings counted and judged, and then put into a list, of which a refused call writes nothing.
pub fn two_passes(block: &[u8], revolutions: u32, revolution: u32, list: &mut [u32]) -> Result<usize, u32> {
    let values = values(block, revolutions, revolution)?;
    let (mut count, mut out_of_range) = (0, false);
    each_timing(values, 0, |timing| {
        out_of_range |= timing > 10_000_000;
        count += 1;
    });
    judged(count, out_of_range)?;
    let list = list.get_mut(..count).ok_or(10_u32)?;
    let mut places = list.iter_mut();
    each_timing(values, 0, |timing| {
        if let Some(place) = places.next() {
            *place = timing;
        }
    });
    Ok(count)
}

/// What is carried from portion to portion.
#[derive(Clone, Copy, Default)]
pub struct Carried {
    held: Option<u8>,
    zeros: u32,
    ended: usize,
}

impl Carried {
    /// A portion, whose timings are put into the vector as they come; beside a refusal it is cleared, and the state stays.
    pub fn take(&mut self, portion: &[u8], timings: &mut Vec<u32>) -> Result<usize, u32> {
        timings.clear();
        let mut out_of_range = false;
        let mut each = |timing| {
            out_of_range |= timing > 10_000_000;
            timings.push(timing);
        };
        let (mut zeros, mut rest) = (self.zeros, portion);
        if let (Some(held), Some((&second, after))) = (self.held, portion.split_first()) {
            zeros = each_timing(&[held, second], zeros, &mut each);
            rest = after;
        }
        zeros = each_timing(rest, zeros, &mut each);
        let ended = self.ended + timings.len();
        if ended > 65_536 || out_of_range {
            timings.clear();
            return Err(if ended > 65_536 { 7 } else { 8 });
        }
        let held = if rest.len() % 2 == 1 { rest.last().copied() } else { self.held.filter(|_| portion.is_empty()) };
        *self = Carried { held, zeros, ended };
        Ok(timings.len())
    }
}
