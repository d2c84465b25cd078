//! MFM coding and decoding.

use crate::boundary::{decode, encode};
use crate::refusal::Refusal;

/// The most bytes that one call codes.
pub const MOST_BYTES_TO_CODE: usize = 8_192;

/// The most bytes of cells that one call decodes.
pub const MOST_BYTES_TO_DECODE: usize = 16_384;

/// As [`encode`], into a vector of the length needed. Refuses [`TooManyBytes`](Refusal::TooManyBytes).
pub fn encode_to_vec(bytes: &[u8], before: bool) -> Result<Vec<u8>, Refusal> {
    // The room of the most that is coded also lets a call with too many bytes be refused without reserving room for them.
    let mut cells = vec![0; 2 * bytes.len().min(MOST_BYTES_TO_CODE)];
    let written = encode(bytes, before, &mut cells)?;
    cells.truncate(written);
    Ok(cells)
}

/// As [`decode`], into a vector of the length needed. Refuses [`TooManyBytes`](Refusal::TooManyBytes).
pub fn decode_to_vec(cells: &[u8]) -> Result<Vec<u8>, Refusal> {
    let mut bytes = vec![0; cells.len().min(MOST_BYTES_TO_DECODE) / 2];
    let written = decode(cells, &mut bytes)?;
    bytes.truncate(written);
    Ok(bytes)
}
