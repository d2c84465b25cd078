//! Reads one track of an Atari ST floppy disk, as flux timings, as MFM cells or as a track block of a SuperCard Pro image: its cells, its
//! sectors with their check results, and a list of copy-protection findings. Tracks of 8-bit Atari disks, whose cells are FM, are read by
//! naming their [`Density`].
//!
//! This is a thin, safe layer over the verified library. The numbers of rules in these pages are those of `docs/SPECIFICATION.md`. Each
//! function gives what its rules say, or one of the [refusals](Refusal), judged in the order in which the function names them. Nothing is
//! asked of the values passed: every number and every slice has an answer, and no function panics. [`boundary`] has the library's exports
//! as they are, for callers who lend their own memory.
//!
//! A track of 100,000 cells, every second one a one:
//!
//! ```
//! use thikbromu::{Kind, Track};
//!
//! let cells = [0xAA; 12_500];
//! let track = Track::new(&cells, 100_000, 5, 0);
//! assert_eq!(track.sectors()?.len(), 0);
//! for finding in track.findings()? {
//!     println!("{finding}");
//! }
//! assert_eq!(track.findings()?[1].kind, Kind::Tnf);
//! # Ok::<(), thikbromu::Refusal>(())
//! ```
#![deny(unsafe_code, clippy::undocumented_unsafe_blocks)]
#![warn(missing_docs)]

// The one module with unsafe code.
#[allow(unsafe_code)]
pub mod boundary;
mod coding;
mod density;
mod disk;
mod finding;
mod flux;
mod image;
mod refusal;
mod sector;
mod track;
mod track_block;
mod track_file;
mod two_reads;
mod writing;

#[doc(inline)]
pub use boundary::{
    check_word, check_word_from, clear, convert_file, decode, encode, image_sum, put_one, write_track,
    IMAGE_HEADER_BYTES, SECTOR_IMAGE_BYTES,
};
pub use coding::{decode_to_vec, encode_to_vec, MOST_BYTES_TO_CODE, MOST_BYTES_TO_DECODE};
pub use density::Density;
pub use disk::{disk_page, MOST_TRACKS};
pub use finding::{Finding, Kind, NotAKind, MOST_FINDINGS};
pub use flux::{
    histogram, separate, separate_in_density, separate_in_density_to_vec, separate_to_vec, Cells, Separation,
    Separator, Step, Stepped, HISTOGRAM_COUNTS, LONGEST_TIMING, MOST_TIMINGS, SHORTEST_TIMING,
};
pub use image::{Image, ImageBlock, ImageHeader};
pub use refusal::{NotARefusal, Refusal};
pub use sector::{ReadOut, Sector, SectorData, Sectors, LONGEST_SECTOR};
pub use track::{
    Track, TrackInDensity, FEWEST_CELLS, HIGHEST_SIDE, HIGHEST_TRACK, MOST_CELLS, MOST_CELL_BYTES, MOST_SECTORS,
};
pub use track_block::{RevolutionReader, TakenPortion, Timings, TrackBlock};
pub use track_file::{convert_file_to_vec, TrackCells, TrackFile, LONGEST_FILE, LONGEST_LISTING, LONGEST_OLD_FILE};
pub use two_reads::{compare_reads, good_read, CHECK_BYTES, LONGEST_READ};
pub use writing::{write_track_to_vec, WrittenTrack};
