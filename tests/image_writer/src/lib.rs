//! Writes whole SuperCard Pro images for the tests: tracks of cells, turned by a drive that drifts and shakes into flux values, and put into
//! blocks behind a header.
//!
//! It shares no code with what reads images, neither with the library nor with the second program. The papers that the project was given do not lay
//! out an image's header, so that it was written from what is generally known of the maker's format, as these were; no image that a device wrote has
//! been tried. Nothing here says what is found on a disk; of a plain
//! disk the bytes that were put on it are kept.

pub mod disks;
pub mod drive;
pub mod image;
