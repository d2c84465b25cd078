//! The second program: a track's cells, sectors, findings, files and blocks, and a disk's
//! page and image, in plain Rust.
//!
//! It was written from the papers that the project was given, and neither from the
//! library nor from its statements: where one of the two misreads a rule, the comparison
//! of both shows it. What the papers leave open is read as docs/DECISIONS.md says. The
//! numbers of rules in its comments are those of docs/SPECIFICATION.md.
//!
//! The inputs that its tests and the comparison use are made by the crate `test_inputs`.

pub mod cells;
pub mod check_word;
pub mod converter;
pub mod disk_page;
pub mod findings;
pub mod image;
pub mod listing;
pub mod mfm;
pub mod old_track_file;
pub mod refusal;
pub mod sector_image;
pub mod sectors;
pub mod separator;
pub mod single_density;
pub mod track_block;
pub mod track_file;
pub mod two_reads;
pub mod write_track;
