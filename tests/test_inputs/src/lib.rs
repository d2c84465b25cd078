//! Inputs for the tests: tracks, flux timings, track files of today and old ones, track blocks
//! and disks, sound and broken, made by hand or at random from a seed.
//!
//! Nothing here says what a program should answer. Cells and check words are made by the
//! second program, whose own tests, the comparison, the samples and the benchmarks use
//! these inputs. The tests in this crate show that the inputs are what they are said to
//! be, and that together they reach every finding and every refusal. The numbers of rules
//! are those of docs/SPECIFICATION.md.

pub mod block_inputs;
pub mod disk_inputs;
pub mod file_inputs;
pub mod flux_inputs;
pub mod image_tracks;
pub mod old_file_inputs;
pub mod random;
pub mod read_pairs;
pub mod single_density_flux;
pub mod single_density_tracks;
pub mod size_code_tracks;
pub mod track_builder;
pub mod write_lists;
