//! The samples of the repository.

use std::fs;
use std::path::Path;

/// A sample: its name, its track file, and the listing beside it.
pub struct Sample {
    pub name: String,
    pub file: Vec<u8>,
    pub listing: String,
}

/// All samples. There are some.
pub fn samples() -> Vec<Sample> {
    let folder = Path::new(env!("CARGO_MANIFEST_DIR")).join("../../samples");
    let entries = fs::read_dir(folder).unwrap().map(|entry| entry.unwrap().path());
    let samples: Vec<Sample> = entries
        .filter(|path| path.extension().is_some_and(|extension| extension == "track"))
        .map(|path| Sample {
            name: path.display().to_string(),
            file: fs::read(&path).unwrap(),
            listing: fs::read_to_string(path.with_extension("listing")).unwrap(),
        })
        .collect();
    assert!(!samples.is_empty());
    samples
}
