//! Links the library's archive: that of the folder in THIKBROMU_LIBRARY, else the one that `.ci/archive` writes to
//! target/staticlib of the repository.
use std::env;
use std::path::{Path, PathBuf};

const ARCHIVE: &str = "libthikbromu.a";

fn main() {
    println!("cargo:rerun-if-env-changed=THIKBROMU_LIBRARY");
    let folder = match env::var_os("THIKBROMU_LIBRARY") {
        Some(folder) => PathBuf::from(folder),
        None => Path::new(env!("CARGO_MANIFEST_DIR")).join("../../target/staticlib"),
    };
    let archive = folder.join(ARCHIVE);
    println!("cargo:rerun-if-changed={}", archive.display());
    if !archive.is_file() {
        eprintln!("There is no {}.", archive.display());
        eprintln!("Run `.ci/archive` in the repository, or name the archive's folder in THIKBROMU_LIBRARY.");
        std::process::exit(1);
    }
    println!("cargo:rustc-link-search=native={}", folder.display());
    println!("cargo:rustc-link-lib=static=thikbromu");
}
