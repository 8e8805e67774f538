//! The programs as `rt` builds them, and the folders that they are run in.

use std::fs;
use std::path::{Path, PathBuf};

/// A program that `rt` has built.
pub fn program(name: &str) -> PathBuf {
    let path = Path::new(env!("CARGO_MANIFEST_DIR"))
        .join("../crates")
        .join(name)
        .join("out")
        .join(name);
    assert!(
        path.exists(),
        "{} is missing: run `rt run` in crates/{name} first",
        path.display()
    );
    path.canonicalize().unwrap()
}

/// A new folder at this place with these files.
pub fn folder(place: &Path, family: Option<&[u8]>, path: Option<&[u8]>) -> PathBuf {
    let _ = fs::remove_dir_all(place);
    fs::create_dir_all(place).unwrap();
    if let Some(bytes) = family {
        fs::write(place.join("family.phf"), bytes).unwrap();
    }
    if let Some(bytes) = path {
        fs::write(place.join("path.u16"), bytes).unwrap();
    }
    place.to_path_buf()
}
