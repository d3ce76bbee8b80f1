//! The files of tests/vectors, each with what the program must write.

use std::fs;
use std::path::{Path, PathBuf};

pub struct Vector {
    pub name: String,
    pub file: Vec<u8>,
    pub written: Vec<u8>,
}

/// Every vector, in order of names.
pub fn vectors() -> Vec<Vector> {
    let folder = Path::new(env!("CARGO_MANIFEST_DIR")).join("../vectors");
    let entries = fs::read_dir(folder).expect("the vectors are there");
    let mut paths: Vec<PathBuf> = entries
        .map(|entry| entry.expect("a readable entry").path())
        .filter(|path| path.extension().is_some_and(|one| one == "il"))
        .collect();
    paths.sort();
    paths.iter().map(|path| vector(path)).collect()
}

fn vector(path: &Path) -> Vector {
    let name = path.file_stem().expect("a file's name");
    Vector {
        name: name.to_string_lossy().into_owned(),
        file: fs::read(path).expect("a readable .il"),
        written: fs::read(path.with_extension("out")).expect("an .out beside the .il"),
    }
}
