//! Links the proved library, from the folder that SKYTASSEL_LIB_DIR names, else from where include/library.sh writes it.

use std::env;
use std::path::{Path, PathBuf};
use std::process::exit;

const FOLDER: &str = "SKYTASSEL_LIB_DIR";

fn main() {
    let written = || Path::new(env!("CARGO_MANIFEST_DIR")).join("../target/staticlib");
    let folder = env::var_os(FOLDER).map_or_else(written, PathBuf::from);
    let archive = folder.join("libskytassel.a");
    println!("cargo:rerun-if-env-changed={FOLDER}");
    println!("cargo:rerun-if-changed={}", archive.display());
    if !archive.is_file() {
        eprintln!("{} is not there.", archive.display());
        eprintln!("Make it in Skytassel's folder by `bash include/library.sh`,");
        eprintln!("or name the folder that has it, from the root on, in {FOLDER}.");
        exit(1);
    }
    println!("cargo:rustc-link-search=native={}", folder.display());
    println!("cargo:rustc-link-lib=static=skytassel");
}
