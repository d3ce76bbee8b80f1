//! The files that the tests read beside the vectors.

use reference::generate::{self, SizeClass};

/// The generated file of this seed.
pub fn generated(seed: u64) -> Vec<u8> {
    generate::file(seed, SizeClass::of(seed))
}

/// How many generated files a test takes: GENERATED_FILES, or this many.
pub fn count(default: u64) -> u64 {
    let asked = std::env::var("GENERATED_FILES").ok();
    asked
        .and_then(|count| count.parse().ok())
        .unwrap_or(default)
}
