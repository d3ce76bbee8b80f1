//! The program equals the reference byte for byte, and its texts read back as themselves.

use program::answer;
use reference::generate::generated_or_mutated;
use reference::vectors::{vectors, Vector};

/// GENERATED_FILES, or 2,000.
fn count() -> u64 {
    let asked = std::env::var("GENERATED_FILES").ok();
    asked.and_then(|n| n.parse().ok()).unwrap_or(2_000)
}

fn check(seed: u64, vectors: &[Vector]) {
    let file = generated_or_mutated(seed, vectors);
    let text = answer(&file);
    assert!(text == reference::program(&file), "seed {seed}");
    if reference::read(&file).is_ok() && text != b"12 0\n" {
        assert!(answer(&text) == text, "seed {seed}, its text again");
    }
}

#[test]
fn equals_the_reference() {
    let (half, vectors) = (count() / 2, &vectors());
    std::thread::scope(|both| {
        both.spawn(move || (0..half).for_each(|seed| check(seed, vectors)));
        (half..count()).for_each(|seed| check(seed, vectors));
    });
}

#[test]
fn input_over_the_limit_is_2() {
    assert_eq!(answer(&vec![b' '; 32_768]), b"");
    assert_eq!(answer(&vec![b' '; 32_769]), b"2 0\n");
    assert_eq!(answer(&vec![b' '; 100_000]), b"2 0\n");
}
