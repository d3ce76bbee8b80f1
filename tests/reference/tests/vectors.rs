//! Every vector's `.il` gives exactly its `.out`.

use reference::program;
use reference::vectors::vectors;

#[test]
fn every_vector_agrees() {
    let vectors = vectors();
    assert!(vectors.len() >= 720);
    let differs = vectors
        .iter()
        .filter(|one| program(&one.file) != one.written);
    let names: Vec<_> = differs.map(|one| &one.name).collect();
    assert!(names.is_empty(), "these differ: {names:?}");
}

/// Written texts among the vectors are read back to themselves.
#[test]
fn written_vectors_are_fixed() {
    for one in vectors() {
        let refusal = one.written.first().is_some_and(u8::is_ascii_digit);
        assert!(
            refusal || program(&one.written) == one.written,
            "{}",
            one.name
        );
    }
}
