//! Filling memory that held anything answers and leaves what the reference says, the check answers the same but for 1, and the text written from there is the
//! reference's.
//! GENERATED_FILES=1000000 asks for more files than the default; `--nocapture` shows what they gave.

use library::expected::{reading, text_is_of};
use library::files::{count, generated};
use library::tables::any_card;
use library::{check, fill, Card, Tables};
use reference::generate::generated_or_mutated;
use reference::generate::random::Random;
use reference::vectors::vectors;
use reference::Design;
use std::collections::BTreeMap;

/// The first thing that differs, if any does.
fn difference(file: &[u8], tables: &mut Tables, card: &mut Card) -> Option<&'static str> {
    let expected = reading(file, tables, *card);
    let answer = fill(file, tables, card);
    let same = [
        ("check", check(file) == reference::check(file)),
        ("number", answer.number == expected.answer.number),
        ("place", answer.place == expected.answer.place),
        ("names", tables.names == expected.tables.names),
        ("strings", tables.strings == expected.tables.strings),
        ("bits", tables.bits == expected.tables.bits),
        ("wires", tables.wires == expected.tables.wires),
        ("rows", tables.rows == expected.tables.rows),
        ("card", *card == expected.card),
    ];
    same.iter().find(|one| !one.1).map(|one| one.0)
}

#[test]
fn every_vector() {
    let vectors = vectors();
    assert!(vectors.len() >= 720);
    let mut random = Random::new(1);
    let mut tables = Tables::zeroed();
    for one in vectors {
        tables.fill(&mut random);
        let mut card = any_card(&mut random);
        let difference = difference(&one.file, &mut tables, &mut card);
        assert_eq!(difference, None, "{}", one.name);
    }
}

/// Writing and measuring, and reading the text: the number, 0 or 12.
fn check_text(seed: u64, tables: &mut Tables, mut card: Card, design: &Design) -> u32 {
    assert!(text_is_of(tables, card, design), "text of seed {seed}");
    let text = reference::text::text(design);
    let different = difference(&text, tables, &mut card);
    assert_eq!(different, None, "seed {seed}, its text again");
    reference::measure(design).err().unwrap_or(0)
}

/// Generated and mutated files, and the written texts of those that are accepted.
#[test]
fn generated_and_mutated_files() {
    let vectors = vectors();
    let mut tables = Tables::zeroed();
    let mut numbers = BTreeMap::new();
    for seed in 0..count(20_000) {
        let mut random = Random::new(!seed);
        tables.fill(&mut random);
        let mut card = any_card(&mut random);
        let file = generated_or_mutated(seed, &vectors);
        let different = difference(&file, &mut tables, &mut card);
        assert_eq!(different, None, "seed {seed}");
        let number = match reference::read(&file) {
            Ok(netlist) => check_text(seed, &mut tables, card, &netlist.design()),
            Err(refusal) => refusal.number,
        };
        *numbers.entry(number).or_insert(0) += 1;
    }
    println!("files by number, of reading or of writing: {numbers:?}");
}

/// Reading twice into the same memory: nothing of the first file stays.
#[test]
fn one_file_after_another() {
    let mut tables = Tables::zeroed();
    let mut card = Card::default();
    for seed in 0..1_000 {
        let file = generated(seed);
        let different = difference(&file, &mut tables, &mut card);
        assert_eq!(different, None, "seed {seed}");
    }
}

#[test]
fn wrong_lengths_touch_nothing() {
    let mut random = Random::new(2);
    for file in [&b""[..], b"module \\m\nend\n", &[b'x'; 32_769]] {
        for wrong in 0..15 {
            let mut tables = Tables::zeroed();
            let lengthen = |length: usize| match wrong / 5 {
                0 => length - 1,
                1 => length + 1,
                _ => 0,
            };
            tables.resize(wrong % 5, lengthen);
            tables.fill(&mut random);
            let mut card = any_card(&mut random);
            let different = difference(file, &mut tables, &mut card);
            assert_eq!(different, None, "case {wrong}");
        }
    }
}
