//! Accepted generated files hold values with fewer digits than their width: of each top digit, and of none, in attributes, parameters and
//! connections.

use reference::generate::{self, SizeClass};
use reference::lines::lines;
use reference::read;
use reference::tokens::{tokens, Token};
use std::collections::BTreeMap;

const FILES: u64 = 2_000;
const PLACES: [&str; 3] = ["attribute", "parameter", "connect"];
const TOPS: [Option<u8>; 7] = [
    None,
    Some(b'0'),
    Some(b'1'),
    Some(b'x'),
    Some(b'z'),
    Some(b'm'),
    Some(b'-'),
];

type Short = (&'static str, Option<u8>);

/// The line's first word with the top digit of each of its short values.
fn short_values(line: &[u8]) -> Vec<Short> {
    let tokens = tokens(line).expect("an accepted line has no bad token");
    let Some(&Token::Word(word)) = tokens.first() else {
        return Vec::new();
    };
    let top = |token: &Token| match token {
        Token::Value(width, digits) if (digits.len() as u64) < *width => {
            Some((word, digits.first().copied()))
        }
        _ => None,
    };
    tokens.iter().filter_map(top).collect()
}

#[test]
fn every_top_digit_everywhere() {
    let files = (0..FILES).map(|seed| generate::well_formed_file(seed, SizeClass::of(seed)));
    let mut met: BTreeMap<Short, u32> = BTreeMap::new();
    for file in files.filter(|file| read(file).is_ok()) {
        for short in lines(&file).flat_map(|line| short_values(line.bytes)) {
            *met.entry(short).or_insert(0) += 1;
        }
    }
    println!("short values by place and top digit: {met:?}");
    for place in PLACES {
        for top in TOPS {
            assert!(met.contains_key(&(place, top)), "no {top:?} in {place}");
        }
    }
}
