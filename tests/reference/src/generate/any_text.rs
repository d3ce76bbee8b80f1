//! Random bytes and random tokens.

use super::pieces::{self, Layout};
use super::random::Random;
use super::SizeClass;
use crate::tokens::WORDS;

pub fn bytes(random: &mut Random, budget: usize) -> Vec<u8> {
    let count = random.between(0, budget);
    let plain = random.one_in(2);
    let byte = |random: &mut Random| match plain {
        true => *random.pick(b"\\$\"'{}[]:,# \t\n\r01xzmaend-"),
        false => random.byte(),
    };
    (0..count).map(|_| byte(random)).collect()
}

/// Lines of tokens in no order.
pub fn tokens(random: &mut Random, size: SizeClass, budget: usize) -> Vec<u8> {
    let mut file = match random.below(6) {
        0 | 1 => Vec::new(),
        2 => b"module \\m\nprocess \\p\n".to_vec(),
        _ => b"module \\m\n".to_vec(),
    };
    while file.len() < budget {
        let count = random.between(1, 5);
        let tokens: Vec<_> = (0..count).map(|_| token(random, size)).collect();
        file.extend(pieces::line(random, Layout::Odd, &tokens));
        if random.one_in(5) {
            break;
        }
    }
    file
}

fn token(random: &mut Random, size: SizeClass) -> Vec<u8> {
    let common = [
        "wire",
        "connect",
        "parameter",
        "end",
        "cell",
        "module",
        "attribute",
        "memory",
    ];
    match random.below(6) {
        0 => random.pick(&WORDS).as_bytes().to_vec(),
        1 => random.pick(&common).as_bytes().to_vec(),
        2 => vec![*random.pick(b"{}[]:,")],
        3 => pieces::constant(random, size),
        4 => random.pick(&["\\a", "\\b", "\\m"]).as_bytes().to_vec(),
        _ => pieces::name(random, size),
    }
}
