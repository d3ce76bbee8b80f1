//! Single tokens: names, numbers, values and strings, and tokens put on a line.

use super::random::Random;
use super::SizeClass;
use crate::bytes::is_mark;

pub type Tokens = Vec<Vec<u8>>;

pub fn token(text: impl AsRef<[u8]>) -> Vec<u8> {
    text.as_ref().to_vec()
}

/// Space-separated plain tokens.
pub fn split(text: impl AsRef<str>) -> Tokens {
    text.as_ref()
        .split(' ')
        .filter(|part| !part.is_empty())
        .map(token)
        .collect()
}

pub fn name(random: &mut Random, size: SizeClass) -> Vec<u8> {
    let sigil = if random.one_in(3) { b'$' } else { b'\\' };
    let odd: [&[u8]; 12] = [
        b"a[3]",
        b"[0:0]",
        b"\"",
        b"#",
        b"{",
        b"}",
        b"end",
        b"\\",
        b"$",
        b"\xc3\xa9",
        b"e\xcc\x81",
        b"1'0",
    ];
    let letters = b"abcdefgxyzABCXYZ0123456789_.";
    let rest = match random.below(8) {
        0 => odd[random.below(odd.len())].to_vec(),
        1 => (0..random.between(1, 4))
            .map(|_| (33 + random.below(223)) as u8)
            .collect(),
        2 if size != SizeClass::Small => {
            let length = if random.one_in(4) {
                254
            } else {
                random.between(1, 40)
            };
            (0..length).map(|_| *random.pick(letters)).collect()
        }
        _ => (0..random.between(1, 3))
            .map(|_| *random.pick(letters))
            .collect(),
    };
    [vec![sigil], rest].concat()
}

/// An integer in 32 bits, also with leading zeros and as `-0`.
pub fn integer(random: &mut Random) -> Vec<u8> {
    let edges = [
        "0",
        "-0",
        "1",
        "-1",
        "2147483647",
        "-2147483648",
        "007",
        "-0001",
        "1337",
    ];
    match random.below(3) {
        0 => token(random.pick(&edges)),
        1 => token(random.below(40).to_string()),
        _ => token((random.number() as i32).to_string()),
    }
}

fn digits(random: &mut Random, count: usize) -> Vec<u8> {
    (0..count).map(|_| *random.pick(b"01xzm-")).collect()
}

/// How many digits a value of this width is written with: mostly all, sometimes fewer, then often one or none.
fn digit_count(random: &mut Random, width: usize) -> usize {
    match random.below(9) {
        0 => 0,
        1 => width.min(1),
        2 | 3 => random.between(0, width),
        _ => width,
    }
}

/// A value of this width, sometimes with too few digits or zeros before the width.
pub fn value(random: &mut Random, width: usize) -> Vec<u8> {
    let count = digit_count(random, width);
    let zeros = if random.one_in(10) { "0" } else { "" };
    [
        format!("{zeros}{width}'").into_bytes(),
        digits(random, count),
    ]
    .concat()
}

pub fn width(random: &mut Random, size: SizeClass) -> usize {
    match random.below(12) {
        0 => 0,
        1 | 2 => 1,
        3 if size == SizeClass::Large => *random.pick(&[2_047, 2_048, 1_024, 300]),
        4 if size != SizeClass::Small => random.between(1, 80),
        _ => random.between(1, 9),
    }
}

/// A string token that means these bytes, none of them 0, escaped as chance has it.
pub fn string(random: &mut Random, bytes: &[u8]) -> Vec<u8> {
    let mut text = vec![b'"'];
    for (at, &byte) in bytes.iter().enumerate() {
        let octal_next = bytes
            .get(at + 1)
            .is_some_and(|next| (b'0'..=b'7').contains(next));
        text.extend(string_byte(random, byte, octal_next));
    }
    text.push(b'"');
    text
}

fn string_byte(random: &mut Random, byte: u8, octal_next: bool) -> Vec<u8> {
    let octal = |random: &mut Random| match random.below(2) {
        0 if !octal_next => format!("\\{byte:o}").into_bytes(),
        _ => format!("\\{byte:03o}").into_bytes(),
    };
    match byte {
        b'\n' if random.one_in(2) => b"\\n".to_vec(),
        b'\t' if random.one_in(3) => b"\\t".to_vec(),
        10 | 13 => octal(random),
        b'"' | b'\\' if random.one_in(4) => octal(random),
        b'"' | b'\\' => vec![b'\\', byte],
        b'n' | b't' | b'0'..=b'7' => vec![byte],
        _ if random.one_in(8) => octal(random),
        _ if random.one_in(8) => vec![b'\\', byte],
        _ => vec![byte],
    }
}

pub fn string_bytes(random: &mut Random, count: usize) -> Vec<u8> {
    let any = random.one_in(3);
    let byte = |random: &mut Random| match any {
        true => random.between(1, 255) as u8,
        false => *random.pick(b"abcn t017 \"\\#{}.:"),
    };
    (0..count).map(|_| byte(random)).collect()
}

pub fn constant(random: &mut Random, size: SizeClass) -> Vec<u8> {
    match random.below(3) {
        0 => integer(random),
        1 => {
            let width = width(random, size);
            value(random, width)
        }
        _ => {
            let longest = if size == SizeClass::Small { 6 } else { 30 };
            let count = random.between(0, longest);
            let bytes = string_bytes(random, count);
            string(random, &bytes)
        }
    }
}

/// How a file is laid out.
#[derive(Debug, Clone, Copy, PartialEq, Eq)]
pub enum Layout {
    Plain,
    Odd,
}

fn is_name(token: &[u8]) -> bool {
    matches!(token.first(), Some(b'\\' | b'$'))
}

fn blanks(random: &mut Random, least: usize) -> Vec<u8> {
    let count = least + if random.one_in(4) { random.below(3) } else { 0 };
    (0..count).map(|_| *random.pick(b"   \t")).collect()
}

/// A line of tokens with its line end.
pub fn line(random: &mut Random, layout: Layout, tokens: &[Vec<u8>]) -> Vec<u8> {
    if layout == Layout::Plain {
        return [tokens.join(&b' '), b"\n".to_vec()].concat();
    }
    let mut line = blanks(random, 0);
    for (at, token) in tokens.iter().enumerate() {
        if at > 0 {
            let before = &tokens[at - 1];
            let mark = is_mark(before[0]) || is_mark(token[0]);
            let may_touch = mark && !is_name(before);
            let least = usize::from(!may_touch || random.one_in(2));
            line.extend(blanks(random, least));
        }
        line.extend(token);
    }
    line.extend(line_tail(
        random,
        tokens.last().is_some_and(|last| is_name(last)),
    ));
    line
}

/// Blanks, perhaps a comment, and one or more line ends.
fn line_tail(random: &mut Random, after_name: bool) -> Vec<u8> {
    let mut tail = blanks(random, 0);
    if random.one_in(10) {
        if after_name && tail.is_empty() {
            tail.push(b' ');
        }
        tail.push(b'#');
        let count = random.below(8);
        tail.extend(
            (0..count)
                .map(|_| random.byte())
                .filter(|&byte| byte != 10 && byte != 13),
        );
    }
    let ends: [&[u8]; 7] = [
        b"\n",
        b"\n",
        b"\n",
        b"\r\n",
        b"\r",
        b"\n\n",
        b"\n  # note \x00\r",
    ];
    tail.extend(*random.pick(&ends));
    tail
}
