//! A line as tokens. One bad token makes the whole line bad (refusal 4).

use crate::bytes::{
    is_blank, is_mark, is_name, is_name_byte, is_octal, is_value_digit, may_follow,
};

pub type Name = Vec<u8>;

/// The keywords of the text grammar, those of processes too.
pub const WORDS: [&str; 32] = [
    "autoidx",
    "module",
    "end",
    "parameter",
    "attribute",
    "connect",
    "wire",
    "width",
    "offset",
    "input",
    "output",
    "inout",
    "upto",
    "signed",
    "memory",
    "size",
    "cell",
    "real",
    "process",
    "assign",
    "switch",
    "case",
    "sync",
    "global",
    "init",
    "always",
    "low",
    "high",
    "posedge",
    "negedge",
    "edge",
    "update",
];

/// Larger magnitudes are held as this one; all of them are outside 32 bits.
const LARGE: u64 = 1 << 40;

#[derive(Debug, Clone, PartialEq, Eq)]
pub enum Token {
    Name(Name),
    Word(&'static str),
    Integer(i64),
    /// Width and digits, highest first, as they stand.
    Value(u64, Vec<u8>),
    /// The decoded bytes.
    String(Vec<u8>),
    Mark(u8),
}

/// The tokens of a line; or where in it its leftmost bad token starts.
pub fn tokens(line: &[u8]) -> Result<Vec<Token>, usize> {
    let mut tokens = Vec::new();
    let mut rest = line;
    while let Some(&byte) = rest.first() {
        if byte == b'#' {
            break;
        }
        if is_blank(byte) {
            rest = &rest[1..];
            continue;
        }
        let (token, length) = token(byte, rest).ok_or(line.len() - rest.len())?;
        tokens.push(token);
        rest = &rest[length..];
    }
    Ok(tokens)
}

/// The token that starts `rest`, whose first byte is `byte`, and its length.
fn token(byte: u8, rest: &[u8]) -> Option<(Token, usize)> {
    if is_mark(byte) {
        return Some((Token::Mark(byte), 1));
    }
    if byte == b'\\' || byte == b'$' {
        return name(rest);
    }
    let (token, length) = match byte {
        b'a'..=b'z' => word(rest)?,
        b'0'..=b'9' | b'-' => number(rest)?,
        b'"' => string(rest)?,
        _ => return None,
    };
    may_follow(rest.get(length).copied()).then_some((token, length))
}

/// How many bytes of the class stand first.
fn run(bytes: &[u8], class: impl Fn(u8) -> bool) -> usize {
    bytes.iter().take_while(|&&byte| class(byte)).count()
}

fn name(rest: &[u8]) -> Option<(Token, usize)> {
    let length = run(rest, is_name_byte);
    let name = &rest[..length];
    is_name(name).then(|| (Token::Name(name.to_vec()), length))
}

fn word(rest: &[u8]) -> Option<(Token, usize)> {
    let length = run(rest, |byte| byte.is_ascii_lowercase());
    let word = WORDS
        .iter()
        .find(|word| word.as_bytes() == &rest[..length])?;
    Some((Token::Word(word), length))
}

/// An integer or a value.
fn number(rest: &[u8]) -> Option<(Token, usize)> {
    let negative = rest[0] == b'-';
    let start = usize::from(negative);
    let count = run(&rest[start..], |byte| byte.is_ascii_digit());
    if count == 0 {
        return None;
    }
    let end = start + count;
    let magnitude = magnitude(&rest[start..end]);
    if !negative && rest.get(end) == Some(&b'\'') {
        let digits = &rest[end + 1..];
        let length = run(digits, is_value_digit);
        return Some((
            Token::Value(magnitude, digits[..length].to_vec()),
            end + 1 + length,
        ));
    }
    let sign = if negative { -1 } else { 1 };
    Some((Token::Integer(sign * magnitude as i64), end))
}

/// The number that the digits mean, held to `LARGE`.
fn magnitude(digits: &[u8]) -> u64 {
    digits.iter().fold(0, |number, digit| {
        (number * 10 + u64::from(digit - b'0')).min(LARGE)
    })
}

/// A string with both its quotes, decoded.
fn string(rest: &[u8]) -> Option<(Token, usize)> {
    let mut decoded = Vec::new();
    let mut at = 1;
    loop {
        match *rest.get(at)? {
            b'"' => return Some((Token::String(decoded), at + 1)),
            b'\\' => {
                let (byte, length) = escape(&rest[at + 1..])?;
                decoded.push(byte);
                at += 1 + length;
            }
            0 => return None,
            byte => {
                decoded.push(byte);
                at += 1;
            }
        }
    }
}

/// The byte meant by what follows a `\` in a string, and how many bytes that is.
fn escape(rest: &[u8]) -> Option<(u8, usize)> {
    match *rest.first()? {
        0 => None,
        b'n' => Some((b'\n', 1)),
        b't' => Some((b'\t', 1)),
        byte if is_octal(byte) => {
            let length = run(rest, is_octal).min(3);
            let number = rest[..length]
                .iter()
                .fold(0, |number, digit| number * 8 + u32::from(digit - b'0'));
            let byte = u8::try_from(number).ok().filter(|&byte| byte != 0)?;
            Some((byte, length))
        }
        byte => Some((byte, 1)),
    }
}
