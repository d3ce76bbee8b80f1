//! Classes of bytes, and what a name is.

use crate::sizes::NAME_LENGTH;

pub fn is_line_end(byte: u8) -> bool {
    byte == 10 || byte == 13
}

/// Space or tab.
pub fn is_blank(byte: u8) -> bool {
    byte == b' ' || byte == b'\t'
}

pub fn is_mark(byte: u8) -> bool {
    b"{}[]:,".contains(&byte)
}

pub fn is_value_digit(byte: u8) -> bool {
    b"01xzm-".contains(&byte)
}

pub fn is_octal(byte: u8) -> bool {
    (b'0'..=b'7').contains(&byte)
}

/// A byte that can stand in a name.
pub fn is_name_byte(byte: u8) -> bool {
    byte > 32
}

/// May this byte, or the line's end, follow a word, integer, value or string?
pub fn may_follow(next: Option<u8>) -> bool {
    next.is_none_or(|byte| is_blank(byte) || is_line_end(byte) || is_mark(byte) || byte == b'#')
}

/// `\` or `$`, then one or more bytes above 32, at most 255 bytes in all.
pub fn is_name(bytes: &[u8]) -> bool {
    let sigil = matches!(bytes.first(), Some(b'\\' | b'$'));
    sigil
        && (2..=NAME_LENGTH).contains(&bytes.len())
        && bytes.iter().all(|&byte| is_name_byte(byte))
}
