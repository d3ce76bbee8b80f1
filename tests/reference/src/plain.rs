//! Names in plain letters, the way back, and the listing of a module's wires.

use crate::bytes::is_name;
use crate::session::Session;
use crate::statements::{ModuleNumber, WireNumber};
use crate::tokens::Name;

const BAD_NAME: u32 = 4;
const NOT_THERE: u32 = 8;
const NO_ROOM: u32 = 12;
const NO_PLAIN_FORM: u32 = 14;

/// The answer, or 12 if it is longer than the room.
fn in_room(answer: Vec<u8>, room: usize) -> Result<Vec<u8>, u32> {
    match answer.len() > room {
        true => Err(NO_ROOM),
        false => Ok(answer),
    }
}

/// The form of a name in letters, digits and underlines: 4, then 12.
pub fn plain_form(name: &[u8], room: usize) -> Result<Vec<u8>, u32> {
    match is_name(name) {
        true => in_room(form(name), room),
        false => Err(BAD_NAME),
    }
}

/// The form of a legal name.
fn form(name: &[u8]) -> Vec<u8> {
    let first = if name[0] == b'\\' { b'p' } else { b'a' };
    let later = name[1..].iter().flat_map(|&byte| match byte {
        b'A'..=b'Z' | b'a'..=b'z' | b'0'..=b'9' => vec![byte],
        _ => format!("_{byte:02x}").into_bytes(),
    });
    [first].into_iter().chain(later).collect()
}

/// The name that has this plain form: 14 if none has, then 12.
pub fn name_of(plain: &[u8], room: usize) -> Result<Name, u32> {
    let name = spelled(plain).filter(|name| is_name(name) && form(name) == plain);
    in_room(name.ok_or(NO_PLAIN_FORM)?, room)
}

/// The bytes that a form spells, whether or not they are a name of that form.
fn spelled(plain: &[u8]) -> Option<Vec<u8>> {
    let mut name = match plain.first()? {
        b'p' => vec![b'\\'],
        b'a' => vec![b'$'],
        _ => return None,
    };
    let mut rest = &plain[1..];
    while let Some((&first, behind)) = rest.split_first() {
        let (byte, left) = match first {
            b'_' => {
                let digits = std::str::from_utf8(behind.get(..2)?).ok()?;
                (u8::from_str_radix(digits, 16).ok()?, &behind[2..])
            }
            letter => (letter, behind),
        };
        name.push(byte);
        rest = left;
    }
    Some(name)
}

/// The wires of a module in order, by their names now, one line each: plain form, a space, the name to show: 8, then 12.
pub fn listing(session: &Session, module: ModuleNumber, room: usize) -> Result<Vec<u8>, u32> {
    let held = session.design_read().module(module).ok_or(NOT_THERE)?;
    let mut lines = Vec::new();
    for wire in (0..held.wires.len()).map(WireNumber) {
        let name = session.name_now(module, wire).ok_or(NOT_THERE)?;
        lines.extend(form(name));
        lines.push(b' ');
        for &byte in session.show(module, wire)? {
            lines.extend(printed(byte));
        }
        lines.push(b'\n');
    }
    in_room(lines, room)
}

/// A byte below 32 is escaped as in a written string; all others stand as they are.
fn printed(byte: u8) -> Vec<u8> {
    match byte {
        b'\n' => b"\\n".to_vec(),
        b'\t' => b"\\t".to_vec(),
        0..=31 => format!("\\{byte:03o}").into_bytes(),
        _ => vec![byte],
    }
}
