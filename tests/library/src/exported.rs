//! The exported calls on tables of any lengths, by number: 0 is none. A refused call gives 0 beside its number.

use crate::tables::{Card, Tables};
use reference::Refusal;
use skytassel::lent;
pub use skytassel::sys::Answer;
use skytassel::{ModuleNumber, Refused};

/// What an asking call gives, or its number.
fn given<T: PartialEq + std::fmt::Debug>(number: u32, given: T, none: T) -> Result<T, u32> {
    if number == 0 {
        return Ok(given);
    }
    assert_eq!(given, none);
    Err(number)
}

/// The number and place of a refused file.
fn refusal(refused: Refused) -> Refusal {
    Refusal {
        number: refused.refusal.number(),
        place: refused.place,
    }
}

/// Whether a file is taken, with no memory lent.
pub fn check(file: &[u8]) -> Result<(), Refusal> {
    skytassel::check(file).map_err(refusal)
}

/// The width of a wire, from the file alone.
pub fn width_of(file: &[u8], module: u32, name: &[u8]) -> Result<u32, Refusal> {
    skytassel::width_of(file, ModuleNumber(module), name).map_err(refusal)
}

/// The author's index of a bit, from the file alone.
pub fn index_of(file: &[u8], module: u32, name: &[u8], bit: u32) -> Result<i64, Refusal> {
    skytassel::index_of(file, ModuleNumber(module), name, bit).map_err(refusal)
}

/// Reads a file into the tables and the card.
pub fn fill(file: &[u8], tables: &mut Tables, card: &mut Card) -> Answer {
    tables.lent(card).fill(file)
}

/// Renames a wire.
pub fn rename(tables: &mut Tables, card: &mut Card, module: u32, wire: u32, name: &[u8]) -> Answer {
    tables.lent(card).rename(module, wire, name)
}

/// Takes the last rename off.
pub fn undo(tables: &mut Tables, card: &mut Card) -> Answer {
    tables.lent(card).undo()
}

/// The number of the wire that has this name now.
pub fn look_up(tables: &Tables, card: Card, module: u32, name: &[u8]) -> Result<u32, u32> {
    let answer = tables.view(card).look_up(module, name);
    given(answer.number, answer.wire, 0)
}

/// The author's index of a bit.
pub fn index(tables: &Tables, card: Card, module: u32, wire: u32, bit: u32) -> Result<i64, u32> {
    let answer = tables.view(card).index(module, wire, bit);
    given(answer.number, answer.index, 0)
}

/// The name to show, a part of the names or of the strings.
pub fn show(tables: &Tables, card: Card, module: u32, wire: u32) -> Result<&[u8], u32> {
    let answer = tables.view(card).show(module, wire);
    let (table, start, length) = (answer.table, answer.start, answer.length);
    given(answer.number, (table, start, length), (0, 0, 0))?;
    let room = match table {
        1 => &tables.names,
        2 => &tables.strings,
        _ => panic!("no table {table}"),
    };
    Ok(&room[start..][..length])
}

/// The length of the text.
pub fn measure(tables: &Tables, card: Card) -> Result<usize, u32> {
    let answer = tables.view(card).measure();
    given(answer.number, answer.length as usize, 0)
}

/// The plain form of a name at the start of the room lent, and its length.
pub fn plain_form(name: &[u8], room: &mut [u8]) -> Result<usize, u32> {
    let answer = lent::plain_form(name, room);
    given(answer.number, answer.length as usize, 0)
}

/// The name that has a plain form at the start of the room lent, and its length.
pub fn name_of(form: &[u8], room: &mut [u8]) -> Result<usize, u32> {
    let answer = lent::name_of(form, room);
    given(answer.number, answer.length as usize, 0)
}

/// The wires of a module, listed at the start of the room lent, and the listing's length.
pub fn listing(tables: &Tables, card: Card, module: u32, room: &mut [u8]) -> Result<usize, u32> {
    let answer = tables.view(card).listing(module, room);
    given(answer.number, answer.length as usize, 0)
}

/// The text at the start of the room lent, and its length.
pub fn write(tables: &Tables, card: Card, room: &mut [u8]) -> Result<usize, u32> {
    let answer = tables.view(card).write(room);
    given(answer.number, answer.length as usize, 0)
}
