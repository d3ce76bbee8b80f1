//! How wide a wire is and what index its author gave a bit, from the file's bytes: read as far as the line that declares the wire.

use crate::lines::lines;
use crate::reading::{may_end, read_line, short_enough, Refusal};
use crate::statements::{ModuleNumber, Statement, Wire};
use crate::surroundings::Surroundings;

const NOT_THERE: u32 = 8;
const PAST_THE_WIRE: u32 = 10;

pub fn width_of(file: &[u8], module: ModuleNumber, name: &[u8]) -> Result<usize, Refusal> {
    Ok(declared(file, module, name)?.width)
}

pub fn index_of(
    file: &[u8],
    module: ModuleNumber,
    name: &[u8],
    bit: usize,
) -> Result<i64, Refusal> {
    let wire = declared(file, module, name)?;
    wire.authors_index(bit)
        .ok_or(Refusal::of_call(PAST_THE_WIRE))
}

/// The wire of that name, if the lines up to its own are taken. A module that ends without it, or a file that has no such module, is 8.
fn declared(file: &[u8], module: ModuleNumber, name: &[u8]) -> Result<Wire, Refusal> {
    short_enough(file)?;
    let mut surroundings = Surroundings::default();
    let mut opened = 0;
    for line in lines(file) {
        let inside = opened == module.0 + 1;
        match read_line(line, &mut surroundings)? {
            Statement::Module(_) => opened += 1,
            Statement::Wire(wire) if inside && wire.name == name => return Ok(wire),
            Statement::ModuleEnd if inside => return Err(Refusal::of_call(NOT_THERE)),
            _ => {}
        }
    }
    may_end(file, &surroundings)?;
    Err(Refusal::of_call(NOT_THERE))
}
