//! Reads a file line by line; the first refused line decides.

use crate::design::Design;
use crate::judgement::judge;
use crate::lines::{lines, Line};
use crate::shapes::shape;
use crate::sizes;
use crate::statements::Statement;
use crate::surroundings::Surroundings;
use crate::tokens::{tokens, Token};

#[derive(Debug, Clone, Copy, PartialEq, Eq)]
pub struct Refusal {
    pub number: u32,
    pub place: usize,
}

impl Refusal {
    /// One that has no place: of a whole file or of a call.
    pub fn of_call(number: u32) -> Refusal {
        Refusal { number, place: 0 }
    }
}

/// The accepted statements in file order.
#[derive(Debug, Clone, PartialEq, Eq)]
pub struct Netlist {
    pub statements: Vec<Statement>,
}

impl Netlist {
    pub fn design(&self) -> Design {
        Design::of(&self.statements)
    }
}

/// Whether a file is taken: the check, which is lent only the file.
pub fn check(file: &[u8]) -> Result<(), Refusal> {
    read(file).map(|_| ())
}

pub fn read(file: &[u8]) -> Result<Netlist, Refusal> {
    short_enough(file)?;
    read_any_length(file)
}

/// 2 for a file that is too long.
pub(crate) fn short_enough(file: &[u8]) -> Result<(), Refusal> {
    match file.len() > sizes::FILE_BYTES {
        true => Err(Refusal::of_call(2)),
        false => Ok(()),
    }
}

/// Reads without the bound on the file's length.
pub fn read_any_length(file: &[u8]) -> Result<Netlist, Refusal> {
    let mut surroundings = Surroundings::default();
    let mut statements = Vec::new();
    for line in lines(file) {
        statements.push(read_line(line, &mut surroundings)?);
    }
    may_end(file, &surroundings)?;
    Ok(Netlist { statements })
}

/// 5 for a file that ends inside a module or after attributes.
pub(crate) fn may_end(file: &[u8], surroundings: &Surroundings) -> Result<(), Refusal> {
    match surroundings.may_end() {
        true => Ok(()),
        false => Err(Refusal {
            number: 5,
            place: file.len(),
        }),
    }
}

/// The line's statement, taken into the surroundings. Its leftmost bad token is the place of 4; all other refusals are at the line.
pub(crate) fn read_line(line: Line, surroundings: &mut Surroundings) -> Result<Statement, Refusal> {
    let tokens = tokens(line.bytes).map_err(|bad| Refusal {
        number: 4,
        place: line.place + bad,
    })?;
    read_tokens(&tokens, line.ended, surroundings).map_err(|number| Refusal {
        number,
        place: line.place,
    })
}

/// The statement of a line's tokens, taken into the surroundings, or the line's number.
fn read_tokens(
    tokens: &[Token],
    ended: bool,
    surroundings: &mut Surroundings,
) -> Result<Statement, u32> {
    if !ended {
        return Err(5);
    }
    let shape = shape(tokens, surroundings.position()).ok_or(5u32)?;
    let (statement, counts) = judge(&shape, surroundings)?;
    surroundings.counts = surroundings.counts.plus(counts);
    surroundings.take(&statement);
    Ok(statement)
}
