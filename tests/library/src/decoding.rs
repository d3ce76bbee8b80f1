//! Is memory what some text and accepted renames leave? Decoded, read again by the reference, and laid out again.

use crate::layout::{self, kind, layout};
use crate::lines::text;
use crate::tables::{Card, Tables, ROW};
use reference::session::{Rename, Session};
use reference::sizes::STEP_SIGNALS;
use reference::statements::{
    Action, Attribute, Bit, Bits, CellConnection, CellParameter, Constant, Direction, Memory,
    ModuleConnection, ModuleNumber, ModuleParameter, Port, Sign, Statement, Step, Wire, WireNumber,
};
use reference::tokens::Name;
use reference::{read_any_length, Design};

/// Do some text and accepted renames leave this memory? The tables have the right lengths.
pub fn valid(tables: &Tables, card: Card) -> bool {
    leaves(tables, card).is_some()
}

/// The statements and renames that leave the memory. It decides by comparing: a wrong decoding can only make it `None`.
pub fn leaves(tables: &Tables, card: Card) -> Option<(Vec<Statement>, Vec<Rename>)> {
    let (statements, renames) = decode(tables)?;
    let netlist = read_any_length(&text(&statements)?).ok()?;
    if netlist.statements != statements {
        return None;
    }
    let mut session = Session::new(Design::of(&statements));
    let accepted = |one: &Rename| session.rename(one.module, one.wire, &one.name) == 0;
    if !renames.iter().all(accepted) {
        return None;
    }
    let again = layout(&statements, &renames);
    (again.0 == *tables && again.1 == card).then_some((statements, renames))
}

fn decode(tables: &Tables) -> Option<(Vec<Statement>, Vec<Rename>)> {
    let mut statements = Vec::new();
    let mut renames = Vec::new();
    // what each of the next `end`s closes, the nearest last
    let mut ends = Vec::new();
    for row in tables.rows.chunks_exact(ROW) {
        match row[0] {
            0 => break,
            kind::RENAME => renames.push(Rename {
                module: ModuleNumber(row[3] as usize),
                wire: WireNumber(row[4] as usize),
                name: tables.name(row[1], row[2])?,
            }),
            _ => {
                let statement = match row[0] {
                    kind::END => ends.pop()?,
                    _ => tables.statement(row)?,
                };
                ends.extend(end_of(&statement));
                statements.push(statement);
            }
        }
    }
    Some((statements, renames))
}

/// The `end` of what the statement opens.
fn end_of(statement: &Statement) -> Option<Statement> {
    match statement {
        Statement::Module(_) => Some(Statement::ModuleEnd),
        Statement::Cell(..) => Some(Statement::CellEnd),
        Statement::Process(_) => Some(Statement::ProcessEnd),
        Statement::Step(step) if step.action == Action::Switch => Some(Statement::SwitchEnd),
        _ => None,
    }
}

/// The part of a table, if it lies in it.
fn part<T>(table: &[T], start: u32, length: u32) -> Option<&[T]> {
    let start = start as usize;
    table.get(start..start + length as usize)
}

/// The word before a cell's parameter by its column: none, signed or real.
fn sign(column: u32) -> Option<Option<Sign>> {
    match column {
        0 => Some(None),
        1 => Some(Some(Sign::Signed)),
        2 => Some(Some(Sign::Real)),
        _ => None,
    }
}

impl Tables {
    /// The statement of a row that is no `end`.
    fn statement(&self, row: &[u32]) -> Option<Statement> {
        Some(match row[0] {
            kind::AUTOIDX => Statement::Autoidx(row[1] as i32),
            kind::ATTRIBUTE => Statement::Attribute(Attribute {
                name: self.name(row[1], row[2])?,
                constant: self.constant(row[3], row[4], row[5])?,
            }),
            kind::MODULE => Statement::Module(self.name(row[1], row[2])?),
            kind::MODULE_PARAMETER => Statement::ModuleParameter(ModuleParameter {
                name: self.name(row[1], row[2])?,
                constant: self.optional(row[3], row[4], row[5])?,
            }),
            kind::WIRE => Statement::Wire(self.wire(self.name(row[1], row[2])?, row[3])?),
            kind::MEMORY => Statement::Memory(Memory {
                name: self.name(row[1], row[2])?,
                width: row[3] as usize,
                size: row[4] as i32,
                offset: row[5] as i32,
            }),
            kind::CELL => Statement::Cell(self.name(row[1], row[2])?, self.name(row[3], row[4])?),
            kind::CELL_PARAMETER => Statement::CellParameter(CellParameter {
                sign: sign(row[6])?,
                name: self.name(row[1], row[2])?,
                constant: self.constant(row[3], row[4], row[5])?,
            }),
            kind::CELL_CONNECTION => Statement::CellConnection(CellConnection {
                port: self.name(row[1], row[2])?,
                bits: self.signal(row[3], row[4])?,
            }),
            kind::MODULE_CONNECTION => Statement::ModuleConnection(ModuleConnection {
                left: self.signal(row[1], row[2])?,
                right: self.signal(row[3], row[4])?,
            }),
            kind::PROCESS => Statement::Process(self.name(row[1], row[2])?),
            kind::STEP => Statement::Step(Step {
                action: layout::STEPS.iter().find(|step| step.0 == row[1])?.1,
                signals: self.signals(row[2], row[3], row[4])?,
            }),
            _ => return None,
        })
    }

    fn name(&self, start: u32, length: u32) -> Option<Name> {
        part(&self.names, start, length).map(<[u8]>::to_vec)
    }

    fn optional(&self, kind: u32, first: u32, second: u32) -> Option<Option<Constant>> {
        match kind {
            0 => Some(None),
            kind => self.constant(kind, first, second).map(Some),
        }
    }

    fn constant(&self, kind: u32, first: u32, second: u32) -> Option<Constant> {
        match kind {
            layout::VALUE => {
                let codes = part(&self.bits, first, second)?.iter().rev();
                let digits = codes.map(|&code| layout::DIGITS.get(code as usize).copied());
                Some(Constant::Value(digits.collect::<Option<_>>()?))
            }
            layout::INTEGER => Some(Constant::Integer(first as i32)),
            layout::STRING => {
                let bytes = part(&self.strings, first, second)?;
                Some(Constant::String(bytes.to_vec()))
            }
            _ => None,
        }
    }

    fn signal(&self, start: u32, length: u32) -> Option<Bits> {
        let codes = part(&self.bits, start, length)?.iter();
        let bits = codes.map(|&code| match layout::DIGITS.get(code as usize) {
            Some(&digit) => Bit::Constant(digit),
            None => {
                let code = code - layout::FIRST_WIRE_BIT;
                let wire = WireNumber((code / layout::WIRE_BITS) as usize);
                Bit::Wire(wire, (code % layout::WIRE_BITS) as usize)
            }
        });
        Some(bits.collect())
    }

    /// So many signals of this width, one after another.
    fn signals(&self, start: u32, width: u32, count: u32) -> Option<Vec<Bits>> {
        if count as usize > STEP_SIGNALS {
            return None;
        }
        let all = self.signal(start, width.checked_mul(count)?)?;
        Some(match width {
            0 => vec![vec![]; count as usize],
            width => all.chunks(width as usize).map(Bits::from).collect(),
        })
    }

    fn wire(&self, name: Name, place: u32) -> Option<Wire> {
        let row = self.wires.chunks_exact(ROW).nth(place as usize)?;
        let flags = row[5];
        let direction = match flags / layout::DIRECTION {
            0 => None,
            1 => Some(Direction::Input),
            2 => Some(Direction::Output),
            3 => Some(Direction::Inout),
            _ => return None,
        };
        Some(Wire {
            name,
            width: row[3] as usize,
            offset: row[4] as i32,
            upto: flags & layout::UPTO != 0,
            signed: flags & layout::SIGNED != 0,
            port: direction.map(|direction| Port {
                direction,
                number: row[6] as i32,
            }),
        })
    }
}
