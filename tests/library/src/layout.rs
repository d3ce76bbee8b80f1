//! Where the statements of a file and the standing renames lie in the tables, after crates/rules/specs/Layout.antt.

use crate::tables::{Card, Tables, ROW};
use reference::session::Rename;
use reference::statements::{
    Action, Bit, Bits, Constant, Digit, Direction, Event, Sign, Statement, Wire,
};

/// The digits of values and signals, by their codes.
pub const DIGITS: &[Digit; 6] = b"01xzm-";
/// The code of bit 0 of wire 0; a wire takes so many codes.
pub const FIRST_WIRE_BIT: u32 = DIGITS.len() as u32;
pub const WIRE_BITS: u32 = 2_048;

/// The kind of a row.
pub mod kind {
    pub const AUTOIDX: u32 = 1;
    pub const ATTRIBUTE: u32 = 2;
    pub const MODULE: u32 = 3;
    pub const MODULE_PARAMETER: u32 = 4;
    pub const WIRE: u32 = 5;
    pub const MEMORY: u32 = 6;
    pub const CELL: u32 = 7;
    pub const CELL_PARAMETER: u32 = 8;
    pub const CELL_CONNECTION: u32 = 9;
    pub const MODULE_CONNECTION: u32 = 10;
    pub const PROCESS: u32 = 11;
    pub const END: u32 = 12;
    pub const STEP: u32 = 13;
    pub const RENAME: u32 = 14;
}

/// The lines inside a process by their codes: the number of the line's word among the keywords, of a sync that of its event's word.
pub const STEPS: [(u32, Action); 12] = [
    (19, Action::Assign),
    (20, Action::Switch),
    (21, Action::Case),
    (23, Action::Sync(Event::Global)),
    (24, Action::Sync(Event::Init)),
    (25, Action::Sync(Event::Always)),
    (26, Action::Sync(Event::Low)),
    (27, Action::Sync(Event::High)),
    (28, Action::Sync(Event::Posedge)),
    (29, Action::Sync(Event::Negedge)),
    (30, Action::Sync(Event::Edge)),
    (31, Action::Update),
];

/// The kind of a constant.
pub const VALUE: u32 = 1;
pub const INTEGER: u32 = 2;
pub const STRING: u32 = 3;

/// Flags of a wire's row; a direction takes the two bits above them.
pub const UPTO: u32 = 1;
pub const SIGNED: u32 = 2;
pub const DIRECTION: u32 = 4;

/// The memory of accepted statements and accepted renames.
pub fn layout(statements: &[Statement], renames: &[Rename]) -> (Tables, Card) {
    let mut rooms = Rooms::default();
    for statement in statements {
        rooms.put(statement);
    }
    for rename in renames {
        let name = rooms.name(&rename.name);
        let numbers = vec![rename.module.0 as u32, rename.wire.0 as u32];
        rooms.row(kind::RENAME, &[name, numbers].concat());
    }
    let card = Card {
        renames: renames.len() as u32,
        room: rooms.names.len() as u32,
    };
    (rooms.tables(), card)
}

/// What is used of each table.
#[derive(Default)]
struct Rooms {
    names: Vec<u8>,
    strings: Vec<u8>,
    bits: Vec<u32>,
    wires: Vec<u32>,
    rows: Vec<u32>,
    modules: u32,
}

impl Rooms {
    fn tables(self) -> Tables {
        let mut tables = Tables::zeroed();
        tables.names[..self.names.len()].copy_from_slice(&self.names);
        tables.strings[..self.strings.len()].copy_from_slice(&self.strings);
        tables.bits[..self.bits.len()].copy_from_slice(&self.bits);
        tables.wires[..self.wires.len()].copy_from_slice(&self.wires);
        tables.rows[..self.rows.len()].copy_from_slice(&self.rows);
        tables
    }

    fn put(&mut self, statement: &Statement) {
        self.modules += u32::from(matches!(statement, Statement::Module(_)));
        let columns = self.columns(statement);
        self.row(kind_of(statement), &columns);
    }

    /// The columns behind the kind, with what they tell of put in its room.
    fn columns(&mut self, statement: &Statement) -> Vec<u32> {
        match statement {
            Statement::Autoidx(number) => vec![*number as u32],
            Statement::Attribute(one) => {
                [self.name(&one.name), self.constant(&one.constant)].concat()
            }
            Statement::Module(name) => self.name(name),
            Statement::ModuleParameter(one) => {
                let name = self.name(&one.name);
                let given = one.constant.as_ref().map(|given| self.constant(given));
                [name, given.unwrap_or_default()].concat()
            }
            Statement::Wire(one) => {
                let name = self.name(&one.name);
                let place = self.wire(one, &name);
                [name, vec![place]].concat()
            }
            Statement::Memory(one) => {
                let numbers = vec![one.width as u32, one.size as u32, one.offset as u32];
                [self.name(&one.name), numbers].concat()
            }
            Statement::Cell(of, name) => [self.name(of), self.name(name)].concat(),
            Statement::CellParameter(one) => {
                let (name, constant) = (self.name(&one.name), self.constant(&one.constant));
                [name, constant, vec![sort_code(one.sign)]].concat()
            }
            Statement::CellConnection(one) => {
                [self.name(&one.port), self.signal(&one.bits)].concat()
            }
            Statement::ModuleConnection(one) => {
                [self.signal(&one.left), self.signal(&one.right)].concat()
            }
            Statement::Process(name) => self.name(name),
            Statement::Step(one) => {
                let signals = self.signals(&one.signals);
                [vec![step_code(one.action)], signals].concat()
            }
            Statement::CellEnd
            | Statement::SwitchEnd
            | Statement::ProcessEnd
            | Statement::ModuleEnd => vec![],
        }
    }

    /// Where the name starts, and its length.
    fn name(&mut self, name: &[u8]) -> Vec<u32> {
        let start = self.names.len();
        self.names.extend(name);
        vec![start as u32, name.len() as u32]
    }

    /// The kind, and where the constant starts and its length, or the integer.
    fn constant(&mut self, constant: &Constant) -> Vec<u32> {
        match constant {
            Constant::Value(digits) => {
                let start = self.bits.len();
                self.bits.extend(digits.iter().rev().map(digit_code));
                vec![VALUE, start as u32, digits.len() as u32]
            }
            Constant::Integer(number) => vec![INTEGER, *number as u32, 0],
            Constant::String(bytes) => {
                let start = self.strings.len();
                self.strings.extend(bytes);
                vec![STRING, start as u32, bytes.len() as u32]
            }
        }
    }

    fn signal(&mut self, bits: &[Bit]) -> Vec<u32> {
        let start = self.bits.len();
        self.bits.extend(bits.iter().map(bit_code));
        vec![start as u32, bits.len() as u32]
    }

    /// Where signals of equal width start, one after another, the width of each and how many they are.
    fn signals(&mut self, signals: &[Bits]) -> Vec<u32> {
        let start = self.bits.len();
        let width = signals.first().map_or(0, Vec::len);
        assert!(signals.iter().all(|bits| bits.len() == width));
        self.bits.extend(signals.iter().flatten().map(bit_code));
        vec![start as u32, width as u32, signals.len() as u32]
    }

    /// Which wire of the design it is.
    fn wire(&mut self, wire: &Wire, name: &[u32]) -> u32 {
        let place = self.wires.len() / ROW;
        self.wires.push(self.modules - 1);
        self.wires.extend(name);
        self.wires.extend([wire.width as u32, wire.offset as u32]);
        self.wires.push(flags(wire));
        self.wires
            .push(wire.port.map_or(0, |port| port.number as u32));
        self.wires.resize(ROW * (place + 1), 0);
        place as u32
    }

    fn row(&mut self, kind: u32, columns: &[u32]) {
        let end = self.rows.len() + ROW;
        self.rows.push(kind);
        self.rows.extend(columns);
        self.rows.resize(end, 0);
    }
}

fn kind_of(statement: &Statement) -> u32 {
    match statement {
        Statement::Autoidx(_) => kind::AUTOIDX,
        Statement::Attribute(_) => kind::ATTRIBUTE,
        Statement::Module(_) => kind::MODULE,
        Statement::ModuleParameter(_) => kind::MODULE_PARAMETER,
        Statement::Wire(_) => kind::WIRE,
        Statement::Memory(_) => kind::MEMORY,
        Statement::Cell(..) => kind::CELL,
        Statement::CellParameter(_) => kind::CELL_PARAMETER,
        Statement::CellConnection(_) => kind::CELL_CONNECTION,
        Statement::ModuleConnection(_) => kind::MODULE_CONNECTION,
        Statement::Process(_) => kind::PROCESS,
        Statement::Step(_) => kind::STEP,
        Statement::CellEnd
        | Statement::SwitchEnd
        | Statement::ProcessEnd
        | Statement::ModuleEnd => kind::END,
    }
}

fn step_code(action: Action) -> u32 {
    let step = STEPS.iter().find(|step| step.1 == action);
    step.expect("every action has its code").0
}

fn sort_code(sign: Option<Sign>) -> u32 {
    match sign {
        None => 0,
        Some(Sign::Signed) => 1,
        Some(Sign::Real) => 2,
    }
}

fn flags(wire: &Wire) -> u32 {
    let direction = wire.port.map_or(0, |port| match port.direction {
        Direction::Input => 1,
        Direction::Output => 2,
        Direction::Inout => 3,
    });
    UPTO * u32::from(wire.upto) + SIGNED * u32::from(wire.signed) + DIRECTION * direction
}

fn digit_code(digit: &Digit) -> u32 {
    let code = DIGITS.iter().position(|one| one == digit);
    code.expect("a digit of a value") as u32
}

fn bit_code(bit: &Bit) -> u32 {
    match bit {
        Bit::Constant(digit) => digit_code(digit),
        Bit::Wire(wire, index) => FIRST_WIRE_BIT + WIRE_BITS * wire.0 as u32 + *index as u32,
    }
}
