//! Statements with their meaning: constants filled, signals as bits, defaults applied.

use crate::tokens::Name;

/// One of `0 1 x z m -`, as its byte.
pub type Digit = u8;

#[derive(Debug, Clone, Copy, PartialEq, Eq, Hash, PartialOrd, Ord)]
pub struct ModuleNumber(pub usize);

/// A wire's number in its module.
#[derive(Debug, Clone, Copy, PartialEq, Eq, Hash, PartialOrd, Ord)]
pub struct WireNumber(pub usize);

#[derive(Debug, Clone, PartialEq, Eq)]
pub enum Constant {
    /// All digits, highest first.
    Value(Vec<Digit>),
    Integer(i32),
    String(Vec<u8>),
}

#[derive(Debug, Clone, Copy, PartialEq, Eq)]
pub enum Bit {
    Constant(Digit),
    /// A bit of a wire, counted from 0 whatever the offset.
    Wire(WireNumber, usize),
}

/// The bits of a signal, lowest first.
pub type Bits = Vec<Bit>;

#[derive(Debug, Clone, Copy, PartialEq, Eq)]
pub enum Direction {
    Input,
    Output,
    Inout,
}

impl Direction {
    pub const ALL: [Direction; 3] = [Direction::Input, Direction::Output, Direction::Inout];

    pub fn word(self) -> &'static str {
        match self {
            Direction::Input => "input",
            Direction::Output => "output",
            Direction::Inout => "inout",
        }
    }

    pub fn of(word: &str) -> Option<Direction> {
        Self::ALL
            .into_iter()
            .find(|direction| direction.word() == word)
    }
}

#[derive(Debug, Clone, Copy, PartialEq, Eq)]
pub struct Port {
    pub direction: Direction,
    pub number: i32,
}

#[derive(Debug, Clone, PartialEq, Eq)]
pub struct Attribute {
    pub name: Name,
    pub constant: Constant,
}

#[derive(Debug, Clone, PartialEq, Eq)]
pub struct ModuleParameter {
    pub name: Name,
    pub constant: Option<Constant>,
}

/// The word before a cell parameter's name.
#[derive(Debug, Clone, Copy, PartialEq, Eq)]
pub enum Sign {
    Signed,
    Real,
}

#[derive(Debug, Clone, PartialEq, Eq)]
pub struct CellParameter {
    pub sign: Option<Sign>,
    pub name: Name,
    pub constant: Constant,
}

#[derive(Debug, Clone, PartialEq, Eq)]
pub struct Wire {
    pub name: Name,
    pub width: usize,
    pub offset: i32,
    pub upto: bool,
    pub signed: bool,
    pub port: Option<Port>,
}

impl Wire {
    /// The index that the author gave a bit, none past the width.
    pub fn authors_index(&self, bit: usize) -> Option<i64> {
        if bit >= self.width {
            return None;
        }
        let step = if self.upto { self.width - 1 - bit } else { bit };
        Some(i64::from(self.offset) + step as i64)
    }
}

#[derive(Debug, Clone, PartialEq, Eq)]
pub struct Memory {
    pub name: Name,
    pub width: usize,
    pub size: i32,
    pub offset: i32,
}

#[derive(Debug, Clone, PartialEq, Eq)]
pub struct CellConnection {
    pub port: Name,
    pub bits: Bits,
}

#[derive(Debug, Clone, PartialEq, Eq)]
pub struct ModuleConnection {
    pub left: Bits,
    pub right: Bits,
}

/// What a sync waits for.
#[derive(Debug, Clone, Copy, PartialEq, Eq)]
pub enum Event {
    Low,
    High,
    Posedge,
    Negedge,
    Edge,
    Global,
    Init,
    Always,
}

impl Event {
    pub const ALL: [Event; 8] = [
        Event::Low,
        Event::High,
        Event::Posedge,
        Event::Negedge,
        Event::Edge,
        Event::Global,
        Event::Init,
        Event::Always,
    ];

    pub fn word(self) -> &'static str {
        match self {
            Event::Low => "low",
            Event::High => "high",
            Event::Posedge => "posedge",
            Event::Negedge => "negedge",
            Event::Edge => "edge",
            Event::Global => "global",
            Event::Init => "init",
            Event::Always => "always",
        }
    }

    pub fn of(word: &str) -> Option<Event> {
        Self::ALL.into_iter().find(|event| event.word() == word)
    }

    /// A level or an edge, which is that of a signal.
    pub fn of_signal(self) -> bool {
        !matches!(self, Event::Global | Event::Init | Event::Always)
    }
}

/// What a line inside a process does.
#[derive(Debug, Clone, Copy, PartialEq, Eq)]
pub enum Action {
    Assign,
    Switch,
    Case,
    Sync(Event),
    Update,
}

/// A line inside a process that is no `end`; its signals are in text order, those of a case its compare values.
#[derive(Debug, Clone, PartialEq, Eq)]
pub struct Step {
    pub action: Action,
    pub signals: Vec<Bits>,
}

#[derive(Debug, Clone, PartialEq, Eq)]
pub enum Statement {
    Autoidx(i32),
    Attribute(Attribute),
    Module(Name),
    ModuleParameter(ModuleParameter),
    Wire(Wire),
    Memory(Memory),
    /// Type, then name.
    Cell(Name, Name),
    CellParameter(CellParameter),
    CellConnection(CellConnection),
    CellEnd,
    Process(Name),
    Step(Step),
    SwitchEnd,
    ProcessEnd,
    ModuleConnection(ModuleConnection),
    ModuleEnd,
}
