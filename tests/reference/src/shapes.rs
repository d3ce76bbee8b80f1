//! The permitted shapes of a line (refusal 5): what stands where, numbers not yet judged.

use crate::sizes::{BUNDLE_DEPTH, SWITCH_DEPTH};
use crate::statements::{Action, Direction, Event, Sign};
use crate::tokens::{Name, Token};
use Token::{Mark, Word};

/// A constant as it stands in the file.
#[derive(Debug, Clone, PartialEq, Eq)]
pub enum WrittenConstant {
    /// Width and digits, highest first.
    Value(u64, Vec<u8>),
    Integer(i64),
    String(Vec<u8>),
}

#[derive(Debug, Clone, PartialEq, Eq)]
pub enum Base {
    Constant(WrittenConstant),
    Wire(Name),
    /// Members in text order, the last one lowest.
    Bundle(Vec<Signal>),
}

/// High and low, as they stand; `[i]` is both.
pub type Slice = (i64, i64);

/// A signal as it stands: a base and the slices that follow it.
#[derive(Debug, Clone, PartialEq, Eq)]
pub struct Signal {
    pub base: Base,
    pub slices: Vec<Slice>,
}

#[derive(Debug, Clone, Copy, PartialEq, Eq)]
pub enum WireOption {
    Width(i64),
    Offset(i64),
    Port(Direction, i64),
    Upto,
    Signed,
}

#[derive(Debug, Clone, Copy, PartialEq, Eq)]
pub enum MemoryOption {
    Width(i64),
    Size(i64),
    Offset(i64),
}

#[derive(Debug, Clone, PartialEq, Eq)]
pub enum Shape {
    Autoidx(i64),
    Attribute(Name, WrittenConstant),
    Module(Name),
    ModuleParameter(Name, Option<WrittenConstant>),
    Wire(Vec<WireOption>, Name),
    Memory(Vec<MemoryOption>, Name),
    /// Type, then name.
    Cell(Name, Name),
    CellParameter(Option<Sign>, Name, WrittenConstant),
    CellConnection(Name, Signal),
    CellEnd,
    Process(Name),
    Step(Action, Vec<Signal>),
    SwitchEnd,
    ProcessEnd,
    ModuleConnection(Signal, Signal),
    ModuleEnd,
}

#[derive(Debug, Clone, Copy, Default, PartialEq, Eq)]
pub enum Inside {
    #[default]
    Top,
    Module,
    Cell,
    /// A process, before its root switch and its syncs.
    Process,
    /// A process behind its root switch.
    Tail,
    /// A switch, before its first case.
    Switch,
    /// The body of a case.
    Case,
    Sync,
}

/// What the lines before decide about the shapes permitted here.
#[derive(Debug, Clone, Copy, PartialEq, Eq)]
pub struct Position {
    pub inside: Inside,
    /// No statement stands before.
    pub first: bool,
    pub after_attributes: bool,
    pub open_switches: usize,
}

/// The shape of the line, none if it has no permitted one here.
pub fn shape(tokens: &[Token], position: Position) -> Option<Shape> {
    let shape = match position.inside {
        Inside::Top => at_top(tokens),
        Inside::Module => in_module(tokens),
        Inside::Cell => in_cell(tokens),
        _ => in_process(tokens, position),
    }?;
    let permitted = match shape {
        Shape::Autoidx(_) => position.first,
        _ => !position.after_attributes || takes_attributes(&shape),
    };
    permitted.then_some(shape)
}

/// May attribute lines precede it?
fn takes_attributes(shape: &Shape) -> bool {
    use Shape::*;
    matches!(
        shape,
        Attribute(..)
            | Module(_)
            | Wire(..)
            | Memory(..)
            | Cell(..)
            | Process(_)
            | Step(Action::Switch | Action::Case, _)
    )
}

fn at_top(tokens: &[Token]) -> Option<Shape> {
    match tokens {
        [Word("autoidx"), Token::Integer(number)] => Some(Shape::Autoidx(*number)),
        [Word("attribute"), Token::Name(name), token] => attribute(name, token),
        [Word("module"), Token::Name(name)] => Some(Shape::Module(name.clone())),
        _ => None,
    }
}

fn in_module(tokens: &[Token]) -> Option<Shape> {
    match tokens {
        [Word("attribute"), Token::Name(name), token] => attribute(name, token),
        [Word("parameter"), Token::Name(name)] => Some(Shape::ModuleParameter(name.clone(), None)),
        [Word("parameter"), Token::Name(name), token] => {
            Some(Shape::ModuleParameter(name.clone(), Some(constant(token)?)))
        }
        [Word("wire"), options @ .., Token::Name(name)] => {
            Some(Shape::Wire(wire_options(options)?, name.clone()))
        }
        [Word("memory"), options @ .., Token::Name(name)] => {
            Some(Shape::Memory(memory_options(options)?, name.clone()))
        }
        [Word("cell"), Token::Name(kind), Token::Name(name)] => {
            Some(Shape::Cell(kind.clone(), name.clone()))
        }
        [Word("process"), Token::Name(name)] => Some(Shape::Process(name.clone())),
        [Word("connect"), rest @ ..] => {
            let [left, right] = two_signals(rest)?;
            Some(Shape::ModuleConnection(left, right))
        }
        [Word("end")] => Some(Shape::ModuleEnd),
        _ => None,
    }
}

fn in_cell(tokens: &[Token]) -> Option<Shape> {
    match tokens {
        [Word("parameter"), Token::Name(name), token] => {
            Some(Shape::CellParameter(None, name.clone(), constant(token)?))
        }
        [Word("parameter"), Word("signed"), Token::Name(name), token] => Some(
            Shape::CellParameter(Some(Sign::Signed), name.clone(), constant(token)?),
        ),
        [Word("parameter"), Word("real"), Token::Name(name), token] => Some(Shape::CellParameter(
            Some(Sign::Real),
            name.clone(),
            constant(token)?,
        )),
        [Word("connect"), Token::Name(port), rest @ ..] => {
            Some(Shape::CellConnection(port.clone(), whole_signal(rest)?))
        }
        [Word("end")] => Some(Shape::CellEnd),
        _ => None,
    }
}

fn in_process(tokens: &[Token], position: Position) -> Option<Shape> {
    let step = |action, signals| Some(Shape::Step(action, signals));
    let shape = match tokens {
        [Word("attribute"), Token::Name(name), token] => attribute(name, token),
        [Word("assign"), rest @ ..] => step(Action::Assign, two_signals(rest)?.into()),
        [Word("update"), rest @ ..] => step(Action::Update, two_signals(rest)?.into()),
        [Word("switch"), rest @ ..] => step(Action::Switch, vec![whole_signal(rest)?]),
        [Word("case"), rest @ ..] => step(Action::Case, compare_values(rest)?),
        [Word("sync"), Word(word), rest @ ..] => sync(Event::of(word)?, rest),
        [Word("end")] => Some(match position.inside {
            Inside::Switch | Inside::Case => Shape::SwitchEnd,
            _ => Shape::ProcessEnd,
        }),
        _ => None,
    }?;
    stands(&shape, position).then_some(shape)
}

/// May a line of a process stand here? A switch does not stand inside 16 others.
fn stands(shape: &Shape, position: Position) -> bool {
    use Action::{Assign, Case, Switch, Sync, Update};
    let action = match shape {
        Shape::Step(action, _) => *action,
        Shape::Attribute(..) => return !matches!(position.inside, Inside::Tail | Inside::Sync),
        _ => return true,
    };
    match position.inside {
        Inside::Process => matches!(action, Assign | Switch | Sync(_)),
        Inside::Tail => matches!(action, Assign | Sync(_)),
        Inside::Switch => action == Case,
        Inside::Case if action == Switch => position.open_switches < SWITCH_DEPTH,
        Inside::Case => matches!(action, Assign | Case),
        Inside::Sync => matches!(action, Update | Sync(_)),
        Inside::Top | Inside::Module | Inside::Cell => false,
    }
}

/// A level or an edge with its signal, another event with none.
fn sync(event: Event, tokens: &[Token]) -> Option<Shape> {
    let signals = match event.of_signal() {
        true => vec![whole_signal(tokens)?],
        false if tokens.is_empty() => vec![],
        false => return None,
    };
    Some(Shape::Step(Action::Sync(event), signals))
}

/// The signals of a case, with commas between them; it may have none.
fn compare_values(tokens: &[Token]) -> Option<Vec<Signal>> {
    if tokens.is_empty() {
        return Some(vec![]);
    }
    let (value, mut rest) = signal(tokens, 0)?;
    let mut values = vec![value];
    while let [Mark(b','), after @ ..] = rest {
        let (value, next) = signal(after, 0)?;
        values.push(value);
        rest = next;
    }
    rest.is_empty().then_some(values)
}

fn attribute(name: &Name, token: &Token) -> Option<Shape> {
    Some(Shape::Attribute(name.clone(), constant(token)?))
}

fn constant(token: &Token) -> Option<WrittenConstant> {
    match token {
        Token::Value(width, digits) => Some(WrittenConstant::Value(*width, digits.clone())),
        Token::Integer(number) => Some(WrittenConstant::Integer(*number)),
        Token::String(bytes) => Some(WrittenConstant::String(bytes.clone())),
        _ => None,
    }
}

fn wire_options(mut tokens: &[Token]) -> Option<Vec<WireOption>> {
    let mut options = Vec::new();
    while !tokens.is_empty() {
        let (option, rest) = match tokens {
            [Word("upto"), rest @ ..] => (WireOption::Upto, rest),
            [Word("signed"), rest @ ..] => (WireOption::Signed, rest),
            [Word("width"), Token::Integer(number), rest @ ..] => {
                (WireOption::Width(*number), rest)
            }
            [Word("offset"), Token::Integer(number), rest @ ..] => {
                (WireOption::Offset(*number), rest)
            }
            [Word(word), Token::Integer(number), rest @ ..] => {
                (WireOption::Port(Direction::of(word)?, *number), rest)
            }
            _ => return None,
        };
        options.push(option);
        tokens = rest;
    }
    Some(options)
}

fn memory_options(tokens: &[Token]) -> Option<Vec<MemoryOption>> {
    let option = |pair: &[Token]| match pair {
        [Word("width"), Token::Integer(number)] => Some(MemoryOption::Width(*number)),
        [Word("size"), Token::Integer(number)] => Some(MemoryOption::Size(*number)),
        [Word("offset"), Token::Integer(number)] => Some(MemoryOption::Offset(*number)),
        _ => None,
    };
    tokens.chunks(2).map(option).collect()
}

/// Two signals that take all tokens.
fn two_signals(tokens: &[Token]) -> Option<[Signal; 2]> {
    let (left, rest) = signal(tokens, 0)?;
    Some([left, whole_signal(rest)?])
}

/// A signal that takes all tokens.
fn whole_signal(tokens: &[Token]) -> Option<Signal> {
    let (signal, rest) = signal(tokens, 0)?;
    rest.is_empty().then_some(signal)
}

/// The signal that starts the tokens, inside `depth` bundles, and the tokens after it.
fn signal(tokens: &[Token], depth: usize) -> Option<(Signal, &[Token])> {
    let (first, rest) = tokens.split_first()?;
    let (base, rest) = match first {
        Mark(b'{') => bundle(rest, depth + 1)?,
        Token::Name(name) => (Base::Wire(name.clone()), rest),
        token => (Base::Constant(constant(token)?), rest),
    };
    let (slices, rest) = slices(rest)?;
    Some((Signal { base, slices }, rest))
}

/// The members up to the closing mark; `depth` counts this bundle.
fn bundle(mut tokens: &[Token], depth: usize) -> Option<(Base, &[Token])> {
    if depth > BUNDLE_DEPTH {
        return None;
    }
    let mut members = Vec::new();
    loop {
        if let [Mark(b'}'), rest @ ..] = tokens {
            return Some((Base::Bundle(members), rest));
        }
        let (member, rest) = signal(tokens, depth)?;
        members.push(member);
        tokens = rest;
    }
}

/// The slices that stand next.
fn slices(mut tokens: &[Token]) -> Option<(Vec<Slice>, &[Token])> {
    use Token::Integer;
    let mut slices = Vec::new();
    while let [Mark(b'['), after @ ..] = tokens {
        let (slice, rest) = match after {
            [Integer(bit), Mark(b']'), rest @ ..] => ((*bit, *bit), rest),
            [Integer(high), Mark(b':'), Integer(low), Mark(b']'), rest @ ..] => {
                ((*high, *low), rest)
            }
            _ => return None,
        };
        slices.push(slice);
        tokens = rest;
    }
    Some((slices, tokens))
}
