//! The one written text of a design.

use crate::design::{Attributed, Cell, Design, Module, Process, ProcessLine};
use crate::sizes;
use crate::statements::{
    Action, Attribute, Bit, Constant, Digit, Memory, Sign, Step, Wire, WireNumber,
};
use crate::tokens::Name;

/// The text, or 12 if it is over 32,768 bytes or over the room.
pub fn write(design: &Design, room: usize) -> Result<Vec<u8>, u32> {
    let text = text(design);
    if text.len() > sizes::TEXT_BYTES || text.len() > room {
        return Err(12);
    }
    Ok(text)
}

/// The text's length, or 12 if it is over 32,768 bytes.
pub fn measure(design: &Design) -> Result<usize, u32> {
    write(design, sizes::TEXT_BYTES).map(|text| text.len())
}

/// The text, however long.
pub fn text(design: &Design) -> Vec<u8> {
    let mut text = Vec::new();
    if let Some(number) = design.autoidx {
        line(&mut text, 0, &[b"autoidx", number.to_string().as_bytes()]);
    }
    for module in &design.modules {
        attributes(&mut text, 0, &module.attributes);
        write_module(&mut text, &module.object);
    }
    text
}

/// One line: two spaces a level, single spaces between tokens.
fn line(text: &mut Vec<u8>, level: usize, tokens: &[&[u8]]) {
    text.extend(b"  ".repeat(level));
    text.extend(tokens.join(&b' '));
    text.push(b'\n');
}

fn attributes(text: &mut Vec<u8>, level: usize, attributes: &[Attribute]) {
    for attribute in attributes {
        line(
            text,
            level,
            &[
                b"attribute",
                &attribute.name,
                &constant(&attribute.constant),
            ],
        );
    }
}

fn write_module(text: &mut Vec<u8>, module: &Module) {
    line(text, 0, &[b"module", &module.name]);
    for parameter in &module.parameters {
        match &parameter.constant {
            None => line(text, 1, &[b"parameter", &parameter.name]),
            Some(given) => line(text, 1, &[b"parameter", &parameter.name, &constant(given)]),
        }
    }
    for wire in &module.wires {
        attributes(text, 1, &wire.attributes);
        write_wire(text, &wire.object);
    }
    for memory in &module.memories {
        attributes(text, 1, &memory.attributes);
        write_memory(text, &memory.object);
    }
    for cell in &module.cells {
        attributes(text, 1, &cell.attributes);
        write_cell(text, &cell.object, &module.wires);
    }
    for process in &module.processes {
        attributes(text, 1, &process.attributes);
        write_process(text, &process.object, &module.wires);
    }
    for connection in &module.connections {
        let left = signal(&connection.left, &module.wires);
        let right = signal(&connection.right, &module.wires);
        line(text, 1, &[b"connect", &left, &right]);
    }
    line(text, 0, &[b"end"]);
}

fn write_wire(text: &mut Vec<u8>, wire: &Wire) {
    let mut tokens = vec!["wire".to_string()];
    if wire.width != 1 {
        tokens.push(format!("width {}", wire.width));
    }
    if wire.offset != 0 {
        tokens.push(format!("offset {}", wire.offset));
    }
    if wire.upto {
        tokens.push("upto".to_string());
    }
    if let Some(port) = wire.port {
        tokens.push(format!("{} {}", port.direction.word(), port.number));
    }
    if wire.signed {
        tokens.push("signed".to_string());
    }
    named(text, &tokens, &wire.name);
}

fn write_memory(text: &mut Vec<u8>, memory: &Memory) {
    let mut tokens = vec!["memory".to_string()];
    if memory.width != 1 {
        tokens.push(format!("width {}", memory.width));
    }
    if memory.size != 0 {
        tokens.push(format!("size {}", memory.size));
    }
    if memory.offset != 0 {
        tokens.push(format!("offset {}", memory.offset));
    }
    named(text, &tokens, &memory.name);
}

/// A line of a module: a word, its options and the name.
fn named(text: &mut Vec<u8>, tokens: &[String], name: &Name) {
    line(text, 1, &[tokens.join(" ").as_bytes(), name]);
}

fn write_cell(text: &mut Vec<u8>, cell: &Cell, wires: &[Attributed<Wire>]) {
    line(text, 1, &[b"cell", &cell.kind, &cell.name]);
    for parameter in &cell.parameters {
        let word: &[u8] = match parameter.sign {
            None => b"parameter",
            Some(Sign::Signed) => b"parameter signed",
            Some(Sign::Real) => b"parameter real",
        };
        line(
            text,
            2,
            &[word, &parameter.name, &constant(&parameter.constant)],
        );
    }
    for connection in &cell.connections {
        line(
            text,
            2,
            &[
                b"connect",
                &connection.port,
                &signal(&connection.bits, wires),
            ],
        );
    }
    line(text, 1, &[b"end"]);
}

/// Each line stands one level deeper than the process, switch, case or sync that it is in, and `end` level with its opener.
fn write_process(text: &mut Vec<u8>, process: &Process, wires: &[Attributed<Wire>]) {
    line(text, 1, &[b"process", &process.name]);
    // the switches, cases and syncs that are open, the innermost last
    let mut open: Vec<Action> = Vec::new();
    for one in &process.lines {
        let innermost = open.last().copied();
        match one {
            ProcessLine::SwitchEnd => {
                if innermost == Some(Action::Case) {
                    open.pop();
                }
                open.pop();
                line(text, 2 + open.len(), &[b"end"]);
            }
            ProcessLine::Step(step) => {
                let action = step.object.action;
                if closes(action, innermost) {
                    open.pop();
                }
                let level = 2 + open.len();
                attributes(text, level, &step.attributes);
                line(text, level, &[&step_tokens(&step.object, wires)]);
                if !matches!(action, Action::Assign | Action::Update) {
                    open.push(action);
                }
            }
        }
    }
    line(text, 1, &[b"end"]);
}

/// A case ends the one before it, and a sync the one before it.
fn closes(action: Action, innermost: Option<Action>) -> bool {
    match action {
        Action::Case => innermost == Some(Action::Case),
        Action::Sync(_) => matches!(innermost, Some(Action::Sync(_))),
        Action::Assign | Action::Switch | Action::Update => false,
    }
}

fn step_tokens(step: &Step, wires: &[Attributed<Wire>]) -> Vec<u8> {
    let word = match step.action {
        Action::Assign => "assign".to_string(),
        Action::Switch => "switch".to_string(),
        Action::Case => "case".to_string(),
        Action::Sync(event) => format!("sync {}", event.word()),
        Action::Update => "update".to_string(),
    };
    let between: &[u8] = match step.action {
        Action::Case => b" , ",
        _ => b" ",
    };
    let signals: Vec<_> = step
        .signals
        .iter()
        .map(|bits| signal(bits, wires))
        .collect();
    match signals.is_empty() {
        true => word.into_bytes(),
        false => [word.into_bytes(), signals.join(between)].join(&b' '),
    }
}

fn constant(constant: &Constant) -> Vec<u8> {
    match constant {
        Constant::Value(digits) => value(digits),
        Constant::Integer(number) => number.to_string().into_bytes(),
        Constant::String(bytes) => string(bytes),
    }
}

fn value(digits: &[Digit]) -> Vec<u8> {
    [format!("{}'", digits.len()).as_bytes(), digits].concat()
}

fn string(bytes: &[u8]) -> Vec<u8> {
    let mut text = vec![b'"'];
    for &byte in bytes {
        match byte {
            b'"' | b'\\' => text.extend([b'\\', byte]),
            b'\n' => text.extend(b"\\n"),
            b'\t' => text.extend(b"\\t"),
            0..=31 => text.extend(format!("\\{byte:03o}").bytes()),
            _ => text.push(byte),
        }
    }
    text.push(b'"');
    text
}

/// A run of a signal, from the top.
enum Run {
    Constant(Vec<Digit>),
    /// Falling bits of a wire: high and low.
    Wire(WireNumber, usize, usize),
}

/// The longest runs, from the top.
fn runs(bits: &[Bit]) -> Vec<Run> {
    let mut runs = Vec::new();
    for &bit in bits.iter().rev() {
        match (runs.last_mut(), bit) {
            (Some(Run::Constant(digits)), Bit::Constant(digit)) => digits.push(digit),
            (Some(Run::Wire(wire, _, low)), Bit::Wire(next, bit))
                if *wire == next && *low == bit + 1 =>
            {
                *low = bit;
            }
            (_, Bit::Constant(digit)) => runs.push(Run::Constant(vec![digit])),
            (_, Bit::Wire(wire, bit)) => runs.push(Run::Wire(wire, bit, bit)),
        }
    }
    runs
}

fn signal(bits: &[Bit], wires: &[Attributed<Wire>]) -> Vec<u8> {
    let mut runs: Vec<_> = runs(bits).iter().map(|one| run(one, wires)).collect();
    if runs.len() == 1 {
        return runs.remove(0);
    }
    runs.insert(0, b"{".to_vec());
    runs.push(b"}".to_vec());
    runs.join(&b' ')
}

fn run(run: &Run, wires: &[Attributed<Wire>]) -> Vec<u8> {
    match run {
        Run::Constant(digits) => value(digits),
        &Run::Wire(number, high, low) => {
            let wire = &wires[number.0].object;
            let slice = if low == 0 && high + 1 == wire.width {
                String::new()
            } else if high == low {
                format!(" [{high}]")
            } else {
                format!(" [{high}:{low}]")
            };
            [&wire.name, slice.as_bytes()].concat()
        }
    }
}
