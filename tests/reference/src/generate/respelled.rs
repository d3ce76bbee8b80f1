//! Another file of a design: its comments and blanks, the order of its kinds, and its numbers, strings and signals are spelled otherwise.

use super::pieces::{self, split, token, Layout, Tokens};
use super::random::Random;
use crate::design::{Attributed, Cell, Design, Module, Process, ProcessLine};
use crate::shapes::WrittenConstant;
use crate::signals::constant;
use crate::statements::{
    Action, Attribute, Bit, Constant, Digit, Memory, ModuleConnection, ModuleParameter, Sign, Step,
    Wire,
};

/// Bundles in bundles go no deeper where runs are not cut by chance.
const DEEPEST: usize = 4;

struct Speller<'a> {
    random: &'a mut Random,
    file: Vec<u8>,
}

/// A file that defines this design, as chance spells it.
pub fn file(random: &mut Random, design: &Design) -> Vec<u8> {
    let mut speller = Speller {
        random,
        file: Vec::new(),
    };
    if let Some(number) = design.autoidx {
        let number = speller.integer(number.into());
        speller.line(vec![token("autoidx"), number]);
    }
    for module in &design.modules {
        speller.attributes(&module.attributes);
        speller.module(&module.object);
    }
    speller.file
}

/// How many of each kind of a module have been written.
#[derive(Default)]
struct Next {
    parameter: usize,
    wire: usize,
    memory: usize,
    cell: usize,
    process: usize,
    connection: usize,
}

enum Kind {
    Parameter,
    Wire,
    Memory,
    Cell,
    Process,
    Connection,
}

impl Next {
    /// The kinds whose next one may stand here: there is one, and the wires that it refers to stand before.
    fn kinds(&self, module: &Module) -> Vec<Kind> {
        let behind = |wire: Option<usize>| wire.is_none_or(|wire| wire < self.wire);
        let cell = module.cells.get(self.cell);
        let process = module.processes.get(self.process);
        let connection = module.connections.get(self.connection);
        let sides = |sides: &ModuleConnection| highest_wire([&sides.left, &sides.right]);
        let may_stand = [
            (Kind::Parameter, self.parameter < module.parameters.len()),
            (Kind::Wire, self.wire < module.wires.len()),
            (Kind::Memory, self.memory < module.memories.len()),
            (
                Kind::Cell,
                cell.is_some_and(|one| behind(cell_wire(&one.object))),
            ),
            (
                Kind::Process,
                process.is_some_and(|one| behind(process_wire(&one.object))),
            ),
            (
                Kind::Connection,
                connection.is_some_and(|one| behind(sides(one))),
            ),
        ];
        let stands = may_stand.into_iter().filter(|kind| kind.1);
        stands.map(|kind| kind.0).collect()
    }
}

/// The number of the next one, now counted.
fn take(next: &mut usize) -> usize {
    *next += 1;
    *next - 1
}

impl Speller<'_> {
    fn line(&mut self, tokens: Tokens) {
        let line = pieces::line(self.random, Layout::Odd, &tokens);
        self.file.extend(line);
    }

    fn attributes(&mut self, attributes: &[Attribute]) {
        for attribute in attributes {
            let constant = self.constant(&attribute.constant);
            self.line(vec![token("attribute"), attribute.name.clone(), constant]);
        }
    }

    /// Each kind in its order, the kinds mixed; what refers to a wire stands behind it.
    fn module(&mut self, module: &Module) {
        self.line(vec![token("module"), module.name.clone()]);
        let mut next = Next::default();
        loop {
            let kinds = next.kinds(module);
            if kinds.is_empty() {
                break;
            }
            let wires = &module.wires[..next.wire];
            match self.random.pick(&kinds) {
                Kind::Parameter => self.parameter(&module.parameters[take(&mut next.parameter)]),
                Kind::Wire => self.wire(&module.wires[take(&mut next.wire)]),
                Kind::Memory => self.memory(&module.memories[take(&mut next.memory)]),
                Kind::Cell => self.cell(&module.cells[take(&mut next.cell)], wires),
                Kind::Process => self.process(&module.processes[take(&mut next.process)], wires),
                Kind::Connection => {
                    self.connection(&module.connections[take(&mut next.connection)], wires)
                }
            }
        }
        self.line(split("end"));
    }

    fn parameter(&mut self, parameter: &ModuleParameter) {
        let mut tokens = vec![token("parameter"), parameter.name.clone()];
        let given = parameter.constant.as_ref();
        tokens.extend(given.map(|given| self.constant(given)));
        self.line(tokens);
    }

    fn connection(&mut self, sides: &ModuleConnection, wires: &[Attributed<Wire>]) {
        let left = self.signal(&sides.left, wires, 1);
        let right = self.signal(&sides.right, wires, 1);
        self.line([vec![token("connect")], left, right].concat());
    }

    fn wire(&mut self, wire: &Attributed<Wire>) {
        self.attributes(&wire.attributes);
        let wire = &wire.object;
        let mut options = self.options(&[
            ("width", wire.width as i64, 1),
            ("offset", wire.offset.into(), 0),
        ]);
        if let Some(port) = wire.port {
            let number = self.integer(port.number.into());
            options.push(vec![token(port.direction.word()), number]);
        }
        options.extend(wire.upto.then(|| split("upto")));
        options.extend(wire.signed.then(|| split("signed")));
        self.line_with_options("wire", options, &wire.name);
    }

    fn memory(&mut self, memory: &Attributed<Memory>) {
        self.attributes(&memory.attributes);
        let memory = &memory.object;
        let options = self.options(&[
            ("width", memory.width as i64, 1),
            ("size", memory.size.into(), 0),
            ("offset", memory.offset.into(), 0),
        ]);
        self.line_with_options("memory", options, &memory.name);
    }

    /// Options with their numbers; one that has its default stands there or not.
    fn options(&mut self, given: &[(&str, i64, i64)]) -> Vec<Tokens> {
        let mut options = Vec::new();
        for &(word, number, default) in given {
            if number != default || self.random.one_in(3) {
                options.push(vec![token(word), self.integer(number)]);
            }
        }
        options
    }

    /// The options in any order, then the name.
    fn line_with_options(&mut self, word: &str, mut options: Vec<Tokens>, name: &[u8]) {
        let mut tokens = vec![token(word)];
        while !options.is_empty() {
            let at = self.random.below(options.len());
            tokens.extend(options.remove(at));
        }
        tokens.push(name.to_vec());
        self.line(tokens);
    }

    /// Its parameters and connections mixed.
    fn cell(&mut self, cell: &Attributed<Cell>, wires: &[Attributed<Wire>]) {
        self.attributes(&cell.attributes);
        let cell = &cell.object;
        self.line(vec![token("cell"), cell.kind.clone(), cell.name.clone()]);
        let (mut parameters, mut connections) = (cell.parameters.iter(), cell.connections.iter());
        while parameters.len() + connections.len() > 0 {
            let first = connections.len() == 0 || parameters.len() > 0 && self.random.one_in(2);
            if let Some(parameter) = first.then(|| parameters.next()).flatten() {
                let mut tokens = split(match parameter.sign {
                    None => "parameter",
                    Some(Sign::Signed) => "parameter signed",
                    Some(Sign::Real) => "parameter real",
                });
                tokens.push(parameter.name.clone());
                tokens.push(self.constant(&parameter.constant));
                self.line(tokens);
            } else if let Some(connection) = connections.next() {
                let signal = self.signal(&connection.bits, wires, 1);
                let port = vec![token("connect"), connection.port.clone()];
                self.line([port, signal].concat());
            }
        }
        self.line(split("end"));
    }

    fn process(&mut self, process: &Attributed<Process>, wires: &[Attributed<Wire>]) {
        self.attributes(&process.attributes);
        self.line(vec![token("process"), process.object.name.clone()]);
        for line in &process.object.lines {
            match line {
                ProcessLine::SwitchEnd => self.line(split("end")),
                ProcessLine::Step(step) => {
                    self.attributes(&step.attributes);
                    self.step(&step.object, wires);
                }
            }
        }
        self.line(split("end"));
    }

    fn step(&mut self, step: &Step, wires: &[Attributed<Wire>]) {
        let words = match step.action {
            Action::Assign => split("assign"),
            Action::Switch => split("switch"),
            Action::Case => split("case"),
            Action::Sync(event) => split(format!("sync {}", event.word())),
            Action::Update => split("update"),
        };
        let signals: Vec<Tokens> = step
            .signals
            .iter()
            .map(|bits| self.signal(bits, wires, 1))
            .collect();
        let signals = match step.action {
            Action::Case => signals.join(&token(",")),
            _ => signals.concat(),
        };
        self.line([words, signals].concat());
    }

    /// Now and then with zeros in front, and 0 as `-0`.
    fn integer(&mut self, number: i64) -> Vec<u8> {
        let minus = number < 0 || number == 0 && self.random.one_in(3);
        let sign = if minus { "-" } else { "" };
        let zeros = "0".repeat(if self.random.one_in(3) {
            self.random.below(4)
        } else {
            0
        });
        token(format!("{sign}{zeros}{}", number.unsigned_abs()))
    }

    fn constant(&mut self, constant: &Constant) -> Vec<u8> {
        match constant {
            Constant::Value(digits) => self.value(digits),
            Constant::Integer(number) => self.integer((*number).into()),
            Constant::String(bytes) => pieces::string(self.random, bytes),
        }
    }

    /// A value with these digits, highest first; those that are filled in stand there or not.
    fn value(&mut self, digits: &[Digit]) -> Vec<u8> {
        let alike = digits.iter().take_while(|&digit| digit == &digits[0]);
        let alike = alike.count();
        let left_out = [0, alike.saturating_sub(1), alike, digits.len()];
        let width = digits.len() as u64;
        let means = |rest: &[Digit]| constant(&WrittenConstant::Value(width, rest.to_vec()));
        let same = |&from: &usize| means(&digits[from..]) == Constant::Value(digits.to_vec());
        let from: Vec<usize> = left_out.into_iter().filter(same).collect();
        let zeros = if self.random.one_in(4) { "00" } else { "" };
        let width = format!("{zeros}{width}'").into_bytes();
        [&width, &digits[*self.random.pick(&from)..]].concat()
    }

    /// A signal of these bits, lowest first; `depth` is that of a bundle opened here.
    fn signal(&mut self, bits: &[Bit], wires: &[Attributed<Wire>], depth: usize) -> Tokens {
        let one_run = run_length(bits) == bits.len();
        let deep = depth > DEEPEST;
        if one_run && (deep || !self.random.one_in(4)) {
            return self.run(bits, wires);
        }
        let cut = match deep {
            true => run_length(bits),
            false => self.random.between(0, bits.len()),
        };
        let (low, high) = bits.split_at(cut);
        let high = match deep {
            true => self.members(high, wires, depth + 1),
            false => self.signal(high, wires, depth + 1),
        };
        let low = self.signal(low, wires, depth + 1);
        [vec![token("{")], high, low, vec![token("}")]].concat()
    }

    /// The runs of these bits, one behind another, the highest first.
    fn members(&mut self, bits: &[Bit], wires: &[Attributed<Wire>], depth: usize) -> Tokens {
        if bits.is_empty() {
            return Tokens::new();
        }
        let (low, high) = bits.split_at(run_length(bits));
        let high = self.members(high, wires, depth);
        [high, self.run(low, wires)].concat()
    }

    /// Bits that are all constant, or that rise in one wire.
    fn run(&mut self, bits: &[Bit], wires: &[Attributed<Wire>]) -> Tokens {
        match bits.first() {
            None => self.empty(wires),
            Some(Bit::Constant(_)) => {
                let digit = |bit: &Bit| match bit {
                    Bit::Constant(digit) => *digit,
                    Bit::Wire(..) => unreachable!("a run of constants"),
                };
                let digits: Vec<Digit> = bits.iter().rev().map(digit).collect();
                self.constant_run(&digits)
            }
            Some(&Bit::Wire(wire, low)) => {
                let wire = &wires[wire.0].object;
                self.sliced(vec![wire.name.clone()], wire.width, low, bits.len())
            }
        }
    }

    /// The empty signal.
    fn empty(&mut self, wires: &[Attributed<Wire>]) -> Tokens {
        let none = wires.iter().find(|wire| wire.object.width == 0);
        match (self.random.below(5), none) {
            (0, _) => split("0'"),
            (1, _) => split("\"\""),
            (2, _) => split("{ { } }"),
            (3, Some(wire)) => vec![wire.object.name.clone()],
            _ => split("{ }"),
        }
    }

    /// Constant bits, highest first: a value, or a part of a wider value, of an integer or of a string.
    fn constant_run(&mut self, digits: &[Digit]) -> Tokens {
        let count = digits.len();
        let binary = digits.iter().all(|digit| matches!(digit, b'0' | b'1'));
        match self.random.below(4) {
            0 if binary && count <= 32 => {
                let low = self.random.between(0, 32 - count);
                let high = 32 - count - low;
                let bit = |speller: &mut Self| *speller.random.pick(b"01");
                let above: Vec<Digit> = (0..high).map(|_| bit(self)).collect();
                let below: Vec<Digit> = (0..low).map(|_| bit(self)).collect();
                let all = number(&[&above, digits, &below].concat()) as i32;
                let integer = self.integer(all.into());
                self.sliced(vec![integer], 32, low, count)
            }
            1 if binary && count % 8 == 0 => {
                let bytes: Vec<u8> = digits.chunks(8).map(|byte| number(byte) as u8).collect();
                match bytes.contains(&0) {
                    true => vec![self.value(digits)],
                    false => vec![pieces::string(self.random, &bytes)],
                }
            }
            2 if count < 2_000 => {
                let (high, low) = (self.random.below(5), self.random.below(5));
                let wider = [&b"01xzm"[5 - high..], digits, &b"-z10x"[5 - low..]].concat();
                let value = self.value(&wider);
                self.sliced(vec![value], wider.len(), low, count)
            }
            _ => vec![self.value(digits)],
        }
    }

    /// So many bits, at least one, from a bit up of a signal that is so wide; in one slice, in two, or in none if it is the whole.
    fn sliced(&mut self, signal: Tokens, width: usize, low: usize, count: usize) -> Tokens {
        if count == width && !self.random.one_in(4) {
            return signal;
        }
        if self.random.one_in(4) {
            let from = self.random.between(0, low);
            let to = self.random.between(low + count, width);
            let wider = self.slice(from, to - from);
            let inner = self.slice(low - from, count);
            return [signal, wider, inner].concat();
        }
        let slice = self.slice(low, count);
        [signal, slice].concat()
    }

    /// `[i]` or `[h:l]`.
    fn slice(&mut self, low: usize, count: usize) -> Tokens {
        let high = self.integer((low + count - 1) as i64);
        if count == 1 && self.random.one_in(2) {
            return vec![token("["), high, token("]")];
        }
        let low = self.integer(low as i64);
        vec![token("["), high, token(":"), low, token("]")]
    }
}

/// The number of at most 32 digits 0 and 1, highest first.
fn number(digits: &[Digit]) -> u32 {
    digits
        .iter()
        .fold(0, |number, digit| number << 1 | u32::from(digit & 1))
}

/// How many of the bits, lowest first, are one run.
fn run_length(bits: &[Bit]) -> usize {
    let goes_on = |two: &[Bit]| match (two[0], two[1]) {
        (Bit::Constant(_), Bit::Constant(_)) => true,
        (Bit::Wire(wire, bit), Bit::Wire(next, above)) => wire == next && bit + 1 == above,
        _ => false,
    };
    let more = bits.windows(2).take_while(|two| goes_on(two)).count();
    more + usize::from(!bits.is_empty())
}

fn highest_wire<'a>(signals: impl IntoIterator<Item = &'a Vec<Bit>>) -> Option<usize> {
    let wire = |bit: &Bit| match bit {
        Bit::Constant(_) => None,
        Bit::Wire(wire, _) => Some(wire.0),
    };
    signals.into_iter().flatten().filter_map(wire).max()
}

fn cell_wire(cell: &Cell) -> Option<usize> {
    highest_wire(cell.connections.iter().map(|connection| &connection.bits))
}

fn process_wire(process: &Process) -> Option<usize> {
    let signals = process.lines.iter().flat_map(|line| match line {
        ProcessLine::Step(step) => &step.object.signals[..],
        ProcessLine::SwitchEnd => &[],
    });
    highest_wire(signals)
}
