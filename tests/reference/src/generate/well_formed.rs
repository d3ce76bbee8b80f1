//! Well-formed files: a builder that knows the wires and names so far.

use super::pieces::{self, split, token, Layout, Tokens};
use super::random::Random;
use super::signals;
use super::SizeClass;
use crate::sizes::SIGNAL_BITS;
use std::collections::HashSet;

pub struct Builder<'a> {
    pub random: &'a mut Random,
    pub size: SizeClass,
    pub layout: Layout,
    pub file: Vec<u8>,
    /// Wires of the module, each with its width.
    pub wires: Vec<(Vec<u8>, usize)>,
    /// Names of the module's wires, memories, cells and processes.
    pub objects: HashSet<Vec<u8>>,
    modules: HashSet<Vec<u8>>,
    ports: usize,
    signal_bits: usize,
}

/// A well-formed file of about `budget` bytes.
pub fn file(random: &mut Random, size: SizeClass, budget: usize) -> Vec<u8> {
    let mut builder = Builder::new(random, size);
    if builder.random.one_in(3) {
        let number = pieces::integer(builder.random);
        builder.line(&[token("autoidx"), number]);
    }
    while builder.file.len() < budget && builder.modules.len() < 32 {
        let share = builder.random.between(budget / 4, budget);
        let end = budget.min(builder.file.len() + share);
        builder.module(end);
        if builder.random.one_in(4) {
            break;
        }
    }
    builder.file
}

impl<'a> Builder<'a> {
    pub fn new(random: &'a mut Random, size: SizeClass) -> Builder<'a> {
        let layout = if random.one_in(2) {
            Layout::Odd
        } else {
            Layout::Plain
        };
        Builder {
            random,
            size,
            layout,
            file: Vec::new(),
            wires: Vec::new(),
            objects: HashSet::new(),
            modules: HashSet::new(),
            ports: 0,
            signal_bits: 0,
        }
    }

    pub fn line(&mut self, tokens: &[Vec<u8>]) {
        let line = pieces::line(self.random, self.layout, tokens);
        self.file.extend(line);
    }

    fn new_name(&mut self, taken: &HashSet<Vec<u8>>) -> Vec<u8> {
        loop {
            let name = pieces::name(self.random, self.size);
            if !taken.contains(&name) {
                return name;
            }
        }
    }

    /// A name that no wire, memory, cell or process of the module has, now taken.
    pub fn new_object(&mut self) -> Vec<u8> {
        let taken = std::mem::take(&mut self.objects);
        let name = self.new_name(&taken);
        self.objects = taken;
        self.objects.insert(name.clone());
        name
    }

    pub fn open_module(&mut self) {
        self.attributes();
        let taken = std::mem::take(&mut self.modules);
        let name = self.new_name(&taken);
        self.modules = taken;
        self.modules.insert(name.clone());
        self.wires.clear();
        self.objects.clear();
        self.ports = 0;
        self.line(&[token("module"), name]);
    }

    pub fn end(&mut self) {
        self.line(&[token("end")]);
    }

    fn module(&mut self, end: usize) {
        self.open_module();
        let mut parameters = HashSet::new();
        while self.file.len() < end {
            match self.random.below(10) {
                0 => self.module_parameter(&mut parameters),
                1..=3 => self.wire(),
                4 => self.memory(),
                5 | 6 => self.cell(),
                7 => self.process(),
                _ => self.two_sides("connect"),
            }
        }
        self.end();
    }

    pub fn attributes(&mut self) {
        let mut names = HashSet::new();
        while self.random.one_in(5) {
            let hdlname = token("\\hdlname");
            let name = match self.random.one_in(3) && !names.contains(&hdlname) {
                true => hdlname,
                false => self.new_name(&names),
            };
            names.insert(name.clone());
            let constant = pieces::constant(self.random, self.size);
            self.line(&[token("attribute"), name, constant]);
        }
    }

    fn module_parameter(&mut self, names: &mut HashSet<Vec<u8>>) {
        let name = self.new_name(names);
        names.insert(name.clone());
        let mut tokens = vec![token("parameter"), name];
        if self.random.one_in(2) {
            tokens.push(pieces::constant(self.random, self.size));
        }
        self.line(&tokens);
    }

    pub fn wire(&mut self) {
        self.attributes();
        let given = self.random.one_in(2);
        let width = if given {
            pieces::width(self.random, self.size)
        } else {
            1
        };
        let mut options = Vec::new();
        if given || self.random.one_in(10) {
            options.push(split(format!("width {width}")));
        }
        if self.random.one_in(4) {
            options.push(split(format!("offset {}", self.offset(width))));
        }
        if self.random.one_in(5) {
            options.push(split("upto"));
        }
        if self.random.one_in(5) {
            options.push(split("signed"));
        }
        if self.random.one_in(3) && self.ports < 1_000 {
            self.ports += self.random.between(1, 23);
            let direction = *self.random.pick(&["input", "output", "inout"]);
            options.push(split(format!("{direction} {}", self.ports)));
        }
        let name = self.new_object();
        self.wires.push((name.clone(), width));
        self.line_with_options("wire", options, name);
    }

    fn offset(&mut self, width: usize) -> i64 {
        let highest = i64::from(i32::MAX) - (width.max(1) as i64 - 1);
        match self.random.below(4) {
            0 => highest,
            1 => i64::from(i32::MIN),
            2 => 0,
            _ => self.random.below(20) as i64 - 10,
        }
    }

    fn memory(&mut self) {
        self.attributes();
        let mut options = Vec::new();
        if self.random.one_in(2) {
            options.push(split(format!(
                "width {}",
                pieces::width(self.random, self.size).max(1)
            )));
        }
        if self.random.one_in(2) {
            options.push(split(format!(
                "size {}",
                self.random.pick(&[0, 1, 16, 2_147_483_647])
            )));
        }
        if self.random.one_in(3) {
            options.push(split(format!("offset {}", self.random.number() as i32)));
        }
        let name = self.new_object();
        self.line_with_options("memory", options, name);
    }

    /// The options in any order, then the name.
    fn line_with_options(&mut self, word: &str, mut options: Vec<Tokens>, name: Vec<u8>) {
        let mut tokens = vec![token(word)];
        while !options.is_empty() {
            let at = self.random.below(options.len());
            tokens.extend(options.remove(at));
        }
        tokens.push(name);
        self.line(&tokens);
    }

    pub fn open_cell(&mut self) {
        self.attributes();
        let kind = match self.random.one_in(2) {
            true => token(self.random.pick(&["$mux", "$adff", "\\sub"])),
            false => pieces::name(self.random, self.size),
        };
        let name = self.new_object();
        self.line(&[token("cell"), kind, name]);
    }

    fn cell(&mut self) {
        self.open_cell();
        let (mut parameters, mut ports) = (HashSet::new(), HashSet::new());
        for _ in 0..self.random.below(5) {
            if self.random.one_in(3) {
                self.cell_parameter(&mut parameters);
            } else {
                self.cell_connection(&mut ports);
            }
        }
        self.end();
    }

    fn cell_parameter(&mut self, names: &mut HashSet<Vec<u8>>) {
        let name = self.new_name(names);
        names.insert(name.clone());
        let mut tokens =
            split(
                self.random
                    .pick(&["parameter", "parameter signed", "parameter real"]),
            );
        tokens.push(name);
        tokens.push(pieces::constant(self.random, self.size));
        self.line(&tokens);
    }

    fn cell_connection(&mut self, ports: &mut HashSet<Vec<u8>>) {
        let port = self.new_name(ports);
        let (signal, width) = signals::signal(self.random, self.size, &self.wires, 1);
        if !self.takes_bits(width) {
            return;
        }
        ports.insert(port.clone());
        self.line(&[vec![token("connect"), port], signal].concat());
    }

    /// Are there so many signal bits left? If so they are taken.
    pub fn takes_bits(&mut self, count: usize) -> bool {
        let left = self.signal_bits + count <= SIGNAL_BITS;
        self.signal_bits += if left { count } else { 0 };
        left
    }

    /// A line with two signals of equal width, none if the signal bits are spent.
    pub fn two_sides(&mut self, word: &str) {
        let (left, width) = signals::signal(self.random, self.size, &self.wires, 1);
        if !self.takes_bits(2 * width) {
            return;
        }
        let right = signals::signal_of_width(self.random, &self.wires, width, 1);
        let sides = if self.random.one_in(2) {
            [left, right]
        } else {
            [right, left]
        };
        self.line(&[vec![token(word)], sides.concat()].concat());
    }
}
