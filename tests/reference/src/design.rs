//! The design as nested lists, without order between kinds.

use crate::statements::{
    Attribute, CellConnection, CellParameter, Memory, ModuleConnection, ModuleNumber,
    ModuleParameter, Statement, Step, Wire, WireNumber,
};
use crate::tokens::Name;

/// An object with the attributes that precede it.
#[derive(Debug, Clone, PartialEq, Eq)]
pub struct Attributed<T> {
    pub attributes: Vec<Attribute>,
    pub object: T,
}

#[derive(Debug, Clone, PartialEq, Eq)]
pub struct Cell {
    pub kind: Name,
    pub name: Name,
    pub parameters: Vec<CellParameter>,
    pub connections: Vec<CellConnection>,
}

/// A line inside a process.
#[derive(Debug, Clone, PartialEq, Eq)]
pub enum ProcessLine {
    /// Only a switch and a case have attributes.
    Step(Attributed<Step>),
    /// The `end` of the innermost open switch.
    SwitchEnd,
}

/// Its lines are in file order: that order is part of the design.
#[derive(Debug, Clone, PartialEq, Eq)]
pub struct Process {
    pub name: Name,
    pub lines: Vec<ProcessLine>,
}

#[derive(Debug, Clone, PartialEq, Eq)]
pub struct Module {
    pub name: Name,
    pub parameters: Vec<ModuleParameter>,
    pub wires: Vec<Attributed<Wire>>,
    pub memories: Vec<Attributed<Memory>>,
    pub cells: Vec<Attributed<Cell>>,
    pub processes: Vec<Attributed<Process>>,
    pub connections: Vec<ModuleConnection>,
}

#[derive(Debug, Clone, Default, PartialEq, Eq)]
pub struct Design {
    pub autoidx: Option<i32>,
    pub modules: Vec<Attributed<Module>>,
}

impl Design {
    /// The design of accepted statements.
    pub fn of(statements: &[Statement]) -> Design {
        let mut design = Design::default();
        let mut attributes = Vec::new();
        for statement in statements {
            match statement.clone() {
                Statement::Autoidx(number) => design.autoidx = Some(number),
                Statement::Attribute(attribute) => attributes.push(attribute),
                Statement::Module(name) => {
                    let attributes = std::mem::take(&mut attributes);
                    design.modules.push(Attributed {
                        attributes,
                        object: Module::named(name),
                    });
                }
                statement => {
                    let module = design
                        .modules
                        .last_mut()
                        .expect("the statement stands in a module");
                    module.object.add(statement, &mut attributes);
                }
            }
        }
        design
    }

    pub fn module(&self, number: ModuleNumber) -> Option<&Module> {
        self.modules.get(number.0).map(|module| &module.object)
    }

    pub fn wire(&self, module: ModuleNumber, wire: WireNumber) -> Option<&Attributed<Wire>> {
        self.module(module)?.wires.get(wire.0)
    }

    pub fn wire_mut(&mut self, module: ModuleNumber, wire: WireNumber) -> Option<&mut Wire> {
        let module = &mut self.modules.get_mut(module.0)?.object;
        module.wires.get_mut(wire.0).map(|wire| &mut wire.object)
    }

    /// The bytes of all names, each as often as it stands, wire references left out.
    pub fn name_bytes(&self) -> usize {
        self.modules
            .iter()
            .map(|module| attribute_bytes(&module.attributes) + module.object.name_bytes())
            .sum()
    }
}

fn attribute_bytes(attributes: &[Attribute]) -> usize {
    attributes
        .iter()
        .map(|attribute| attribute.name.len())
        .sum()
}

impl Module {
    fn named(name: Name) -> Module {
        Module {
            name,
            parameters: vec![],
            wires: vec![],
            memories: vec![],
            cells: vec![],
            processes: vec![],
            connections: vec![],
        }
    }

    /// Adds a statement of the module; an object takes the attributes.
    fn add(&mut self, statement: Statement, attributes: &mut Vec<Attribute>) {
        let mut taken = || std::mem::take(attributes);
        match statement {
            Statement::ModuleParameter(parameter) => self.parameters.push(parameter),
            Statement::Wire(wire) => self.wires.push(Attributed {
                attributes: taken(),
                object: wire,
            }),
            Statement::Memory(memory) => self.memories.push(Attributed {
                attributes: taken(),
                object: memory,
            }),
            Statement::Cell(kind, name) => {
                let cell = Cell {
                    kind,
                    name,
                    parameters: vec![],
                    connections: vec![],
                };
                self.cells.push(Attributed {
                    attributes: taken(),
                    object: cell,
                });
            }
            Statement::CellParameter(parameter) => self.last_cell().parameters.push(parameter),
            Statement::CellConnection(connection) => self.last_cell().connections.push(connection),
            Statement::Process(name) => self.processes.push(Attributed {
                attributes: taken(),
                object: Process {
                    name,
                    lines: vec![],
                },
            }),
            Statement::Step(step) => {
                let line = ProcessLine::Step(Attributed {
                    attributes: taken(),
                    object: step,
                });
                self.last_process().lines.push(line);
            }
            Statement::SwitchEnd => self.last_process().lines.push(ProcessLine::SwitchEnd),
            Statement::ModuleConnection(connection) => self.connections.push(connection),
            Statement::CellEnd | Statement::ProcessEnd | Statement::ModuleEnd => {}
            Statement::Autoidx(_) | Statement::Attribute(_) | Statement::Module(_) => {
                unreachable!("no statement of a module")
            }
        }
    }

    fn last_cell(&mut self) -> &mut Cell {
        &mut self
            .cells
            .last_mut()
            .expect("the statement stands in a cell")
            .object
    }

    fn last_process(&mut self) -> &mut Process {
        &mut self
            .processes
            .last_mut()
            .expect("the statement stands in a process")
            .object
    }

    fn name_bytes(&self) -> usize {
        self.name.len()
            + total(&self.parameters, |parameter| parameter.name.len())
            + total(&self.wires, |wire| {
                attribute_bytes(&wire.attributes) + wire.object.name.len()
            })
            + total(&self.memories, |memory| {
                attribute_bytes(&memory.attributes) + memory.object.name.len()
            })
            + total(&self.cells, |cell| {
                attribute_bytes(&cell.attributes) + cell.object.name_bytes()
            })
            + total(&self.processes, |process| {
                attribute_bytes(&process.attributes) + process.object.name_bytes()
            })
    }
}

impl Cell {
    fn name_bytes(&self) -> usize {
        self.kind.len()
            + self.name.len()
            + total(&self.parameters, |parameter| parameter.name.len())
            + total(&self.connections, |connection| connection.port.len())
    }
}

impl Process {
    fn name_bytes(&self) -> usize {
        let of_line = |line: &ProcessLine| match line {
            ProcessLine::Step(step) => attribute_bytes(&step.attributes),
            ProcessLine::SwitchEnd => 0,
        };
        self.name.len() + total(&self.lines, of_line)
    }
}

fn total<T>(items: &[T], bytes: impl Fn(&T) -> usize) -> usize {
    items.iter().map(bytes).sum()
}
