//! What the accepted lines so far tell the next line.

use crate::counts::Counts;
use crate::shapes::{Inside, Position};
use crate::signals::Wires;
use crate::statements::{Action, Statement, Step, WireNumber};
use crate::tokens::Name;
use std::collections::{HashMap, HashSet};

#[derive(Debug, Clone, Default)]
pub struct Surroundings {
    any_statement: bool,
    inside: Inside,
    /// Widths of the signals of the open switches, the innermost last.
    switches: Vec<usize>,
    /// Of attribute lines whose object is still to come.
    pub attribute_names: HashSet<Name>,
    pub module_names: HashSet<Name>,
    /// Of the module: wires with number and width, memories, cells and processes without.
    pub objects: HashMap<Name, Option<(WireNumber, usize)>>,
    wires: usize,
    pub port_numbers: HashSet<i32>,
    pub module_parameters: HashSet<Name>,
    pub cell_parameters: HashSet<Name>,
    pub cell_ports: HashSet<Name>,
    pub counts: Counts,
}

impl Wires for Surroundings {
    fn wire(&self, name: &Name) -> Option<(WireNumber, usize)> {
        self.objects.get(name).copied().flatten()
    }
}

impl Surroundings {
    pub fn position(&self) -> Position {
        Position {
            inside: self.inside,
            first: !self.any_statement,
            after_attributes: !self.attribute_names.is_empty(),
            open_switches: self.switches.len(),
        }
    }

    /// The width of the innermost open switch's signal.
    pub fn switch_width(&self) -> Option<usize> {
        self.switches.last().copied()
    }

    /// May the file end here?
    pub fn may_end(&self) -> bool {
        self.inside == Inside::Top && self.attribute_names.is_empty()
    }

    /// Takes in an accepted statement.
    pub fn take(&mut self, statement: &Statement) {
        self.any_statement = true;
        if let Statement::Attribute(attribute) = statement {
            self.attribute_names.insert(attribute.name.clone());
            return;
        }
        self.attribute_names.clear();
        match statement {
            Statement::Module(name) => self.open_module(name),
            Statement::ModuleParameter(parameter) => {
                self.module_parameters.insert(parameter.name.clone());
            }
            Statement::Wire(wire) => {
                self.objects.insert(
                    wire.name.clone(),
                    Some((WireNumber(self.wires), wire.width)),
                );
                self.wires += 1;
                self.port_numbers.extend(wire.port.map(|port| port.number));
            }
            Statement::Memory(memory) => {
                self.objects.insert(memory.name.clone(), None);
            }
            Statement::Cell(_, name) => self.open_cell(name),
            Statement::CellParameter(parameter) => {
                self.cell_parameters.insert(parameter.name.clone());
            }
            Statement::CellConnection(connection) => {
                self.cell_ports.insert(connection.port.clone());
            }
            Statement::CellEnd | Statement::ProcessEnd => self.inside = Inside::Module,
            Statement::ModuleEnd => self.inside = Inside::Top,
            Statement::Process(name) => {
                self.objects.insert(name.clone(), None);
                self.inside = Inside::Process;
            }
            Statement::Step(step) => self.take_step(step),
            Statement::SwitchEnd => self.close_switch(),
            Statement::Autoidx(_) | Statement::Attribute(_) | Statement::ModuleConnection(_) => {}
        }
    }

    fn open_module(&mut self, name: &Name) {
        self.module_names.insert(name.clone());
        self.inside = Inside::Module;
        self.wires = 0;
        self.objects.clear();
        self.port_numbers.clear();
        self.module_parameters.clear();
    }

    fn open_cell(&mut self, name: &Name) {
        self.objects.insert(name.clone(), None);
        self.inside = Inside::Cell;
        self.cell_parameters.clear();
        self.cell_ports.clear();
    }

    fn take_step(&mut self, step: &Step) {
        match step.action {
            Action::Assign | Action::Update => {}
            Action::Switch => {
                self.switches.extend(step.signals.iter().map(Vec::len));
                self.inside = Inside::Switch;
            }
            Action::Case => self.inside = Inside::Case,
            Action::Sync(_) => self.inside = Inside::Sync,
        }
    }

    /// Behind the root switch comes the process's tail, behind another the body of the case that it stands in.
    fn close_switch(&mut self) {
        self.switches.pop();
        self.inside = match self.switches.is_empty() {
            true => Inside::Tail,
            false => Inside::Case,
        };
    }
}
