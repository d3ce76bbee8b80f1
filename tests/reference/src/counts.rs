//! The counts that the sizes bound (refusal 11), each over the whole design.

use crate::shapes::{Shape, WrittenConstant};
use crate::sizes;

#[derive(Debug, Clone, Copy, Default, PartialEq, Eq)]
pub struct Counts {
    pub modules: usize,
    pub wires: usize,
    pub memories: usize,
    pub cells: usize,
    pub parameters: usize,
    pub attributes: usize,
    pub cell_connections: usize,
    pub module_connections: usize,
    pub processes: usize,
    pub steps: usize,
    pub step_signals: usize,
    pub signal_bits: usize,
    pub value_bits: usize,
    pub string_bytes: usize,
    pub name_bytes: usize,
}

impl Counts {
    /// What one line adds; `signal_bits` counts all its signals after slicing.
    pub fn of(shape: &Shape, signal_bits: usize) -> Counts {
        let mut counts = Counts {
            signal_bits,
            ..Counts::default()
        };
        match shape {
            Shape::Attribute(name, constant) => {
                counts.attributes = 1;
                counts.name(name).constant(constant);
            }
            Shape::Module(name) => counts.name(name).modules = 1,
            Shape::ModuleParameter(name, constant) => {
                counts.name(name).parameters = 1;
                constant
                    .iter()
                    .for_each(|constant| counts.constant(constant));
            }
            Shape::Wire(_, name) => counts.name(name).wires = 1,
            Shape::Memory(_, name) => counts.name(name).memories = 1,
            Shape::Cell(kind, name) => counts.name(kind).name(name).cells = 1,
            Shape::CellParameter(_, name, constant) => {
                counts.parameters = 1;
                counts.name(name).constant(constant);
            }
            Shape::CellConnection(port, _) => counts.name(port).cell_connections = 1,
            Shape::ModuleConnection(..) => counts.module_connections = 1,
            Shape::Process(name) => counts.name(name).processes = 1,
            Shape::Step(_, signals) => {
                counts.steps = 1;
                counts.step_signals = signals.len();
            }
            Shape::Autoidx(_)
            | Shape::CellEnd
            | Shape::SwitchEnd
            | Shape::ProcessEnd
            | Shape::ModuleEnd => {}
        }
        counts
    }

    fn name(&mut self, name: &[u8]) -> &mut Counts {
        self.name_bytes += name.len();
        self
    }

    fn constant(&mut self, constant: &WrittenConstant) {
        match constant {
            WrittenConstant::Value(width, _) => self.value_bits += *width as usize,
            WrittenConstant::String(bytes) => self.string_bytes += bytes.len(),
            WrittenConstant::Integer(_) => {}
        }
    }

    pub fn plus(self, more: Counts) -> Counts {
        Counts {
            modules: self.modules + more.modules,
            wires: self.wires + more.wires,
            memories: self.memories + more.memories,
            cells: self.cells + more.cells,
            parameters: self.parameters + more.parameters,
            attributes: self.attributes + more.attributes,
            cell_connections: self.cell_connections + more.cell_connections,
            module_connections: self.module_connections + more.module_connections,
            processes: self.processes + more.processes,
            steps: self.steps + more.steps,
            step_signals: self.step_signals + more.step_signals,
            signal_bits: self.signal_bits + more.signal_bits,
            value_bits: self.value_bits + more.value_bits,
            string_bytes: self.string_bytes + more.string_bytes,
            name_bytes: self.name_bytes + more.name_bytes,
        }
    }

    pub fn within_sizes(&self) -> bool {
        self.modules <= sizes::MODULES
            && self.wires <= sizes::WIRES
            && self.memories <= sizes::MEMORIES
            && self.cells <= sizes::CELLS
            && self.parameters <= sizes::PARAMETERS
            && self.attributes <= sizes::ATTRIBUTES
            && self.cell_connections <= sizes::CELL_CONNECTIONS
            && self.module_connections <= sizes::MODULE_CONNECTIONS
            && self.processes <= sizes::PROCESSES
            && self.steps <= sizes::STEPS
            && self.step_signals <= sizes::STEP_SIGNALS
            && self.signal_bits <= sizes::SIGNAL_BITS
            && self.value_bits <= sizes::VALUE_BITS
            && self.string_bytes <= sizes::STRING_BYTES
            && self.name_bytes <= sizes::NAME_BYTES
    }
}
