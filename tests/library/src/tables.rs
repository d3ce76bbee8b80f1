//! The memory that a caller lends: five tables and the session card.

use reference::generate::random::Random;
use skytassel::lent::{Lent, View};
pub use skytassel::lent::{BITS, NAMES, ROW, ROWS, STRINGS, WIRES};
pub use skytassel::sys::Card;

/// Lengths are the caller's, so that wrong ones can be lent.
#[derive(Debug, Clone, PartialEq, Eq)]
pub struct Tables {
    pub names: Vec<u8>,
    pub strings: Vec<u8>,
    pub bits: Vec<u32>,
    pub wires: Vec<u32>,
    pub rows: Vec<u32>,
}

impl Tables {
    pub fn zeroed() -> Tables {
        Tables {
            names: vec![0; NAMES],
            strings: vec![0; STRINGS],
            bits: vec![0; BITS],
            wires: vec![0; WIRES],
            rows: vec![0; ROWS],
        }
    }

    /// Fills every table, at its length, with what no file leaves.
    pub fn fill(&mut self, random: &mut Random) {
        self.names.fill_with(|| random.byte());
        self.strings.fill_with(|| random.byte());
        for table in [&mut self.bits, &mut self.wires, &mut self.rows] {
            table.fill_with(|| random.number() as u32);
        }
    }

    /// One of the five tables at another length, of the one that it had.
    pub fn resize(&mut self, table: usize, length: impl Fn(usize) -> usize) {
        match table {
            0 => self.names.resize(length(NAMES), 0),
            1 => self.strings.resize(length(STRINGS), 0),
            2 => self.bits.resize(length(BITS), 0),
            3 => self.wires.resize(length(WIRES), 0),
            _ => self.rows.resize(length(ROWS), 0),
        }
    }

    pub fn lent<'a>(&'a mut self, card: &'a mut Card) -> Lent<'a> {
        Lent {
            names: &mut self.names,
            strings: &mut self.strings,
            bits: &mut self.bits,
            wires: &mut self.wires,
            rows: &mut self.rows,
            card,
        }
    }

    pub fn view(&self, card: Card) -> View<'_> {
        View {
            names: &self.names,
            strings: &self.strings,
            bits: &self.bits,
            wires: &self.wires,
            rows: &self.rows,
            card,
        }
    }
}

pub fn any_card(random: &mut Random) -> Card {
    Card {
        renames: random.number() as u32,
        room: random.number() as u32,
    }
}
