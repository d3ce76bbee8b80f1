//! Plain reference for Skytassel: reads, writes and renames a part of RTLIL.
//!
//! A line is judged by stages, in ascending refusal number:
//! 4 `tokens`, 5 `shapes`, 7 to 11 `judgement`.

pub mod bytes;
pub mod call_vectors;
pub mod counts;
pub mod design;
pub mod generate;
pub mod judgement;
pub mod lines;
pub mod one_wire;
pub mod plain;
pub mod program;
pub mod reading;
pub mod session;
pub mod shapes;
pub mod signals;
pub mod sizes;
pub mod statements;
pub mod surroundings;
pub mod text;
pub mod tokens;
pub mod vectors;

pub use design::Design;
pub use one_wire::{index_of, width_of};
pub use plain::{listing, name_of, plain_form};
pub use program::program;
pub use reading::{check, read, read_any_length, Netlist, Refusal};
pub use session::Session;
pub use statements::Statement;
pub use text::{measure, write};
