//! The stated sizes.

pub const FILE_BYTES: usize = 32_768;
pub const TEXT_BYTES: usize = 32_768;
pub const NAME_LENGTH: usize = 255;
/// The longest plain form: that of a name of 255 bytes, none of them kept.
pub const PLAIN_FORM: usize = 1 + 3 * (NAME_LENGTH - 1);
pub const BUNDLE_DEPTH: usize = 16;
/// Switches inside one another, the root's counted.
pub const SWITCH_DEPTH: usize = 16;
pub const RENAMES: usize = 64;

/// Widest wire, memory word and value.
pub const WIDTH: u64 = 2_048;
/// Widest signal or part of one, before slicing.
pub const PART_BITS: u64 = 2_048;
pub const PORT_NUMBER: i64 = 1_023;

pub const MODULES: usize = 32;
pub const WIRES: usize = 512;
pub const MEMORIES: usize = 32;
pub const CELLS: usize = 256;
pub const PARAMETERS: usize = 1_024;
pub const ATTRIBUTES: usize = 1_024;
pub const CELL_CONNECTIONS: usize = 1_024;
pub const MODULE_CONNECTIONS: usize = 512;
pub const PROCESSES: usize = 64;
/// Inside processes, `end` and attributes apart.
pub const STEPS: usize = 1_024;
/// Of those lines, parts of a signal not counted.
pub const STEP_SIGNALS: usize = 4_096;
pub const SIGNAL_BITS: usize = 8_192;
pub const VALUE_BITS: usize = 8_192;
pub const STRING_BYTES: usize = 8_192;
pub const NAME_BYTES: usize = 16_384;
