//! Reads, writes and reversibly renames RTLIL netlists, over Skytassel's proved library.
//!
//! - [`Design`]: a design in memory of its own, with the calls as methods and refusals as [`Refusal`].
//! - [`check`], [`width_of`] and [`index_of`]: what is asked of a file alone, without memory for a design.
//! - [`plain_form`] and [`name_of`]: a name in plain letters, and back.
//! - [`lent`]: the calls on memory that somebody lends, in any state.
//! - [`sys`]: the exported calls themselves.
//!
//! What is proved is the library behind [`sys`]: the declarations there and everything above them are plain Rust, held to a reference by tests.
//! Build the library first: `bash include/library.sh`. If its archive lies elsewhere, SKYTASSEL_LIB_DIR names the folder.

mod design;
mod file;
pub mod lent;
mod plain;
mod refusal;
pub mod sys;

pub use design::{Design, ModuleNumber, WireNumber};
pub use file::{check, index_of, width_of};
pub use plain::{name_of, plain_form};
pub use refusal::{NoRefusal, Refusal, Refused};
