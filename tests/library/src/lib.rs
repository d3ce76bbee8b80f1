//! The exported calls of Skytassel as Rust sees them, and what the reference says that they answer and leave.

pub mod answers;
pub mod decoding;
pub mod expected;
pub mod exported;
pub mod files;
pub mod layout;
pub mod lines;
pub mod rooms;
pub mod tables;
pub mod undoing;

pub use decoding::valid;
pub use exported::{
    check, fill, index, index_of, listing, look_up, measure, name_of, plain_form, rename, show,
    undo, width_of, write, Answer,
};
pub use layout::layout;
pub use tables::{Card, Tables};
