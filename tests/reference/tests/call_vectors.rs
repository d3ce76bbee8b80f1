//! Every vector with calls: each answer, and what is written behind them.

use reference::call_vectors::{every_vector_agrees, Plain};

#[test]
fn one_wire() {
    every_vector_agrees("10-one-wire", 22, Plain::of);
}

#[test]
fn plain() {
    every_vector_agrees("05-plain", 15, Plain::of);
}
