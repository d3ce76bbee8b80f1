//! The program: a file in, its one written text or number and place out.

use crate::reading::{read, Refusal};
use crate::sizes;
use crate::text::write;

pub fn program(file: &[u8]) -> Vec<u8> {
    answer(file)
        .unwrap_or_else(|refusal| format!("{} {}\n", refusal.number, refusal.place).into_bytes())
}

fn answer(file: &[u8]) -> Result<Vec<u8>, Refusal> {
    let design = read(file)?.design();
    write(&design, sizes::TEXT_BYTES).map_err(Refusal::of_call)
}
