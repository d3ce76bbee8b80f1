//! Writes a file's one text to standard output: `cargo run --example write FILE.il`.

use skytassel::Design;
use std::env;
use std::error::Error;
use std::fs;
use std::io::{stdout, Write};

fn main() -> Result<(), Box<dyn Error>> {
    let path = env::args().nth(1).ok_or("a file is wanted")?;
    let design = Design::read(&fs::read(path)?)?;
    stdout().write_all(&design.write()?)?;
    Ok(())
}
