//! Lists the wires of a file's module, each in plain letters and as it is shown: `cargo run --example listing FILE.il MODULE_NUMBER`.

use skytassel::{Design, ModuleNumber};
use std::env;
use std::error::Error;
use std::fs;
use std::io::{stdout, Write};

fn main() -> Result<(), Box<dyn Error>> {
    let words: Vec<String> = env::args().skip(1).collect();
    let [path, module] = words.as_slice() else {
        return Err("a file and a module's number are wanted".into());
    };
    let design = Design::read(&fs::read(path)?)?;
    let lines = design.listing(ModuleNumber(module.parse()?))?;
    stdout().write_all(&lines)?;
    Ok(())
}
