//! The wire that a device's label stands for, by its number in the module and its name: `cargo run --example label FILE.il MODULE_NUMBER LABEL`.

use skytassel::{name_of, Design, ModuleNumber};
use std::env;
use std::error::Error;
use std::fs;
use std::io::{stdout, Write};

fn main() -> Result<(), Box<dyn Error>> {
    let words: Vec<String> = env::args().skip(1).collect();
    let [path, module, label] = words.as_slice() else {
        return Err("a file, a module's number and a label are wanted".into());
    };
    let design = Design::read(&fs::read(path)?)?;
    let name = name_of(label.as_bytes())?;
    let wire = design.look_up(ModuleNumber(module.parse()?), &name)?;
    let mut out = stdout();
    write!(out, "wire {} ", wire.0)?;
    out.write_all(&name)?;
    writeln!(out)?;
    Ok(())
}
