//! Renames a wire of the first module and writes the text: `cargo run --example rename FILE.il OLD NEW`.

use skytassel::{Design, ModuleNumber};
use std::env;
use std::error::Error;
use std::ffi::OsString;
use std::fs;
use std::io::{stdout, Write};
use std::os::unix::ffi::OsStrExt;

fn main() -> Result<(), Box<dyn Error>> {
    let words: Vec<OsString> = env::args_os().skip(1).collect();
    let [path, old, new] = words.as_slice() else {
        return Err("a file, a wire's name and its new name are wanted".into());
    };
    let mut design = Design::read(&fs::read(path)?)?;
    let module = ModuleNumber(0);
    let wire = design.look_up(module, old.as_bytes())?;
    design.rename(module, wire, new.as_bytes())?;
    stdout().write_all(&design.write()?)?;
    Ok(())
}
