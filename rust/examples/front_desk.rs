//! How wide a wire is, and what index its author gave each bit, highest first, from the file's bytes alone:
//! `cargo run --example front_desk FILE.il MODULE_NUMBER NAME`.

use skytassel::{index_of, width_of, ModuleNumber};
use std::env;
use std::error::Error;
use std::ffi::OsString;
use std::fs;
use std::os::unix::ffi::OsStrExt;

fn main() -> Result<(), Box<dyn Error>> {
    let words: Vec<OsString> = env::args_os().skip(1).collect();
    let [path, module, name] = words.as_slice() else {
        return Err("a file, a module's number and a wire's name are wanted".into());
    };
    let module = ModuleNumber(module.to_string_lossy().parse()?);
    let (file, name) = (fs::read(path)?, name.as_bytes());
    let width = width_of(&file, module, name)?;
    print!("width {width}, indexes from the top bit:");
    for bit in (0..width).rev() {
        print!(" {}", index_of(&file, module, name, bit)?);
    }
    println!();
    Ok(())
}
