//! A rename that is taken back leaves the design as it was, bit for bit.

use skytassel::{Design, ModuleNumber, Refusal};
use std::error::Error;

fn main() -> Result<(), Box<dyn Error>> {
    let read = Design::read(b"module \\ear\n  wire width 8 \\gain\n  wire \\y\nend\n")?;
    let mut design = read.clone();
    let ear = ModuleNumber(0);
    let gain = design.look_up(ear, b"\\gain")?;
    design.rename(ear, gain, b"\\left_gain")?;
    println!("{}", String::from_utf8_lossy(&design.write()?));
    assert_eq!(design.rename(ear, gain, b"\\y"), Err(Refusal::NameTaken));
    design.undo()?;
    assert!(design == read);
    println!("{}", String::from_utf8_lossy(&design.write()?));
    Ok(())
}
