//! Says of each file whether it is taken, without memory for its design: `cargo run --example check FILE.il ..`. Fails if one is refused.

use skytassel::check;
use std::env;
use std::error::Error;
use std::fs;
use std::process::ExitCode;

fn main() -> Result<ExitCode, Box<dyn Error>> {
    let mut all = ExitCode::SUCCESS;
    for path in env::args_os().skip(1) {
        let file = fs::read(&path)?;
        match check(&file) {
            Ok(()) => println!("{}: taken", path.to_string_lossy()),
            Err(refused) => {
                println!("{}: {refused}", path.to_string_lossy());
                all = ExitCode::FAILURE;
            }
        }
    }
    Ok(all)
}
