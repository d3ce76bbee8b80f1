//! Reads a file and says what is refused, which fails: `cargo run --example read FILE.il`.

use skytassel::Design;
use std::env;
use std::error::Error;
use std::fs;
use std::process::ExitCode;

fn main() -> Result<ExitCode, Box<dyn Error>> {
    let path = env::args().nth(1).ok_or("a file is wanted")?;
    let file = fs::read(&path)?;
    match Design::read(&file) {
        Ok(design) => {
            println!("{path}: {} bytes of names", design.room_used());
            Ok(ExitCode::SUCCESS)
        }
        Err(refused) => {
            let before = &file[..refused.place];
            let line = before.iter().filter(|&&byte| byte == b'\n').count() + 1;
            println!("{path}, line {line}: {}", refused.refusal);
            Ok(ExitCode::FAILURE)
        }
    }
}
