//! Reads standard input, writes the one written text or number and place.

use std::io::{self, Read, Write};

fn main() -> io::Result<()> {
    let mut file = Vec::new();
    io::stdin()
        .take(reference::sizes::FILE_BYTES as u64 + 1)
        .read_to_end(&mut file)?;
    io::stdout().write_all(&reference::program(&file))
}
