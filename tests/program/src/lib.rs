//! Runs target/bin/skytassel, which tests/program/build.sh writes.

use std::io::Write;
use std::path::{Path, PathBuf};
use std::process::{Command, Stdio};

fn path() -> PathBuf {
    Path::new(env!("CARGO_MANIFEST_DIR")).join("../../target/bin/skytassel")
}

/// What the program writes on this input. It reads one byte over the limit at most, so the rest of a longer input may find the pipe closed.
pub fn answer(file: &[u8]) -> Vec<u8> {
    let mut program = Command::new(path())
        .stdin(Stdio::piped())
        .stdout(Stdio::piped())
        .spawn()
        .expect("target/bin/skytassel is there: bash tests/program/build.sh");
    let mut input = program.stdin.take().expect("a pipe");
    let _ = input.write_all(file);
    drop(input);
    let output = program.wait_with_output().expect("the program ends");
    assert!(output.status.success(), "{:?}", output.status);
    output.stdout
}
