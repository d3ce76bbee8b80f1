//! Times of the exported calls, beside the reference: `cargo run --release`. It prints; it judges nothing. For tools outside,
//! `files FOLDER` writes the files that are counted and raced, and `call CALL FILE RENAMES TIMES` makes one call so often.

mod calls;
mod comparing;
mod files;
mod one_call;

use library::expected::reading;
use library::{fill, Card, Tables};
use std::fs;
use std::hint::black_box;
use std::time::{Duration, Instant};

const RUNS: usize = 300;
/// The shortest of the runs.
fn shortest(mut run: impl FnMut()) -> Duration {
    let time = |_| {
        let start = Instant::now();
        run();
        start.elapsed()
    };
    (0..RUNS).map(time).min().expect("some runs")
}

struct Times {
    library: Duration,
    reference: Duration,
}

fn times(file: &[u8]) -> Times {
    let mut tables = Tables::zeroed();
    let mut card = Card::default();
    let answer = fill(file, &mut tables, &mut card);
    let expected = reading(file, &tables, card);
    assert_eq!(answer, expected.answer);
    assert_eq!(answer.number, 0, "an accepted file");
    assert!(tables == expected.tables && card == expected.card);
    Times {
        library: shortest(|| {
            black_box(fill(black_box(file), &mut tables, &mut card));
        }),
        reference: shortest(|| {
            black_box(reference::read(black_box(file)).is_ok());
        }),
    }
}

fn micros(time: Duration) -> f64 {
    time.as_secs_f64() * 1e6
}

fn main() {
    let arguments: Vec<String> = std::env::args().skip(1).collect();
    let arguments: Vec<&str> = arguments.iter().map(String::as_str).collect();
    match arguments[..] {
        [] => print_times(),
        ["files", folder] => write_files(folder),
        ["call", call, file, renames, times] => print_number(call, file, renames, times),
        _ => panic!("nothing, `files FOLDER` or `call CALL FILE RENAMES TIMES`"),
    }
}

/// Writes NAME.il into the folder for each file, and prints the names.
fn write_files(folder: &str) {
    for (name, file) in files::named() {
        fs::write(format!("{folder}/{name}.il"), file).expect("a folder that can be written to");
        println!("{name}");
    }
}

/// The number that the call answers.
fn print_number(call: &str, file: &str, renames: &str, times: &str) {
    let file = fs::read(file).expect("a file");
    let [renames, times] = [renames, times].map(|count| count.parse().expect("a count"));
    let number = one_call::run(call, &file, renames, times);
    println!("{}", number.expect("read, judge, write or rename"));
}

/// The tables of times in docs/SPEED.md. The reference takes no time for the empty file.
fn print_times() {
    let files = files::named().into_iter().skip(1);
    let (names, times): (Vec<_>, Vec<_>) = files.map(|(name, file)| (name, times(&file))).unzip();
    println!("| us | {} |", names.join(" | "));
    println!("|---|{}", "---|".repeat(names.len()));
    let row = |what, cell: fn(&Times) -> String| {
        let cells: Vec<String> = times.iter().map(cell).collect();
        println!("| {what} | {} |", cells.join(" | "));
    };
    row("read", |taken| format!("{:.1}", micros(taken.library)));
    row("reference", |taken| {
        format!("{:.1}", micros(taken.reference))
    });
    row("ratio", |taken| {
        format!("{:.2}", taken.library.div_duration_f64(taken.reference))
    });
    calls::print();
    comparing::print();
}
