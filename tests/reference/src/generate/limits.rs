//! Files with one size just under its limit, at it, or one over.

use super::pieces::string;
use super::random::Random;
use super::well_formed;
use super::SizeClass;
use crate::{read_any_length, sizes, text};
use std::fmt::Write;

/// A file whose chosen size is its limit and -1, 0 or 1.
pub fn file(random: &mut Random) -> Vec<u8> {
    let over = random.below(3);
    let at = |limit: usize| limit + over - 1;
    match random.below(19) {
        0 => modules(at(sizes::MODULES)),
        1 => objects(random, "wire", at(sizes::WIRES)),
        2 => objects(random, "memory", at(sizes::MEMORIES)),
        3 => objects(random, "cell \\t", at(sizes::CELLS)),
        4 => parameters(random, at(sizes::PARAMETERS)),
        5 => attributes(random, at(sizes::ATTRIBUTES)),
        6 => cell_connections(random, at(sizes::CELL_CONNECTIONS)),
        7 => module_connections(at(sizes::MODULE_CONNECTIONS)),
        8 => signal_bits(random, at(sizes::SIGNAL_BITS)),
        9 => part_bits(random, at(sizes::PART_BITS as usize)),
        10 => value_bits(random, at(sizes::VALUE_BITS)),
        11 => string_bytes(random, at(sizes::STRING_BYTES)),
        12 => name_bytes(random, at(sizes::NAME_BYTES)),
        13 => file_bytes(random, at(sizes::FILE_BYTES)),
        14 => objects(random, "process", at(sizes::PROCESSES)),
        15 => steps(random, at(sizes::STEPS)),
        16 => step_signals(random, at(sizes::STEP_SIGNALS)),
        17 => process_bits(random, at(sizes::SIGNAL_BITS)),
        _ => text_bytes(at(sizes::TEXT_BYTES)),
    }
}

fn modules(count: usize) -> Vec<u8> {
    (0..count)
        .map(|number| format!("module \\{number}\nend\n"))
        .collect::<String>()
        .into_bytes()
}

/// Splits the count into parts of at most `most`.
fn parts(random: &mut Random, mut count: usize, most: usize) -> Vec<usize> {
    let mut parts = Vec::new();
    while count > 0 {
        let part = match random.one_in(3) {
            true => random.between(1, count.min(most)),
            false => count.min(most),
        };
        parts.push(part);
        count -= part;
    }
    parts
}

/// Wires, memories, cells or processes over two modules.
fn objects(random: &mut Random, words: &str, count: usize) -> Vec<u8> {
    let first = random.between(0, count);
    let end = match words {
        "wire" | "memory" => "",
        _ => "end\n",
    };
    let mut file = String::from("module \\m\n");
    for number in 0..count {
        if number == first {
            file += "end\nmodule \\n\n";
        }
        let _ = write!(file, "{words} \\{number}\n{end}");
    }
    (file + "end\n").into_bytes()
}

fn parameters(random: &mut Random, count: usize) -> Vec<u8> {
    let in_module = random.between(0, count);
    let mut file = String::from("module \\m\n");
    for number in 0..in_module {
        let _ = writeln!(file, "parameter \\{number}");
    }
    file += "cell \\t \\c\n";
    for number in in_module..count {
        let _ = writeln!(file, "parameter \\{number} 1");
    }
    (file + "end\nend\n").into_bytes()
}

/// Attributes of wires or of cases.
fn attributes(random: &mut Random, count: usize) -> Vec<u8> {
    let of_cases = random.one_in(2);
    let mut file = String::from(match of_cases {
        true => "module \\m\nprocess \\p\nswitch 1'0\n",
        false => "module \\m\n",
    });
    let parts = parts(random, count, 500);
    for (object, part) in parts.into_iter().enumerate() {
        for number in 0..part {
            let _ = writeln!(file, "attribute \\{number} 1");
        }
        let _ = match of_cases {
            true => writeln!(file, "case"),
            false => writeln!(file, "wire \\{object}"),
        };
    }
    (file + if of_cases { "end\nend\nend\n" } else { "end\n" }).into_bytes()
}

fn cell_connections(random: &mut Random, count: usize) -> Vec<u8> {
    let mut file = String::from("module \\m\n");
    let parts = parts(random, count, 400);
    for (cell, part) in parts.into_iter().enumerate() {
        let _ = writeln!(file, "cell \\t \\{cell}");
        for port in 0..part {
            let _ = writeln!(file, "connect \\{port} {{}}");
        }
        file += "end\n";
    }
    (file + "end\n").into_bytes()
}

fn module_connections(count: usize) -> Vec<u8> {
    format!("module \\m\n{}end\n", "connect{}{}\n".repeat(count)).into_bytes()
}

fn signal_bits(random: &mut Random, count: usize) -> Vec<u8> {
    let mut file = String::from("module \\m\nwire width 2048 \\a\ncell \\t \\c\n");
    for (port, width) in parts(random, count, 2_048).into_iter().enumerate() {
        let _ = writeln!(file, "connect \\{port} \\a [{}:0]", width - 1);
    }
    (file + "end\nend\n").into_bytes()
}

/// A bundle of this many bits, cut to one bit.
fn part_bits(random: &mut Random, count: usize) -> Vec<u8> {
    let mut file = String::from("module \\m\nwire width 2048 \\a\ncell \\t \\c\nconnect \\A { ");
    for width in parts(random, count, 2_048) {
        let _ = write!(file, "\\a [{}:0] ", width - 1);
    }
    (file + "} [0]\nend\nend\n").into_bytes()
}

/// Lines inside processes: mostly of one kind in each.
fn steps(random: &mut Random, count: usize) -> Vec<u8> {
    let mut file = String::from("module \\m\n");
    for (process, part) in parts(random, count, 400).into_iter().enumerate() {
        let _ = writeln!(file, "process \\{process}");
        let more = part - 1;
        file += &match random.below(5) {
            0 => "assign{}{}\n".repeat(part),
            1 => format!("switch{{}}\n{}end\n", "case\n".repeat(more)),
            2 => format!("sync init\n{}", "update{}{}\n".repeat(more)),
            3 => "sync edge 1'0\n".repeat(part),
            _ if more == 0 => "assign{}{}\n".to_string(),
            _ => {
                let side_by_side = "switch{}\nend\n".repeat(more - 1);
                format!("switch{{}}\ncase\n{side_by_side}end\n")
            }
        };
        file += "end\n";
    }
    (file + "end\n").into_bytes()
}

/// Signals of lines inside processes, most of them compare values.
fn step_signals(random: &mut Random, count: usize) -> Vec<u8> {
    let mut file = String::from("module \\m\nwire width 0 \\a\n");
    for (process, part) in parts(random, count, 900).into_iter().enumerate() {
        let _ = writeln!(file, "process \\{process}");
        let switch = format!("switch{{}}\ncase{}\nend\n", vec!["{}"; part - 1].join(","));
        file += &match random.below(4) {
            0 if part % 2 == 0 => "assign{}\\a\n".repeat(part / 2),
            1 if part % 2 == 1 => format!("sync low 1'0\n{}", "update{}\\a\n".repeat(part / 2)),
            _ => switch,
        };
        file += "end\n";
    }
    (file + "end\n").into_bytes()
}

/// Signal bits of lines inside processes, and of a connection.
fn process_bits(random: &mut Random, count: usize) -> Vec<u8> {
    let connected = random.between(0, 2_048);
    let mut file = format!("module \\m\nwire width 2048 \\a\nconnect {connected}' {connected}'\n");
    let left = count - 2 * connected;
    for (process, part) in parts(random, left, 2_048).into_iter().enumerate() {
        let _ = writeln!(file, "process \\{process}");
        let (half, third) = (part / 2, part / 3);
        let _ = match random.below(3) {
            0 if part % 2 == 0 => writeln!(file, "assign {half}' \\a [{}:0]", half - 1),
            1 if part % 3 == 0 => {
                let value = format!("\\a [{}:0]", third - 1);
                writeln!(file, "switch {value}\ncase {value} , {third}'1\nend")
            }
            2 if part == 1 => writeln!(file, "sync high \\a [7]"),
            _ => writeln!(file, "switch \\a [{}:0]\nend", part - 1),
        };
        file += "end\n";
    }
    (file + "end\n").into_bytes()
}

fn value_bits(random: &mut Random, count: usize) -> Vec<u8> {
    let mut file = String::from("module \\m\n");
    for (number, width) in parts(random, count, 2_048).into_iter().enumerate() {
        let _ = writeln!(file, "parameter \\{number} {width}'x");
    }
    (file + "end\n").into_bytes()
}

fn string_bytes(random: &mut Random, count: usize) -> Vec<u8> {
    let mut file = b"module \\m\n".to_vec();
    for (number, length) in parts(random, count, 4_096).into_iter().enumerate() {
        file.extend(format!("parameter \\{number} ").bytes());
        file.extend(string(random, &vec![b'a'; length]));
        file.push(b'\n');
    }
    file.extend(b"end\n");
    file
}

/// Names of 4 to 255 bytes that fill the name room.
fn name_bytes(random: &mut Random, count: usize) -> Vec<u8> {
    let mut file = String::from("module \\m\n");
    let mut left = count - 2;
    let mut number = 0;
    while left > 0 {
        let length = match left {
            ..=255 => left,
            _ if random.one_in(8) => random.between(4, 250),
            _ => 255.min(left - 4),
        };
        let (word, end) = match random.one_in(4) {
            true => ("process", "end\n"),
            false => ("wire", ""),
        };
        let _ = write!(
            file,
            "{word} \\{number:0digits$}\n{end}",
            digits = length - 1
        );
        left -= length;
        number += 1;
    }
    (file + "end\n").into_bytes()
}

/// A well-formed file filled with a comment to this length.
fn file_bytes(random: &mut Random, count: usize) -> Vec<u8> {
    let budget = random.between(10, 3_000);
    let mut file = well_formed::file(random, SizeClass::Medium, budget);
    file.truncate(count - 2);
    file.push(b'#');
    file.resize(count - 1, b'x');
    file.push(b'\n');
    file
}

/// A file whose text has this length: its strings grow fourfold when written.
fn text_bytes(count: usize) -> Vec<u8> {
    let file = |controls: usize, letters: usize| {
        let controls = "\u{1}".repeat(controls);
        let letters = "a".repeat(letters);
        format!("module \\m\nparameter \\p \"{controls}\"\nparameter \\q \"{letters}\"\nend\n")
            .into_bytes()
    };
    let without = read_any_length(&file(0, 0)).expect("a sound file").design();
    let missing = count - text::text(&without).len();
    file(missing / 4, missing % 4)
}
