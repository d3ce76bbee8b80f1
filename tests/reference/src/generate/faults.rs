//! Files with one line aimed at one refusal number, or at several at once.

use super::pieces::{self, split, token, Tokens};
use super::random::Random;
use super::signals;
use super::well_formed::Builder;
use super::SizeClass;

/// Lines with a bad token, complete but for the line end.
const BAD_TOKENS: [&[u8]; 40] = [
    b"\\",
    b"$",
    b"wire \\",
    b"wire $ \\a",
    b"wire\\a",
    b"wire\"a\"",
    b"wirex \\a",
    b"Wire \\a",
    b"wire1 \\a",
    b"%",
    b"=",
    b"\x00",
    b"\x7f",
    b"\xef\xbb\xbfmodule \\z",
    b"wire \\a\x00",
    b"wire \x0b\\a",
    b"'",
    b";",
    b"parameter \\p \"",
    b"parameter \\p \"abc",
    b"parameter \\p \"a\\",
    b"parameter \\p \"a\x00b\"",
    b"parameter \\p \"\\0\"",
    b"parameter \\p \"\\000\"",
    b"parameter \\p \"\\400\"",
    b"parameter \\p \"\\777\"",
    b"parameter \\p \"a\"b",
    b"parameter \\p \"a\"\"b\"",
    b"parameter \\p \"a\"1",
    b"parameter \\p \"\\\x00\"",
    b"parameter \\p -",
    b"parameter \\p --1",
    b"parameter \\p -1'0",
    b"parameter \\p 12a",
    b"parameter \\p 1'2",
    b"parameter \\p 1'X",
    b"parameter \\p 1'0'0",
    b"parameter \\p 1.5",
    b"parameter \\p 1\\a",
    b"parameter \\p 0x1",
];

/// Lines of no permitted shape in a module; most have none anywhere.
const BAD_SHAPES: [&str; 54] = [
    "wire",
    "wire \\a \\b",
    "wire width \\a",
    "wire \\a width 3",
    "wire width 1'1 \\a",
    "wire upto 1 \\a",
    "wire input \\a",
    "wire size 3 \\a",
    "wire width 3",
    "memory",
    "memory upto \\a",
    "memory signed \\a",
    "memory width \\a",
    "memory \\a size 3",
    "memory input 1 \\a",
    "cell",
    "cell \\t",
    "cell \\t \\u \\v",
    "cell 1 \\u",
    "connect",
    "connect \\a",
    "connect \\a \\a \\a",
    "connect { \\a \\a",
    "connect \\a } \\a",
    "connect \\a [ 1 \\a",
    "connect \\a [ 1 : ] \\a",
    "connect \\a [ : 1 ] \\a",
    "connect [ 1 ] \\a",
    "connect \\a [ 1'0 ] \\a",
    "connect \\a [ \\b ] \\a",
    "connect \\a , \\a",
    "connect { \\a , \\a } \\a",
    "connect \\a [ ] \\a",
    "connect \\a [ 1 : 0 : 0 ] \\a",
    "connect upto \\a",
    "parameter",
    "parameter 1 \\p",
    "parameter signed \\p 1",
    "parameter \\p 1 2",
    "parameter \\p \\q",
    "parameter \\p { 1 }",
    "attribute",
    "attribute \\x",
    "attribute \\x \\y",
    "attribute \\x 1 2",
    "attribute 1",
    "module \\z",
    "autoidx 1",
    "end end",
    "assign \\a \\a",
    "switch \\a",
    "case",
    "sync always",
    "process",
];

/// A module up to a faulty line, that line, and ends after it.
pub fn file(random: &mut Random, size: SizeClass) -> Vec<u8> {
    let mut builder = Builder::new(random, size);
    builder.open_module();
    for _ in 0..builder.random.below(4) {
        builder.wire();
    }
    match builder.random.below(19) {
        0 => bad_token(&mut builder),
        1 => bad_shape(&mut builder),
        2 => at_top(&mut builder),
        3 | 4 => object_line(&mut builder),
        5 => constant_line(&mut builder),
        6 => unfinished(&mut builder),
        7 => process_line(&mut builder),
        8..=11 => line_in_process(&mut builder),
        12 => nested(&mut builder),
        _ => connection_line(&mut builder),
    }
    builder.file
}

fn bad_token(builder: &mut Builder) {
    let bad = match builder.random.one_in(20) {
        true => [b"wire \\".to_vec(), vec![b'a'; 255]].concat(),
        false => builder.random.pick(&BAD_TOKENS).to_vec(),
    };
    let ended = !builder.random.one_in(4);
    builder.file.extend(bad);
    if ended {
        builder.file.push(b'\n');
        builder.end();
    }
}

fn bad_shape(builder: &mut Builder) {
    if builder.random.one_in(4) {
        builder.open_cell();
    }
    let bad = match builder.random.one_in(8) {
        true => format!("connect {}{}{{ }}", "{ ".repeat(17), "} ".repeat(17)),
        false => builder.random.pick(&BAD_SHAPES).to_string(),
    };
    builder.line(&split(&bad));
    builder.end();
    builder.end();
}

/// A second module or other line at the top.
fn at_top(builder: &mut Builder) {
    builder.end();
    let lines = [
        "autoidx 3",
        "end",
        "wire \\a",
        "connect { } { }",
        "process \\p",
        "parameter \\p 1",
        "cell \\t \\u",
        "memory \\m",
        "module \\a \\b",
        "module",
        "attribute \\x 1",
        "autoidx",
    ];
    let line = split(builder.random.pick(&lines));
    if builder.random.one_in(3) {
        builder.line(&split("attribute \\y 1"));
    }
    builder.line(&line);
    if builder.random.one_in(2) {
        builder.line(&split("module \\after"));
        builder.end();
    }
}

/// Lines but for their name, some at a limit and some over it.
const OBJECT_LINES: [&str; 30] = [
    "wire width 2049",
    "wire width -1",
    "wire width 2048",
    "wire width 1 width 1",
    "wire upto upto",
    "wire signed signed",
    "wire offset 1 offset 1",
    "wire input 0",
    "wire input 1024",
    "wire inout 1023",
    "wire input 7 output 8",
    "wire input 7 input 7",
    "wire offset 2147483648",
    "wire offset -2147483649",
    "wire offset 2147483647",
    "wire width 2 offset 2147483647",
    "wire width 0 offset 2147483647",
    "wire width 99999999999999999999",
    "wire output 3",
    "memory width 0",
    "memory width 2049",
    "memory size -1",
    "memory size 2147483648",
    "memory size 1 size 1",
    "memory offset -2147483649",
    "memory width 2048 offset 2147483647",
    "cell \\t",
    "process",
    "wire",
    "memory",
];

/// A wire, memory or cell line with option faults or a taken name, perhaps after an attribute.
fn object_line(builder: &mut Builder) {
    for _ in 0..builder.random.between(1, 3) {
        let line = *builder.random.pick(&OBJECT_LINES);
        if builder.random.one_in(4) {
            builder.line(&split("attribute \\x 1"));
        }
        let name = object_name(builder);
        builder.line(&[split(line), vec![name]].concat());
        if line.starts_with("cell") {
            builder.end();
        }
    }
    builder.end();
}

fn object_name(builder: &mut Builder) -> Vec<u8> {
    match builder.wires.is_empty() || builder.random.one_in(2) {
        true => builder.new_object(),
        false => builder.random.pick(&builder.wires).0.clone(),
    }
}

/// Attributes and parameters with number faults and taken names.
fn constant_line(builder: &mut Builder) {
    let in_cell = builder.random.one_in(2);
    if in_cell {
        builder.open_cell();
    }
    let words = match in_cell {
        true => ["parameter", "parameter signed", "parameter real"],
        false => ["parameter", "parameter", "attribute"],
    };
    for _ in 0..builder.random.between(1, 4) {
        let word = *builder.random.pick(&words);
        let name = *builder.random.pick(&["\\p", "\\q", "$p"]);
        let constants = [
            "2147483648",
            "-2147483649",
            "2049'0",
            "1'01",
            "0'0",
            "0'",
            "99999999999'1",
            "1",
            "\"\"",
        ];
        let constant = *builder.random.pick(&constants);
        builder.line(&split(format!("{word} {name} {constant}")));
    }
    if in_cell {
        builder.end();
    }
    builder.end();
}

/// A file that ends too early or without its last line end.
fn unfinished(builder: &mut Builder) {
    match builder.random.below(5) {
        0 => {}
        1 => builder.open_cell(),
        2 => builder.file.extend(b"end"),
        3 => {
            builder.end();
            builder.line(&split("attribute \\x 1"));
        }
        _ => {
            builder.end();
            builder.file.extend(b"  # last \x00");
        }
    }
}

/// A process line, well-shaped or not, perhaps after attributes or with a taken name.
fn process_line(builder: &mut Builder) {
    if builder.random.one_in(2) {
        builder.line(&split("attribute \\x 1"));
    }
    let name = object_name(builder);
    let mut tokens = vec![token("process"), name];
    if builder.random.one_in(5) {
        tokens.push(token(builder.random.pick(&["1", "\\p", "\\", "}"])));
    }
    builder.line(&tokens);
    builder.end();
    builder.end();
}

/// Lines up to a place in a process, and the `end`s from there to the process's.
const PLACES: [(&[&str], usize); 8] = [
    (&[], 0),
    (&["assign { } 0'"], 0),
    (&["switch 2'01"], 1),
    (&["switch 2'01", "case 2'0 , 2'1x"], 1),
    (&["switch 2'01", "case", "switch 3'1", "case 3'0"], 2),
    (&["switch 2'01", "case", "switch 3'1", "end"], 1),
    (&["switch 2'01", "end"], 0),
    (&["sync posedge 1'1"], 0),
];

/// Lines that have a shape at some place of a process, their widths right or wrong; and some that have one nowhere.
const LINES_IN_PROCESS: [&str; 41] = [
    "assign 2'01 2'10",
    "assign 2'01 1'1",
    "assign { } { }",
    "assign \\missing 1'1",
    "assign 1'0 2'000",
    "assign { 2048' 2048' } { 2048' 2048' }",
    "assign 1'1 { 2048' 1' } [ 0 ]",
    "assign 1'1",
    "assign 1'1 , 1'1",
    "switch 1'0",
    "switch { }",
    "switch",
    "switch \\missing",
    "switch 1'0 1'0",
    "switch { 2048' 1' }",
    "case",
    "case 2'01",
    "case 3'001 , 3'1",
    "case 2'01 , 3'001",
    "case 2'01 , \\missing",
    "case 2'0 ,",
    "case , 2'0",
    "case 2'0 2'1",
    "case 2'0 , , 2'1",
    "case { 2048' 2048' }",
    "case { 2'0 , 2'1 }",
    "sync always",
    "sync low 1'0",
    "sync edge 2'01",
    "sync negedge { }",
    "sync posedge",
    "sync init 1'0",
    "sync update 1'0",
    "sync",
    "update 2'01 2'10",
    "update 2'01 { }",
    "update 2'01 \\missing",
    "memwr \\m 1'0 1'0 1'0 0'",
    "connect { } { }",
    "process \\q",
    "wire \\z",
];

/// One to three lines at a place in a process, perhaps after attributes.
fn line_in_process(builder: &mut Builder) {
    builder.open_process();
    let (lines, ends) = *builder.random.pick(&PLACES);
    for line in lines {
        builder.line(&split(line));
    }
    for _ in 0..builder.random.between(1, 3) {
        for _ in 0..builder.random.below(9).saturating_sub(6) {
            builder.line(&split("attribute \\x 1"));
        }
        match builder.random.one_in(20) {
            true => builder.end(),
            false => {
                let line = *builder.random.pick(&LINES_IN_PROCESS);
                builder.line(&split(line));
            }
        }
    }
    for _ in 0..ends + builder.random.below(3) {
        builder.end();
    }
    builder.end();
}

/// Switches 15 to 17 deep, with an attribute before the innermost or not.
fn nested(builder: &mut Builder) {
    builder.open_process();
    let depth = builder.random.between(15, 17);
    for level in 1..=depth {
        if level == depth && builder.random.one_in(2) {
            builder.line(&split("attribute \\x 1"));
        }
        builder.line(&split("switch 1'0"));
        builder.line(&split("case 1'1"));
    }
    for _ in 0..depth + 2 {
        builder.end();
    }
}

/// A connection with a random set of faults, in a module or a cell.
fn connection_line(builder: &mut Builder) {
    let in_cell = builder.random.one_in(2);
    let mut tokens = split("connect");
    let signal = faulty_signal(builder);
    if in_cell {
        builder.open_cell();
        builder.line(&split("connect \\A 1'0"));
        tokens.push(token(builder.random.pick(&["\\A", "\\B", "\\B"])));
    } else {
        let same = builder.random.one_in(2);
        tokens.extend(if same {
            signal.clone()
        } else {
            faulty_signal(builder)
        });
    }
    tokens.extend(signal);
    if builder.random.one_in(12) {
        tokens.push(token(builder.random.pick(&["\\", "1'2", "}", ",", "1"])));
    }
    builder.line(&tokens);
    if in_cell {
        builder.end();
    }
    builder.end();
}

/// A bundle of sound and faulty members.
fn faulty_signal(builder: &mut Builder) -> Tokens {
    let mut tokens = vec![token("{")];
    for _ in 0..builder.random.between(1, 3) {
        let faulty = builder.random.one_in(3);
        tokens.extend(if faulty {
            faulty_member(builder)
        } else {
            sound_member(builder)
        });
    }
    tokens.push(token("}"));
    if builder.random.one_in(5) {
        tokens.extend(split("[ 0 ]"));
    }
    tokens
}

fn sound_member(builder: &mut Builder) -> Tokens {
    match builder.wires.is_empty() || builder.random.one_in(2) {
        true => split(
            builder
                .random
                .pick(&["1'0", "4'01xz", "-1", "\"A\"", "{ }"]),
        ),
        false => vec![builder.random.pick(&builder.wires).0.clone()],
    }
}

/// Members that break a number, reference, slice or size rule: 7, 8, 10, 11.
const FAULTY_MEMBERS: [&[&str]; 4] = [
    &[
        "2147483648",
        "2'000",
        "2049'",
        "4294967297'1",
        "1'1 [ 99999999999 ]",
    ],
    &[
        "\\missing",
        "\\missing [ 0 ]",
        "\\missing [ 7 : 9 ]",
        "{ \\missing } [ 0 ]",
    ],
    &[
        "1'0 [ 1 ]",
        "4'0 [ 0 : 1 ]",
        "4'0 [ -1 ]",
        "4'0 [ 4 : 0 ]",
        "0' [ 0 ]",
        "{ 2048' 2048' } [ 4096 ]",
    ],
    &[
        "{ 2048' 2048' } [ 2 : 0 ]",
        "{ 2048' 2048' } [ 4095 : 4095 ] [ 0 ]",
        "{ 2048' 1' }",
    ],
];

fn faulty_member(builder: &mut Builder) -> Tokens {
    match builder.random.below(10) {
        0 => {
            let string = pieces::string(builder.random, &[b'a'; 257]);
            [vec![string], split("[ 0 ]")].concat()
        }
        1 | 2 if !builder.wires.is_empty() => {
            let (name, width) = builder.random.pick(&builder.wires).clone();
            let bit = width.saturating_sub(builder.random.below(2));
            [vec![name], split(format!("[ {bit} ]"))].concat()
        }
        3 | 4 => past_slices(builder),
        _ => {
            let members = *builder.random.pick(&FAULTY_MEMBERS);
            split(builder.random.pick(members))
        }
    }
}

/// Slices of slices with a last one that ends at their highest bit or one past it: inside the signal, and mostly outside the slice.
fn past_slices(builder: &mut Builder) -> Tokens {
    let (base, width) = match builder.wires.iter().find(|wire| wire.1 > 0) {
        Some((name, width)) if builder.random.one_in(2) => (vec![name.clone()], *width),
        _ => (split("-1"), 32),
    };
    let (slices, left) = signals::nested_slices(builder.random, width);
    let high = left - builder.random.below(2);
    let low = builder.random.below(2).min(high);
    [base, slices, split(format!("[ {high} : {low} ]"))].concat()
}
