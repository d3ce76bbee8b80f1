//! One wire from the file's bytes: of an accepted file what the design says; of any file the first refusal up to the wire's line.

use reference::generate::{perhaps_broken, questions, Question};
use reference::statements::ModuleNumber;
use reference::vectors::vectors;
use reference::{index_of, read, width_of, Refusal, Session};
use std::collections::BTreeMap;

const FILES: u64 = 4_000;
/// Longer files are not read line by line.
const SHORT: usize = 1_000;

/// What look-up, and then the design or the index call, say of freshly read memory.
fn of_design(session: &Session, asked: &Question) -> (Result<usize, u32>, Result<i64, u32>) {
    let module = ModuleNumber(asked.module as usize);
    let wire = match session.look_up(module, &asked.name) {
        Ok(wire) => wire,
        Err(number) => return (Err(number), Err(number)),
    };
    let held = session.design_read().wire(module, wire);
    let width = held.expect("the wire was found").object.width;
    (Ok(width), session.index(module, wire, asked.bit as usize))
}

/// Where the lines of a file end, its own end included.
fn ends(file: &[u8]) -> Vec<usize> {
    let ends = (0..file.len()).filter(|&at| matches!(file[at], 10 | 13));
    ends.map(|at| at + 1).chain([file.len()]).collect()
}

/// A file as far as the line of the wire, found by reading longer and longer starts of it: the first whose design, closed here, has the wire.
fn first_with_the_wire(file: &[u8], module: ModuleNumber, name: &[u8]) -> Option<usize> {
    let closed = |end: usize| [&file[..end], b"\nend\n"].concat();
    ends(file).into_iter().find(|&end| {
        let netlist = reference::read_any_length(&closed(end));
        netlist.is_ok_and(|netlist| Session::new(netlist.design()).look_up(module, name).is_ok())
    })
}

fn check(seed: u64, file: &[u8], asked: &Question) -> u32 {
    let module = ModuleNumber(asked.module as usize);
    let width = width_of(file, module, &asked.name);
    let index = index_of(file, module, &asked.name, asked.bit as usize);
    let number = |refusal: Refusal| refusal.number;
    match read(file) {
        Ok(netlist) => {
            let expected = of_design(&Session::new(netlist.design()), asked);
            let given = (width.map_err(number), index.map_err(number));
            assert_eq!(given, expected, "seed {seed}, {asked:?}");
        }
        Err(refusal) if width.is_ok() => {
            // stopped before the refused line, at the wire's own
            let end = || first_with_the_wire(file, module, &asked.name);
            let stopped = || end().is_some_and(|end| end <= refusal.place);
            assert!(file.len() > SHORT || stopped(), "seed {seed}");
        }
        Err(refusal) => {
            let not_there = Err(Refusal::of_call(8));
            assert!(width == Err(refusal) || width == not_there, "seed {seed}");
        }
    }
    match (width, index) {
        (Ok(width), Err(refusal)) => {
            assert_eq!(refusal, Refusal::of_call(10));
            assert!(asked.bit as usize >= width);
        }
        (Err(refused), index) => assert_eq!(index, Err(refused)),
        (Ok(_), Ok(_)) => {}
    }
    index.map_or_else(|refusal| refusal.number, |_| 0)
}

#[test]
fn questions_on_files() {
    let vectors = vectors();
    let mut numbers = BTreeMap::new();
    for seed in 0..FILES {
        let file = perhaps_broken(seed, &vectors);
        for asked in questions(seed, &file) {
            *numbers.entry(check(seed, &file, &asked)).or_insert(0) += 1;
        }
    }
    println!("questions by number: {numbers:?}");
    for number in [0, 4, 5, 7, 8, 9, 10, 11] {
        assert!(numbers.contains_key(&number), "no question gives {number}");
    }
}

/// Lines behind the wire's own are not judged.
#[test]
fn later_lines_are_not_judged() {
    let file = b"module \\m\nwire width 8 offset -4 upto \\a\n?\n";
    let m = ModuleNumber(0);
    assert_eq!(width_of(file, m, b"\\a"), Ok(8));
    assert_eq!(index_of(file, m, b"\\a", 7), Ok(-4));
    assert_eq!(index_of(file, m, b"\\a", 8), Err(Refusal::of_call(10)));
    let refused = Refusal {
        number: 4,
        place: 41,
    };
    assert_eq!(width_of(file, m, b"\\b"), Err(refused));
    let long = [&file[..], &vec![b' '; 32_768]].concat();
    assert_eq!(width_of(&long, m, b"\\a"), Err(Refusal::of_call(2)));
}
