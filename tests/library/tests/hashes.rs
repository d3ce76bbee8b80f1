//! Files made against the index of names: their names have one hash, so that the index tells none of them apart and a search goes through
//! all of them. What reading and the calls answer and leave is what the reference says, which has no index.

use library::expected::{reading, text_is_of, Outcome};
use library::tables::any_card;
use library::{fill, layout, look_up, rename, undo, Answer, Card, Tables};
use reference::generate::random::Random;
use reference::session::Session;
use reference::statements::{ModuleNumber, Statement, WireNumber};
use reference::Design;
use std::collections::BTreeMap;

/// Among them the first and the last.
const HASHES: [usize; 3] = [0, 300, 511];

/// The hash of crate `name_index`.
fn hash(name: &str) -> usize {
    let more = |hash, byte| (hash * 31 + usize::from(byte)) % 512;
    name.bytes().fold(0, more)
}

/// So many names of this hash, each `\` and three bytes.
fn names(wanted: usize, count: usize) -> Vec<String> {
    let bytes = || (b'!'..=b'~').map(char::from);
    let fronts = bytes().flat_map(|first| bytes().map(move |second| format!("\\{first}{second}")));
    let all = fronts.flat_map(|front| bytes().map(move |last| format!("{front}{last}")));
    let names: Vec<String> = all
        .filter(|name| hash(name) == wanted)
        .take(count)
        .collect();
    assert_eq!(names.len(), count);
    names
}

/// A line for each name.
fn each(names: &[String], line: impl Fn(&str) -> String) -> String {
    names.iter().map(|name| line(name)).collect()
}

fn wires(names: &[String]) -> String {
    each(names, |name| format!("wire {name}\n"))
}

fn module(lines: &str) -> String {
    format!("module \\m\n{lines}end\n")
}

/// Reads into memory filled with anything, holds answer and memory to the reference, and gives them.
fn read_both(file: &str) -> Outcome {
    let mut random = Random::new(file.len() as u64);
    let (mut tables, mut card) = (Tables::zeroed(), any_card(&mut random));
    tables.fill(&mut random);
    let expected = reading(file.as_bytes(), &tables, card);
    let answer = fill(file.as_bytes(), &mut tables, &mut card);
    assert_eq!((answer, card), (expected.answer, expected.card), "{file}");
    assert!(tables == expected.tables, "{file}");
    expected
}

fn number(file: &str) -> u32 {
    read_both(file).answer.number
}

/// 512 wires, each the source of a connection and some its target; a wire that is not there; a name that a wire has already.
#[test]
fn wires_and_references() {
    for hash in HASHES {
        let names = names(hash, 513);
        let (declared, missing) = (&names[..512], &names[512]);
        let all = wires(declared);
        let mut random = Random::new(hash as u64);
        let connections: String = declared
            .iter()
            .map(|name| format!("connect {} {name}\n", declared[random.below(512)]))
            .collect();
        assert_eq!(number(&module(&(all.clone() + &connections))), 0);
        for other in [0, 1, 255, 511] {
            let both = format!("connect {} {missing}\n", declared[other]);
            assert_eq!(number(&module(&(all.clone() + &both))), 8);
            let taken = format!("wire {}\n", declared[other]);
            assert_eq!(number(&module(&(all.clone() + &taken))), 9);
        }
    }
}

/// Wires, memories, cells and processes share a name space.
#[test]
fn objects_of_a_module() {
    for hash in HASHES {
        let names = names(hash, 552);
        let cell = |name: &str| format!("cell \\t {name}\nend\n");
        let memory = |name: &str| format!("memory {name}\n");
        let process = |name: &str| format!("process {name}\nend\n");
        let objects = wires(&names[..300])
            + &each(&names[300..332], memory)
            + &each(&names[332..532], cell)
            + &each(&names[532..552], process);
        assert_eq!(number(&module(&objects)), 0);
        for taken in [0, 299, 300, 331, 332, 531, 532, 551] {
            let name = &names[taken];
            let lines = [
                format!("wire {name}\n"),
                memory(name),
                cell(name),
                process(name),
            ];
            for line in lines {
                assert_eq!(number(&module(&(objects.clone() + &line))), 9);
            }
            // of these only wires are referred to
            let reference = format!("connect {name} {name}\n");
            let expected = if taken < 300 { 0 } else { 8 };
            assert_eq!(number(&module(&(objects.clone() + &reference))), expected);
            let in_process = format!("process \\p\nswitch {name}\ncase {name}\nend\nend\n");
            assert_eq!(number(&module(&(objects.clone() + &in_process))), expected);
        }
    }
}

/// Attributes of one object, and the same names on the next one.
#[test]
fn attributes() {
    for hash in HASHES {
        let names = names(hash, 1_024);
        let attribute = |name: &str| format!("attribute {name} 1\n");
        let all = each(&names, attribute);
        assert_eq!(number(&(all + "module \\m\nend\n")), 0);
        let half = each(&names[..500], attribute);
        let two = half.clone() + &module(&(half.clone() + "wire \\w\n"));
        assert_eq!(number(&two), 0);
        for taken in [0, 250, 499] {
            let more = half.clone() + &attribute(&names[taken]);
            assert_eq!(number(&(more.clone() + &module(""))), 9);
            assert_eq!(number(&module(&(more + "wire \\w\n"))), 9);
        }
    }
}

/// 150 cells, each with three parameters and three ports of the same names.
#[test]
fn parts_of_cells() {
    for hash in HASHES {
        let names = names(hash, 160);
        let parameter = |name: &str| format!("parameter {name} 1\n");
        let port = |name: &str| format!("connect {name} {{ }}\n");
        let parts = each(&names[150..153], parameter) + &each(&names[150..153], port);
        let cell = |name: &str, more: &str| format!("cell \\t {name}\n{parts}{more}end\n");
        let cells = each(&names[..150], |name| cell(name, ""));
        assert_eq!(number(&module(&cells)), 0);
        for part in [150, 151, 152] {
            for line in [parameter(&names[part]), port(&names[part])] {
                let one_more = cells.clone() + &cell(&names[159], &line);
                assert_eq!(number(&module(&one_more)), 9);
            }
        }
    }
}

/// A reference is to a wire of its own module, whatever the modules before it have.
#[test]
fn modules() {
    for hash in HASHES {
        let names = names(hash, 40);
        let lines = wires(&names[..16]) + &format!("connect {} {}\n", names[15], names[0]);
        let all = each(&names[..31], |name| format!("module {name}\n{lines}end\n"));
        assert_eq!(number(&all), 0);
        let own = wires(&names[1..16]);
        let elsewhere = format!(
            "module {}\n{own}connect {1} {1}\nend\n",
            names[39], names[0]
        );
        assert_eq!(number(&(all.clone() + &elsewhere)), 8);
        for taken in [0, 15, 30] {
            assert_eq!(
                number(&(all.clone() + &format!("module {}\nend\n", names[taken]))),
                9
            );
        }
    }
}

/// As many references to the oldest of 512 wires as a file has room for: it has no bits, so that they fit a signal.
#[test]
fn references_to_the_oldest() {
    let names = names(300, 512);
    let oldest = format!("wire width 0 {}\n", names[0]);
    let bundle = format!(
        "connect {{ {} }} {{ }}\n",
        vec![names[0].as_str(); 500].join(" ")
    );
    let lines = oldest + &wires(&names[1..]) + &bundle.repeat(10);
    assert!(lines.len() > 30_000);
    assert_eq!(number(&module(&lines)), 0);
}

/// Memory with wires of these names, beside the plain session.
struct Both {
    tables: Tables,
    card: Card,
    statements: Vec<Statement>,
    plain: Session,
    numbers: BTreeMap<u32, u32>,
}

impl Both {
    fn of(names: &[String]) -> Both {
        let file = module(&wires(names));
        let read = read_both(&file);
        let statements = reference::read(file.as_bytes())
            .expect("an accepted file")
            .statements;
        let plain = Session::new(Design::of(&statements));
        Both {
            tables: read.tables,
            card: read.card,
            statements,
            plain,
            numbers: BTreeMap::new(),
        }
    }

    fn rename(&mut self, wire: usize, name: &[u8]) {
        let given = rename(&mut self.tables, &mut self.card, 0, wire as u32, name);
        let number = self.plain.rename(ModuleNumber(0), WireNumber(wire), name);
        assert_eq!(given, Answer { number, place: 0 });
        *self.numbers.entry(number).or_default() += 1;
    }

    fn undo(&mut self) {
        let given = undo(&mut self.tables, &mut self.card);
        let number = self.plain.undo();
        assert_eq!(given, Answer { number, place: 0 });
    }

    fn look_up(&mut self, name: &[u8]) {
        let given = look_up(&self.tables, self.card, 0, name);
        let found = self.plain.look_up(ModuleNumber(0), name);
        assert_eq!(given, found.map(|wire| wire.0 as u32));
        *self.numbers.entry(given.err().unwrap_or(0)).or_default() += 1;
    }

    fn check_memory(&self) {
        let (tables, card) = layout(&self.statements, self.plain.renames());
        assert!(self.tables == tables && self.card == card);
        assert!(text_is_of(&self.tables, card, &self.plain.design_now()));
    }
}

/// Renames to names that are free, taken, or taken no more, all of the wires' hash.
#[test]
fn renames() {
    for hash in HASHES {
        let names = names(hash, 500);
        let mut both = Both::of(&names[..300]);
        let mut random = Random::new(hash as u64);
        for _ in 0..400 {
            let name = random.pick(&names).as_bytes();
            match random.below(20) {
                0 => both.undo(),
                1..=3 => both.look_up(name),
                _ => both.rename(random.below(300), name),
            }
        }
        both.check_memory();
        // taken, not there, refused for a name that a wire has, and with 64 standing
        for number in [0, 8, 9, 11] {
            assert!(both.numbers.contains_key(&number), "{number}");
        }
        while !both.plain.renames().is_empty() {
            both.undo();
        }
        both.check_memory();
    }
}
