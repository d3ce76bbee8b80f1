//! Random sessions through the exported calls, held to the plain session: every answer, and all memory and the text at the end.
//! SESSIONS=20000 asks for more of them than the default; `--nocapture` shows what was met.

use library::expected::{right_lengths, text_is_of};
use library::tables::any_card;
use library::{fill, index, layout, look_up, rename, show, undo, Answer, Card, Tables};
use reference::generate::random::Random;
use reference::generate::{self, SizeClass};
use reference::session::Session;
use reference::statements::{ModuleNumber, Statement, WireNumber};
use reference::Design;
use std::collections::BTreeMap;
use std::fmt;

fn answer(number: u32) -> Answer {
    Answer { number, place: 0 }
}

/// What the sessions met.
#[derive(Default)]
struct Figures {
    sessions: u64,
    calls: u64,
    numbers: BTreeMap<u32, u64>,
    /// Renames refused with 64 standing, and for want of name room.
    at_64: u64,
    no_room: u64,
    /// Accepted renames that left no name room at all.
    room_full: u64,
}

impl Figures {
    fn take(&mut self, number: u32) {
        self.calls += 1;
        *self.numbers.entry(number).or_default() += 1;
    }
}

impl fmt::Display for Figures {
    fn fmt(&self, to: &mut fmt::Formatter) -> fmt::Result {
        write!(to, "{} sessions, {} calls, ", self.sessions, self.calls)?;
        write!(to, "answers by number {:?}, ", self.numbers)?;
        write!(to, "refused with 64 standing {}, ", self.at_64)?;
        write!(to, "for want of room {}, ", self.no_room)?;
        write!(to, "room filled to the last byte {}", self.room_full)
    }
}

/// Memory with a file read into it, beside the plain session.
struct Both {
    tables: Tables,
    card: Card,
    statements: Vec<Statement>,
    plain: Session,
    met: Figures,
}

impl Both {
    /// Whatever the memory held before.
    fn of(file: &[u8]) -> Option<Both> {
        let statements = reference::read(file).ok()?.statements;
        let mut random = Random::new(file.len() as u64);
        let (mut tables, mut card) = (Tables::zeroed(), any_card(&mut random));
        tables.fill(&mut random);
        assert_eq!(fill(file, &mut tables, &mut card), answer(0));
        let plain = Session::new(Design::of(&statements));
        Some(Both {
            tables,
            card,
            statements,
            plain,
            met: Figures::default(),
        })
    }

    fn rename(&mut self, module: usize, wire: usize, name: &[u8]) -> u32 {
        let (tables, card) = (&mut self.tables, &mut self.card);
        let given = rename(tables, card, module as u32, wire as u32, name);
        let number = self
            .plain
            .rename(ModuleNumber(module), WireNumber(wire), name);
        assert_eq!(given, answer(number));
        self.met.take(number);
        let standing = self.plain.renames().len();
        match number {
            11 if standing == 64 => self.met.at_64 += 1,
            11 => self.met.no_room += 1,
            0 if self.plain.room_used() == 16_384 => self.met.room_full += 1,
            _ => (),
        }
        number
    }

    fn undo(&mut self) -> u32 {
        let given = undo(&mut self.tables, &mut self.card);
        let number = self.plain.undo();
        assert_eq!(given, answer(number));
        self.met.take(number);
        number
    }

    fn look_up(&mut self, module: usize, name: &[u8]) {
        let given = look_up(&self.tables, self.card, module as u32, name);
        let found = self.plain.look_up(ModuleNumber(module), name);
        assert_eq!(given, found.map(|wire| wire.0 as u32));
        self.met.take(given.err().unwrap_or(0));
    }

    fn index(&mut self, module: usize, wire: usize, bit: usize) {
        let given = index(
            &self.tables,
            self.card,
            module as u32,
            wire as u32,
            bit as u32,
        );
        let expected = self
            .plain
            .index(ModuleNumber(module), WireNumber(wire), bit);
        assert_eq!(given, expected);
        self.met.take(given.err().unwrap_or(0));
    }

    fn show(&mut self, module: usize, wire: usize) {
        let given = show(&self.tables, self.card, module as u32, wire as u32);
        let expected = self.plain.show(ModuleNumber(module), WireNumber(wire));
        assert_eq!(given, expected);
        let number = given.err().unwrap_or(0);
        self.met.take(number);
    }

    fn check_memory(&self) {
        let (tables, card) = layout(&self.statements, self.plain.renames());
        assert_eq!(self.card, card);
        assert!(self.tables == tables);
    }

    /// Numbers of a module and of a wire, now and then of none.
    fn numbers(&self, random: &mut Random) -> (usize, usize) {
        if random.one_in(40) {
            let far = [u32::MAX as usize, 1 << 31, 512, 32];
            return (*random.pick(&far), *random.pick(&far));
        }
        let design = self.plain.design_read();
        let none = usize::from(random.one_in(10));
        let module = random.below((design.modules.len() + none).max(1));
        let wires = design
            .module(ModuleNumber(module))
            .map_or(0, |module| module.wires.len());
        (module, random.below((wires + none).max(1)))
    }
}

/// A name now or as read of the module's wires, memories, cells and processes, if it has any.
fn own_name(random: &mut Random, plain: &Session, module: usize) -> Option<Vec<u8>> {
    let number = ModuleNumber(module);
    let objects = plain.design_read().module(number)?;
    let wires = (0..objects.wires.len()).map(WireNumber);
    let now = wires.filter_map(|wire| plain.name_now(number, wire).cloned());
    let read = objects.wires.iter().map(|wire| wire.object.name.clone());
    let memories = objects.memories.iter();
    let cells = objects.cells.iter();
    let mut names: Vec<Vec<u8>> = now.chain(read).collect();
    names.extend(memories.map(|memory| memory.object.name.clone()));
    names.extend(cells.map(|cell| cell.object.name.clone()));
    let processes = objects.processes.iter();
    names.extend(processes.map(|process| process.object.name.clone()));
    (!names.is_empty()).then(|| random.pick(&names).clone())
}

fn new_name(random: &mut Random, plain: &Session, module: usize) -> Vec<u8> {
    const ODD: [&[u8]; 8] = [b"", b"\\", b"$", b"a", b"\\a b", b"$\0", b"\\\n", b"\\\xff"];
    match random.below(16) {
        0 => random.pick(&ODD).to_vec(),
        1 => [b"\\".to_vec(), vec![b'n'; random.between(250, 256)]].concat(),
        2 => vec![b'$'; random.between(1, 300)],
        3..=5 => own_name(random, plain, module).unwrap_or_default(),
        _ => format!("\\r{}", random.below(300)).into_bytes(),
    }
}

fn calls(random: &mut Random, both: &mut Both) {
    let undo_share = random.between(2, 60);
    for _ in 0..random.between(1, 200) {
        let (module, wire) = both.numbers(random);
        if random.one_in(undo_share) {
            both.undo();
            continue;
        }
        let name = new_name(random, &both.plain, module);
        match random.below(9) {
            0 => both.look_up(module, &name),
            1 => {
                let bits = [0, 1, 7, 2_047, 2_048, u32::MAX as usize];
                both.index(module, wire, *random.pick(&bits));
            }
            2 => both.show(module, wire),
            _ => {
                both.rename(module, wire, &name);
            }
        }
    }
}

/// A design whose names leave room for few more bytes.
fn little_room(random: &mut Random) -> Vec<u8> {
    let wires = random.between(50, 64);
    let lines = (0..wires).map(|number| format!("wire \\{number:0254}\n"));
    format!("module \\m\n{}end\n", lines.collect::<String>()).into_bytes()
}

fn file(seed: u64, random: &mut Random) -> Vec<u8> {
    match seed % 8 {
        0 => generate::well_formed_file(seed, SizeClass::Large),
        1 => little_room(random),
        2 => generate::limit_file(seed),
        3 => generate::well_formed_file(seed, SizeClass::Small),
        _ => generate::well_formed_file(seed, SizeClass::Medium),
    }
}

/// How many sessions: SESSIONS, or 200.
fn count() -> u64 {
    let asked = std::env::var("SESSIONS").ok();
    asked.and_then(|count| count.parse().ok()).unwrap_or(200)
}

#[test]
fn random_sessions() {
    let mut met = Figures::default();
    for seed in 0u64.. {
        if met.sessions == count() {
            println!("seeds below {seed}: {met}");
            break;
        }
        let mut random = Random::new(seed ^ 0x5e55);
        let Some(mut both) = Both::of(&file(seed, &mut random)) else {
            continue;
        };
        both.met = met;
        calls(&mut random, &mut both);
        assert!(text_is_of(
            &both.tables,
            both.card,
            &both.plain.design_now()
        ));
        both.check_memory();
        met = both.met;
        met.sessions += 1;
    }
    // the limits were met
    assert!(count() < 200 || (met.at_64 > 0 && met.no_room > 0 && met.room_full > 0));
}

const WIRES: &[u8] = b"module \\m\n  wire width 4 \\a\n  wire \\y\n  wire input 1 \\i\nend\n";

#[test]
fn sixty_four_renames() {
    let mut both = Both::of(WIRES).expect("an accepted file");
    for number in 0..64 {
        assert_eq!(both.rename(0, 0, format!("\\{number}").as_bytes()), 0);
    }
    assert_eq!(both.rename(0, 0, b"\\more"), 11);
    both.check_memory();
    assert_eq!(both.undo(), 0);
    assert_eq!(both.rename(0, 1, b"\\more"), 0);
    both.check_memory();
    while both.undo() == 0 {}
    both.check_memory();
}

#[test]
fn name_room_full() {
    let lines = (0..64).map(|number| format!("wire \\{number:0254}\n"));
    let file = format!("module \\m\n{}end\n", lines.collect::<String>());
    let mut both = Both::of(file.as_bytes()).expect("an accepted file");
    // 62 bytes are left
    let name = |length: usize, byte: u8| [vec![b'\\'], vec![byte; length - 1]].concat();
    let renames = [(63, b'a', 11), (60, b'a', 0), (3, b'b', 11), (2, b'b', 0)];
    for (length, byte, number) in renames {
        assert_eq!(both.rename(0, 0, &name(length, byte)), number);
        both.check_memory();
    }
    assert_eq!(both.plain.room_used(), 16_384);
    assert_eq!(both.rename(0, 1, b"$c"), 11);
    while both.undo() == 0 {}
    both.check_memory();
}

/// Tables of other lengths: 1, and nothing changes.
#[test]
fn wrong_lengths_touch_nothing() {
    let both = Both::of(WIRES).expect("an accepted file");
    for wrong in 0..10 {
        let (mut tables, mut card) = (both.tables.clone(), both.card);
        let more = wrong / 5;
        tables.resize(wrong % 5, |length| length + 2 * more - 1);
        assert!(!right_lengths(&tables));
        let before = tables.clone();
        assert_eq!(rename(&mut tables, &mut card, 0, 0, b"\\b"), answer(1));
        assert_eq!(undo(&mut tables, &mut card), answer(1));
        assert_eq!(look_up(&tables, card, 0, b"\\a"), Err(1));
        assert_eq!(index(&tables, card, 0, 0, 0), Err(1));
        assert!(tables == before && card == both.card);
    }
}
