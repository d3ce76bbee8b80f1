//! Random lists of renames and undos against a simple undo stack.
//! SESSIONS=20000 asks for more of them than the default.

use reference::bytes::is_name;
use reference::generate::random::Random;
use reference::generate::{self, SizeClass};
use reference::session::Session;
use reference::statements::{ModuleNumber, WireNumber};
use reference::{read, text, Design};

/// Changes names in place and remembers what they were.
struct Stack {
    design: Design,
    undo: Vec<(ModuleNumber, WireNumber, Vec<u8>)>,
    room: usize,
}

impl Stack {
    fn rename(&mut self, module: ModuleNumber, wire: WireNumber, name: &[u8]) -> u32 {
        let port = self
            .design
            .wire(module, wire)
            .map(|wire| wire.object.port.is_some());
        let checks = [
            (4, !is_name(name)),
            (6, port == Some(true)),
            (8, port.is_none()),
            (9, self.taken(module, name)),
            (11, self.undo.len() >= 64 || self.room + name.len() > 16_384),
        ];
        if let Some((number, _)) = checks.into_iter().find(|check| check.1) {
            return number;
        }
        let wire_name = &mut self.design.wire_mut(module, wire).unwrap().name;
        self.undo
            .push((module, wire, std::mem::replace(wire_name, name.to_vec())));
        self.room += name.len();
        0
    }

    fn taken(&self, module: ModuleNumber, name: &[u8]) -> bool {
        self.design.module(module).is_some_and(|module| {
            let wires = module.wires.iter().map(|wire| &wire.object.name);
            let memories = module.memories.iter().map(|memory| &memory.object.name);
            let cells = module.cells.iter().map(|cell| &cell.object.name);
            let processes = module.processes.iter().map(|process| &process.object.name);
            wires
                .chain(memories)
                .chain(cells)
                .chain(processes)
                .any(|taken| taken == name)
        })
    }

    fn undo(&mut self) -> u32 {
        let Some((module, wire, name)) = self.undo.pop() else {
            return 13;
        };
        let wire_name = &mut self.design.wire_mut(module, wire).unwrap().name;
        self.room -= wire_name.len();
        *wire_name = name;
        0
    }
}

fn new_name(random: &mut Random, design: &Design) -> Vec<u8> {
    match random.below(8) {
        0 => vec![],
        1 => random
            .pick(&[&b"\\"[..], b"a", b"\\a b", b"$\x00", b"\\\n", b"$"])
            .to_vec(),
        2 => [b"\\".to_vec(), vec![b'n'; random.between(250, 256)]].concat(),
        3 | 4 if !design.modules.is_empty() => {
            let module = &random.pick(&design.modules).object;
            let mut names: Vec<_> = module
                .wires
                .iter()
                .map(|wire| wire.object.name.clone())
                .collect();
            names.extend(
                module
                    .memories
                    .iter()
                    .map(|memory| memory.object.name.clone()),
            );
            names.extend(module.cells.iter().map(|cell| cell.object.name.clone()));
            names.extend(
                module
                    .processes
                    .iter()
                    .map(|process| process.object.name.clone()),
            );
            names.push(b"\\none".to_vec());
            random.pick(&names).clone()
        }
        _ => format!("\\r{}", random.below(300)).into_bytes(),
    }
}

fn calls(random: &mut Random, session: &mut Session, stack: &mut Stack) {
    let undo_share = random.between(2, 40);
    for _ in 0..random.between(1, 150) {
        let before = session.clone();
        let number = if random.one_in(undo_share) {
            let number = session.undo();
            assert_eq!(number, stack.undo());
            number
        } else {
            let module = ModuleNumber(random.below(stack.design.modules.len() + 1));
            let wires = stack
                .design
                .module(module)
                .map_or(0, |module| module.wires.len());
            let wire = WireNumber(random.below(wires + 1));
            let name = new_name(random, &stack.design);
            let number = session.rename(module, wire, &name);
            assert_eq!(number, stack.rename(module, wire, &name));
            number
        };
        assert!(number == 0 || *session == before);
    }
}

/// The session holds what replaying only its standing renames gives.
fn check_session(session: &Session, stack: &Stack) {
    assert_eq!(session.design_now(), stack.design);
    assert_eq!(session.room_used(), stack.room);
    assert_eq!(session.renames().len(), stack.undo.len());
    let mut replay = Session::new(session.design_read().clone());
    for rename in session.renames() {
        assert_eq!(replay.rename(rename.module, rename.wire, &rename.name), 0);
    }
    assert_eq!(replay, *session);
    check_answers(session);
}

fn check_answers(session: &Session) {
    let now = session.design_now();
    for (module, object) in now.modules.iter().enumerate() {
        let module = ModuleNumber(module);
        for (wire, attributed) in object.object.wires.iter().enumerate() {
            let wire = WireNumber(wire);
            assert_eq!(session.look_up(module, &attributed.object.name), Ok(wire));
            assert!(!session.show(module, wire).unwrap().is_empty());
            let width = attributed.object.width;
            assert_eq!(session.index(module, wire, width), Err(10));
            let indexes = (0..width).map(|bit| session.index(module, wire, bit).unwrap());
            let lowest = i64::from(attributed.object.offset);
            assert!(indexes.min().is_none_or(|index| index == lowest));
        }
        assert_eq!(
            session.show(module, WireNumber(object.object.wires.len())),
            Err(8)
        );
    }
}

#[test]
fn random_sessions() {
    let count = std::env::var("SESSIONS")
        .ok()
        .and_then(|count| count.parse().ok())
        .unwrap_or(1_000);
    for seed in 0..count {
        let size = if seed % 8 == 0 {
            SizeClass::Large
        } else {
            SizeClass::Medium
        };
        let file = generate::well_formed_file(seed, size);
        let Ok(netlist) = read(&file) else {
            continue;
        };
        let design = netlist.design();
        let mut session = Session::new(design.clone());
        let mut stack = Stack {
            room: design.name_bytes(),
            design,
            undo: Vec::new(),
        };
        let mut random = Random::new(seed ^ 0x5e55);
        calls(&mut random, &mut session, &mut stack);
        check_session(&session, &stack);
        while session.undo() == 0 {}
        assert_eq!(session.design_now(), *session.design_read());
        assert_eq!(session.undo(), 13);
    }
}

const TWO_EARS: &[u8] = b"module \\m\n  wire width 4 \\a\n  wire \\y\n  cell $mux $1\n    connect \\Y \\y\n  end\n  connect \\y 1'x\nend\n";

fn session_of(file: &[u8]) -> Session {
    Session::new(read(file).expect("a sound file").design())
}

const M: ModuleNumber = ModuleNumber(0);
const A: WireNumber = WireNumber(0);

#[test]
fn rename_reaches_signals() {
    let mut session = session_of(TWO_EARS);
    assert_eq!(session.rename(M, WireNumber(1), b"\\left"), 0);
    let expected = b"module \\m\n  wire width 4 \\a\n  wire \\left\n  cell $mux $1\n    connect \\Y \\left\n  end\n  connect \\left 1'x\nend\n";
    assert_eq!(text::text(&session.design_now()), expected);
}

#[test]
fn rename_reaches_process_signals() {
    let file = b"module \\m\n  wire \\a\n  process \\p\n    assign \\a \\a\n    switch \\a\n      case \\a , 1'0\n    end\n    sync low \\a\n      update \\a \\a\n  end\nend\n";
    let mut session = session_of(file);
    assert_eq!(session.rename(M, A, b"\\p"), 9);
    assert_eq!(session.rename(M, A, b"\\left"), 0);
    let expected = String::from_utf8_lossy(file).replace("\\a", "\\left");
    assert_eq!(text::text(&session.design_now()), expected.as_bytes());
    assert_eq!(session.undo(), 0);
    assert_eq!(text::text(&session.design_now()), file);
}

#[test]
fn rename_refusals() {
    let mut session = session_of(TWO_EARS);
    assert_eq!(session.rename(M, A, b"\\y"), 9);
    assert_eq!(session.rename(M, A, b"\\a"), 9);
    assert_eq!(session.rename(M, A, b"$1"), 9);
    assert_eq!(session.rename(M, A, b"a"), 4);
    assert_eq!(session.rename(ModuleNumber(1), A, b"\\y"), 8);
    assert_eq!(session.rename(M, WireNumber(2), b"\\y"), 8);
    assert_eq!(session.rename(M, A, b"\\b"), 0);
    assert_eq!(session.rename(M, WireNumber(1), b"\\a"), 0);
    assert_eq!([session.undo(), session.undo(), session.undo()], [0, 0, 13]);
    let mut ports = session_of(b"module \\m\nwire input 1 \\a\nwire \\b\nend\n");
    assert_eq!(ports.rename(M, A, b"\\b"), 6);
    assert_eq!(ports.rename(M, A, b"\\"), 4);
}

#[test]
fn sixty_four_renames() {
    let mut session = session_of(TWO_EARS);
    for number in 0..64 {
        assert_eq!(session.rename(M, A, format!("\\{number}").as_bytes()), 0);
    }
    assert_eq!(session.rename(M, A, b"\\more"), 11);
    assert_eq!(session.undo(), 0);
    assert_eq!(session.rename(M, A, b"\\more"), 0);
}

#[test]
fn name_room_full() {
    let wires: String = (0..64)
        .map(|number| format!("wire \\{number:0254}\n"))
        .collect();
    let mut session = session_of(format!("module \\m\n{wires}end\n").as_bytes());
    assert_eq!(session.room_used(), 2 + 64 * 255);
    // 62 bytes are left.
    let name = |length: usize, byte: u8| [vec![b'\\'], vec![byte; length - 1]].concat();
    assert_eq!(session.rename(M, A, &name(63, b'a')), 11);
    assert_eq!(session.rename(M, A, &name(60, b'a')), 0);
    assert_eq!(session.rename(M, A, &name(3, b'b')), 11);
    assert_eq!(session.rename(M, A, &name(2, b'b')), 0);
    assert_eq!(session.room_used(), 16_384);
    assert_eq!(session.undo(), 0);
    assert_eq!(session.rename(M, A, &name(2, b'c')), 0);
}

#[test]
fn names_to_show() {
    let file = b"module \\m\nattribute \\hdlname \"left ear\"\nwire \\a\nattribute \\hdlname \"\"\nwire \\b\nwire $c\nattribute \\hdlname 1\nwire \\d\nattribute $hdlname \"x\"\nwire \\\\e\nend\n";
    let mut session = session_of(file);
    assert_eq!(session.rename(M, A, b"\\z"), 0);
    let shown: Vec<_> = (0..5)
        .map(|wire| session.show(M, WireNumber(wire)).unwrap().to_vec())
        .collect();
    assert_eq!(shown, [&b"left ear"[..], b"b", b"$c", b"d", b"\\e"]);
    assert_eq!(session.rename(M, WireNumber(1), b"$n"), 0);
    assert_eq!(session.show(M, WireNumber(1)), Ok(&b"$n"[..]));
    assert_eq!(session.show(ModuleNumber(1), A), Err(8));
}

#[test]
fn author_indexes() {
    let file = b"module \\m\nwire width 8 offset -4 upto \\a\nwire width 8 offset -4 \\b\nwire width 0 \\c\nwire width 2048 offset 2147481600 \\d\nend\n";
    let session = session_of(file);
    let index = |wire, bit| session.index(M, WireNumber(wire), bit);
    assert_eq!(
        [index(0, 0), index(0, 7), index(0, 8)],
        [Ok(3), Ok(-4), Err(10)]
    );
    assert_eq!([index(1, 0), index(1, 7)], [Ok(-4), Ok(3)]);
    assert_eq!(
        [index(2, 0), index(4, 0), index(3, 2_047)],
        [Err(10), Err(8), Ok(2_147_483_647)]
    );
}

#[test]
fn look_up_names_now() {
    let mut session = session_of(TWO_EARS);
    assert_eq!(session.look_up(M, b"\\a"), Ok(A));
    assert_eq!(session.rename(M, A, b"\\b"), 0);
    assert_eq!(
        [session.look_up(M, b"\\a"), session.look_up(M, b"\\b")],
        [Err(8), Ok(A)]
    );
    assert_eq!(
        [
            session.look_up(M, b"$1"),
            session.look_up(M, b""),
            session.look_up(M, b"a b")
        ],
        [Err(8); 3]
    );
    assert_eq!(session.look_up(ModuleNumber(1), b"\\b"), Err(8));
}
