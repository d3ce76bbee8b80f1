//! The layout by hand, and which memory some text and accepted renames leave.

use library::files::{count, generated};
use library::layout::STEPS;
use library::{layout, valid, Card, Tables};
use reference::generate::random::Random;
use reference::session::Session;
use reference::statements::{Action, ModuleNumber, Statement, WireNumber};
use reference::tokens::WORDS;
use reference::vectors::vectors;
use reference::{read, Design};

const FILE: &[u8] = b"autoidx -2
attribute \\src \"a\\nb\"
module \\m
  parameter \\P 3'1x
  wire width 4 offset -1 upto input 7 signed \\a
  wire \\y
  memory size 9 \\r
  cell $mux $1
    parameter real \\W -1
    connect \\A { 1'z \\a [2] }
  end
  connect \\y \\a [3]
end
";

fn statements(file: &[u8]) -> Vec<Statement> {
    read(file).expect("an accepted file").statements
}

/// Memory of the file above after a rename of `\y` to `\z`.
fn memory() -> (Tables, Card) {
    let statements = statements(FILE);
    let mut session = Session::new(Design::of(&statements));
    assert_eq!(session.rename(ModuleNumber(0), WireNumber(1), b"\\z"), 0);
    layout(&statements, session.renames())
}

#[test]
fn a_layout_by_hand() {
    let (tables, card) = memory();
    let names = b"\\src\\m\\P\\a\\y\\r$mux$1\\W\\A\\z";
    assert_eq!(tables.names[..names.len()], names[..]);
    assert_eq!(tables.strings[..3], b"a\nb"[..]);
    let a = |bit: u32| 6 + bit;
    let y = |bit: u32| 6 + 2_048 + bit;
    assert_eq!(tables.bits[..7], [2, 1, 0, a(2), 3, y(0), a(3)]);
    let wires = [
        [0, 8, 2, 4, u32::MAX, 1 + 2 + 4, 7, 0],
        [0, 10, 2, 1, 0, 0, 0, 0],
    ];
    assert_eq!(tables.wires[..16], wires.concat());
    let rows = [
        [1, u32::MAX - 1, 0, 0, 0, 0, 0, 0],
        [2, 0, 4, 3, 0, 3, 0, 0],
        [3, 4, 2, 0, 0, 0, 0, 0],
        [4, 6, 2, 1, 0, 3, 0, 0],
        [5, 8, 2, 0, 0, 0, 0, 0],
        [5, 10, 2, 1, 0, 0, 0, 0],
        [6, 12, 2, 1, 9, 0, 0, 0],
        [7, 14, 4, 18, 2, 0, 0, 0],
        [8, 20, 2, 2, u32::MAX, 0, 2, 0],
        [9, 22, 2, 3, 2, 0, 0, 0],
        [12, 0, 0, 0, 0, 0, 0, 0],
        [10, 5, 1, 6, 1, 0, 0, 0],
        [12, 0, 0, 0, 0, 0, 0, 0],
        [14, 24, 2, 0, 1, 0, 0, 0],
    ];
    assert_eq!(tables.rows[..8 * rows.len()], rows.concat());
    let rest = [&tables.bits[7..], &tables.wires[16..], &tables.rows[112..]];
    assert!(rest.concat().iter().all(|&word| word == 0));
    assert!(tables.names[26..].iter().all(|&byte| byte == 0));
    assert!(tables.strings[3..].iter().all(|&byte| byte == 0));
    assert_eq!((card.renames, card.room), (1, 26));
}

const PROCESSES: &[u8] = b"module \\m
  wire width 2 \\a
  wire \\y
  attribute \\src 1
  process \\p
    assign \\a 2'x
    attribute \\full 1'1
    switch \\a
      case 2'01 , \\a , 2'1-
        switch \\y
        end
        assign \\y \\a [1]
      attribute \\last \"z\"
      case
    end
    assign { } { }
    sync posedge \\y
      update \\a { \\y 1'0 }
    sync always
    sync low \\a [0]
  end
  process \\q
    switch { }
      case { } , { }
    end
  end
end
";

/// Memory of the file above after a rename of `\y` to `\z`.
fn memory_of_processes() -> (Tables, Card) {
    let statements = statements(PROCESSES);
    let mut session = Session::new(Design::of(&statements));
    assert_eq!(session.rename(ModuleNumber(0), WireNumber(1), b"\\q"), 9);
    assert_eq!(session.rename(ModuleNumber(0), WireNumber(1), b"\\z"), 0);
    layout(&statements, session.renames())
}

#[test]
fn processes_by_hand() {
    let (tables, card) = memory_of_processes();
    let names = b"\\m\\a\\y\\src\\p\\full\\last\\q\\z";
    assert_eq!(tables.names[..names.len()], names[..]);
    assert_eq!(tables.strings[..2], b"z\0"[..]);
    let a = |bit: u32| 6 + bit;
    let y = 6 + 2_048;
    let bits = [
        &[a(0), a(1), 2, 2][..],   // assign \a 2'x
        &[1],                      // the value of \full
        &[a(0), a(1)],             // switch \a
        &[1, 0, a(0), a(1), 5, 1], // case 2'01 , \a , 2'1-
        &[y],                      // switch \y
        &[y, a(1)],                // assign \y \a [1]
        &[y],                      // sync posedge \y
        &[a(0), a(1), 0, y],       // update \a { \y 1'0 }
        &[a(0)],                   // sync low \a [0]
    ]
    .concat();
    assert_eq!(tables.bits[..bits.len()], bits);
    let rows = [
        [3, 0, 2, 0, 0, 0, 0, 0],
        [5, 2, 2, 0, 0, 0, 0, 0],
        [5, 4, 2, 1, 0, 0, 0, 0],
        [2, 6, 4, 2, 1, 0, 0, 0],
        [11, 10, 2, 0, 0, 0, 0, 0],
        [13, 19, 0, 2, 2, 0, 0, 0],
        [2, 12, 5, 1, 4, 1, 0, 0],
        [13, 20, 5, 2, 1, 0, 0, 0],
        [13, 21, 7, 2, 3, 0, 0, 0],
        [13, 20, 13, 1, 1, 0, 0, 0],
        [12, 0, 0, 0, 0, 0, 0, 0],
        [13, 19, 14, 1, 2, 0, 0, 0],
        [2, 17, 5, 3, 0, 1, 0, 0],
        [13, 21, 16, 0, 0, 0, 0, 0],
        [12, 0, 0, 0, 0, 0, 0, 0],
        [13, 19, 16, 0, 2, 0, 0, 0],
        [13, 28, 16, 1, 1, 0, 0, 0],
        [13, 31, 17, 2, 2, 0, 0, 0],
        [13, 25, 21, 0, 0, 0, 0, 0],
        [13, 26, 21, 1, 1, 0, 0, 0],
        [12, 0, 0, 0, 0, 0, 0, 0],
        [11, 22, 2, 0, 0, 0, 0, 0],
        [13, 20, 22, 0, 1, 0, 0, 0],
        [13, 21, 22, 0, 2, 0, 0, 0],
        [12, 0, 0, 0, 0, 0, 0, 0],
        [12, 0, 0, 0, 0, 0, 0, 0],
        [12, 0, 0, 0, 0, 0, 0, 0],
        [14, 24, 2, 0, 1, 0, 0, 0],
    ];
    assert_eq!(tables.rows[..8 * rows.len()], rows.concat());
    assert!(tables.rows[8 * rows.len()..].iter().all(|&word| word == 0));
    assert!(tables.bits[bits.len()..].iter().all(|&word| word == 0));
    assert_eq!((card.renames, card.room), (1, 26));
}

/// Every code of a step stands for the keyword of this number.
#[test]
fn codes_of_steps() {
    for (code, action) in STEPS {
        let word = match action {
            Action::Assign => "assign",
            Action::Switch => "switch",
            Action::Case => "case",
            Action::Sync(event) => event.word(),
            Action::Update => "update",
        };
        assert_eq!(WORDS[code as usize], word);
    }
}

#[test]
fn rules_hold_of_processes_in_memory() {
    type Change = fn(&mut Tables, &mut Card);
    let changes: [Change; 26] = [
        // no step: a word that opens none, the word sync, none at all
        |tables, _| tables.rows[8 * 5 + 1] = 5,
        |tables, _| tables.rows[8 * 5 + 1] = 22,
        |tables, _| tables.rows[8 * 5 + 1] = 32,
        // a step that stands not there: a case, an update, a second root switch, an assign in a sync
        |tables, _| tables.rows[8 * 5 + 1] = 21,
        |tables, _| tables.rows[8 * 5 + 1] = 31,
        |tables, _| tables.rows[8 * 15 + 1] = 20,
        |tables, _| tables.rows[8 * 17 + 1] = 19,
        // an assign of one signal, of three; a switch of two; an event with a signal too many, one without
        |tables, _| tables.rows[8 * 15 + 4] = 1,
        |tables, _| tables.rows[8 * 15 + 4] = 3,
        |tables, _| tables.rows[8 * 22 + 4] = 2,
        |tables, _| tables.rows[8 * 18 + 4] = 1,
        |tables, _| tables.rows[8 * 19 + 1] = 23,
        |tables, _| tables.rows[8 * 18 + 1] = 28,
        // other bits: start, width of each, how many
        |tables, _| tables.rows[8 * 8 + 2] = 6,
        |tables, _| tables.rows[8 * 8 + 3] = 3,
        |tables, _| tables.rows[8 * 8 + 4] = 2,
        |tables, _| tables.rows[8 * 8 + 4] = u32::MAX,
        |tables, _| tables.rows[8 * 23 + 4] = u32::MAX,
        |tables, _| tables.rows[8 * 23 + 4] = 4_097,
        |tables, _| tables.rows[8 * 13 + 3] = 2,
        |tables, _| tables.rows[8 * 13 + 2] = 0,
        // as many bits, cut otherwise: the case's values are not as wide as its switch
        |tables, _| {
            tables.rows[8 * 8 + 3] = 3;
            tables.rows[8 * 8 + 4] = 2;
        },
        // a column behind the last, an end that is missing, a process's name that is a wire's
        |tables, _| tables.rows[8 * 8 + 5] = 1,
        |tables, _| tables.rows[8 * 10] = 0,
        |tables, _| tables.names[11] = b'a',
        // a rename to a process's name
        |tables, _| tables.names[25] = b'q',
    ];
    refused(memory_of_processes, &changes);
}

/// Other words, values and numbers of signals that some other text leaves.
#[test]
fn other_processes_in_memory() {
    type Change = fn(&mut Tables, &mut Card);
    let changes: [Change; 8] = [
        |tables, _| tables.rows[8 * 16 + 1] = 29,
        |tables, _| tables.rows[8 * 18 + 1] = 24,
        |tables, _| tables.rows[8 * 23 + 4] = 0,
        |tables, _| tables.rows[8 * 23 + 4] = 4_000,
        |tables, _| tables.rows[8 * 13 + 4] = 0,
        |tables, _| tables.bits[7] = 5,
        |tables, _| tables.bits[13] = 0,
        |tables, _| tables.names[11] = b'r',
    ];
    still_valid(memory_of_processes, &changes);
}

/// Tries some renames and undos; what stands then.
fn session(statements: &[Statement], random: &mut Random) -> Session {
    let mut session = Session::new(Design::of(statements));
    for _ in 0..random.below(8) {
        let module = ModuleNumber(random.below(3));
        let wire = WireNumber(random.below(6));
        let name = [b"$", random.number().to_string().as_bytes()].concat();
        match random.below(5) {
            0 => session.undo(),
            1 => session.rename(module, wire, b"\\a"),
            _ => session.rename(module, wire, &name),
        };
    }
    session
}

#[test]
fn what_is_laid_out_is_valid() {
    let mut random = Random::new(3);
    let files = vectors().into_iter().map(|vector| vector.file);
    for file in files.chain((0..count(20_000) / 10).map(generated)) {
        let Ok(netlist) = read(&file) else { continue };
        let session = session(&netlist.statements, &mut random);
        let (tables, card) = layout(&netlist.statements, session.renames());
        assert!(valid(&tables, card), "{}", String::from_utf8_lossy(&file));
    }
}

#[test]
fn unused_room_is_zero() {
    type Change = fn(&mut Tables, &mut Card);
    let changes: [Change; 9] = [
        |tables, _| tables.names[26] = b'x',
        |tables, _| tables.names[16_383] = 1,
        |tables, _| tables.strings[3] = 1,
        |tables, _| tables.bits[7] = 1,
        |tables, _| tables.wires[7] = 1,
        |tables, _| tables.wires[4_095] = 1,
        |tables, _| tables.rows[23] = 1,
        |tables, _| tables.rows[55_559] = 1,
        |tables, _| tables.rows[8 * 15] = 12,
    ];
    refused(memory, &changes);
}

#[test]
fn rules_hold_of_memory() {
    type Change = fn(&mut Tables, &mut Card);
    let changes: [Change; 20] = [
        |_, card| card.renames = 0,
        |_, card| card.room = 25,
        // a name that starts with no sigil, one with a blank, one that is taken, one that ends elsewhere
        |tables, _| tables.names[8] = b'a',
        |tables, _| tables.names[9] = b' ',
        |tables, _| tables.names[11] = b'a',
        |tables, _| tables.rows[8 * 3 + 2] = 1,
        |tables, _| tables.rows[8 * 3 + 1] = u32::MAX,
        |tables, _| tables.strings[0] = 0,
        // a constant bit in a value that is a wire's bit, a bit past the wire, a wire that is not there
        |tables, _| tables.bits[0] = 6,
        |tables, _| tables.bits[3] = 6 + 4,
        |tables, _| tables.bits[3] = 6 + 2 * 2_048,
        |tables, _| tables.bits[3] = u32::MAX,
        // width, flags and port number
        |tables, _| tables.wires[3] = 2_049,
        |tables, _| tables.wires[5] = 16,
        |tables, _| tables.wires[6] = 0,
        |tables, _| tables.wires[14] = 1,
        // a process at the top, a second autoidx, an end that is missing
        |tables, _| tables.rows[8 * 2] = 11,
        |tables, _| tables.rows[8] = 1,
        |tables, _| tables.rows[8 * 12] = 0,
        // a rename of a port wire
        |tables, _| tables.rows[8 * 13 + 4] = 0,
    ];
    refused(memory, &changes);
}

fn refused(memory: fn() -> (Tables, Card), changes: &[fn(&mut Tables, &mut Card)]) {
    for (number, change) in changes.iter().enumerate() {
        let (mut tables, mut card) = memory();
        assert!(valid(&tables, card));
        change(&mut tables, &mut card);
        assert!(!valid(&tables, card), "change {number}");
    }
}

/// Changes that some other text leaves.
#[test]
fn other_memory_that_is_valid() {
    type Change = fn(&mut Tables, &mut Card);
    let changes: [Change; 5] = [
        |tables, _| tables.names[11] = b'q',
        |tables, _| tables.strings[1] = 255,
        |tables, _| tables.bits[0] = 5,
        |tables, _| tables.wires[4] = 0,
        |tables, _| tables.rows[1] = 0,
    ];
    still_valid(memory, &changes);
}

fn still_valid(memory: fn() -> (Tables, Card), changes: &[fn(&mut Tables, &mut Card)]) {
    for (number, change) in changes.iter().enumerate() {
        let (mut tables, mut card) = memory();
        change(&mut tables, &mut card);
        assert!(valid(&tables, card), "change {number}");
    }
}
