//! Damaged memory: an undo on it answers 3, and changes nothing, exactly when no text and accepted renames leave it.
//! DAMAGES=100000 asks for more random damages than the default.

use library::files::generated;
use library::tables::{BITS, NAMES, ROWS, STRINGS, WIRES};
use library::undoing::check;
use library::{layout, Card, Tables};
use reference::generate::random::Random;
use reference::generate::{self, SizeClass};
use reference::session::Session;
use reference::statements::{ModuleNumber, WireNumber};
use reference::Design;

const SMALL: [&[u8]; 3] = [
    b"autoidx 5\nattribute \\src \"ab\"\nmodule \\m\n  parameter \\P 3'1x0\n  wire width 4 offset -1 upto input 7 signed \\a\n  wire \\y\n  memory size 9 \\r\n  cell $mux $1\n    parameter real \\W -1\n    connect \\A { 1'z \\a [2] }\n  end\n  connect \\y \\a [3]\nend\n",
    b"module \\m\n  wire \\a\nend\nattribute \\b 2'10\nmodule \\n\n  wire width 2 \\b\n  wire width 2 output 1 \\c\n  connect \\b \\c\nend\n",
    b"module \\m\n  wire width 2 \\a\n  wire \\y\n  attribute \\s 1\n  process \\p\n    assign \\a 2'x1\n    attribute \\s 2'10\n    switch \\a\n      case 2'01 , \\a\n        switch \\y\n          attribute \\s \"s\"\n          case\n        end\n      case\n        assign \\y \\a [1]\n    end\n    assign { } { }\n    sync edge \\y\n      update \\a { \\y 1'z }\n    sync init\n  end\n  process \\q\n    switch { }\n      case { } , { }\n    end\n  end\n  connect \\a 2'00\nend\n",
];

/// Every byte and word of memory, in one order: names, strings, bits, wires, rows, card.
const PLACES: usize = NAMES + STRINGS + BITS + WIRES + ROWS + 2;

/// Changes the byte or word at a place; what it was.
fn damage(
    tables: &mut Tables,
    card: &mut Card,
    place: usize,
    change: impl FnOnce(u32) -> u32,
) -> u32 {
    let mut at = place;
    for bytes in [&mut tables.names, &mut tables.strings] {
        if at < bytes.len() {
            let old = u32::from(bytes[at]);
            bytes[at] = change(old) as u8;
            return old;
        }
        at -= bytes.len();
    }
    let counts = [&mut card.renames, &mut card.room];
    let tables = [&mut tables.bits, &mut tables.wires, &mut tables.rows];
    for words in tables {
        if at < words.len() {
            return replace(&mut words[at], change);
        }
        at -= words.len();
    }
    replace(counts[at], change)
}

fn replace(word: &mut u32, change: impl FnOnce(u32) -> u32) -> u32 {
    let old = *word;
    *word = change(old);
    old
}

/// Memory of a file, with some renames of its wires standing.
fn memory(file: &[u8], random: &mut Random) -> Option<(Tables, Card)> {
    let statements = reference::read(file).ok()?.statements;
    let mut plain = Session::new(Design::of(&statements));
    for number in 0..random.below(5) {
        let module = ModuleNumber(random.below(3));
        let wire = WireNumber(random.below(4));
        plain.rename(module, wire, format!("$new{number}").as_bytes());
    }
    Some(layout(&statements, plain.renames()))
}

/// Values that are near the old one, or at an end of a range.
fn other(random: &mut Random, old: u32) -> u32 {
    match random.below(8) {
        0 => old ^ (1 << random.below(32)),
        1 => old ^ (1 << random.below(4)),
        2 => old.wrapping_add(1),
        3 => old.wrapping_sub(1),
        4 => 0,
        5 => u32::MAX,
        6 => random.below(20) as u32,
        _ => random.number() as u32,
    }
}

#[test]
fn every_place_of_small_designs() {
    let mut random = Random::new(4);
    for (number, file) in SMALL.iter().enumerate() {
        let (mut tables, mut card) = memory(file, &mut random).expect("an accepted file");
        assert!(check(&tables, card, "no damage"));
        for place in 0..PLACES {
            let bit = 1 << random.below(8);
            let old = damage(&mut tables, &mut card, place, |word| word ^ bit);
            let what = format!("design {number}, place {place}, bit {bit}");
            check(&tables, card, &what);
            // more values where something stands
            for _ in 0..if old == 0 { 0 } else { 12 } {
                damage(&mut tables, &mut card, place, |_| other(&mut random, old));
                check(&tables, card, &what);
            }
            damage(&mut tables, &mut card, place, |_| old);
        }
        assert!(check(&tables, card, "no damage"));
    }
}

/// The line so many times, each with its number in place of `#`.
fn each(count: u32, line: &str) -> String {
    let numbered = |number: u32| line.replace('#', &number.to_string());
    (0..count).map(numbered).collect()
}

/// As many rows as any text and accepted renames leave: each size at its limit, all lines of processes but one a switch, 64 renames.
/// The text is longer than a file may be.
fn fullest() -> (Tables, Card) {
    let mut text = String::from("autoidx 1\n");
    for module in 0..32 {
        text += &each(16, "attribute \\# 1\nattribute $# 1\n");
        text += &format!("module \\{module}\nmemory \\r\n");
        text += &each(16, "wire \\#\nconnect { } { }\n");
        let parts = each(4, "parameter \\# 1\nconnect \\# { }\n");
        text += &each(8, &format!("cell \\t $#\n{parts}end\n"));
        let inside = match module {
            0 => "case\n".to_string() + &"switch { }\nend\n".repeat(1_024 - 64 - 1),
            _ => String::new(),
        };
        text += &format!("process \\p\nswitch {{ }}\n{inside}end\nend\n");
        text += "process \\q\nswitch { }\nend\nend\nend\n";
    }
    let netlist = reference::read_any_length(text.as_bytes()).expect("within the sizes");
    assert_eq!(netlist.statements.len(), 6_880);
    let mut plain = Session::new(netlist.design());
    for number in 0..64 {
        let name = format!("\\n{number}");
        let number = plain.rename(ModuleNumber(0), WireNumber(0), name.as_bytes());
        assert_eq!(number, 0);
    }
    layout(&netlist.statements, plain.renames())
}

/// Damages this place, checks, and mends it.
fn check_damaged(tables: &mut Tables, card: &mut Card, place: usize, random: &mut Random) {
    let old = damage(tables, card, place, |word| other(random, word));
    check(tables, *card, &format!("place {place}"));
    damage(tables, card, place, |_| old);
}

#[test]
fn fullest_memory() {
    let mut random = Random::new(5);
    let (mut tables, mut card) = fullest();
    assert!(check(&tables, card, "no damage"));
    let rows = NAMES + STRINGS + BITS + WIRES;
    let used = 8 * (6_880 + 64);
    assert!(tables.rows[used - 8] != 0);
    // the last rename, and the row that is left
    for place in rows + used - 8..rows + ROWS {
        check_damaged(&mut tables, &mut card, place, &mut random);
    }
    for _ in 0..200 {
        let place = rows + random.below(used);
        check_damaged(&mut tables, &mut card, place, &mut random);
    }
    assert!(check(&tables, card, "no damage"));
}

/// How far each table is used, from its first place.
fn used(tables: &Tables) -> [(usize, usize); 5] {
    let bytes = |table: &[u8]| table.iter().rposition(|&byte| byte != 0);
    let words = |table: &[u32]| table.iter().rposition(|&word| word != 0);
    let bits = NAMES + STRINGS;
    let lasts = [
        (0, bytes(&tables.names)),
        (NAMES, bytes(&tables.strings)),
        (bits, words(&tables.bits)),
        (bits + BITS, words(&tables.wires)),
        (bits + BITS + WIRES, words(&tables.rows)),
    ];
    lasts.map(|(start, last)| (start, last.map_or(1, |last| last + 1)))
}

/// A used place, or any.
fn place(random: &mut Random, tables: &Tables) -> usize {
    match random.below(8) {
        0 => random.below(PLACES),
        1 => PLACES - 1 - random.below(2),
        _ => {
            let (start, length) = *random.pick(&used(tables));
            start + random.below(length)
        }
    }
}

#[test]
fn random_places_of_any_designs() {
    let asked = std::env::var("DAMAGES").ok();
    let count = asked.and_then(|count| count.parse().ok()).unwrap_or(4_000);
    let mut random = Random::new(6);
    let (mut done, mut still_valid) = (0, 0);
    for seed in 0u64.. {
        if done >= count {
            break;
        }
        let file = match seed % 4 {
            0 => generate::well_formed_file(seed, SizeClass::Large),
            1 => generate::limit_file(seed),
            2 => generate::well_formed_file(seed, SizeClass::Medium),
            _ => generated(seed),
        };
        let Some((tables, card)) = memory(&file, &mut random) else {
            continue;
        };
        for _ in 0..20 {
            let (mut damaged, mut other_card) = (tables.clone(), card);
            let place = place(&mut random, &tables);
            damage(&mut damaged, &mut other_card, place, |word| {
                other(&mut random, word)
            });
            let what = format!("seed {seed}, place {place}");
            still_valid += usize::from(check(&damaged, other_card, &what));
            done += 1;
        }
    }
    // both answers were met
    assert!(still_valid > 0 && still_valid < done);
}
