//! Plain forms, the way back and listings: the exported calls answer as the reference does, in rooms of every length about the answer's.

use library::answers::Exported;
use library::files::count;
use library::rooms::agrees;
use library::{fill, listing, name_of, plain_form, rename, Card, Tables};
use reference::call_vectors::every_vector_agrees;
use reference::generate::random::Random;
use reference::generate::{listed_file, name_and_form, well_formed_file, SizeClass};
use reference::statements::{ModuleNumber, WireNumber};
use reference::Session;

#[test]
fn every_vector() {
    every_vector_agrees("05-plain", 15, Exported::of);
}

fn form_agrees(name: &[u8]) -> bool {
    let expected = |room| reference::plain_form(name, room);
    agrees(expected, |out| plain_form(name, out))
}

fn name_agrees(form: &[u8]) -> bool {
    let expected = |room| reference::name_of(form, room);
    agrees(expected, |out| name_of(form, out))
}

#[test]
fn names_and_forms() {
    for seed in 0..count(50_000) {
        let (name, form) = name_and_form(seed);
        assert!(form_agrees(&name) && form_agrees(&form), "seed {seed}");
        assert!(name_agrees(&form) && name_agrees(&name), "seed {seed}");
    }
}

/// All names and forms of up to two bytes, and all escapes behind `p`.
#[test]
fn short_ones() {
    for first in 0..=255 {
        assert!(form_agrees(&[first]) && name_agrees(&[first]));
        for second in 0..=255 {
            let both = [first, second];
            assert!(form_agrees(&both) && name_agrees(&both));
            assert!(name_agrees(&[b'p', b'_', first, second]));
        }
    }
}

/// Listings of all modules, and of one more, with some renames standing.
#[test]
fn listings() {
    let mut lengths = 0;
    for seed in 0..count(2_000) {
        let file = match seed % 2 {
            0 => listed_file(seed),
            _ => well_formed_file(seed, SizeClass::of(seed)),
        };
        let (mut tables, mut card) = (Tables::zeroed(), Card::default());
        if fill(&file, &mut tables, &mut card).number != 0 {
            continue;
        }
        let netlist = reference::read(&file).expect("an accepted file");
        let mut plain = Session::new(netlist.design());
        let mut random = Random::new(seed);
        let modules = plain.design_read().modules.len();
        for number in 0..random.below(6) {
            let (module, wire) = (random.below(modules + 1), random.below(6));
            let name = format!("\\now_{number}");
            let given = rename(
                &mut tables,
                &mut card,
                module as u32,
                wire as u32,
                name.as_bytes(),
            );
            let expected = plain.rename(ModuleNumber(module), WireNumber(wire), name.as_bytes());
            assert_eq!(given.number, expected);
        }
        for module in 0..=modules {
            let expected = |room| reference::listing(&plain, ModuleNumber(module), room);
            let same = agrees(expected, |out| listing(&tables, card, module as u32, out));
            assert!(same, "seed {seed}, module {module}");
            lengths += expected(usize::MAX).map_or(0, |lines| lines.len());
        }
    }
    assert!(lengths > 10_000);
}
