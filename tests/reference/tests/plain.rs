//! Plain forms and names, one to one, and listings of wires.

use reference::bytes::is_name;
use reference::generate::{listed_file, name_and_form, well_formed_file, SizeClass};
use reference::sizes::{NAME_LENGTH, PLAIN_FORM};
use reference::statements::{ModuleNumber, WireNumber};
use reference::{listing, name_of, plain_form, read, Session};
use std::collections::{BTreeMap, HashMap};

/// What the request says itself.
#[test]
fn published() {
    assert_eq!(plain_form(b"\\\xc3\xa9", 763), Ok(b"p_c3_a9".to_vec()));
    assert_eq!(plain_form(b"\\_", 763), Ok(b"p_5f".to_vec()));
    assert_eq!(name_of(b"p_41", 763), Err(14));
    let longest = [b"$".to_vec(), vec![b'_'; NAME_LENGTH - 1]].concat();
    let form = plain_form(&longest, 763).expect("a legal name");
    assert_eq!((form.len(), PLAIN_FORM), (763, 763));
    assert_eq!(name_of(&form, 255), Ok(longest));
    assert_eq!(name_of(&[&form[..], b"a"].concat(), 255), Err(14));
}

/// The form is plain and is that of its name alone; what is no form is 14, whatever the room.
#[test]
fn one_to_one() {
    let mut forms = HashMap::new();
    let mut numbers = BTreeMap::new();
    for seed in 0..60_000 {
        let (name, form) = name_and_form(seed);
        match plain_form(&name, PLAIN_FORM) {
            Ok(form) => {
                let plain = |&byte: &u8| byte == b'_' || byte.is_ascii_alphanumeric();
                assert!(form.iter().all(plain));
                assert_eq!(name_of(&form, NAME_LENGTH), Ok(name.clone()));
                assert_eq!(plain_form(&name, form.len() - 1), Err(12));
                let before = forms.insert(form, name.clone());
                assert!(before.is_none_or(|before| before == name));
            }
            Err(number) => assert!(number == 4 && !is_name(&name)),
        }
        let named = name_of(&form, NAME_LENGTH);
        match &named {
            Ok(name) => {
                assert_eq!(plain_form(name, PLAIN_FORM), Ok(form.clone()));
                assert_eq!(name_of(&form, name.len() - 1), Err(12));
            }
            Err(_) => assert_eq!(name_of(&form, 0), Err(14)),
        }
        *numbers.entry(named.err().unwrap_or(0)).or_insert(0) += 1;
    }
    println!("{} forms; ways back by number: {numbers:?}", forms.len());
    assert!(numbers[&0] > 10_000 && numbers[&14] > 10_000);
}

/// Every byte behind the first, and every escape of a byte.
#[test]
fn every_byte() {
    for byte in 0..=255 {
        let form = plain_form(&[b'\\', byte], 4);
        assert_eq!(form.is_ok(), byte > 32);
        let escaped = format!("p_{byte:02x}").into_bytes();
        let legal = byte > 32 && !byte.is_ascii_alphanumeric();
        assert_eq!(name_of(&escaped, 2).is_ok(), legal);
        assert_eq!(
            name_of(&[b'p', byte], 2).is_ok(),
            byte.is_ascii_alphanumeric()
        );
    }
}

/// Each line is the plain form of the wire's name now and what is shown of it, with no byte below 32.
#[test]
fn listings() {
    let (mut lines_met, mut escaped) = (0, 0);
    for seed in 0..600 {
        let file = match seed % 2 {
            0 => listed_file(seed),
            _ => well_formed_file(seed, SizeClass::of(seed)),
        };
        let Ok(netlist) = read(&file) else {
            continue;
        };
        let mut session = Session::new(netlist.design());
        session.rename(ModuleNumber(0), WireNumber(0), b"\\now");
        let modules = session.design_read().modules.len();
        for module in (0..modules).map(ModuleNumber) {
            let listed = listing(&session, module, usize::MAX).expect("the module is there");
            let mut lines = listed.split_inclusive(|&byte| byte == b'\n');
            let wires = session
                .design_read()
                .module(module)
                .map_or(0, |one| one.wires.len());
            for wire in (0..wires).map(WireNumber) {
                let line = lines.next().expect("a line for each wire");
                let space = line.iter().position(|&byte| byte == b' ').expect("a space");
                let name = session.name_now(module, wire).expect("a wire");
                assert_eq!(name_of(&line[..space], NAME_LENGTH).as_ref(), Ok(name));
                let shown = &line[space + 1..line.len() - 1];
                assert!(shown.iter().all(|&byte| byte >= 32));
                let plain = session.show(module, wire).expect("a wire");
                escaped += usize::from(shown != plain);
                assert!(shown != plain || plain.iter().all(|&byte| byte >= 32));
                lines_met += 1;
            }
            assert_eq!(lines.next(), None);
            assert_eq!(listing(&session, module, listed.len()), Ok(listed.clone()));
            let shorter = listed.len().checked_sub(1);
            assert!(shorter.is_none_or(|room| listing(&session, module, room) == Err(12)));
        }
        assert_eq!(listing(&session, ModuleNumber(modules), 0), Err(8));
    }
    println!("{lines_met} lines, {escaped} with escapes");
    assert!(lines_met > 2_000 && escaped > 500);
}
