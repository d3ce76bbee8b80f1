//! What a caller can get wrong, and that each number is what its refusal says.

use skytassel::lent::{self, Lent, BITS, NAMES, ROWS, STRINGS, WIRES};
use skytassel::sys::{Answer, Card};
use skytassel::{check, name_of, plain_form, Design, ModuleNumber, NoRefusal, Refusal, WireNumber};

const FILE: &[u8] = b"module \\ear
  attribute \\hdlname \"left gain\"
  wire width 8 offset -4 upto \\gain
  wire input 1 \\i
  attribute \\hdlname \"\"
  wire \\y
  memory \\r
  process \\p
    assign \\y \\gain [7]
    sync posedge \\i
      update \\y 1'0
  end
end
";
const EAR: ModuleNumber = ModuleNumber(0);
const GAIN: WireNumber = WireNumber(0);

fn design() -> Design {
    Design::read(FILE).expect("an accepted file")
}

#[test]
fn numbers_are_those_of_the_table() {
    for (at, &refusal) in Refusal::ALL.iter().enumerate() {
        assert_eq!(refusal.number() as usize, at + 1);
        assert_eq!(Refusal::try_from(refusal.number()), Ok(refusal));
        assert!(refusal.to_string().starts_with(&(at + 1).to_string()));
    }
    assert!(Refusal::ALL.windows(2).all(|two| two[0] < two[1]));
    for number in [0, 15, u32::MAX] {
        assert_eq!(Refusal::try_from(number), Err(NoRefusal(number)));
    }
}

#[test]
fn printed() {
    let mut design = design();
    let used = design.room_used();
    assert_eq!(design.rename(EAR, GAIN, b"\\g"), Ok(()));
    let shown = format!("Design {{ renames: 1, room_used: {}, .. }}", used + 2);
    assert_eq!(format!("{design:?}"), shown);
    assert_eq!(
        format!("{} {:>3}", ModuleNumber(7), WireNumber(12)),
        "7  12"
    );
    assert!(WireNumber(2) < WireNumber(12) && ModuleNumber(2) < ModuleNumber(12));
    let refused = Design::read(b"module\n").expect_err("no name");
    assert_eq!(refused.to_string(), "5: no permitted shape (at byte 0)");
    assert_eq!(NoRefusal(0).to_string(), "0 is no refusal's number");
}

#[test]
fn refused_files() {
    let long = vec![b'\n'; 32_769];
    let files: [(&[u8], Refusal, usize); 11] = [
        (&long, Refusal::FileTooLong, 0),
        (b"\\", Refusal::BadToken, 0),
        (b"module \\m\n", Refusal::BadShape, 10),
        (b"module \\m\n process \\p\n", Refusal::BadShape, 22),
        (b"module \\m\nprocess \\p\ncase\n", Refusal::BadShape, 21),
        (
            b"module \\m\nprocess \\p\nsync low 2'00\n",
            Refusal::BadWidth,
            21,
        ),
        (b"module \\m\nwire width 2049 \\a\n", Refusal::BadNumber, 10),
        (b"module \\m\nconnect \\a \\a\n", Refusal::NotThere, 10),
        (b"module \\m\nend\nmodule \\m\n", Refusal::NameTaken, 14),
        (b"module \\m\nconnect 1'0 2'0\n", Refusal::BadWidth, 10),
        (
            b"module \\m\nconnect { 2048'0 1'0 } { 2048'0 1'0 }\n",
            Refusal::SizeExceeded,
            10,
        ),
    ];
    for (file, refusal, place) in files {
        let refused = Design::read(file).expect_err("a refused file");
        assert_eq!((refused.refusal, refused.place), (refusal, place));
        assert_eq!(check(file), Err(refused));
    }
}

#[test]
fn refused_calls_change_nothing() {
    let read = design();
    let mut design = read.clone();
    let renames: [(WireNumber, &[u8], Refusal); 6] = [
        (GAIN, b"gain", Refusal::BadToken),
        (WireNumber(1), b"\\j", Refusal::PortRename),
        (WireNumber(3), b"\\j", Refusal::NotThere),
        (GAIN, b"\\gain", Refusal::NameTaken),
        (GAIN, b"\\r", Refusal::NameTaken),
        (GAIN, b"\\p", Refusal::NameTaken),
    ];
    for (wire, name, refusal) in renames {
        assert_eq!(design.rename(EAR, wire, name), Err(refusal));
    }
    assert_eq!(design.undo(), Err(Refusal::NothingToUndo));
    assert_eq!(design.look_up(EAR, b"no name"), Err(Refusal::NotThere));
    assert_eq!(
        design.look_up(ModuleNumber(1), b"\\gain"),
        Err(Refusal::NotThere)
    );
    assert_eq!(design.index(EAR, GAIN, 8), Err(Refusal::BadWidth));
    assert_eq!(design.show(EAR, WireNumber(3)), Err(Refusal::NotThere));
    assert!(design == read);
}

#[test]
fn a_session() {
    assert_eq!(check(FILE), Ok(()));
    let read = design();
    let mut design = read.clone();
    assert_eq!(design.show(EAR, GAIN), Ok(&b"left gain"[..]));
    assert_eq!(design.show(EAR, WireNumber(2)), Ok(&b"y"[..]));
    assert_eq!(design.index(EAR, GAIN, 0), Ok(3));
    assert_eq!(design.index(EAR, GAIN, 7), Ok(-4));
    design
        .rename(EAR, WireNumber(2), b"$z")
        .expect("a new name");
    assert_eq!(
        (design.renames(), design.room_used()),
        (1, read.room_used() + 2)
    );
    assert_eq!(design.show(EAR, WireNumber(2)), Ok(&b"$z"[..]));
    assert_eq!(design.look_up(EAR, b"\\y"), Err(Refusal::NotThere));
    assert_eq!(design.look_up(EAR, b"$z"), Ok(WireNumber(2)));
    let text = design.write().expect("a short text");
    let in_process = b"    assign $z \\gain [7]\n    sync posedge \\i\n      update $z 1'0\n";
    assert!(text
        .windows(in_process.len())
        .any(|part| part == in_process));
    assert_eq!(design.measure(), Ok(text.len()));
    assert_eq!(Design::read(&text).expect("its own text").write(), Ok(text));
    design.undo().expect("a rename stands");
    assert!(design == read);
}

#[test]
fn sixty_four_renames() {
    let mut design = design();
    for number in 0..64 {
        let name = format!("\\gain{number}");
        assert_eq!(design.rename(EAR, GAIN, name.as_bytes()), Ok(()));
    }
    assert_eq!(
        design.rename(EAR, GAIN, b"\\more"),
        Err(Refusal::SizeExceeded)
    );
    assert_eq!(design.undo(), Ok(()));
    assert_eq!(design.rename(EAR, GAIN, b"\\more"), Ok(()));
}

/// Memory as C lends it: a length for each table, which may be wrong.
fn with_lengths(lengths: [usize; 5], call: impl FnOnce(&mut Lent)) {
    let (mut names, mut strings) = (vec![7; lengths[0]], vec![7; lengths[1]]);
    let (mut bits, mut wires) = (vec![7; lengths[2]], vec![7; lengths[3]]);
    let mut rows = vec![7; lengths[4]];
    let mut card = Card {
        renames: 7,
        room: 7,
    };
    call(&mut Lent {
        names: &mut names,
        strings: &mut strings,
        bits: &mut bits,
        wires: &mut wires,
        rows: &mut rows,
        card: &mut card,
    });
}

#[test]
fn plain_letters() {
    let longest = [b"$".to_vec(), vec![b'_'; 254]].concat();
    let form = plain_form(&longest).expect("a name");
    assert_eq!(form.len(), lent::PLAIN_FORM);
    assert_eq!(name_of(&form), Ok(longest));
    assert_eq!(plain_form(b"gain"), Err(Refusal::BadToken));
    for no_form in [&b""[..], b"p", b"gain", b"p_41", b"p_5C", b"p_20", b"p_5"] {
        assert_eq!(name_of(no_form), Err(Refusal::NoPlainForm));
    }
    let mut room = [7; 6];
    assert_eq!(lent::plain_form("\\é".as_bytes(), &mut room).number, 12);
    assert_eq!(lent::name_of(b"p_c3_a9", &mut room[..2]).number, 12);
    assert_eq!(room, [7; 6]);
    assert_eq!(lent::name_of(b"p_c3_a9", &mut room).length, 3);
    assert_eq!(room, [b'\\', 0xc3, 0xa9, 7, 7, 7]);
}

#[test]
fn listing() {
    let design = design();
    let lines = b"pgain left gain\npi i\npy y\n";
    assert_eq!(design.listing(EAR), Ok(lines.to_vec()));
    assert_eq!(design.listing(ModuleNumber(1)), Err(Refusal::NotThere));
}

#[test]
fn wrong_lengths_are_refused_and_nothing_is_touched() {
    let right = [NAMES, STRINGS, BITS, WIRES, ROWS];
    for table in 0..5 {
        for length in [0, 1, right[table] - 1, right[table] + 1] {
            let mut lengths = right;
            lengths[table] = length;
            with_lengths(lengths, |memory| {
                let refused = Answer {
                    number: 1,
                    place: 0,
                };
                assert_eq!(memory.fill(FILE), refused);
                assert_eq!(memory.rename(0, 0, b"\\a"), refused);
                assert_eq!(memory.undo(), refused);
                let (view, mut room) = (memory.view(), [7; 100]);
                assert_eq!(view.look_up(0, b"\\a").number, 1);
                assert_eq!(view.index(0, 0, 0).number, 1);
                assert_eq!(view.show(0, 0).number, 1);
                assert_eq!(view.measure().number, 1);
                assert_eq!(view.write(&mut room).number, 1);
                assert_eq!(view.listing(0, &mut room).number, 1);
                assert!(room == [7; 100]);
                assert!(view.names.iter().chain(view.strings).all(|&byte| byte == 7));
                let words = view.bits.iter().chain(view.wires).chain(view.rows);
                assert!(words.copied().all(|word| word == 7));
                assert_eq!((view.card.renames, view.card.room), (7, 7));
            });
        }
    }
}

#[test]
fn memory_that_holds_no_design_is_refused() {
    with_lengths([NAMES, STRINGS, BITS, WIRES, ROWS], |memory| {
        assert_eq!(memory.undo().number, Refusal::DamagedMemory.number());
        assert_eq!(memory.view().measure().number, 3);
        assert_eq!(memory.view().listing(0, &mut []).number, 3);
        // a fill takes any memory
        assert_eq!(memory.fill(FILE).number, 0);
        assert_eq!(memory.view().show(0, 0).length, 9);
    });
}

#[test]
fn room_too_short_is_left_as_it_was() {
    with_lengths([NAMES, STRINGS, BITS, WIRES, ROWS], |memory| {
        assert_eq!(memory.fill(FILE).number, 0);
        let view = memory.view();
        let length = view.measure().length as usize;
        let mut room = vec![7; length - 1];
        assert_eq!(view.write(&mut room).number, Refusal::TextTooLong.number());
        assert!(room.iter().all(|&byte| byte == 7));
        let mut room = vec![7; length + 3];
        let written = view.write(&mut room);
        assert_eq!((written.number, written.length as usize), (0, length));
        assert_eq!(room[length..], [7, 7, 7]);
    });
}

#[test]
fn pointers_that_are_no_parts() {
    let words = [1u32, 2];
    // SAFETY: null and unaligned pointers and lengths past all memory are what `part` refuses.
    unsafe {
        assert_eq!(lent::part(words.as_ptr(), 2), Some(&words[..]));
        assert_eq!(lent::part::<u8>(std::ptr::null(), 0), None);
        assert_eq!(lent::part::<u32>(std::ptr::null(), 2), None);
        let unaligned = words.as_ptr().cast::<u8>().add(1).cast::<u32>();
        assert_eq!(lent::part(unaligned, 1), None);
        assert_eq!(lent::part(words.as_ptr(), usize::MAX), None);
        assert_eq!(lent::part(words.as_ptr(), usize::MAX / 4), None);
        assert_eq!(lent::part_mut::<u8>(std::ptr::null_mut(), 1), None);
    }
}

fn pointer<T>(start: *mut T, null: bool) -> *mut T {
    if null {
        std::ptr::null_mut()
    } else {
        start
    }
}

#[test]
fn memory_from_pointers() {
    let right = [NAMES, STRINGS, BITS, WIRES, ROWS];
    let (mut names, mut strings) = (vec![0u8; NAMES], vec![0u8; STRINGS]);
    let (mut bits, mut wires) = (vec![0u32; BITS], vec![0u32; WIRES]);
    let mut rows = vec![0u32; ROWS];
    let mut card = Card::default();
    let mut lent = |lengths: [usize; 5], null: usize| {
        // SAFETY: the parts are apart and as long as stated, but for lengths and null pointers that are refused before any use.
        let memory = unsafe {
            Lent::from_raw(
                (pointer(names.as_mut_ptr(), null == 0), lengths[0]),
                (pointer(strings.as_mut_ptr(), null == 1), lengths[1]),
                (pointer(bits.as_mut_ptr(), null == 2), lengths[2]),
                (pointer(wires.as_mut_ptr(), null == 3), lengths[3]),
                (pointer(rows.as_mut_ptr(), null == 4), lengths[4]),
                pointer(&mut card, null == 5),
            )
        };
        memory.map(|mut memory| memory.fill(FILE).number)
    };
    assert_eq!(lent(right, 6), Some(0));
    for table in 0..5 {
        let mut lengths = right;
        lengths[table] += 1;
        assert_eq!(lent(lengths, 6), None);
    }
    for null in 0..6 {
        assert_eq!(lent(right, null), None);
    }
}
