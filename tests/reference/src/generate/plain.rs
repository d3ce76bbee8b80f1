//! Names for a device that prints only letters, digits and underlines, and bytes that are nearly a plain form.

use super::pieces;
use super::random::Random;
use super::SizeClass;
use crate::plain::plain_form;
use crate::sizes::{NAME_LENGTH, PLAIN_FORM};

/// Any bytes as a name; most are legal, some have the longest form there is or are one byte too long.
pub fn name(random: &mut Random) -> Vec<u8> {
    const ODD: [&[u8]; 8] = [b"", b"\\", b"$", b"a", b"\\a b", b"$\0", b"\\\x1f", b"p_5c"];
    match random.below(12) {
        0 => random.pick(&ODD).to_vec(),
        1 => {
            let length = NAME_LENGTH - 2 + random.below(4);
            let later = |_| *random.pick(b"a0_\xff");
            let later: Vec<u8> = (1..length).map(later).collect();
            [b"\\".to_vec(), later].concat()
        }
        2 => (0..random.between(1, 5)).map(|_| random.byte()).collect(),
        _ => pieces::name(random, SizeClass::Medium),
    }
}

/// A plain form, in half of the cases damaged in one byte, or bytes that are like one.
pub fn form(random: &mut Random) -> Vec<u8> {
    const PIECES: [&[u8]; 14] = [
        b"p", b"a", b"_", b"_5c", b"_5C", b"_41", b"_20", b"_21", b"_7f", b"_ff", b"_+1", b"A",
        b"9", b"-",
    ];
    if random.one_in(4) {
        let pieces = random.between(0, 5);
        let pieces: Vec<&[u8]> = (0..pieces).map(|_| *random.pick(&PIECES)).collect();
        return [b"p".to_vec(), pieces.concat()].concat();
    }
    let name = name(random);
    let mut form = plain_form(&name, PLAIN_FORM).unwrap_or(name);
    if random.one_in(2) && !form.is_empty() {
        let at = random.below(form.len());
        match random.below(4) {
            0 => form[at] = random.byte(),
            1 => form[at] = *random.pick(b"_paAf059gF/:@[`{"),
            2 => {
                form.remove(at);
            }
            _ => form.insert(at, *random.pick(b"_pa0f")),
        }
    }
    form
}

/// A file to list the wires of: most have the attribute `\hdlname`, whose strings hold bytes of every kind, or none.
pub fn listed_file(random: &mut Random) -> Vec<u8> {
    let mut file = Vec::new();
    for module in 0..random.between(1, 3) {
        file.extend(format!("module \\m{module}\n").bytes());
        for wire in 0..random.below(12) {
            if random.one_in(4) {
                file.extend(b"attribute \\other \"\\001\"\n");
            }
            if !random.one_in(3) {
                let hdlname = hdlname(random);
                file.extend([b"attribute \\hdlname ", &hdlname[..], b"\n"].concat());
            }
            let name = [name_part(random), wire.to_string().into_bytes()].concat();
            file.extend([b"wire ", &name[..], b"\n"].concat());
        }
        file.extend(b"memory \\mem\nend\n");
    }
    file
}

/// Mostly a string, now and then an empty one or another constant, which is not shown.
fn hdlname(random: &mut Random) -> Vec<u8> {
    if random.one_in(8) {
        return random.pick(&[&b"\"\""[..], b"7", b"8'x"]).to_vec();
    }
    let count = random.between(1, 12);
    let byte = |random: &mut Random| match random.below(3) {
        0 => random.between(1, 31) as u8,
        1 => *random.pick(b"\"\\ \x7f\xff\n\t"),
        _ => random.between(33, 255) as u8,
    };
    let bytes: Vec<u8> = (0..count).map(|_| byte(random)).collect();
    pieces::string(random, &bytes)
}

fn name_part(random: &mut Random) -> Vec<u8> {
    let sigil = *random.pick(b"\\$");
    let later = (0..random.below(4)).map(|_| random.between(33, 255) as u8);
    [sigil].into_iter().chain(later).collect()
}
