//! What a front desk asks of a file, and files that break behind a line.

use super::random::Random;
use crate::lines::lines;
use crate::tokens::{tokens, Token};

/// Which wire, and which bit of it.
#[derive(Debug, Clone, PartialEq, Eq)]
pub struct Question {
    pub module: u32,
    pub name: Vec<u8>,
    pub bit: u32,
}

/// Lines that are refused, some of them not everywhere.
const FAULTS: [&[u8]; 10] = [
    b"?\n",
    b"wire \\w \"\n",
    b"end end\n",
    b"wire width 2049 \\too_wide\n",
    b"connect \\not_there \\not_there\n",
    b"connect 1'0 2'0\n",
    b"module \\in_a_module\n",
    b"attribute \\a 1\n",
    b"end",
    b"",
];

/// The names of a file, each with the number of the module lines before it, and those that its wire lines end with.
#[derive(Default)]
struct Names {
    modules: usize,
    all: Vec<Vec<u8>>,
    wires: Vec<(usize, Vec<u8>)>,
}

impl Names {
    fn of(file: &[u8]) -> Names {
        let mut names = Names::default();
        for line in lines(file) {
            let tokens = tokens(line.bytes).unwrap_or_default();
            let word = tokens.first().cloned();
            names.modules += usize::from(word == Some(Token::Word("module")));
            let of_line = tokens.into_iter().filter_map(|token| match token {
                Token::Name(name) => Some(name),
                _ => None,
            });
            let first = names.all.len();
            names.all.extend(of_line);
            if word == Some(Token::Word("wire")) && names.all.len() > first {
                let module = names.modules.saturating_sub(1);
                names.wires.push((module, names.all[first].clone()));
            }
        }
        names
    }
}

/// Wires of the file in their module, and names of the file in any module, names and bytes that stand nowhere.
pub fn questions(random: &mut Random, file: &[u8]) -> Vec<Question> {
    let names = Names::of(file);
    let count = random.between(1, 8);
    (0..count).map(|_| question(random, &names)).collect()
}

fn question(random: &mut Random, names: &Names) -> Question {
    let bit = match random.below(6) {
        0 => *random.pick(&[2_047, 2_048, u32::MAX]),
        1 => random.below(10) as u32,
        _ => random.below(2) as u32,
    };
    if !names.wires.is_empty() && !random.one_in(3) {
        let (module, name) = random.pick(&names.wires).clone();
        let module = module as u32;
        return Question { module, name, bit };
    }
    Question {
        module: match random.below(12) {
            0 => *random.pick(&[32, 1 << 31, u32::MAX]),
            _ => random.below(names.modules + 1) as u32,
        },
        name: name(random, &names.all),
        bit,
    }
}

fn name(random: &mut Random, names: &[Vec<u8>]) -> Vec<u8> {
    const ODD: [&[u8]; 7] = [b"", b"\\", b"a", b"\\a b", b"\\\0", b"\\not_there", b"$"];
    match random.below(10) {
        0 => random.pick(&ODD).to_vec(),
        1 => vec![b'\\'; random.between(1, 300)],
        2 if !names.is_empty() => [&random.pick(names)[..], b"_"].concat(),
        _ if names.is_empty() => b"\\a".to_vec(),
        _ => random.pick(names).clone(),
    }
}

/// The file cut behind one of its line ends, with a line there that is refused, or with none.
pub fn broken(random: &mut Random, file: &[u8]) -> Vec<u8> {
    let ends = file.iter().enumerate().filter(|byte| *byte.1 == b'\n');
    let ends: Vec<usize> = ends.map(|(at, _)| at + 1).collect();
    let end = if ends.is_empty() {
        0
    } else {
        *random.pick(&ends)
    };
    let rest: &[u8] = match random.one_in(2) {
        true => &file[end..],
        false => b"",
    };
    let fault = *random.pick(&FAULTS);
    [&file[..end], fault, rest].concat()
}
