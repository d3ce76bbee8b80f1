//! Seeded files: well-formed, aimed at refusals, at the limits, mutated and random.

mod any_text;
mod changed;
mod faults;
mod limits;
mod mutations;
mod pieces;
mod plain;
mod processes;
mod questions;
pub mod random;
mod respelled;
mod signals;
mod well_formed;

use crate::design::Design;
use crate::reading::read;
use crate::vectors::Vector;
pub use questions::Question;
use random::Random;

#[derive(Debug, Clone, Copy, PartialEq, Eq)]
pub enum SizeClass {
    /// Under 300 bytes.
    Small,
    /// Mostly under 4,000 bytes.
    Medium,
    /// Up to a little over the file's limit.
    Large,
}

impl SizeClass {
    /// One of the classes; large files are rare.
    pub fn of(seed: u64) -> SizeClass {
        match seed % 16 {
            0 => SizeClass::Large,
            1..=7 => SizeClass::Medium,
            _ => SizeClass::Small,
        }
    }

    fn budget(self, random: &mut Random) -> usize {
        match self {
            SizeClass::Small => random.between(10, 200),
            SizeClass::Medium => random.between(100, 2_500),
            SizeClass::Large => random.between(2_000, 33_000),
        }
    }
}

/// The file of this seed; the same seed and class give the same bytes.
pub fn file(seed: u64, size: SizeClass) -> Vec<u8> {
    let mut random = Random::new(seed);
    loop {
        let file = any_file(&mut random, size);
        if size != SizeClass::Small || file.len() < 300 {
            return file;
        }
    }
}

/// A file meant to be well-formed; a large one may still pass a size.
pub fn well_formed_file(seed: u64, size: SizeClass) -> Vec<u8> {
    let mut random = Random::new(seed);
    loop {
        let budget = size.budget(&mut random);
        let file = well_formed::file(&mut random, size, budget);
        if size != SizeClass::Small || file.len() < 300 {
            return file;
        }
    }
}

/// The file after a number is changed, or after one to four changes: bytes changed, put in or left out, tokens and lines doubled,
/// swapped, moved or left out.
pub fn mutated(seed: u64, file: Vec<u8>) -> Vec<u8> {
    let mut random = Random::new(seed);
    match random.one_in(3) {
        true => mutations::change_number(&mut random, file),
        false => mutations::mutate(&mut random, file),
    }
}

/// The file of this seed: half of them generated, a quarter a vector and a quarter an accepted generated file, both after some changes.
pub fn generated_or_mutated(seed: u64, vectors: &[Vector]) -> Vec<u8> {
    let of_kind = seed / 4;
    match seed % 4 {
        0 => {
            let vector = &vectors[of_kind as usize % vectors.len()];
            mutated(seed, vector.file.clone())
        }
        1 => mutated(seed, accepted(of_kind)),
        kind => {
            let seed = 2 * of_kind + kind - 2;
            file(seed, SizeClass::of(seed))
        }
    }
}

/// A well-formed file that is accepted: the first one from this seed on.
fn accepted(seed: u64) -> Vec<u8> {
    let files = (seed..).map(|one| well_formed_file(one, SizeClass::of(one)));
    let mut accepted = files.filter(|file| read(file).is_ok());
    accepted.next().expect("some file is accepted")
}

/// Another file of this design; it may still be too long.
pub fn respelled(seed: u64, design: &Design) -> Vec<u8> {
    respelled::file(&mut Random::new(seed), design)
}

/// An accepted file, and a second one: the first respelled, its design respelled after one change, or the first after some changes of its bytes.
pub fn pair(seed: u64) -> (Vec<u8>, Vec<u8>) {
    let file = accepted(seed);
    let mut random = Random::new(seed);
    let design = read(&file).map(|netlist| netlist.design());
    let design = design.expect("an accepted file");
    let other = match seed % 3 {
        0 => respelled::file(&mut random, &design),
        1 => {
            let mut changes = (0..20).map(|_| changed::changed(&mut random, &design));
            let changed = changes.find(|changed| *changed != design);
            let changed = changed.unwrap_or_else(|| design.clone());
            respelled::file(&mut random, &changed)
        }
        _ => mutated(seed, file.clone()),
    };
    (file, other)
}

/// Any bytes as a name, and bytes that are a plain form or nearly one.
pub fn name_and_form(seed: u64) -> (Vec<u8>, Vec<u8>) {
    let mut random = Random::new(seed);
    (plain::name(&mut random), plain::form(&mut random))
}

/// A file whose wires are to be listed, most with names to show of their own.
pub fn listed_file(seed: u64) -> Vec<u8> {
    plain::listed_file(&mut Random::new(seed))
}

/// What a front desk asks of a file.
pub fn questions(seed: u64, file: &[u8]) -> Vec<Question> {
    questions::questions(&mut Random::new(seed), file)
}

/// A file to ask of: any file, an accepted one, or in half of the cases one that is broken behind one of its lines.
pub fn perhaps_broken(seed: u64, vectors: &[Vector]) -> Vec<u8> {
    let of_kind = seed / 4;
    match seed % 4 {
        0 => generated_or_mutated(of_kind, vectors),
        1 => accepted(of_kind),
        _ => questions::broken(&mut Random::new(seed), &accepted(of_kind)),
    }
}

/// A file with one size at its limit, one under or one over.
pub fn limit_file(seed: u64) -> Vec<u8> {
    limits::file(&mut Random::new(seed))
}

fn any_file(random: &mut Random, size: SizeClass) -> Vec<u8> {
    let budget = size.budget(random);
    match random.below(20) {
        0..=5 => well_formed::file(random, size, budget),
        6..=10 if size == SizeClass::Large => limits::file(random),
        6..=12 => faults::file(random, size),
        13..=17 => {
            let file = match random.below(4) {
                0 if size == SizeClass::Large => limits::file(random),
                1 => faults::file(random, size),
                _ => well_formed::file(random, size, budget),
            };
            mutations::mutate(random, file)
        }
        18 => any_text::bytes(random, budget),
        _ => any_text::tokens(random, size, budget),
    }
}
