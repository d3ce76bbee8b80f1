//! One wire from the file's bytes: the exported calls answer as the reference does, on the vectors and on generated questions.

use library::answers::Exported;
use library::files::count;
use library::{index_of, width_of};
use reference::call_vectors::every_vector_agrees;
use reference::generate::{perhaps_broken, questions};
use reference::statements::ModuleNumber;
use reference::vectors::vectors;
use std::collections::BTreeMap;

#[test]
fn every_vector() {
    every_vector_agrees("10-one-wire", 22, Exported::of);
}

#[test]
fn questions_on_files() {
    let vectors = vectors();
    let mut numbers = BTreeMap::new();
    for seed in 0..count(6_000) {
        let file = perhaps_broken(seed, &vectors);
        for asked in questions(seed, &file) {
            let module = ModuleNumber(asked.module as usize);
            let width = reference::width_of(&file, module, &asked.name);
            let given = width_of(&file, asked.module, &asked.name);
            let same = given == width.map(|width| width as u32);
            assert!(same, "seed {seed}, {asked:?}");
            let index = reference::index_of(&file, module, &asked.name, asked.bit as usize);
            let given = index_of(&file, asked.module, &asked.name, asked.bit);
            assert_eq!(given, index, "seed {seed}, {asked:?}");
            let number = index.err().map_or(0, |refusal| refusal.number);
            *numbers.entry(number).or_insert(0) += 1;
        }
    }
    println!("questions by number: {numbers:?}");
}
