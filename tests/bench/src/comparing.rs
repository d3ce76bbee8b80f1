//! Times of comparing names of 255 bytes: the comparison alone beside one from the front, and in a read and a look-up.

use crate::{files, micros, shortest, times};
use library::{fill, look_up, Card, Tables};
use std::hint::black_box;

extern "C" {
    fn compare_as_product(a: *const u8, a_length: usize, b: *const u8, b_length: usize) -> bool;
    fn compare_from_front(a: *const u8, a_length: usize, b: *const u8, b_length: usize) -> bool;
}

/// The product's comparison.
fn as_product(a: &[u8], b: &[u8]) -> bool {
    // SAFETY: each pointer is that of a slice of the length beside it, and nothing is kept.
    unsafe { compare_as_product(a.as_ptr(), a.len(), b.as_ptr(), b.len()) }
}

/// A comparison from the front.
fn from_front(a: &[u8], b: &[u8]) -> bool {
    // SAFETY: as above.
    unsafe { compare_from_front(a.as_ptr(), a.len(), b.as_ptr(), b.len()) }
}

/// The byte that differs, counted from 0, and what is said of it.
const DIFFERENT: [(usize, &str); 3] = [
    (254, "the last"),
    (253, "the last but one"),
    (1, "behind \\"),
];

type Pair<'a> = (&'a [u8], &'a [u8]);

/// Each name with each other one.
fn pairs(names: &[Vec<u8>]) -> Vec<Pair<'_>> {
    let mut pairs = Vec::new();
    for a in names {
        for b in names.iter().filter(|b| *b != a) {
            pairs.push((&a[..], &b[..]));
        }
    }
    pairs
}

/// Nanoseconds of one comparison, of the shortest pass over the pairs.
fn nanos(pairs: &[Pair], same: fn(&[u8], &[u8]) -> bool) -> f64 {
    let pass = shortest(|| {
        for (a, b) in pairs {
            black_box(same(black_box(a), black_box(b)));
        }
    });
    micros(pass) * 1e3 / pairs.len() as f64
}

/// Microseconds of a look-up of the wire with this name, and of one in no module, which only judges the memory.
fn look_ups(file: &[u8], name: &[u8]) -> [f64; 2] {
    let mut tables = Tables::zeroed();
    let mut card = Card::default();
    assert_eq!(fill(file, &mut tables, &mut card).number, 0);
    assert_eq!(
        look_up(&tables, card, 0, name),
        Ok(files::LONG_NAMES as u32 - 1)
    );
    [0, 32].map(|module| {
        micros(shortest(|| {
            let _ = black_box(look_up(&tables, card, black_box(module), name));
        }))
    })
}

pub fn print() {
    println!("\nNames of 255 bytes that differ in one byte: a comparison, ns, beside one from the front; a file with 64 such wires read, and its last wire looked up, us.");
    println!("byte that differs   compare ns   from front ns   front/product    read us   look-up us   judging us");
    for (byte, which) in DIFFERENT {
        let names = files::long_names(byte);
        let pairs = pairs(&names);
        let (product, front) = (nanos(&pairs, as_product), nanos(&pairs, from_front));
        let file = files::long_wires(byte);
        let whole = micros(times(&file).library);
        let [found, judging] = look_ups(&file, &names[files::LONG_NAMES - 1]);
        println!(
            "{which:<18} {product:>11.1} {front:>15.1} {:>15.1} {whole:>10.1} {found:>12.1} {judging:>12.1}",
            front / product
        );
    }
}

#[cfg(test)]
mod tests {
    use super::*;

    #[test]
    fn both_tell_whether_names_are_the_same() {
        let mut names: Vec<Vec<u8>> = vec![b"".to_vec(), b"\\".to_vec(), b"\\a".to_vec()];
        for (byte, _) in DIFFERENT {
            names.extend(files::long_names(byte));
        }
        for a in &names {
            for b in &names {
                assert_eq!(as_product(a, b), a == b);
                assert_eq!(from_front(a, b), a == b);
            }
        }
    }
}
