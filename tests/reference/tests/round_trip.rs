//! Generated files: reading ends; what is written reads back to the same design and text.
//! GENERATED_FILES=100000 asks for more files than the default, 5,000.

use reference::generate::{self, SizeClass};
use reference::{measure, program, read, read_any_length, sizes, text, write, Refusal};
use std::collections::BTreeMap;

/// What became of a file: 0 for a written text, else its number.
fn check(file: &[u8]) -> u32 {
    let netlist = match read(file) {
        Ok(netlist) => netlist,
        Err(refusal) => {
            check_refusal(file, refusal);
            return refusal.number;
        }
    };
    assert_eq!(read_any_length(file), Ok(netlist.clone()));
    let design = netlist.design();
    let whole = text::text(&design);
    assert_eq!(
        read_any_length(&whole)
            .expect("written texts are read")
            .design(),
        design
    );
    let Ok(length) = measure(&design) else {
        assert!(whole.len() > sizes::TEXT_BYTES);
        assert_eq!(program(file), b"12 0\n");
        return 12;
    };
    assert_eq!(length, whole.len());
    assert_eq!(write(&design, length), Ok(whole.clone()));
    if length > 0 {
        assert_eq!(write(&design, length - 1), Err(12));
    }
    let again = read(&whole).expect("written texts are read").design();
    assert_eq!(again, design);
    assert_eq!(program(&whole), whole);
    assert_eq!(program(file), whole);
    0
}

fn check_refusal(file: &[u8], refusal: Refusal) {
    let Refusal { number, place } = refusal;
    assert!(matches!(number, 2 | 4 | 5 | 7..=11));
    assert!(place <= file.len());
    assert_eq!(program(file), format!("{number} {place}\n").into_bytes());
    if number != 2 {
        assert_eq!(read_any_length(file), Err(refusal));
    }
    if place < file.len() && number != 2 {
        assert!(!matches!(file[place], b' ' | b'\t' | 10 | 13));
        let end = file[..place]
            .iter()
            .rposition(|&byte| matches!(byte, 10 | 13));
        let line = end.map_or(0, |end| end + 1);
        // The lines before are not refused: cut there, only the end can be.
        let cut = read(&file[..line]);
        assert!(
            cut.is_ok()
                || cut
                    == Err(Refusal {
                        number: 5,
                        place: line
                    })
        );
        if number == 4 {
            // Nothing before the bad token is bad.
            let cut = read(&file[..place]);
            assert!(!matches!(cut, Err(Refusal { number: 4, .. })));
        } else {
            assert!(file[line..place]
                .iter()
                .all(|byte| matches!(byte, b' ' | b'\t')));
        }
    }
}

fn count_wanted(default: u64) -> u64 {
    std::env::var("GENERATED_FILES")
        .ok()
        .and_then(|count| count.parse().ok())
        .unwrap_or(default)
}

#[test]
fn generated_files() {
    let mut numbers = BTreeMap::new();
    for seed in 0..count_wanted(5_000) {
        let file = generate::file(seed, SizeClass::of(seed));
        *numbers.entry(check(&file)).or_insert(0) += 1;
    }
    println!("files by number: {numbers:?}");
    for number in [0, 4, 5, 7, 8, 9, 10, 11] {
        assert!(numbers.contains_key(&number), "no file gives {number}");
    }
}

/// Files at the limits are accepted, those one over are 2, 11 or 12.
#[test]
fn files_at_the_limits() {
    let mut numbers = BTreeMap::new();
    for seed in 0..600 {
        *numbers
            .entry(check(&generate::limit_file(seed)))
            .or_insert(0) += 1;
    }
    println!("limit files by number: {numbers:?}");
    assert_eq!(numbers.into_keys().collect::<Vec<_>>(), [0, 2, 11, 12]);
}

#[test]
fn well_formed_files_are_mostly_accepted() {
    let count = count_wanted(5_000) / 10;
    let files = (0..count).map(|seed| generate::well_formed_file(seed, SizeClass::of(seed)));
    let accepted = files.filter(|file| matches!(check(file), 0 | 12)).count() as u64;
    println!("{accepted} of {count} accepted");
    assert!(accepted * 10 > count * 9);
}

#[test]
fn same_seed_same_file() {
    for seed in 0..200 {
        let size = SizeClass::of(seed);
        let file = generate::file(seed, size);
        assert_eq!(file, generate::file(seed, size));
        assert!(size != SizeClass::Small || file.len() < 300);
    }
}
