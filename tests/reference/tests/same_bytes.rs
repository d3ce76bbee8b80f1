//! Pairs of files: the program writes the same bytes for both exactly where they define the same design.
//! GENERATED_FILES=100000 asks for more pairs than the default, 3,000.

use reference::generate::{pair, respelled};
use reference::vectors::vectors;
use reference::{program, read, Design};

/// The design of a file that is accepted and whose text can be written.
fn written(file: &[u8]) -> Option<Design> {
    let design = read(file).ok()?.design();
    reference::measure(&design).ok()?;
    Some(design)
}

fn count() -> u64 {
    let asked = std::env::var("GENERATED_FILES").ok();
    asked.and_then(|count| count.parse().ok()).unwrap_or(3_000)
}

#[test]
fn pairs_of_files() {
    let (mut same, mut different) = (0, 0);
    for seed in 0..count() {
        let (file, other) = pair(seed);
        let (Some(one), Some(two)) = (written(&file), written(&other)) else {
            continue;
        };
        assert_eq!(one == two, program(&file) == program(&other), "seed {seed}");
        if one != two {
            different += 1;
        } else if file != other {
            same += 1;
        }
    }
    println!("pairs of one design in two spellings: {same}, of two designs: {different}");
    assert!(same > count() / 3 && different > count() / 4);
}

/// A respelled file is the same design, unless it is too long now.
#[test]
fn respelled_files() {
    let mut met = 0;
    for (seed, vector) in vectors().iter().enumerate() {
        let Ok(netlist) = read(&vector.file) else {
            continue;
        };
        let design = netlist.design();
        let file = respelled(seed as u64, &design);
        if file.len() <= reference::sizes::FILE_BYTES {
            assert_eq!(
                read(&file).expect(&vector.name).design(),
                design,
                "{}",
                vector.name
            );
            met += 1;
        }
    }
    assert!(met > 200);
}
