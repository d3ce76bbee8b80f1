//! Pairs of files, both accepted and written: the program's outputs are the same bytes exactly where the reference says that the designs are the same.
//! GENERATED_FILES=100000 asks for more pairs than the default, 3,000.

use program::answer;
use reference::generate::pair;
use reference::Design;

fn count() -> u64 {
    let asked = std::env::var("GENERATED_FILES").ok();
    asked.and_then(|n| n.parse().ok()).unwrap_or(3_000)
}

/// The design of a file that is accepted and whose text can be written.
fn written(file: &[u8]) -> Option<Design> {
    let design = reference::read(file).ok()?.design();
    reference::measure(&design).ok()?;
    Some(design)
}

/// Pairs of one design whose files differ, and pairs of two designs.
#[derive(Default)]
struct Met {
    same: u64,
    different: u64,
}

fn check(seeds: std::ops::Range<u64>) -> Met {
    let mut met = Met::default();
    for seed in seeds {
        let (file, other) = pair(seed);
        if let (Some(one), Some(two)) = (written(&file), written(&other)) {
            assert_eq!(answer(&file) == answer(&other), one == two, "seed {seed}");
            met.same += u64::from(one == two && file != other);
            met.different += u64::from(one != two);
        }
    }
    met
}

#[test]
fn same_bytes_exactly_for_the_same_design() {
    let half = count() / 2;
    let met = std::thread::scope(|both| {
        let first = both.spawn(|| check(0..half));
        let second = check(half..count());
        let first = first.join().expect("the first half agrees");
        Met {
            same: first.same + second.same,
            different: first.different + second.different,
        }
    });
    println!("of one design {}, of two {}", met.same, met.different);
    assert!(met.same > count() / 3 && met.different > count() / 4);
}
