//! Times of the calls on design memory with 64 renames at most, beside the plain session.

use crate::{files, micros, shortest, RUNS};
use library::{fill, look_up, measure, rename, undo, valid, write, Card, Tables};
use reference::session::Session;
use reference::statements::{ModuleNumber, WireNumber};
use std::hint::black_box;
use std::time::{Duration, Instant};

const HEAD: &str = "
| us; without judging; reference | k01 | k32 | wires512 |
|---|---|---|---|";

/// Memory and the plain session, 63 renames standing in both, and the wire to rename.
struct Both {
    tables: Tables,
    card: Card,
    plain: Session,
    module: usize,
    wire: usize,
}

/// A new name that no wire has.
const NEW: &[u8] = b"\\the_last_rename";

impl Both {
    fn of(file: &[u8], module: usize, wire: usize) -> Both {
        let mut both = Both {
            tables: Tables::zeroed(),
            card: Card::default(),
            plain: Session::new(reference::read(file).expect("an accepted file").design()),
            module,
            wire,
        };
        assert_eq!(fill(file, &mut both.tables, &mut both.card).number, 0);
        for number in 0..63 {
            assert_eq!(
                both.rename(format!("\\renamed_{number}").as_bytes()),
                (0, 0)
            );
        }
        both
    }

    /// Both numbers.
    fn rename(&mut self, name: &[u8]) -> (u32, u32) {
        (self.rename_memory(name), self.rename_plain(name))
    }

    fn rename_memory(&mut self, name: &[u8]) -> u32 {
        let (module, wire) = (self.module as u32, self.wire as u32);
        rename(&mut self.tables, &mut self.card, module, wire, name).number
    }

    fn rename_plain(&mut self, name: &[u8]) -> u32 {
        let (module, wire) = (ModuleNumber(self.module), WireNumber(self.wire));
        self.plain.rename(module, wire, name)
    }

    /// The 64th rename and its undo, through memory: the shortest of each.
    fn rename_undo_memory(&mut self) -> [Duration; 2] {
        shortest_two(|| {
            let start = Instant::now();
            assert_eq!(black_box(self.rename_memory(black_box(NEW))), 0);
            let renamed = start.elapsed();
            let start = Instant::now();
            assert_eq!(undo(&mut self.tables, &mut self.card).number, 0);
            [renamed, start.elapsed()]
        })
    }

    /// The same through the plain session.
    fn rename_undo_plain(&mut self) -> [Duration; 2] {
        shortest_two(|| {
            let start = Instant::now();
            assert_eq!(black_box(self.rename_plain(black_box(NEW))), 0);
            let renamed = start.elapsed();
            let start = Instant::now();
            assert_eq!(black_box(self.plain.undo()), 0);
            [renamed, start.elapsed()]
        })
    }

    /// A look-up of the renamed wire by its name now, through memory and through the plain session.
    fn look_up(&self) -> [Duration; 2] {
        let module = ModuleNumber(self.module);
        let now = self.plain.name_now(module, WireNumber(self.wire));
        let name = now.expect("the wire is there");
        assert_eq!(self.memory_look_up(self.module, name), Ok(self.wire as u32));
        assert_eq!(self.plain.look_up(module, name), Ok(WireNumber(self.wire)));
        [
            shortest(|| {
                let _ = black_box(self.memory_look_up(self.module, black_box(name)));
            }),
            shortest(|| {
                let _ = black_box(self.plain.look_up(module, black_box(name)));
            }),
        ]
    }

    fn memory_look_up(&self, module: usize, name: &[u8]) -> Result<u32, u32> {
        look_up(&self.tables, self.card, module as u32, name)
    }

    /// The text's length, by memory and by the reference from the design with the names now.
    fn measure(&self) -> [Duration; 2] {
        let design = self.plain.design_now();
        assert_eq!(
            measure(&self.tables, self.card),
            reference::measure(&design)
        );
        [
            shortest(|| {
                let _ = black_box(measure(black_box(&self.tables), self.card));
            }),
            shortest(|| {
                let _ = black_box(reference::measure(black_box(&design)));
            }),
        ]
    }

    /// The text, into room of 32,768 bytes, in the same way.
    fn write(&self) -> [Duration; 2] {
        let design = self.plain.design_now();
        let mut room = vec![0; 32_768];
        let length = write(&self.tables, self.card, &mut room).expect("a text");
        assert_eq!(
            reference::write(&design, 32_768).as_deref(),
            Ok(&room[..length])
        );
        [
            shortest(|| {
                let _ = black_box(write(black_box(&self.tables), self.card, &mut room));
            }),
            shortest(|| {
                let _ = black_box(reference::write(black_box(&design), 32_768));
            }),
        ]
    }

    /// The times of the calls, in their order.
    fn calls(mut self) -> [[Duration; 2]; CALLS.len()] {
        let (memory, plain) = (self.rename_undo_memory(), self.rename_undo_plain());
        [
            self.judging(),
            [memory[0], plain[0]],
            [memory[1], plain[1]],
            self.look_up(),
            self.measure(),
            self.write(),
        ]
    }

    /// Telling that the memory holds a design: a look-up in no module, and the tests' own decision.
    fn judging(&self) -> [Duration; 2] {
        assert_eq!(self.memory_look_up(32, b"\\none"), Err(8));
        assert!(valid(&self.tables, self.card));
        [
            shortest(|| {
                let _ = black_box(self.memory_look_up(black_box(32), b"\\none"));
            }),
            shortest(|| {
                black_box(valid(black_box(&self.tables), self.card));
            }),
        ]
    }
}

fn shortest_two(mut run: impl FnMut() -> [Duration; 2]) -> [Duration; 2] {
    let least = |one: [Duration; 2], other: [Duration; 2]| [0, 1].map(|of| one[of].min(other[of]));
    (0..RUNS).map(|_| run()).reduce(least).expect("some runs")
}

const CALLS: [&str; 6] = [
    "judging",
    "rename, the 64th",
    "undo of the 64th",
    "look-up",
    "measure",
    "write",
];

/// Calls with 63 or 64 renames standing. The plain session holds a design and judges no memory, so that a call without judging stands
/// beside it; beside judging stands tests/library's own decision.
pub fn print() {
    println!("{HEAD}");
    let designs = [
        (files::of_size(1_024), 0, 3),
        (files::of_size(32_768), 29, 3),
        (files::connected_wires(512), 0, 511),
    ];
    let times = designs.map(|(file, module, wire)| Both::of(&file, module, wire).calls());
    for (call, name) in CALLS.iter().enumerate() {
        let cells = times.map(|of| cell(of[call], (call > 0).then_some(of[0][0])));
        println!("| {name} | {} |", cells.join(" | "));
    }
}

/// A call through memory, whole and without the judging, if it is another call, and by the reference.
fn cell(times: [Duration; 2], judging: Option<Duration>) -> String {
    let [whole, reference] = times.map(micros);
    let rest = match judging {
        Some(judging) => format!("{:.1}", (whole - micros(judging)).max(0.0)),
        None => "–".to_string(),
    };
    format!("{whole:.1}; {rest}; {reference:.1}")
}
