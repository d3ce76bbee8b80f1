//! One call on one file, as often as wanted, for tools outside: count.sh counts its instructions, tests/yosys/race.sh its time.

use library::{check, fill, listing, look_up, rename, undo, width_of, write, Card, Tables};
use std::hint::black_box;

/// Callgrind collects inside this function alone, by its name. Gives the call's number.
#[no_mangle]
#[inline(never)]
pub fn counted_call(call: &mut dyn FnMut() -> u32) -> u32 {
    black_box(call())
}

/// Design memory, and a wire of its first module that takes renames.
struct Memory {
    tables: Tables,
    card: Card,
    wire: u32,
}

/// What a rename of a port wire answers.
const PORT: u32 = 6;
/// A new name that no wire has.
const NEW: &[u8] = b"\\the_last_rename";
/// The longest text.
const TEXT: usize = 32_768;
/// Room for any listing.
const LISTING: usize = 99_328;

impl Memory {
    fn of(file: &[u8]) -> Memory {
        let mut memory = Memory {
            tables: Tables::zeroed(),
            card: Card::default(),
            wire: 0,
        };
        assert_eq!(memory.read(file), 0, "an accepted file");
        memory
    }

    fn read(&mut self, file: &[u8]) -> u32 {
        fill(file, &mut self.tables, &mut self.card).number
    }

    fn rename(&mut self, name: &[u8]) -> u32 {
        rename(&mut self.tables, &mut self.card, 0, self.wire, name).number
    }

    fn undo(&mut self) -> u32 {
        undo(&mut self.tables, &mut self.card).number
    }

    /// Renames the first wire that is no port so often.
    fn rename_often(&mut self, renames: usize) {
        while self.rename(NEW) == PORT {
            self.wire += 1;
        }
        assert_eq!(self.undo(), 0, "a wire that takes a rename");
        for number in 0..renames {
            assert_eq!(self.rename(format!("\\renamed_{number}").as_bytes()), 0);
        }
    }

    /// A look-up in a module that isn't there: it ends when the memory is judged.
    fn judge(&self) -> u32 {
        number(look_up(&self.tables, self.card, 32, b"\\none"))
    }

    fn write(&self, room: &mut [u8]) -> u32 {
        number(write(&self.tables, self.card, room))
    }

    /// The wires of the first module.
    fn list(&self, room: &mut [u8]) -> u32 {
        number(listing(&self.tables, self.card, 0, room))
    }
}

fn number<T>(given: Result<T, u32>) -> u32 {
    given.err().unwrap_or(0)
}

/// Module number and name of each wire that a file declares, by the first and the last word of its lines.
fn wires(file: &[u8]) -> Vec<(u32, &[u8])> {
    let mut modules = 0;
    let mut wires = Vec::new();
    for line in file.split(|byte| *byte == b'\n') {
        let mut words = line.split(|byte| *byte == b' ').filter(|word| !word.is_empty());
        match words.next() {
            Some(b"module") => modules += 1,
            Some(b"wire") => wires.extend(words.last().map(|name| (modules - 1, name))),
            _ => {}
        }
    }
    wires
}

/// The number that the width of a wire is asked for with; 0 if there is no wire to ask for.
fn width(file: &[u8], wire: Option<&(u32, &[u8])>) -> u32 {
    wire.map_or(0, |(module, name)| {
        counted_call(&mut || {
            let width = width_of(black_box(file), *module, name);
            width.err().map_or(0, |refusal| refusal.number)
        })
    })
}

/// The number that the last of so many calls gives, so many renames standing before each.
pub fn run(call: &str, file: &[u8], renames: usize, times: usize) -> Option<u32> {
    let mut memory = Memory::of(file);
    if renames > 0 || call == "rename" {
        memory.rename_often(renames);
    }
    let declared = wires(file);
    let mut room = vec![0; TEXT.max(LISTING)];
    let mut once = || {
        Some(match call {
            "read" => counted_call(&mut || memory.read(black_box(file))),
            "check" => counted_call(&mut || check(black_box(file)).err().map_or(0, |r| r.number)),
            "first_wire" => width(file, declared.first()),
            "last_wire" => width(file, declared.last()),
            "judge" => counted_call(&mut || memory.judge()),
            "write" => counted_call(&mut || memory.write(black_box(&mut room[..TEXT]))),
            "listing" => counted_call(&mut || memory.list(black_box(&mut room))),
            "rename" => {
                let number = counted_call(&mut || memory.rename(black_box(NEW)));
                assert_eq!(memory.undo(), 0);
                number
            }
            _ => return None,
        })
    };
    (0..times).map(|_| once()).last().flatten()
}

#[cfg(test)]
mod tests {
    use super::*;
    use crate::files;

    #[test]
    fn every_call_on_every_file() {
        for (name, file) in files::named().into_iter().skip(1) {
            let numbers = ["read", "judge", "write", "rename"].map(|call| run(call, &file, 63, 2));
            assert_eq!(numbers, [Some(0), Some(8), Some(0), Some(0)], "{name}");
            let numbers =
                ["check", "first_wire", "last_wire", "listing"].map(|call| run(call, &file, 0, 2));
            assert_eq!(numbers, [Some(0); 4], "{name}");
        }
        assert_eq!(run("read", b"", 0, 1), Some(0));
        assert_eq!(run("no call", b"", 0, 1), None);
    }
}
