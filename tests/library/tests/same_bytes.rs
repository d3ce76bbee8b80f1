//! Two sessions, each on its own file: the texts written are the same bytes exactly where the plain sessions' designs, with the names now, are the same.

use library::{fill, rename, undo, write, Card, Tables};
use reference::generate::pair;
use reference::generate::random::Random;
use reference::sizes::TEXT_BYTES;
use reference::statements::{ModuleNumber, WireNumber};
use reference::Session;

/// Memory with a file read into it, and the plain session.
struct Both {
    tables: Tables,
    card: Card,
    plain: Session,
}

impl Both {
    fn of(file: &[u8]) -> Option<Both> {
        let plain = Session::new(reference::read(file).ok()?.design());
        let (mut tables, mut card) = (Tables::zeroed(), Card::default());
        assert_eq!(fill(file, &mut tables, &mut card).number, 0);
        Some(Both {
            tables,
            card,
            plain,
        })
    }

    fn rename(&mut self, module: usize, wire: usize, name: &[u8]) -> u32 {
        let (tables, card) = (&mut self.tables, &mut self.card);
        let given = rename(tables, card, module as u32, wire as u32, name);
        let plain = &mut self.plain;
        let number = plain.rename(ModuleNumber(module), WireNumber(wire), name);
        assert_eq!(given.number, number);
        number
    }

    fn undo(&mut self) {
        let given = undo(&mut self.tables, &mut self.card);
        assert_eq!(given.number, self.plain.undo());
    }

    fn text(&self) -> Option<Vec<u8>> {
        let mut room = vec![0; TEXT_BYTES];
        let length = write(&self.tables, self.card, &mut room).ok()?;
        Some(room[..length].to_vec())
    }

    /// All wires, by module and wire number.
    fn wires(&self) -> Vec<(usize, usize)> {
        let modules = self.plain.design_read().modules.iter().enumerate();
        let wires = modules.flat_map(|(module, one)| {
            let wires = 0..one.object.wires.len();
            wires.map(move |wire| (module, wire))
        });
        wires.collect()
    }

    /// Renames and undos by chance; few names, so that many calls are refused.
    fn calls(&mut self, random: &mut Random) {
        let wires = self.wires();
        for _ in 0..random.below(12) {
            match random.one_in(4) || wires.is_empty() {
                true => self.undo(),
                false => {
                    let &(module, wire) = random.pick(&wires);
                    let name = format!("\\now{}", random.below(6));
                    self.rename(module, wire, name.as_bytes());
                }
            }
        }
    }

    /// Gives each wire the name that it has in the other session now, the last wire first, as far as the rules let it.
    fn follow(&mut self, other: &Session) {
        for (module, wire) in self.wires().into_iter().rev() {
            let at = (ModuleNumber(module), WireNumber(wire));
            if let Some(name) = other.name_now(at.0, at.1) {
                if self.plain.name_now(at.0, at.1) != Some(name) {
                    self.rename(module, wire, name);
                }
            }
        }
    }
}

#[test]
fn sessions_with_the_same_names_now() {
    let (mut same, mut other_history, mut different) = (0, 0, 0);
    for seed in 0..1_500 {
        let (file, other) = pair(seed);
        let (Some(mut one), Some(mut two)) = (Both::of(&file), Both::of(&other)) else {
            continue;
        };
        let mut random = Random::new(seed);
        one.calls(&mut random);
        if random.one_in(4) {
            two.calls(&mut random);
        }
        two.follow(&one.plain);
        let (Some(text), Some(other_text)) = (one.text(), two.text()) else {
            continue;
        };
        let designs = (one.plain.design_now(), two.plain.design_now());
        assert_eq!(text == other_text, designs.0 == designs.1, "seed {seed}");
        match designs.0 == designs.1 {
            true => same += 1,
            false => different += 1,
        }
        let history = one.plain.renames() != two.plain.renames();
        other_history += u64::from(designs.0 == designs.1 && history);
    }
    println!("the same {same}, {other_history} of them with other renames standing; different {different}");
    assert!(same > 300 && other_history > 50 && different > 300);
}
