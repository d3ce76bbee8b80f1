//! The exported calls answer the vectors with calls.

use crate::exported::{self, Answer};
use crate::rooms::in_room;
use crate::tables::{Card, Tables};
use reference::call_vectors::Answers;
use reference::sizes::TEXT_BYTES;
use reference::Refusal;

/// A file, the memory that it was read into and what that answered.
pub struct Exported {
    file: Vec<u8>,
    tables: Tables,
    card: Card,
    filled: Answer,
}

impl Exported {
    pub fn of(file: &[u8]) -> Exported {
        let (mut tables, mut card) = (Tables::zeroed(), Card::default());
        let filled = exported::fill(file, &mut tables, &mut card);
        Exported {
            file: file.to_vec(),
            tables,
            card,
            filled,
        }
    }
}

fn taken(answer: Answer) -> Result<(), Refusal> {
    match answer.number {
        0 => Ok(()),
        number => Err(Refusal {
            number,
            place: answer.place as usize,
        }),
    }
}

impl Answers for Exported {
    fn rename(&mut self, module: u32, wire: u32, name: &[u8]) -> Result<(), Refusal> {
        let (tables, card) = (&mut self.tables, &mut self.card);
        taken(exported::rename(tables, card, module, wire, name))
    }

    fn undo(&mut self) -> Result<(), Refusal> {
        taken(exported::undo(&mut self.tables, &mut self.card))
    }

    fn look_up(&self, module: u32, name: &[u8]) -> Result<u32, Refusal> {
        let found = exported::look_up(&self.tables, self.card, module, name);
        found.map_err(Refusal::of_call)
    }

    fn show(&self, module: u32, wire: u32) -> Result<Vec<u8>, Refusal> {
        let shown = exported::show(&self.tables, self.card, module, wire);
        shown.map(<[u8]>::to_vec).map_err(Refusal::of_call)
    }

    fn index(&self, module: u32, wire: u32, bit: u32) -> Result<i64, Refusal> {
        let index = exported::index(&self.tables, self.card, module, wire, bit);
        index.map_err(Refusal::of_call)
    }

    fn measure(&self) -> Result<usize, Refusal> {
        exported::measure(&self.tables, self.card).map_err(Refusal::of_call)
    }

    fn card(&self) -> (usize, usize) {
        (self.card.renames as usize, self.card.room as usize)
    }

    fn width_of(&self, module: u32, name: &[u8]) -> Result<u32, Refusal> {
        exported::width_of(&self.file, module, name)
    }

    fn index_of(&self, module: u32, name: &[u8], bit: u32) -> Result<i64, Refusal> {
        exported::index_of(&self.file, module, name, bit)
    }

    fn plain_form(&self, room: usize, name: &[u8]) -> Result<Vec<u8>, Refusal> {
        in_room(room, |out| exported::plain_form(name, out)).map_err(Refusal::of_call)
    }

    fn name_of(&self, room: usize, form: &[u8]) -> Result<Vec<u8>, Refusal> {
        in_room(room, |out| exported::name_of(form, out)).map_err(Refusal::of_call)
    }

    fn listing(&self, room: usize, module: u32) -> Result<Vec<u8>, Refusal> {
        let listing = |out: &mut [u8]| exported::listing(&self.tables, self.card, module, out);
        in_room(room, listing).map_err(Refusal::of_call)
    }

    fn written(&self) -> Vec<u8> {
        let mut room = vec![0; TEXT_BYTES];
        let length = taken(self.filled).and_then(|()| {
            let written = exported::write(&self.tables, self.card, &mut room);
            written.map_err(Refusal::of_call)
        });
        match length {
            Ok(length) => room[..length].to_vec(),
            Err(refusal) => format!("{} {}\n", refusal.number, refusal.place).into_bytes(),
        }
    }
}
