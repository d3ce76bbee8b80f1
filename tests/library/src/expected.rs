//! What each call answers and leaves, by the reference.

use crate::exported::{measure, write, Answer};
use crate::layout::layout;
use crate::tables::{Card, Tables, BITS, NAMES, ROWS, STRINGS, WIRES};
use reference::Design;

/// Of a call: its answer and all memory lent.
#[derive(Debug, Clone, PartialEq, Eq)]
pub struct Outcome {
    pub answer: Answer,
    pub tables: Tables,
    pub card: Card,
}

/// Reading a file into memory: on 1 nothing is touched, on any other refusal all is zero.
pub fn reading(file: &[u8], tables: &Tables, card: Card) -> Outcome {
    if !right_lengths(tables) {
        return Outcome {
            answer: Answer {
                number: 1,
                place: 0,
            },
            tables: tables.clone(),
            card,
        };
    }
    let (answer, statements) = match reference::read(file) {
        Ok(netlist) => ((0, 0), netlist.statements),
        Err(refusal) => ((refusal.number, refusal.place), vec![]),
    };
    let (tables, card) = layout(&statements, &[]);
    Outcome {
        answer: Answer {
            number: answer.0,
            place: answer.1 as u32,
        },
        tables,
        card,
    }
}

pub fn right_lengths(tables: &Tables) -> bool {
    tables.names.len() == NAMES
        && tables.strings.len() == STRINGS
        && tables.bits.len() == BITS
        && tables.wires.len() == WIRES
        && tables.rows.len() == ROWS
}

/// Is the text of the memory this design's? It is written into room just long enough; room that is too short stays as it was.
pub fn text_is_of(tables: &Tables, card: Card, design: &Design) -> bool {
    let length = reference::measure(design);
    let longest = length.unwrap_or(32_768);
    let writes = |room: usize| {
        let mut given = vec![7; room];
        let written = write(tables, card, &mut given);
        match reference::write(design, room) {
            Ok(text) => written == length && given == text,
            Err(number) => written == Err(number) && given == vec![7; room],
        }
    };
    measure(tables, card) == length && writes(longest) && writes(longest.saturating_sub(1))
}
