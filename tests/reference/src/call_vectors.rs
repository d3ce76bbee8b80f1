//! Vectors with calls: a file, calls made in order, each on the memory that the last left, what each answers, and what is written then.

use crate::one_wire::{index_of, width_of};
use crate::plain::{listing, name_of, plain_form};
use crate::reading::{read, Refusal};
use crate::session::Session;
use crate::sizes;
use crate::statements::{ModuleNumber, WireNumber};
use crate::text::write;
use std::fmt::Display;
use std::fs;
use std::path::{Path, PathBuf};

struct CallVector {
    name: String,
    file: Vec<u8>,
    /// Each call with its answer.
    calls: Vec<(String, String)>,
    written: Vec<u8>,
}

/// The vectors of a folder of tests/vectors, in order of names.
fn call_vectors(folder: &str) -> Vec<CallVector> {
    let vectors = Path::new(env!("CARGO_MANIFEST_DIR")).join("../vectors");
    let entries = fs::read_dir(vectors.join(folder)).expect("the vectors are there");
    let mut paths: Vec<PathBuf> = entries
        .map(|entry| entry.expect("a readable entry").path())
        .filter(|path| path.extension().is_some_and(|one| one == "calls"))
        .collect();
    paths.sort();
    paths.iter().map(|path| call_vector(path)).collect()
}

fn call_vector(path: &Path) -> CallVector {
    let part = |ending: &str| fs::read(path.with_extension(ending)).expect("a readable part");
    let text = |ending: &str| String::from_utf8(part(ending)).expect("a text");
    let (calls, answers) = (text("calls"), text("answers"));
    assert_eq!(calls.lines().count(), answers.lines().count(), "{path:?}");
    let calls = calls.lines().zip(answers.lines());
    CallVector {
        name: path.display().to_string(),
        file: part("il"),
        calls: calls
            .map(|(call, answer)| (call.to_string(), answer.to_string()))
            .collect(),
        written: part("out"),
    }
}

/// Whoever answers calls: it is lent a file and, if that is accepted, holds its design.
pub trait Answers {
    fn rename(&mut self, module: u32, wire: u32, name: &[u8]) -> Result<(), Refusal>;
    fn undo(&mut self) -> Result<(), Refusal>;
    fn look_up(&self, module: u32, name: &[u8]) -> Result<u32, Refusal>;
    fn show(&self, module: u32, wire: u32) -> Result<Vec<u8>, Refusal>;
    fn index(&self, module: u32, wire: u32, bit: u32) -> Result<i64, Refusal>;
    fn measure(&self) -> Result<usize, Refusal>;
    /// The card's two counts: renames standing, room used.
    fn card(&self) -> (usize, usize);
    fn width_of(&self, module: u32, name: &[u8]) -> Result<u32, Refusal>;
    fn index_of(&self, module: u32, name: &[u8], bit: u32) -> Result<i64, Refusal>;
    fn plain_form(&self, room: usize, name: &[u8]) -> Result<Vec<u8>, Refusal>;
    fn name_of(&self, room: usize, form: &[u8]) -> Result<Vec<u8>, Refusal>;
    fn listing(&self, room: usize, module: u32) -> Result<Vec<u8>, Refusal>;
    /// The text with the names now, or number and place of the refused reading or writing.
    fn written(&self) -> Vec<u8>;
}

/// What a call of a vector answers, as the vectors spell it.
fn answer(by: &mut impl Answers, call: &str) -> String {
    let words: Vec<&str> = call.split(' ').collect();
    match words[..] {
        ["rename", module, wire, name] => {
            bare(by.rename(number(module), number(wire), &bytes(name)))
        }
        ["undo"] => bare(by.undo()),
        ["lookup", module, name] => counted(by.look_up(number(module), &bytes(name))),
        ["show", module, wire] => {
            let shown = by.show(number(module), number(wire));
            let hex = hex(shown.as_deref().unwrap_or_default());
            format!("{} {hex}", bare(shown.map(|_| ())))
        }
        ["index", module, wire, bit] => {
            counted(by.index(number(module), number(wire), number(bit)))
        }
        ["measure"] => counted(by.measure()),
        ["card"] => format!("{} {}", by.card().0, by.card().1),
        ["width_of", module, name] => counted(by.width_of(number(module), &bytes(name))),
        ["index_of", module, name, bit] => {
            counted(by.index_of(number(module), &bytes(name), number(bit)))
        }
        ["plain", room, name] => measured(by.plain_form(size(room), &bytes(name))),
        ["unplain", room, form] => measured(by.name_of(size(room), &bytes(form))),
        ["listing", room, module] => measured(by.listing(size(room), number(module))),
        _ => panic!("no call: {call}"),
    }
}

/// Every vector of a folder of tests/vectors: each answer, and what is written behind them.
pub fn every_vector_agrees<A: Answers>(folder: &str, at_least: usize, of: impl Fn(&[u8]) -> A) {
    let vectors = call_vectors(folder);
    assert!(vectors.len() >= at_least);
    for vector in vectors {
        let mut by = of(&vector.file);
        for (call, expected) in &vector.calls {
            assert_eq!(&answer(&mut by, call), expected, "{}: {call}", vector.name);
        }
        assert_eq!(by.written(), vector.written, "{}", vector.name);
    }
}

/// Number and place.
fn bare(given: Result<(), Refusal>) -> String {
    let refusal = given.err().unwrap_or(Refusal::of_call(0));
    format!("{} {}", refusal.number, refusal.place)
}

/// Number, place and the answer, 0 if refused.
fn counted<T: Display + Default + Copy>(given: Result<T, Refusal>) -> String {
    let answer = given.unwrap_or_default();
    format!("{} {answer}", bare(given.map(|_| ())))
}

/// Number, place, and the bytes with their length.
fn measured(given: Result<Vec<u8>, Refusal>) -> String {
    let bytes = given.as_deref().unwrap_or_default();
    let answer = format!("{} {}", bytes.len(), hex(bytes));
    format!("{} {answer}", bare(given.map(|_| ())))
}

fn number(word: &str) -> u32 {
    word.parse().expect("a number")
}

fn size(word: &str) -> usize {
    word.parse().expect("a size")
}

/// Bytes in lowercase hex, `-` for none.
fn bytes(word: &str) -> Vec<u8> {
    if word == "-" {
        return Vec::new();
    }
    let pairs = word.as_bytes().chunks(2);
    let byte = |pair| u8::from_str_radix(std::str::from_utf8(pair).expect("a text"), 16);
    pairs.map(|pair| byte(pair).expect("hex")).collect()
}

fn hex(bytes: &[u8]) -> String {
    if bytes.is_empty() {
        return "-".to_string();
    }
    bytes.iter().map(|byte| format!("{byte:02x}")).collect()
}

/// The reference answers.
pub struct Plain {
    file: Vec<u8>,
    /// The design with its renames, or why the file is refused.
    session: Result<Session, Refusal>,
}

impl Plain {
    pub fn of(file: &[u8]) -> Plain {
        Plain {
            file: file.to_vec(),
            session: read(file).map(|netlist| Session::new(netlist.design())),
        }
    }

    fn session(&self) -> &Session {
        self.session.as_ref().expect("an accepted file")
    }

    fn session_mut(&mut self) -> &mut Session {
        self.session.as_mut().expect("an accepted file")
    }
}

fn taken(number: u32) -> Result<(), Refusal> {
    match number {
        0 => Ok(()),
        number => Err(Refusal::of_call(number)),
    }
}

impl Answers for Plain {
    fn rename(&mut self, module: u32, wire: u32, name: &[u8]) -> Result<(), Refusal> {
        let (module, wire) = (ModuleNumber(module as usize), WireNumber(wire as usize));
        taken(self.session_mut().rename(module, wire, name))
    }

    fn undo(&mut self) -> Result<(), Refusal> {
        taken(self.session_mut().undo())
    }

    fn look_up(&self, module: u32, name: &[u8]) -> Result<u32, Refusal> {
        let found = self.session().look_up(ModuleNumber(module as usize), name);
        found.map(|wire| wire.0 as u32).map_err(Refusal::of_call)
    }

    fn show(&self, module: u32, wire: u32) -> Result<Vec<u8>, Refusal> {
        let (module, wire) = (ModuleNumber(module as usize), WireNumber(wire as usize));
        let shown = self.session().show(module, wire);
        shown.map(<[u8]>::to_vec).map_err(Refusal::of_call)
    }

    fn index(&self, module: u32, wire: u32, bit: u32) -> Result<i64, Refusal> {
        let (module, wire) = (ModuleNumber(module as usize), WireNumber(wire as usize));
        let index = self.session().index(module, wire, bit as usize);
        index.map_err(Refusal::of_call)
    }

    fn measure(&self) -> Result<usize, Refusal> {
        let design = self.session().design_now();
        crate::measure(&design).map_err(Refusal::of_call)
    }

    fn card(&self) -> (usize, usize) {
        (self.session().renames().len(), self.session().room_used())
    }

    fn width_of(&self, module: u32, name: &[u8]) -> Result<u32, Refusal> {
        width_of(&self.file, ModuleNumber(module as usize), name).map(|width| width as u32)
    }

    fn index_of(&self, module: u32, name: &[u8], bit: u32) -> Result<i64, Refusal> {
        index_of(
            &self.file,
            ModuleNumber(module as usize),
            name,
            bit as usize,
        )
    }

    fn plain_form(&self, room: usize, name: &[u8]) -> Result<Vec<u8>, Refusal> {
        plain_form(name, room).map_err(Refusal::of_call)
    }

    fn name_of(&self, room: usize, form: &[u8]) -> Result<Vec<u8>, Refusal> {
        name_of(form, room).map_err(Refusal::of_call)
    }

    fn listing(&self, room: usize, module: u32) -> Result<Vec<u8>, Refusal> {
        let listed = listing(self.session(), ModuleNumber(module as usize), room);
        listed.map_err(Refusal::of_call)
    }

    fn written(&self) -> Vec<u8> {
        let text = self.session.as_ref().map_err(|refusal| *refusal);
        let text = text.and_then(|session| {
            write(&session.design_now(), sizes::TEXT_BYTES).map_err(Refusal::of_call)
        });
        text.unwrap_or_else(|refusal| {
            format!("{} {}\n", refusal.number, refusal.place).into_bytes()
        })
    }
}
