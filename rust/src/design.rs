//! A design in memory of its own.

use crate::lent::{Lent, View, BITS, LISTING, NAMES, ROWS, STRINGS, WIRES};
use crate::refusal::{answer, placed, Refusal, Refused};
use crate::sys::Card;
use std::fmt;

/// The number of a module of the design, from 0 in file order.
#[derive(Debug, Clone, Copy, PartialEq, Eq, PartialOrd, Ord, Hash)]
pub struct ModuleNumber(pub u32);

/// The number of a wire of its module, from 0 in file order.
#[derive(Debug, Clone, Copy, PartialEq, Eq, PartialOrd, Ord, Hash)]
pub struct WireNumber(pub u32);

impl fmt::Display for ModuleNumber {
    fn fmt(&self, to: &mut fmt::Formatter<'_>) -> fmt::Result {
        self.0.fmt(to)
    }
}

impl fmt::Display for WireNumber {
    fn fmt(&self, to: &mut fmt::Formatter<'_>) -> fmt::Result {
        self.0.fmt(to)
    }
}

/// What a file means, with the renames that stand. The tables have their exact lengths, and only the proved calls change them, so that no call answers 1 or 3.
///
/// ```
/// use skytassel::{Design, ModuleNumber, Refusal};
///
/// let mut design = Design::read(b"module \\ear\n  wire width 8 \\gain\nend\n")?;
/// let ear = ModuleNumber(0);
/// let gain = design.look_up(ear, b"\\gain")?;
/// design.rename(ear, gain, b"\\left_gain")?;
/// assert_eq!(design.write()?, b"module \\ear\n  wire width 8 \\left_gain\nend\n");
/// design.undo()?;
/// assert_eq!(design.look_up(ear, b"\\gain"), Ok(gain));
/// assert_eq!(design.undo(), Err(Refusal::NothingToUndo));
/// # Ok::<(), Box<dyn std::error::Error>>(())
/// ```
#[derive(Clone, PartialEq, Eq)]
pub struct Design {
    names: Box<[u8]>,
    strings: Box<[u8]>,
    bits: Box<[u32]>,
    wires: Box<[u32]>,
    rows: Box<[u32]>,
    card: Card,
}

/// The two counts alone: the tables have 100,616 elements.
impl fmt::Debug for Design {
    fn fmt(&self, to: &mut fmt::Formatter<'_>) -> fmt::Result {
        to.debug_struct("Design")
            .field("renames", &self.renames())
            .field("room_used", &self.room_used())
            .finish_non_exhaustive()
    }
}

impl Design {
    /// The design that a file defines. Whether it defines one, [`crate::check`] says without memory for it.
    ///
    /// ```
    /// use skytassel::{Design, Refusal};
    ///
    /// let refused = Design::read(b"module \\ear\n  wire width 4096 \\gain\nend\n").unwrap_err();
    /// assert_eq!((refused.refusal, refused.place), (Refusal::BadNumber, 14));
    /// ```
    pub fn read(file: &[u8]) -> Result<Design, Refused> {
        let mut design = Design {
            names: vec![0; NAMES].into(),
            strings: vec![0; STRINGS].into(),
            bits: vec![0; BITS].into(),
            wires: vec![0; WIRES].into(),
            rows: vec![0; ROWS].into(),
            card: Card::default(),
        };
        let given = design.lent().fill(file);
        placed(given.number, given.place, ())?;
        Ok(design)
    }

    fn lent(&mut self) -> Lent<'_> {
        Lent {
            names: &mut self.names,
            strings: &mut self.strings,
            bits: &mut self.bits,
            wires: &mut self.wires,
            rows: &mut self.rows,
            card: &mut self.card,
        }
    }

    fn view(&self) -> View<'_> {
        View {
            names: &self.names,
            strings: &self.strings,
            bits: &self.bits,
            wires: &self.wires,
            rows: &self.rows,
            card: self.card,
        }
    }

    /// How many renames stand.
    pub fn renames(&self) -> u32 {
        self.card.renames
    }

    /// How many bytes of the name room are used, of 16,384.
    pub fn room_used(&self) -> u32 {
        self.card.room
    }

    /// The one written text, with the names now. Refused: [`Refusal::TextTooLong`].
    pub fn write(&self) -> Result<Vec<u8>, Refusal> {
        let mut text = vec![0; self.measure()?];
        let written = self.view().write(&mut text);
        answer(written.number, text)
    }

    /// The length of the written text. Refused as [`Design::write`].
    pub fn measure(&self) -> Result<usize, Refusal> {
        let measured = self.view().measure();
        answer(measured.number, measured.length as usize)
    }

    /// Gives a wire a new name, which stands until it is undone. Refused with the lowest that applies: [`Refusal::BadToken`] (no name), [`Refusal::PortRename`],
    /// [`Refusal::NotThere`], [`Refusal::NameTaken`], [`Refusal::SizeExceeded`] (64 stand, or the name room is full). A refusal changes nothing.
    pub fn rename(
        &mut self,
        module: ModuleNumber,
        wire: WireNumber,
        name: &[u8],
    ) -> Result<(), Refusal> {
        answer(self.lent().rename(module.0, wire.0, name).number, ())
    }

    /// Ends the youngest rename that stands. Refused: [`Refusal::NothingToUndo`].
    pub fn undo(&mut self) -> Result<(), Refusal> {
        answer(self.lent().undo().number, ())
    }

    /// The wire that has this name now. Refused: [`Refusal::NotThere`], whatever the bytes are.
    pub fn look_up(&self, module: ModuleNumber, name: &[u8]) -> Result<WireNumber, Refusal> {
        let found = self.view().look_up(module.0, name);
        answer(found.number, WireNumber(found.wire))
    }

    /// The name to show: the string of the wire's attribute `\hdlname`, if it isn't empty, else its name now, without the `\` if public. It is a part of
    /// the design's memory. Refused: [`Refusal::NotThere`].
    ///
    /// ```
    /// use skytassel::{Design, ModuleNumber, WireNumber};
    ///
    /// let file = b"module \\ear\n  attribute \\hdlname \"left gain\"\n  wire \\g\n  wire \\y\nend\n";
    /// let design = Design::read(file)?;
    /// assert_eq!(design.show(ModuleNumber(0), WireNumber(0))?, b"left gain");
    /// assert_eq!(design.show(ModuleNumber(0), WireNumber(1))?, b"y");
    /// # Ok::<(), Box<dyn std::error::Error>>(())
    /// ```
    pub fn show(&self, module: ModuleNumber, wire: WireNumber) -> Result<&[u8], Refusal> {
        let shown = self.view().show(module.0, wire.0);
        let table = answer(
            shown.number,
            if shown.table == 1 {
                &self.names
            } else {
                &self.strings
            },
        )?;
        Ok(&table[shown.start..][..shown.length])
    }

    /// The wires of a module in order, one line each: the plain form of the name now, a space, the name to show, its bytes below 32 escaped. Refused:
    /// [`Refusal::NotThere`].
    ///
    /// ```
    /// use skytassel::{Design, ModuleNumber};
    ///
    /// let file = b"module \\ear\n  attribute \\hdlname \"left gain\"\n  wire \\g_0\n  wire \\y\nend\n";
    /// let design = Design::read(file)?;
    /// assert_eq!(design.listing(ModuleNumber(0))?, b"pg_5f0 left gain\npy y\n");
    /// # Ok::<(), Box<dyn std::error::Error>>(())
    /// ```
    pub fn listing(&self, module: ModuleNumber) -> Result<Vec<u8>, Refusal> {
        let mut lines = vec![0; LISTING];
        let listed = self.view().listing(module.0, &mut lines);
        lines.truncate(listed.length as usize);
        answer(listed.number, lines)
    }

    /// The author's index of a bit, which may be negative. Refused: [`Refusal::NotThere`], [`Refusal::BadWidth`] (past the wire).
    ///
    /// ```
    /// use skytassel::{Design, ModuleNumber, WireNumber};
    ///
    /// let design = Design::read(b"module \\ear\n  wire width 8 offset -4 upto \\a\nend\n")?;
    /// assert_eq!(design.index(ModuleNumber(0), WireNumber(0), 7), Ok(-4));
    /// # Ok::<(), Box<dyn std::error::Error>>(())
    /// ```
    pub fn index(&self, module: ModuleNumber, wire: WireNumber, bit: u32) -> Result<i64, Refusal> {
        let given = self.view().index(module.0, wire.0, bit);
        answer(given.number, given.index)
    }
}
