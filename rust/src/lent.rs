//! Design memory that somebody lends, in any state and of any lengths, and the calls on it as they answer. Whoever wants memory of his own takes [`crate::Design`].

use crate::sys::{self, Answer, Card, IndexAnswer, LengthAnswer, PartAnswer, WireAnswer};

/// The exact lengths of the five tables. Lent at any other, every call answers 1 and touches nothing.
pub const NAMES: usize = 16_384;
pub const STRINGS: usize = 8_192;
pub const BITS: usize = 16_384;
/// Words of a row.
pub const ROW: usize = 8;
pub const WIRES: usize = ROW * 512;
pub const ROWS: usize = ROW * 6_945;

/// The longest plain form of a name, and the longest name.
pub const PLAIN_FORM: usize = 763;
pub const NAME: usize = 255;
/// No listing is longer: three bytes of plain form and one shown for each byte of the names, four for each of the strings, and two more a wire.
pub const LISTING: usize = 4 * NAMES + 4 * STRINGS + 2 * (WIRES / ROW);

/// Design memory lent to a call that may change it. The fill takes less than 900 KB of stack.
#[derive(Debug)]
pub struct Lent<'a> {
    pub names: &'a mut [u8],
    pub strings: &'a mut [u8],
    pub bits: &'a mut [u32],
    pub wires: &'a mut [u32],
    pub rows: &'a mut [u32],
    pub card: &'a mut Card,
}

/// Design memory lent to a call that only asks of it.
#[derive(Debug, Clone, Copy)]
pub struct View<'a> {
    pub names: &'a [u8],
    pub strings: &'a [u8],
    pub bits: &'a [u32],
    pub wires: &'a [u32],
    pub rows: &'a [u32],
    pub card: Card,
}

/// A part that C lends: none where the pointer is null or not aligned, or the part would not fit into memory.
///
/// # Safety
/// Where the pointer is not null, `length` elements from it on are readable and nobody changes them during `'a`.
pub unsafe fn part<'a, T>(start: *const T, length: usize) -> Option<&'a [T]> {
    let fits = length.checked_mul(size_of::<T>())? <= isize::MAX as usize;
    if start.is_null() || !start.is_aligned() || !fits {
        return None;
    }
    Some(std::slice::from_raw_parts(start, length))
}

/// A part that C lends to be changed, as [`part`].
///
/// # Safety
/// Where the pointer is not null, `length` elements from it on are readable and writable and nobody else uses them during `'a`.
pub unsafe fn part_mut<'a, T>(start: *mut T, length: usize) -> Option<&'a mut [T]> {
    part(start, length)?;
    Some(std::slice::from_raw_parts_mut(start, length))
}

/// A table as C lends it: where it starts, and its length.
pub type Raw<T> = (*mut T, usize);

/// A call: what it takes before the tables, the tables and what it takes behind them. Names and rows are lent by `$changed`, the other tables by `$kept`.
macro_rules! call {
    ($call:ident, [$($before:expr),*], $memory:expr, $changed:ident, $kept:ident, [$($behind:expr),*]) => {
        // SAFETY: each pointer comes with its length, what is changed overlaps nothing else, and the call asks nothing of its caller.
        unsafe {
            sys::$call(
                $($before,)*
                $memory.names.$changed(),
                $memory.names.len(),
                $memory.strings.$kept(),
                $memory.strings.len(),
                $memory.bits.$kept(),
                $memory.bits.len(),
                $memory.wires.$kept(),
                $memory.wires.len(),
                $memory.rows.$changed(),
                $memory.rows.len(),
                $($behind),*
            )
        }
    };
}

/// A call that only asks: the tables, the two counts, then what the call takes of its own.
macro_rules! ask {
    ($call:ident, $view:expr $(, $more:expr)*) => {
        call!($call, [], $view, as_ptr, as_ptr, [$view.card.renames, $view.card.room $(, $more)*])
    };
}

impl<'a> Lent<'a> {
    /// Memory that C lends: none where a pointer is null or not aligned, or a length is not the table's exact one.
    ///
    /// # Safety
    /// Each pointer that is not null leads to so many elements, which nobody else uses during `'a`, and no two of the parts overlap.
    pub unsafe fn from_raw(
        names: Raw<u8>,
        strings: Raw<u8>,
        bits: Raw<u32>,
        wires: Raw<u32>,
        rows: Raw<u32>,
        card: *mut Card,
    ) -> Option<Lent<'a>> {
        let lengths = [names.1, strings.1, bits.1, wires.1, rows.1];
        if lengths != [NAMES, STRINGS, BITS, WIRES, ROWS] {
            return None;
        }
        Some(Lent {
            names: part_mut(names.0, names.1)?,
            strings: part_mut(strings.0, strings.1)?,
            bits: part_mut(bits.0, bits.1)?,
            wires: part_mut(wires.0, wires.1)?,
            rows: part_mut(rows.0, rows.1)?,
            card: part_mut(card, 1)?.first_mut()?,
        })
    }

    pub fn view(&self) -> View<'_> {
        View {
            names: self.names,
            strings: self.strings,
            bits: self.bits,
            wires: self.wires,
            rows: self.rows,
            card: *self.card,
        }
    }

    /// Reads a file into the memory: number and place. On 1 nothing is touched, on any other refusal all memory is zero.
    pub fn fill(&mut self, file: &[u8]) -> Answer {
        call!(
            skytassel_fill,
            [file.as_ptr(), file.len()],
            self,
            as_mut_ptr,
            as_mut_ptr,
            [self.card]
        )
    }

    /// Renames a wire. A refusal changes nothing.
    pub fn rename(&mut self, module: u32, wire: u32, name: &[u8]) -> Answer {
        call!(
            skytassel_rename,
            [],
            self,
            as_mut_ptr,
            as_ptr,
            [self.card, module, wire, name.as_ptr(), name.len()]
        )
    }

    /// Takes the youngest rename off.
    pub fn undo(&mut self) -> Answer {
        call!(skytassel_undo, [], self, as_mut_ptr, as_ptr, [self.card])
    }
}

impl View<'_> {
    /// The number of the wire that has this name now.
    pub fn look_up(&self, module: u32, name: &[u8]) -> WireAnswer {
        ask!(skytassel_look_up, self, module, name.as_ptr(), name.len())
    }

    /// The author's index of a bit.
    pub fn index(&self, module: u32, wire: u32, bit: u32) -> IndexAnswer {
        ask!(skytassel_index, self, module, wire, bit)
    }

    /// Where the name to show lies.
    pub fn show(&self, module: u32, wire: u32) -> PartAnswer {
        ask!(skytassel_show, self, module, wire)
    }

    /// The length of the written text.
    pub fn measure(&self) -> LengthAnswer {
        ask!(skytassel_measure, self)
    }

    /// Lists a module's wires at the start of the room lent. A refusal leaves the room as it was.
    pub fn listing(&self, module: u32, room: &mut [u8]) -> LengthAnswer {
        ask!(
            skytassel_listing,
            self,
            module,
            room.as_mut_ptr(),
            room.len()
        )
    }

    /// Writes the text at the start of the room lent. A refusal leaves the room as it was.
    pub fn write(&self, room: &mut [u8]) -> LengthAnswer {
        ask!(skytassel_write, self, room.as_mut_ptr(), room.len())
    }
}

/// Writes the plain form of a name at the start of the room lent. A refusal leaves the room as it was.
pub fn plain_form(name: &[u8], room: &mut [u8]) -> LengthAnswer {
    let (start, length) = (room.as_mut_ptr(), room.len());
    // SAFETY: each pointer comes with its length, the parts don't overlap, and the call asks nothing of its caller.
    unsafe { sys::skytassel_plain_form(name.as_ptr(), name.len(), start, length) }
}

/// Writes the name that has this plain form at the start of the room lent. A refusal leaves the room as it was.
pub fn name_of(form: &[u8], room: &mut [u8]) -> LengthAnswer {
    let (start, length) = (room.as_mut_ptr(), room.len());
    // SAFETY: as in `plain_form`.
    unsafe { sys::skytassel_name_of(form.as_ptr(), form.len(), start, length) }
}
