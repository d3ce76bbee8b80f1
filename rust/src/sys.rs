//! The exported calls as they are: a slice passes as a pointer and then a length. include/skytassel.h has the same for C.

/// The session card: renames standing, name room used.
#[repr(C)]
#[derive(Debug, Clone, Copy, Default, PartialEq, Eq)]
pub struct Card {
    pub renames: u32,
    pub room: u32,
}

/// Number 0 is none.
#[repr(C)]
#[derive(Debug, Clone, Copy, PartialEq, Eq)]
pub struct Answer {
    pub number: u32,
    pub place: u32,
}

#[repr(C)]
#[derive(Debug, Clone, Copy, PartialEq, Eq)]
pub struct WireAnswer {
    pub number: u32,
    pub wire: u32,
}

#[repr(C)]
#[derive(Debug, Clone, Copy, PartialEq, Eq)]
pub struct IndexAnswer {
    pub number: u32,
    pub index: i64,
}

#[repr(C)]
#[derive(Debug, Clone, Copy, PartialEq, Eq)]
pub struct LengthAnswer {
    pub number: u32,
    pub length: u32,
}

/// A part of table 1, the names, or of table 2, the strings. A refusal has table 0.
#[repr(C)]
#[derive(Debug, Clone, Copy, PartialEq, Eq)]
pub struct PartAnswer {
    pub number: u32,
    pub table: u32,
    pub start: usize,
    pub length: usize,
}

/// The width of a wire that is asked from a file, which may be refused at a place; a refusal has width 0.
#[repr(C)]
#[derive(Debug, Clone, Copy, PartialEq, Eq)]
pub struct WidthOfAnswer {
    pub number: u32,
    pub place: u32,
    pub width: u32,
}

/// The author's index of a bit that is asked from a file; a refusal has index 0.
#[repr(C)]
#[derive(Debug, Clone, Copy, PartialEq, Eq)]
pub struct IndexOfAnswer {
    pub number: u32,
    pub place: u32,
    pub index: i64,
}

extern "C" {
    pub fn skytassel_check(file: *const u8, file_length: usize) -> Answer;

    pub fn skytassel_width_of(
        file: *const u8,
        file_length: usize,
        module: u32,
        name: *const u8,
        name_length: usize,
    ) -> WidthOfAnswer;

    pub fn skytassel_index_of(
        file: *const u8,
        file_length: usize,
        module: u32,
        name: *const u8,
        name_length: usize,
        bit: u32,
    ) -> IndexOfAnswer;

    pub fn skytassel_fill(
        file: *const u8,
        file_length: usize,
        names: *mut u8,
        names_length: usize,
        strings: *mut u8,
        strings_length: usize,
        bits: *mut u32,
        bits_length: usize,
        wires: *mut u32,
        wires_length: usize,
        rows: *mut u32,
        rows_length: usize,
        card: *mut Card,
    ) -> Answer;

    pub fn skytassel_rename(
        names: *mut u8,
        names_length: usize,
        strings: *const u8,
        strings_length: usize,
        bits: *const u32,
        bits_length: usize,
        wires: *const u32,
        wires_length: usize,
        rows: *mut u32,
        rows_length: usize,
        card: *mut Card,
        module: u32,
        wire: u32,
        name: *const u8,
        name_length: usize,
    ) -> Answer;

    pub fn skytassel_undo(
        names: *mut u8,
        names_length: usize,
        strings: *const u8,
        strings_length: usize,
        bits: *const u32,
        bits_length: usize,
        wires: *const u32,
        wires_length: usize,
        rows: *mut u32,
        rows_length: usize,
        card: *mut Card,
    ) -> Answer;

    pub fn skytassel_look_up(
        names: *const u8,
        names_length: usize,
        strings: *const u8,
        strings_length: usize,
        bits: *const u32,
        bits_length: usize,
        wires: *const u32,
        wires_length: usize,
        rows: *const u32,
        rows_length: usize,
        renames: u32,
        room: u32,
        module: u32,
        name: *const u8,
        name_length: usize,
    ) -> WireAnswer;

    pub fn skytassel_index(
        names: *const u8,
        names_length: usize,
        strings: *const u8,
        strings_length: usize,
        bits: *const u32,
        bits_length: usize,
        wires: *const u32,
        wires_length: usize,
        rows: *const u32,
        rows_length: usize,
        renames: u32,
        room: u32,
        module: u32,
        wire: u32,
        bit: u32,
    ) -> IndexAnswer;

    pub fn skytassel_show(
        names: *const u8,
        names_length: usize,
        strings: *const u8,
        strings_length: usize,
        bits: *const u32,
        bits_length: usize,
        wires: *const u32,
        wires_length: usize,
        rows: *const u32,
        rows_length: usize,
        renames: u32,
        room: u32,
        module: u32,
        wire: u32,
    ) -> PartAnswer;

    pub fn skytassel_measure(
        names: *const u8,
        names_length: usize,
        strings: *const u8,
        strings_length: usize,
        bits: *const u32,
        bits_length: usize,
        wires: *const u32,
        wires_length: usize,
        rows: *const u32,
        rows_length: usize,
        renames: u32,
        room: u32,
    ) -> LengthAnswer;

    pub fn skytassel_plain_form(
        name: *const u8,
        name_length: usize,
        out: *mut u8,
        out_length: usize,
    ) -> LengthAnswer;

    pub fn skytassel_name_of(
        form: *const u8,
        form_length: usize,
        out: *mut u8,
        out_length: usize,
    ) -> LengthAnswer;

    pub fn skytassel_listing(
        names: *const u8,
        names_length: usize,
        strings: *const u8,
        strings_length: usize,
        bits: *const u32,
        bits_length: usize,
        wires: *const u32,
        wires_length: usize,
        rows: *const u32,
        rows_length: usize,
        renames: u32,
        room: u32,
        module: u32,
        out: *mut u8,
        out_length: usize,
    ) -> LengthAnswer;

    pub fn skytassel_write(
        names: *const u8,
        names_length: usize,
        strings: *const u8,
        strings_length: usize,
        bits: *const u32,
        bits_length: usize,
        wires: *const u32,
        wires_length: usize,
        rows: *const u32,
        rows_length: usize,
        renames: u32,
        room: u32,
        out: *mut u8,
        out_length: usize,
    ) -> LengthAnswer;
}
