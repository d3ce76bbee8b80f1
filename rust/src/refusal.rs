//! The numbers of refusals.

use std::error::Error;
use std::fmt;

/// Why a call is refused. The discriminants are the numbers, and refusals are ordered by them.
#[derive(Debug, Clone, Copy, PartialEq, Eq, PartialOrd, Ord, Hash)]
#[non_exhaustive]
#[repr(u32)]
pub enum Refusal {
    /// A lent table hasn't its exact stated length.
    WrongLength = 1,
    /// The file is over 32,768 bytes.
    FileTooLong = 2,
    /// Design memory that no text and no accepted renames after it leave.
    DamagedMemory = 3,
    /// A bad token, or an ill-formed new name.
    BadToken = 4,
    /// The line has no permitted shape here, or lacks its line end; a bundle or a switch is too deep; the file ends inside a module or after attributes.
    BadShape = 5,
    /// The rename of a port wire.
    PortRename = 6,
    /// A number or option rule is broken, an integer is outside 32 bits, a value is over 2,048 wide or has too many digits.
    BadNumber = 7,
    /// The module or wire is not there.
    NotThere = 8,
    /// The name is taken.
    NameTaken = 9,
    /// A slice or width rule is broken, or the index is asked past the wire.
    BadWidth = 10,
    /// A size is exceeded.
    SizeExceeded = 11,
    /// The text is over 32,768 bytes, or the answer is over the room lent.
    TextTooLong = 12,
    /// There is nothing to undo.
    NothingToUndo = 13,
    /// The bytes are no legal name's plain form.
    NoPlainForm = 14,
}

impl Refusal {
    /// All of them, in order of their numbers.
    pub const ALL: &'static [Refusal] = &[
        Refusal::WrongLength,
        Refusal::FileTooLong,
        Refusal::DamagedMemory,
        Refusal::BadToken,
        Refusal::BadShape,
        Refusal::PortRename,
        Refusal::BadNumber,
        Refusal::NotThere,
        Refusal::NameTaken,
        Refusal::BadWidth,
        Refusal::SizeExceeded,
        Refusal::TextTooLong,
        Refusal::NothingToUndo,
        Refusal::NoPlainForm,
    ];

    /// The number, as [`crate::lent`] and [`crate::sys`] give it.
    pub fn number(self) -> u32 {
        self as u32
    }
}

/// The refusal of a number.
///
/// ```
/// use skytassel::{NoRefusal, Refusal};
/// assert_eq!(Refusal::try_from(9), Ok(Refusal::NameTaken));
/// assert_eq!(Refusal::try_from(0), Err(NoRefusal(0)));
/// ```
impl TryFrom<u32> for Refusal {
    type Error = NoRefusal;

    fn try_from(number: u32) -> Result<Refusal, NoRefusal> {
        let mut all = Refusal::ALL.iter().copied();
        all.find(|refusal| refusal.number() == number)
            .ok_or(NoRefusal(number))
    }
}

/// A number that is no refusal's: 0, and those that no call gives.
#[derive(Debug, Clone, Copy, PartialEq, Eq, Hash)]
pub struct NoRefusal(pub u32);

impl fmt::Display for NoRefusal {
    fn fmt(&self, to: &mut fmt::Formatter<'_>) -> fmt::Result {
        write!(to, "{} is no refusal's number", self.0)
    }
}

impl Error for NoRefusal {}

impl fmt::Display for Refusal {
    fn fmt(&self, to: &mut fmt::Formatter<'_>) -> fmt::Result {
        let words = match self {
            Refusal::WrongLength => "a lent table hasn't its exact length",
            Refusal::FileTooLong => "the file is over 32,768 bytes",
            Refusal::DamagedMemory => "the memory holds no design",
            Refusal::BadToken => "bad token or ill-formed name",
            Refusal::BadShape => "no permitted shape",
            Refusal::PortRename => "the rename of a port wire",
            Refusal::BadNumber => "a number or option rule is broken",
            Refusal::NotThere => "module or wire not there",
            Refusal::NameTaken => "name taken",
            Refusal::BadWidth => "a slice or width rule is broken",
            Refusal::SizeExceeded => "a size is exceeded",
            Refusal::TextTooLong => "the text is too long",
            Refusal::NothingToUndo => "nothing to undo",
            Refusal::NoPlainForm => "no name's plain form",
        };
        write!(to, "{}: {words}", self.number())
    }
}

impl Error for Refusal {}

/// A refused file: why, and where. The place is the first byte of the line's leftmost bad token for [`Refusal::BadToken`], 0 for [`Refusal::FileTooLong`], else
/// the line's first byte that is neither space nor tab, or the file's length for its end.
#[derive(Debug, Clone, Copy, PartialEq, Eq, Hash)]
#[non_exhaustive]
pub struct Refused {
    pub refusal: Refusal,
    pub place: usize,
}

/// A call's answer, or the refusal of its number.
pub(crate) fn answer<T>(number: u32, given: T) -> Result<T, Refusal> {
    if number == 0 {
        return Ok(given);
    }
    Err(Refusal::try_from(number).expect("a number of the table of refusals"))
}

/// The answer of a call that gives a place too.
pub(crate) fn placed<T>(number: u32, place: u32, given: T) -> Result<T, Refused> {
    let place = place as usize;
    answer(number, given).map_err(|refusal| Refused { refusal, place })
}

impl fmt::Display for Refused {
    fn fmt(&self, to: &mut fmt::Formatter<'_>) -> fmt::Result {
        write!(to, "{} (at byte {})", self.refusal, self.place)
    }
}

impl Error for Refused {}
