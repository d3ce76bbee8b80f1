//! Calls that are lent only a file.

use crate::design::ModuleNumber;
use crate::refusal::{placed, Refused};
use crate::sys;

/// Whether a file is taken, long before there is memory for its design: [`crate::Design::read`] refuses what is refused here, with the same number and place.
///
/// ```
/// use skytassel::{check, Refusal};
///
/// assert_eq!(check(b"module \\ear\n  wire width 8 \\gain\nend\n"), Ok(()));
/// let refused = check(b"module \\ear\n  wire width 8 \\gain\n").unwrap_err();
/// assert_eq!((refused.refusal, refused.place), (Refusal::BadShape, 33));
/// ```
pub fn check(file: &[u8]) -> Result<(), Refused> {
    // SAFETY: the pointer comes with its length, and the call asks nothing of its caller.
    let checked = unsafe { sys::skytassel_check(file.as_ptr(), file.len()) };
    placed(checked.number, checked.place, ())
}

/// How wide the wire of this name in this module is, read as far as the line that declares it. Refused as [`check`] up to that line, and
/// [`crate::Refusal::NotThere`] where the module ends without it or the file has no such module.
///
/// ```
/// use skytassel::{width_of, ModuleNumber, Refusal};
///
/// let file = b"module \\ear\n  wire width 8 \\gain\n  wire width 4096 \\y\nend\n";
/// assert_eq!(width_of(file, ModuleNumber(0), b"\\gain"), Ok(8));
/// let refused = width_of(file, ModuleNumber(0), b"\\y").unwrap_err();
/// assert_eq!((refused.refusal, refused.place), (Refusal::BadNumber, 35));
/// ```
pub fn width_of(file: &[u8], module: ModuleNumber, name: &[u8]) -> Result<u32, Refused> {
    let (start, length) = (file.as_ptr(), file.len());
    // SAFETY: each pointer comes with its length, and the call asks nothing of its caller.
    let answer =
        unsafe { sys::skytassel_width_of(start, length, module.0, name.as_ptr(), name.len()) };
    placed(answer.number, answer.place, answer.width)
}

/// The index that the author gave a bit of the wire of this name in this module, which may be negative. Refused as [`width_of`], and last
/// [`crate::Refusal::BadWidth`] for a bit past the wire.
///
/// ```
/// use skytassel::{index_of, ModuleNumber};
///
/// let file = b"module \\ear\n  wire width 8 offset -4 upto \\gain\nend\n";
/// assert_eq!(index_of(file, ModuleNumber(0), b"\\gain", 7), Ok(-4));
/// ```
pub fn index_of(file: &[u8], module: ModuleNumber, name: &[u8], bit: u32) -> Result<i64, Refused> {
    let (start, length) = (file.as_ptr(), file.len());
    // SAFETY: each pointer comes with its length, and the call asks nothing of its caller.
    let answer =
        unsafe { sys::skytassel_index_of(start, length, module.0, name.as_ptr(), name.len(), bit) };
    placed(answer.number, answer.place, answer.index)
}
