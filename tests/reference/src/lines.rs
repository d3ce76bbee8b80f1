//! A file as lines that hold at least one token or bad token.

use crate::bytes::{is_blank, is_line_end};

/// A line from its first byte that is neither space nor tab.
#[derive(Debug, Clone, Copy, PartialEq, Eq)]
pub struct Line<'a> {
    pub place: usize,
    pub bytes: &'a [u8],
    /// False for a last line without its line end.
    pub ended: bool,
}

/// The lines with something on them besides blanks and a comment.
pub fn lines(file: &[u8]) -> impl Iterator<Item = Line<'_>> {
    let mut next = 0;
    std::iter::from_fn(move || {
        if next >= file.len() {
            return None;
        }
        let start = next;
        let length = file[start..].iter().position(|&byte| is_line_end(byte));
        let end = length.map_or(file.len(), |length| start + length);
        next = end + 1;
        let blanks = file[start..end]
            .iter()
            .take_while(|&&byte| is_blank(byte))
            .count();
        let place = start + blanks;
        Some(Line {
            place,
            bytes: &file[place..end],
            ended: length.is_some(),
        })
    })
    .filter(|line| !matches!(line.bytes.first(), None | Some(b'#')))
}
