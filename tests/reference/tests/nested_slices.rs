//! Generated files hold slices of slices, four or more of a signal, whose bounds are at the edges of what they slice: accepted files some
//! that end with its highest bit and leave out bits twice or more, files refused with 10 some that end one bit past it.

use reference::generate::{self, SizeClass};
use reference::lines::lines;
use reference::read;
use reference::tokens::{tokens, Token};

const FILES: u64 = 2_000;
const DEEP: usize = 4;

type Slice = (i64, i64);

/// The slices of a line, high and low bound, those that stand behind one another together.
fn nested(line: &[u8]) -> Vec<Vec<Slice>> {
    let tokens = tokens(line).unwrap_or_default();
    let mut slices = vec![Vec::new()];
    let mut rest = &tokens[..];
    while !rest.is_empty() {
        rest = match rest {
            [Token::Mark(b'['), Token::Integer(high), Token::Mark(b':'), Token::Integer(low), Token::Mark(b']'), behind @ ..] =>
            {
                let last = slices.len() - 1;
                slices[last].push((*high, *low));
                behind
            }
            _ => {
                slices.push(Vec::new());
                &rest[1..]
            }
        };
    }
    slices.retain(|slices| slices.len() >= DEEP);
    slices
}

/// How far the last slice ends past the one before it: 0 is with its highest bit.
fn past(slices: &[Slice]) -> i64 {
    let (high, low) = slices[slices.len() - 2];
    slices[slices.len() - 1].0 - (high - low)
}

fn count(files: &[Vec<u8>], sought: impl Fn(&[Slice]) -> bool) -> usize {
    let slices = files.iter().flat_map(|file| {
        lines(file)
            .flat_map(|line| nested(line.bytes))
            .collect::<Vec<_>>()
    });
    slices.filter(|slices| sought(slices)).count()
}

#[test]
fn deep_slices_at_the_edges() {
    let files = (0..FILES).map(|seed| generate::file(seed, SizeClass::of(seed)));
    let (accepted, refused): (Vec<_>, Vec<_>) = files.partition(|file| read(file).is_ok());
    let broken: Vec<_> = refused
        .into_iter()
        .filter(|file| read(file).is_err_and(|refusal| refusal.number == 10))
        .collect();
    let at_the_edge = count(&accepted, |slices| {
        past(slices) == 0 && slices.iter().filter(|slice| slice.1 > 0).count() > 1
    });
    let one_past = count(&broken, |slices| past(slices) == 1);
    println!("deep slices at the edge: {at_the_edge}, one past: {one_past}");
    assert!(at_the_edge > 0 && one_past > 0);
}
