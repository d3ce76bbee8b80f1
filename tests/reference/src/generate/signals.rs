//! Signals of every form, with their width.

use super::pieces::{self, token, Tokens};
use super::random::Random;
use super::SizeClass;

type Wire = (Vec<u8>, usize);

/// A signal and its width; `depth` is that of a bundle opened here.
pub fn signal(
    random: &mut Random,
    size: SizeClass,
    wires: &[Wire],
    depth: usize,
) -> (Tokens, usize) {
    let (mut tokens, mut width) = match random.below(10) {
        0..=4 if !wires.is_empty() => {
            let (name, width) = random.pick(wires);
            (vec![name.clone()], *width)
        }
        5 => (vec![pieces::integer(random)], 32),
        6 => {
            let count = random.below(4);
            let bytes = pieces::string_bytes(random, count);
            (vec![pieces::string(random, &bytes)], 8 * count)
        }
        7 | 8 if depth <= 16 => bundle(random, size, wires, depth),
        _ => {
            let width = pieces::width(random, size);
            (vec![pieces::value(random, width)], width)
        }
    };
    while width > 0 && random.one_in(3) {
        let nested = random.one_in(4);
        let (slices, sliced) = match nested {
            true => nested_slices(random, width),
            false => slice(random, width),
        };
        tokens.extend(slices);
        width = sliced;
    }
    (tokens, width)
}

/// Several sound slices of a signal that is not empty, each of the one before it, and the width they leave.
pub fn nested_slices(random: &mut Random, mut width: usize) -> (Tokens, usize) {
    let mut tokens = Tokens::new();
    for _ in 0..random.between(2, 8) {
        let (slice, sliced) = edge_slice(random, width);
        tokens.extend(slice);
        width = sliced;
    }
    (tokens, width)
}

fn bundle(random: &mut Random, size: SizeClass, wires: &[Wire], depth: usize) -> (Tokens, usize) {
    if random.one_in(20) {
        return deep_bundle(random, depth);
    }
    let mut tokens = vec![token("{")];
    let mut width = 0;
    for _ in 0..random.below(4) {
        let (member, member_width) = signal(random, size, wires, depth + 1);
        if width + member_width <= 2_048 {
            tokens.extend(member);
            width += member_width;
        }
    }
    tokens.push(token("}"));
    (tokens, width)
}

/// A bundle in a bundle, down to 16 deep.
fn deep_bundle(random: &mut Random, depth: usize) -> (Tokens, usize) {
    let width = random.below(3);
    let levels = 17 - depth;
    let open = vec![token("{"); levels];
    let close = vec![token("}"); levels];
    (
        [open, vec![pieces::value(random, width)], close].concat(),
        width,
    )
}

/// A sound slice of a signal that is not empty, and the width it leaves.
fn slice(random: &mut Random, width: usize) -> (Tokens, usize) {
    let low = random.below(width);
    let high = random.between(low, width - 1);
    if high == low && random.one_in(2) {
        return (bit_of(high), 1);
    }
    (bits_of(high, low), high - low + 1)
}

/// One whose bounds are at the edges of the signal, or one bit inside.
fn edge_slice(random: &mut Random, width: usize) -> (Tokens, usize) {
    let low = random.below(2).min(width - 1);
    let high = (width - 1 - random.below(2).min(width - 1)).max(low);
    (bits_of(high, low), high - low + 1)
}

fn bit_of(bit: usize) -> Tokens {
    vec![token("["), token(bit.to_string()), token("]")]
}

fn bits_of(high: usize, low: usize) -> Tokens {
    vec![
        token("["),
        token(high.to_string()),
        token(":"),
        token(low.to_string()),
        token("]"),
    ]
}

/// A signal of exactly this width, at most 2,048.
pub fn signal_of_width(random: &mut Random, wires: &[Wire], width: usize, depth: usize) -> Tokens {
    match random.below(6) {
        0 | 1 => {
            let fitting: Vec<_> = wires.iter().filter(|wire| wire.1 >= width).collect();
            match fitting.is_empty() || width == 0 {
                true => vec![pieces::value(random, width)],
                false => {
                    let wire = *random.pick(&fitting);
                    slice_of_width(random, vec![wire.0.clone()], wire.1, width)
                }
            }
        }
        2 if (1..=32).contains(&width) => {
            let integer = pieces::integer(random);
            slice_of_width(random, vec![integer], 32, width)
        }
        3 | 4 if depth <= 16 && width > 0 => {
            let upper = random.between(0, width);
            let high = signal_of_width(random, wires, upper, depth + 1);
            let low = signal_of_width(random, wires, width - upper, depth + 1);
            [vec![token("{")], high, low, vec![token("}")]].concat()
        }
        5 if width == 0 => vec![token("{"), token("}")],
        _ => vec![pieces::value(random, width)],
    }
}

/// The signal cut to a width of at least 1.
fn slice_of_width(random: &mut Random, signal: Tokens, from: usize, width: usize) -> Tokens {
    if from == width && random.one_in(2) {
        return signal;
    }
    let low = random.between(0, from - width);
    [signal, bits_of(low + width - 1, low)].concat()
}
