//! Small changes of a file: bytes, tokens and lines.

use super::random::Random;

/// Bytes at the edges of the classes.
const INTERESTING: &[u8] = b"\x00\x01\t\n\r \"#$'-:,019=[\\]`az{}xzm\x1f\x7f\x80\xff";

/// Numbers at the edges of the rules.
const EDGES: [&str; 14] = [
    "0",
    "1",
    "-1",
    "15",
    "16",
    "1023",
    "1024",
    "2047",
    "2048",
    "2049",
    "2147483647",
    "2147483648",
    "-2147483648",
    "-2147483649",
];

/// The file with one run of its digits replaced by a number at the edges, if it has any.
pub fn change_number(random: &mut Random, file: Vec<u8>) -> Vec<u8> {
    let is_digit = |at: usize| file.get(at).is_some_and(u8::is_ascii_digit);
    let starts: Vec<usize> = (0..file.len())
        .filter(|&at| is_digit(at) && (at == 0 || !is_digit(at - 1)))
        .collect();
    if starts.is_empty() {
        return file;
    }
    let start = *random.pick(&starts);
    let end = (start..).find(|&at| !is_digit(at)).unwrap_or(file.len());
    let number = random.pick(&EDGES).as_bytes();
    [&file[..start], number, &file[end..]].concat()
}

/// The file after one to four changes.
pub fn mutate(random: &mut Random, mut file: Vec<u8>) -> Vec<u8> {
    for _ in 0..random.between(1, 4) {
        if file.is_empty() {
            break;
        }
        file = change(random, file);
    }
    file
}

fn change(random: &mut Random, mut file: Vec<u8>) -> Vec<u8> {
    let at = random.below(file.len());
    match random.below(11) {
        0 => file[at] ^= 1 << random.below(8),
        1 => file[at] = random.byte(),
        2 => file[at] = *random.pick(INTERESTING),
        3 => {
            file.remove(at);
        }
        4 | 5 => file.insert(at, *random.pick(INTERESTING)),
        6 => file.truncate(at),
        7 => {
            let end = (at + random.between(1, 20)).min(file.len());
            file.drain(at..end);
        }
        8 => return change_parts(random, &file, b'\n'),
        _ => return change_parts(random, &file, b' '),
    }
    file
}

/// Swaps, doubles, moves or drops parts between separators: lines or tokens.
fn change_parts(random: &mut Random, file: &[u8], separator: u8) -> Vec<u8> {
    let mut parts: Vec<&[u8]> = file.split(|&byte| byte == separator).collect();
    let (one, other) = (random.below(parts.len()), random.below(parts.len()));
    match random.below(4) {
        0 => parts.swap(one, other),
        1 => parts.insert(other, parts[one]),
        2 => {
            let part = parts.remove(one);
            parts.insert(other.min(parts.len()), part);
        }
        _ => {
            parts.remove(one);
        }
    }
    parts.join(&separator)
}
