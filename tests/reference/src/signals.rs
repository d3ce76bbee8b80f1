//! What a written constant and a written signal mean.

use crate::shapes::{Base, Signal, WrittenConstant};
use crate::statements::{Bit, Bits, Constant, Digit, WireNumber};
use crate::tokens::Name;

/// Where the wires of a module are found by name.
pub trait Wires {
    /// Number and width of the wire, if it is declared.
    fn wire(&self, name: &Name) -> Option<(WireNumber, usize)>;
}

/// The digit that fills a value with these digits, highest first, up to its width.
fn filler(digits: &[Digit]) -> Digit {
    match digits.first() {
        None => b'x',
        Some(b'0' | b'1') => b'0',
        Some(&top) => top,
    }
}

/// The digits of a value, filled at the top, highest first.
fn filled(width: u64, digits: &[Digit]) -> Vec<Digit> {
    let missing = width as usize - digits.len();
    [vec![filler(digits); missing], digits.to_vec()].concat()
}

/// The constant meant; its numbers have been judged.
pub fn constant(written: &WrittenConstant) -> Constant {
    match written {
        WrittenConstant::Value(width, digits) => Constant::Value(filled(*width, digits)),
        WrittenConstant::Integer(number) => Constant::Integer(*number as i32),
        WrittenConstant::String(bytes) => Constant::String(bytes.clone()),
    }
}

/// The digits of a constant as a signal, lowest first.
fn constant_digits(constant: &Constant) -> Vec<Digit> {
    let digit = |number: u32, bit: u32| if number >> bit & 1 == 1 { b'1' } else { b'0' };
    match constant {
        Constant::Value(digits) => digits.iter().rev().copied().collect(),
        Constant::Integer(number) => (0..32).map(|bit| digit(*number as u32, bit)).collect(),
        Constant::String(bytes) => {
            let byte_digits = |&byte: &u8| (0..8).map(move |bit| digit(u32::from(byte), bit));
            bytes.iter().rev().flat_map(byte_digits).collect()
        }
    }
}

/// Are all wires of the signal declared?
pub fn wires_there(signal: &Signal, wires: &impl Wires) -> bool {
    match &signal.base {
        Base::Constant(_) => true,
        Base::Wire(name) => wires.wire(name).is_some(),
        Base::Bundle(members) => members.iter().all(|member| wires_there(member, wires)),
    }
}

#[derive(Debug, Clone, Copy, PartialEq, Eq)]
pub struct Extent {
    pub width: u64,
    /// The widest part of the signal before slicing, itself included.
    pub widest: u64,
}

/// Widths of a signal whose wires are there, none if a slice is broken.
pub fn extent(signal: &Signal, wires: &impl Wires) -> Option<Extent> {
    let mut extent = match &signal.base {
        Base::Constant(written) => part(constant_width(written)),
        Base::Wire(name) => part(wires.wire(name)?.1 as u64),
        Base::Bundle(members) => bundle_extent(members, wires)?,
    };
    for &(high, low) in &signal.slices {
        let sound = 0 <= low && low <= high && high < extent.width as i64;
        if !sound {
            return None;
        }
        extent.width = (high - low + 1) as u64;
    }
    Some(extent)
}

fn part(width: u64) -> Extent {
    Extent {
        width,
        widest: width,
    }
}

fn bundle_extent(members: &[Signal], wires: &impl Wires) -> Option<Extent> {
    let mut whole = part(0);
    for member in members {
        let extent = extent(member, wires)?;
        whole.width += extent.width;
        whole.widest = whole.widest.max(extent.widest);
    }
    whole.widest = whole.widest.max(whole.width);
    Some(whole)
}

fn constant_width(written: &WrittenConstant) -> u64 {
    match written {
        WrittenConstant::Value(width, _) => *width,
        WrittenConstant::Integer(_) => 32,
        WrittenConstant::String(bytes) => 8 * bytes.len() as u64,
    }
}

/// The bits of a signal whose extent has been judged.
pub fn bits(signal: &Signal, wires: &impl Wires) -> Bits {
    let mut bits: Bits = match &signal.base {
        Base::Constant(written) => constant_digits(&constant(written))
            .into_iter()
            .map(Bit::Constant)
            .collect(),
        Base::Wire(name) => {
            let (number, width) = wires.wire(name).expect("the wire was found before");
            (0..width).map(|bit| Bit::Wire(number, bit)).collect()
        }
        Base::Bundle(members) => members
            .iter()
            .rev()
            .flat_map(|member| self::bits(member, wires))
            .collect(),
    };
    for &(high, low) in &signal.slices {
        bits = bits[low as usize..=high as usize].to_vec();
    }
    bits
}
