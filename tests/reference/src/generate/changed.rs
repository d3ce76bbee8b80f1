//! One change of a design, most of which leave one that a file can define.

use super::random::Random;
use crate::design::{Attributed, Cell, Design, Module, ProcessLine};
use crate::statements::{Attribute, Bit, Bits, Constant, Sign, Wire};

/// The design with one thing changed, or with none where there is nothing to change: another number, name or digit, another kind of constant, a thing left out, or two that stand
/// behind one another in the other order.
pub fn changed(random: &mut Random, design: &Design) -> Design {
    let mut design = design.clone();
    match random.below(12) {
        0 => design.autoidx = design.autoidx.map_or(Some(0), |_| None),
        1 => swap_neighbours(random, &mut design.modules),
        2 => attributes(random, &mut design),
        _ => {
            if let Some(module) = any(random, &mut design.modules) {
                change_module(random, &mut module.object);
            }
        }
    }
    design
}

/// An element, if there is one.
fn any<'a, T>(random: &mut Random, list: &'a mut [T]) -> Option<&'a mut T> {
    let at = random.below(list.len().max(1));
    list.get_mut(at)
}

fn swap_neighbours<T>(random: &mut Random, list: &mut [T]) {
    if list.len() > 1 {
        let at = random.below(list.len() - 1);
        list.swap(at, at + 1);
    }
}

/// Changes the attributes of a module or of an object in it.
fn attributes(random: &mut Random, design: &mut Design) {
    let Some(module) = any(random, &mut design.modules) else {
        return;
    };
    let objects = &mut module.object;
    let of_object = match random.below(6) {
        0 => Some(&mut module.attributes),
        1 => any(random, &mut objects.memories).map(|memory| &mut memory.attributes),
        2 => any(random, &mut objects.cells).map(|cell| &mut cell.attributes),
        3 => any(random, &mut objects.processes).map(|process| &mut process.attributes),
        4 => any(random, &mut objects.processes)
            .and_then(|process| any(random, &mut process.object.lines))
            .and_then(|line| match line {
                ProcessLine::Step(step) => Some(&mut step.attributes),
                ProcessLine::SwitchEnd => None,
            }),
        _ => any(random, &mut objects.wires).map(|wire| &mut wire.attributes),
    };
    if let Some(attributes) = of_object {
        change_attributes(random, attributes);
    }
}

fn change_attributes(random: &mut Random, attributes: &mut Vec<Attribute>) {
    match random.below(4) {
        0 => {
            attributes.pop();
        }
        1 => swap_neighbours(random, attributes),
        2 => {
            if let Some(attribute) = any(random, attributes) {
                change_constant(random, &mut attribute.constant);
            }
        }
        _ => attributes.push(Attribute {
            name: b"\\one_more".to_vec(),
            constant: Constant::Integer(1),
        }),
    }
}

fn change_module(random: &mut Random, module: &mut Module) {
    match random.below(10) {
        0 => module.name.push(b'_'),
        1 => swap_neighbours(random, &mut module.parameters),
        2 => {
            if let Some(parameter) = any(random, &mut module.parameters) {
                match &mut parameter.constant {
                    Some(constant) => change_constant(random, constant),
                    None => parameter.constant = Some(Constant::Integer(0)),
                }
            }
        }
        3 | 4 => change_wire(random, &mut module.wires),
        5 => {
            if let Some(memory) = any(random, &mut module.memories) {
                memory.object.size ^= 1;
            }
        }
        6 => change_cell(random, &mut module.cells),
        7 | 8 => {
            if let Some(process) = any(random, &mut module.processes) {
                change_lines(random, &mut process.object.lines);
            }
        }
        _ => {
            if let Some(connection) = any(random, &mut module.connections) {
                change_bit(random, &mut connection.right);
            }
        }
    }
}

fn change_wire(random: &mut Random, wires: &mut [Attributed<Wire>]) {
    if random.one_in(6) {
        return swap_neighbours(random, wires);
    }
    let Some(wire) = any(random, wires) else {
        return;
    };
    let wire = &mut wire.object;
    match random.below(6) {
        0 => wire.signed = !wire.signed,
        1 => wire.upto = !wire.upto,
        2 => wire.offset ^= 1,
        3 => wire.port = None,
        4 => wire.name.push(b'_'),
        _ => wire.width += 1,
    }
}

fn change_cell(random: &mut Random, cells: &mut [Attributed<Cell>]) {
    let Some(cell) = any(random, cells) else {
        return;
    };
    let cell = &mut cell.object;
    match random.below(5) {
        0 => swap_neighbours(random, &mut cell.parameters),
        1 => swap_neighbours(random, &mut cell.connections),
        2 => {
            if let Some(parameter) = any(random, &mut cell.parameters) {
                parameter.sign = parameter.sign.map_or(Some(Sign::Real), |_| None);
            }
        }
        3 => {
            if let Some(parameter) = any(random, &mut cell.parameters) {
                change_constant(random, &mut parameter.constant);
            }
        }
        _ => {
            if let Some(connection) = any(random, &mut cell.connections) {
                change_bit(random, &mut connection.bits);
            }
        }
    }
}

fn change_lines(random: &mut Random, lines: &mut [ProcessLine]) {
    if random.one_in(2) {
        return swap_neighbours(random, lines);
    }
    if let Some(ProcessLine::Step(step)) = any(random, lines) {
        match random.one_in(3) {
            true => swap_neighbours(random, &mut step.object.signals),
            false => {
                if let Some(bits) = any(random, &mut step.object.signals) {
                    change_bit(random, bits);
                }
            }
        }
    }
}

fn change_bit(random: &mut Random, bits: &mut Bits) {
    let constant = Bit::Constant(*random.pick(b"01xzm-"));
    if let Some(bit) = any(random, bits) {
        *bit = constant;
    }
}

/// Another constant of its kind, or one of another kind with the same bits.
fn change_constant(random: &mut Random, constant: &mut Constant) {
    let other_kind = random.one_in(3);
    *constant = match constant {
        Constant::Integer(number) if other_kind => {
            Constant::Value(format!("{:032b}", *number as u32).into_bytes())
        }
        Constant::Integer(number) => Constant::Integer(*number ^ 1),
        Constant::String(bytes) if other_kind => {
            let digits = bytes.iter().map(|byte| format!("{byte:08b}"));
            Constant::Value(digits.collect::<String>().into_bytes())
        }
        Constant::String(bytes) => Constant::String([&bytes[..], b"."].concat()),
        Constant::Value(digits) => {
            let mut digits = digits.clone();
            match any(random, &mut digits) {
                Some(digit) => *digit = if *digit == b'x' { b'0' } else { b'x' },
                None => digits.push(b'x'),
            }
            Constant::Value(digits)
        }
    };
}
