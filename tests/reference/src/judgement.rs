//! Judges a well-shaped line: 7, 8, 9, 10, 11, each over the whole line.

use crate::counts::Counts;
use crate::shapes::{Base, MemoryOption, Shape, Signal, WireOption, WrittenConstant};
use crate::signals::{self, extent, wires_there, Extent};
use crate::sizes;
use crate::statements::{
    Action, Attribute, CellConnection, CellParameter, Memory, ModuleConnection, ModuleParameter,
    Port, Statement, Step, Wire,
};
use crate::surroundings::Surroundings;
use crate::tokens::Name;

/// The statement that the line means and what it adds to the counts, or its lowest number.
pub fn judge(shape: &Shape, surroundings: &Surroundings) -> Result<(Statement, Counts), u32> {
    if !numbers_hold(shape, surroundings) {
        return Err(7);
    }
    if !signals_of(shape)
        .iter()
        .all(|signal| wires_there(signal, surroundings))
    {
        return Err(8);
    }
    if name_taken(shape, surroundings) {
        return Err(9);
    }
    let extents = signals_of(shape)
        .into_iter()
        .map(|signal| extent(signal, surroundings));
    let extents: Vec<_> = extents.collect::<Option<_>>().ok_or(10u32)?;
    if !widths_hold(shape, &extents, surroundings) {
        return Err(10);
    }
    if extents
        .iter()
        .any(|extent| extent.widest > sizes::PART_BITS)
    {
        return Err(11);
    }
    let signal_bits: u64 = extents.iter().map(|extent| extent.width).sum();
    let counts = Counts::of(shape, signal_bits as usize);
    if !surroundings.counts.plus(counts).within_sizes() {
        return Err(11);
    }
    Ok((statement(shape, surroundings), counts))
}

/// The signals on the line, in text order.
fn signals_of(shape: &Shape) -> Vec<&Signal> {
    match shape {
        Shape::CellConnection(_, signal) => vec![signal],
        Shape::ModuleConnection(left, right) => vec![left, right],
        Shape::Step(_, signals) => signals.iter().collect(),
        _ => vec![],
    }
}

/// Refusal 10, slices apart: both sides of a connection, an assign or an update are equally wide, each compare value is as wide as the
/// signal of its switch, and a sync's signal has one bit.
fn widths_hold(shape: &Shape, extents: &[Extent], surroundings: &Surroundings) -> bool {
    let wanted = match shape {
        Shape::ModuleConnection(..) | Shape::Step(Action::Assign | Action::Update, _) => {
            Some(extents[0].width)
        }
        Shape::Step(Action::Case, _) => surroundings.switch_width().map(|width| width as u64),
        Shape::Step(Action::Sync(_), _) => Some(1),
        _ => None,
    };
    wanted.is_none_or(|width| extents.iter().all(|extent| extent.width == width))
}

/// The rules of refusal 7.
fn numbers_hold(shape: &Shape, surroundings: &Surroundings) -> bool {
    match shape {
        Shape::Autoidx(number) => in_32_bits(*number),
        Shape::Attribute(_, constant) | Shape::CellParameter(_, _, constant) => {
            constant_holds(constant)
        }
        Shape::ModuleParameter(_, constant) => constant.iter().all(constant_holds),
        Shape::Wire(options, name) => wire(options, name).is_some_and(|wire| {
            wire.port
                .is_none_or(|port| !surroundings.port_numbers.contains(&port.number))
        }),
        Shape::Memory(options, name) => memory(options, name).is_some(),
        shape => signals_of(shape).into_iter().all(signal_holds),
    }
}

fn in_32_bits(number: i64) -> bool {
    i32::try_from(number).is_ok()
}

fn constant_holds(constant: &WrittenConstant) -> bool {
    match constant {
        WrittenConstant::Value(width, digits) => {
            *width <= sizes::WIDTH && digits.len() as u64 <= *width
        }
        WrittenConstant::Integer(number) => in_32_bits(*number),
        WrittenConstant::String(_) => true,
    }
}

fn signal_holds(signal: &Signal) -> bool {
    let base_holds = match &signal.base {
        Base::Constant(constant) => constant_holds(constant),
        Base::Wire(_) => true,
        Base::Bundle(members) => members.iter().all(signal_holds),
    };
    base_holds
        && signal
            .slices
            .iter()
            .all(|&(high, low)| in_32_bits(high) && in_32_bits(low))
}

/// Puts an option's number in its place; none if one is there already.
fn once<T>(place: &mut Option<T>, given: T) -> Option<()> {
    place.replace(given).is_none().then_some(())
}

/// The wire with its options, none if an option rule of its own is broken.
fn wire(options: &[WireOption], name: &Name) -> Option<Wire> {
    let (mut width, mut offset, mut port) = (None, None, None);
    let (mut upto, mut signed) = (None, None);
    for option in options {
        match *option {
            WireOption::Width(number) => once(&mut width, number)?,
            WireOption::Offset(number) => once(&mut offset, number)?,
            WireOption::Port(direction, number) => once(&mut port, (direction, number))?,
            WireOption::Upto => once(&mut upto, ())?,
            WireOption::Signed => once(&mut signed, ())?,
        }
    }
    let (width, offset) = (width.unwrap_or(1), offset.unwrap_or(0));
    let in_range = (0..=sizes::WIDTH as i64).contains(&width) && in_32_bits(offset);
    let top_in_range = width == 0 || in_32_bits(offset + width - 1);
    let port_in_range = port.is_none_or(|(_, number)| (1..=sizes::PORT_NUMBER).contains(&number));
    if !(in_range && top_in_range && port_in_range) {
        return None;
    }
    Some(Wire {
        name: name.clone(),
        width: width as usize,
        offset: offset as i32,
        upto: upto.is_some(),
        signed: signed.is_some(),
        port: port.map(|(direction, number)| Port {
            direction,
            number: number as i32,
        }),
    })
}

/// The memory with its options, none if an option rule is broken.
fn memory(options: &[MemoryOption], name: &Name) -> Option<Memory> {
    let (mut width, mut size, mut offset) = (None, None, None);
    for option in options {
        match *option {
            MemoryOption::Width(number) => once(&mut width, number)?,
            MemoryOption::Size(number) => once(&mut size, number)?,
            MemoryOption::Offset(number) => once(&mut offset, number)?,
        }
    }
    let width = width.unwrap_or(1);
    if !(1..=sizes::WIDTH as i64).contains(&width) {
        return None;
    }
    let size = i32::try_from(size.unwrap_or(0))
        .ok()
        .filter(|&size| size >= 0)?;
    let offset = i32::try_from(offset.unwrap_or(0)).ok()?;
    Some(Memory {
        name: name.clone(),
        width: width as usize,
        size,
        offset,
    })
}

/// Refusal 9.
fn name_taken(shape: &Shape, surroundings: &Surroundings) -> bool {
    match shape {
        Shape::Attribute(name, _) => surroundings.attribute_names.contains(name),
        Shape::Module(name) => surroundings.module_names.contains(name),
        Shape::ModuleParameter(name, _) => surroundings.module_parameters.contains(name),
        Shape::Wire(_, name)
        | Shape::Memory(_, name)
        | Shape::Cell(_, name)
        | Shape::Process(name) => surroundings.objects.contains_key(name),
        Shape::CellParameter(_, name, _) => surroundings.cell_parameters.contains(name),
        Shape::CellConnection(port, _) => surroundings.cell_ports.contains(port),
        _ => false,
    }
}

/// The meaning of a line that passed every stage.
fn statement(shape: &Shape, surroundings: &Surroundings) -> Statement {
    let bits = |signal| signals::bits(signal, surroundings);
    let meant = signals::constant;
    match shape.clone() {
        Shape::Autoidx(number) => Statement::Autoidx(number as i32),
        Shape::Attribute(name, constant) => {
            let constant = meant(&constant);
            Statement::Attribute(Attribute { name, constant })
        }
        Shape::Module(name) => Statement::Module(name),
        Shape::ModuleParameter(name, constant) => {
            let constant = constant.as_ref().map(meant);
            Statement::ModuleParameter(ModuleParameter { name, constant })
        }
        Shape::Wire(options, name) => Statement::Wire(wire(&options, &name).expect("judged")),
        Shape::Memory(options, name) => Statement::Memory(memory(&options, &name).expect("judged")),
        Shape::Cell(kind, name) => Statement::Cell(kind, name),
        Shape::CellParameter(sign, name, constant) => {
            let constant = meant(&constant);
            Statement::CellParameter(CellParameter {
                sign,
                name,
                constant,
            })
        }
        Shape::CellConnection(port, signal) => {
            let bits = bits(&signal);
            Statement::CellConnection(CellConnection { port, bits })
        }
        Shape::CellEnd => Statement::CellEnd,
        Shape::Process(name) => Statement::Process(name),
        Shape::Step(action, signals) => {
            let signals = signals.iter().map(bits).collect();
            Statement::Step(Step { action, signals })
        }
        Shape::SwitchEnd => Statement::SwitchEnd,
        Shape::ProcessEnd => Statement::ProcessEnd,
        Shape::ModuleConnection(left, right) => {
            let (left, right) = (bits(&left), bits(&right));
            Statement::ModuleConnection(ModuleConnection { left, right })
        }
        Shape::ModuleEnd => Statement::ModuleEnd,
    }
}
