//! Statements as lines in their own order, each as plain as can be: every option, every bit of a signal by itself.

use reference::statements::{Action, Bit, Constant, Sign, Statement, Step, Wire};
use reference::tokens::Name;

/// A text of these statements, if each bit is of a wire that stands before it in its module.
pub fn text(statements: &[Statement]) -> Option<Vec<u8>> {
    let mut text = Vec::new();
    let mut wires: Vec<&Name> = Vec::new();
    for statement in statements {
        match statement {
            Statement::Module(_) => wires.clear(),
            Statement::Wire(wire) => wires.push(&wire.name),
            _ => {}
        }
        text.extend(line(statement, &wires)?);
        text.push(b'\n');
    }
    Some(text)
}

fn line(statement: &Statement, wires: &[&Name]) -> Option<Vec<u8>> {
    Some(match statement {
        Statement::Autoidx(number) => format!("autoidx {number}").into_bytes(),
        Statement::Attribute(one) => words(&[b"attribute", &one.name, &constant(&one.constant)]),
        Statement::Module(name) => words(&[b"module", name]),
        Statement::ModuleParameter(one) => match &one.constant {
            None => words(&[b"parameter", &one.name]),
            Some(given) => words(&[b"parameter", &one.name, &constant(given)]),
        },
        Statement::Wire(one) => words(&[b"wire", &options(one), &one.name]),
        Statement::Memory(one) => {
            let (width, size, offset) = (one.width, one.size, one.offset);
            let options = format!("memory width {width} size {size} offset {offset}");
            words(&[options.as_bytes(), &one.name])
        }
        Statement::Cell(of, name) => words(&[b"cell", of, name]),
        Statement::CellParameter(one) => {
            let sign: &[u8] = match one.sign {
                None => b"",
                Some(Sign::Signed) => b"signed",
                Some(Sign::Real) => b"real",
            };
            words(&[b"parameter", sign, &one.name, &constant(&one.constant)])
        }
        Statement::CellConnection(one) => {
            words(&[b"connect", &one.port, &signal(&one.bits, wires)?])
        }
        Statement::ModuleConnection(one) => {
            let left = signal(&one.left, wires)?;
            words(&[b"connect", &left, &signal(&one.right, wires)?])
        }
        Statement::Process(name) => words(&[b"process", name]),
        Statement::Step(one) => step(one, wires)?,
        Statement::CellEnd
        | Statement::SwitchEnd
        | Statement::ProcessEnd
        | Statement::ModuleEnd => b"end".to_vec(),
    })
}

/// A line inside a process; a comma stands between the values of a case.
fn step(step: &Step, wires: &[&Name]) -> Option<Vec<u8>> {
    let (word, between) = match step.action {
        Action::Assign => ("assign ".to_string(), " "),
        Action::Switch => ("switch ".to_string(), " "),
        Action::Case => ("case ".to_string(), ","),
        Action::Sync(event) => (format!("sync {} ", event.word()), " "),
        Action::Update => ("update ".to_string(), " "),
    };
    let signals = step.signals.iter().map(|bits| signal(bits, wires));
    let signals: Vec<_> = signals.collect::<Option<_>>()?;
    Some([word.into_bytes(), signals.join(between.as_bytes())].concat())
}

fn words(words: &[&[u8]]) -> Vec<u8> {
    words.join(&b' ')
}

fn options(wire: &Wire) -> Vec<u8> {
    let mut options = format!("width {} offset {}", wire.width, wire.offset);
    if wire.upto {
        options += " upto";
    }
    if wire.signed {
        options += " signed";
    }
    if let Some(port) = wire.port {
        options += &format!(" {} {}", port.direction.word(), port.number);
    }
    options.into_bytes()
}

fn constant(constant: &Constant) -> Vec<u8> {
    match constant {
        Constant::Value(digits) => [format!("{}'", digits.len()).as_bytes(), digits].concat(),
        Constant::Integer(number) => number.to_string().into_bytes(),
        Constant::String(bytes) => {
            let octals: String = bytes.iter().map(|byte| format!("\\{byte:03o}")).collect();
            format!("\"{octals}\"").into_bytes()
        }
    }
}

/// A bundle of single bits, the highest first.
fn signal(bits: &[Bit], wires: &[&Name]) -> Option<Vec<u8>> {
    let mut text = b"{".to_vec();
    for bit in bits.iter().rev() {
        match bit {
            Bit::Constant(digit) => text.extend([b' ', b'1', b'\'', *digit]),
            Bit::Wire(wire, index) => {
                text.push(b' ');
                text.extend(*wires.get(wire.0)?);
                text.extend(format!(" [{index}]").bytes());
            }
        }
    }
    text.extend(b" }");
    Some(text)
}
