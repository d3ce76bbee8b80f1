//! The generated files hold every kind of line of a process, attributes wherever they may stand, and switches at every depth.

use reference::generate::{self, SizeClass};
use reference::sizes::{PROCESSES, SIGNAL_BITS, STEPS, STEP_SIGNALS, SWITCH_DEPTH};
use reference::statements::{Action, Event, Statement};
use reference::{program, read};
use std::collections::BTreeSet;

/// What the accepted lines of processes have met.
#[derive(Default)]
struct Met {
    lines: BTreeSet<String>,
    depths: BTreeSet<usize>,
    compare_values: BTreeSet<usize>,
    /// After attribute lines.
    attributed: BTreeSet<String>,
}

impl Met {
    fn take(&mut self, statements: &[Statement]) {
        let mut depth = 0;
        let mut after_attribute = false;
        for statement in statements {
            let line = match statement {
                Statement::Process(_) => "Process".to_string(),
                Statement::Step(step) => format!("{:?}", step.action),
                _ => String::new(),
            };
            match statement {
                Statement::Step(step) if step.action == Action::Switch => depth += 1,
                Statement::Step(step) if step.action == Action::Case => {
                    self.compare_values.insert(step.signals.len());
                }
                Statement::SwitchEnd => depth -= 1,
                _ => {}
            }
            self.depths.insert(depth);
            if after_attribute {
                self.attributed.insert(line.clone());
            }
            self.lines.insert(line);
            after_attribute = matches!(statement, Statement::Attribute(_));
        }
    }
}

#[test]
fn every_kind_of_line() {
    let mut met = Met::default();
    for seed in 0..2_000 {
        let file = generate::well_formed_file(seed, SizeClass::of(seed));
        if let Ok(netlist) = read(&file) {
            met.take(&netlist.statements);
        }
    }
    let plain = [Action::Assign, Action::Switch, Action::Case, Action::Update];
    let syncs = Event::ALL.map(Action::Sync);
    for action in plain.iter().chain(&syncs) {
        assert!(met.lines.contains(&format!("{action:?}")), "no {action:?}");
    }
    for line in ["Process", "Switch", "Case"] {
        assert!(met.attributed.contains(line), "no attribute of {line}");
    }
    assert_eq!(met.depths.last(), Some(&SWITCH_DEPTH));
    assert!((0..=3).all(|count| met.compare_values.contains(&count)));
}

/// Processes, lines inside them, signals of these lines and bits of these signals.
fn sizes_of(statements: &[Statement]) -> [usize; 4] {
    let mut sizes = [0; 4];
    for statement in statements {
        match statement {
            Statement::Process(_) => sizes[0] += 1,
            Statement::Step(step) => {
                sizes[1] += 1;
                sizes[2] += step.signals.len();
                sizes[3] += step.signals.concat().len();
            }
            _ => {}
        }
    }
    sizes
}

/// Files at the limits have as many processes, lines and signals as a design may have, and files with one more are refused.
#[test]
fn limits_are_met() {
    let (mut most, mut refused) = ([0; 4], 0);
    for seed in 0..600 {
        let file = generate::limit_file(seed);
        match read(&file) {
            Ok(netlist) => {
                let sizes = sizes_of(&netlist.statements);
                most = std::array::from_fn(|at| sizes[at].max(most[at]));
            }
            Err(refusal) => {
                let process = file.windows(8).any(|part| part == b"process ");
                refused += usize::from(process && refusal.number == 11);
            }
        }
    }
    assert_eq!(most[..3], [PROCESSES, STEPS, STEP_SIGNALS]);
    assert!(most[3] > SIGNAL_BITS / 2 && refused > 0);
}

/// Switches in a switch so deep.
fn nested(depth: usize) -> String {
    let opened = "switch 1'0\ncase\n".repeat(depth);
    format!(
        "module \\m\nprocess \\p\n{opened}{}end\nend\n",
        "end\n".repeat(depth)
    )
}

#[test]
fn depths() {
    for depth in 0..SWITCH_DEPTH + 4 {
        let file = nested(depth);
        let refused = "module \\m\nprocess \\p\n".len() + SWITCH_DEPTH * "switch 1'0\ncase\n".len();
        let expected = format!("5 {refused}\n").into_bytes();
        let written = program(file.as_bytes());
        match depth <= SWITCH_DEPTH {
            true => assert_eq!(program(&written), written),
            false => assert_eq!(written, expected),
        }
    }
}

/// Every place of a process with every line there: accepted or refused as document 004's grammar says.
#[test]
fn which_line_stands_where() {
    let places = [
        ("", ""),
        ("switch 1'0\n", "end\n"),
        ("switch 1'0\ncase\n", "end\n"),
        ("switch 1'0\nend\n", ""),
        ("sync init\n", ""),
    ];
    // at the start, in a switch, in a case, behind the root switch, in a sync
    let lines = [
        ("assign 1'0 1'1\n", [true, false, true, true, false]),
        ("switch 1'0\nend\n", [true, false, true, false, false]),
        ("case 1'1\n", [false, true, true, false, false]),
        ("sync always\n", [true, false, false, true, true]),
        ("sync low 1'0\n", [true, false, false, true, true]),
        ("update 1'0 1'1\n", [false, false, false, false, true]),
        (
            "attribute \\x 1\nswitch 1'0\nend\n",
            [true, false, true, false, false],
        ),
        ("attribute \\x 1\ncase\n", [false, true, true, false, false]),
        ("attribute \\x 1\nassign 1'0 1'1\n", [false; 5]),
        ("attribute \\x 1\nsync always\n", [false; 5]),
        ("attribute \\x 1\nupdate 1'0 1'1\n", [false; 5]),
        ("attribute \\x 1\n", [false; 5]),
        ("wire \\a\n", [false; 5]),
        ("connect 1'0 1'0\n", [false; 5]),
        ("parameter \\p 1\n", [false; 5]),
        ("process \\q\nend\n", [false; 5]),
    ];
    for (line, stands) in lines {
        for ((before, behind), stands) in places.iter().zip(stands) {
            let file = format!("module \\m\nprocess \\p\n{before}{line}{behind}end\nend\n");
            let number = read(file.as_bytes()).map_err(|refusal| refusal.number);
            assert_eq!(number.err(), (!stands).then_some(5), "{file}");
        }
    }
}
