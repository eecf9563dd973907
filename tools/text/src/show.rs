//! From an image and a run sheet to the canonical text.

use crate::names::{self, Operand};
use crate::program::{Instruction, Program, Run, Sheet};
use crate::value;
use std::collections::BTreeSet;

/// The canonical text. The image keeps no names, so they are made from numbers: `ruleset0`, and `L12` for the
/// instruction that is number 12. With `numbers`, a comment after each instruction has its number.
pub fn show(run: &Run, numbers: bool) -> String {
    let mut lines = head(&run.program);
    lines.push(String::new());
    lines.extend(code(&run.program, numbers));
    if let Some(sheet) = &run.sheet {
        lines.push(String::new());
        lines.extend(sheet_lines(sheet));
    }
    lines.push(String::new());
    lines.join("\n")
}

fn head(program: &Program) -> Vec<String> {
    let handler = match program.handler {
        Some(handler) => format!(" handler ruleset{handler}"),
        None => String::new(),
    };
    let mut lines = vec![format!(
        "box inputs {} outputs {}{handler}",
        program.inputs, program.outputs
    )];
    for (number, ruleset) in program.rulesets.iter().enumerate() {
        let rules: Vec<String> = ruleset.rules.iter().map(|rule| format!("L{rule}")).collect();
        let (entry, rules) = (ruleset.entry, rules.join(" "));
        lines.push(format!("ruleset ruleset{number} entry L{entry} rules {rules}"));
    }
    lines
}

/// The addresses that something names.
fn targets(program: &Program) -> BTreeSet<usize> {
    let jumps = program.code.iter().filter(|instruction| {
        let known = names::instruction(instruction.opcode);
        matches!(known, Some((_, Operand::Label)))
    });
    let rulesets = program.rulesets.iter();
    let named = rulesets.flat_map(|ruleset| ruleset.rules.iter().chain([&ruleset.entry]));
    named
        .copied()
        .chain(jumps.map(|jump| jump.b))
        .map(usize::from)
        .collect()
}

fn code(program: &Program, numbers: bool) -> Vec<String> {
    let targets = targets(program);
    let mut lines = Vec::new();
    for (address, instruction) in program.code.iter().enumerate() {
        if targets.contains(&address) {
            lines.push(format!("L{address}:"));
        }
        let text = instruction_text(*instruction);
        lines.push(if numbers {
            format!("    {text:<24} -- {address}")
        } else {
            format!("    {text}")
        });
    }
    lines
}

fn instruction_text(instruction: Instruction) -> String {
    let Instruction { opcode, a, b, c } = instruction;
    let (name, operand) = names::instruction(opcode).unwrap_or(("", Operand::Nothing));
    match operand {
        Operand::Nothing => name.to_string(),
        Operand::Truth => format!("{name} {}", value::truth_text(c == 1)),
        Operand::Int => format!("{name} {}", c as i32),
        Operand::Float => format!("{name} {}", value::float_text(c)),
        Operand::Fields => format!("{name} {a} tag {b}"),
        Operand::Label => format!("{name} L{b}"),
        Operand::Ruleset => format!("{name} ruleset{a}"),
        Operand::One => format!("{name} {}", names::primitive_name(&names::ONE, a).unwrap_or("")),
        Operand::Two => format!("{name} {}", names::primitive_name(&names::TWO, a).unwrap_or("")),
        Operand::Exception => format!("{name} {b}"),
        Operand::Number | Operand::Input | Operand::Output => format!("{name} {a}"),
    }
}

fn sheet_lines(sheet: &Sheet) -> Vec<String> {
    let mut lines = vec![
        format!("time {}", sheet.time),
        format!("stack {}", sheet.stack),
        format!("heap {}", sheet.heap),
    ];
    let usual = usual_number(&sheet.card);
    lines.push(format!("card all {usual}"));
    for ((name, _), cycles) in names::INSTRUCTIONS.iter().zip(&sheet.card) {
        if *cycles != usual {
            lines.push(format!("card {name} {cycles}"));
        }
    }
    for (number, wire) in sheet.wires.iter().enumerate() {
        lines.push(format!("wire {number} {}", value::wire_text(wire)));
    }
    lines
}

/// The number that the card has most often; of several the smallest.
fn usual_number(card: &[u32]) -> u32 {
    let often = |cycles: &u32| card.iter().filter(|other| *other == cycles).count();
    let best = card
        .iter()
        .max_by_key(|cycles| (often(cycles), std::cmp::Reverse(**cycles)));
    best.copied().unwrap_or(1)
}
