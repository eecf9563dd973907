//! From lines to an image and a run sheet that the machine accepts.

use crate::line::{Error, Token};
use crate::names::{self, Operand};
use crate::parse::{self, BoxLine, RulesetLine, SheetLines, Source, Statement};
use crate::program::{Instruction, Program, Ruleset, Run, Sheet};
use crate::value::Value;
use std::collections::HashMap;

/// The image and run sheet of a text, or everything that is wrong with it, by line.
pub fn assemble(text: &str) -> Result<Run, Vec<Error>> {
    let source = parse::parse(text)?;
    let start = Token {
        text: "",
        line: 1,
        column: 1,
    };
    let Some(header) = &source.header else {
        return Err(vec![start.error("there is no `box` line".to_string())]);
    };
    let mut assembler = Assembler {
        header,
        rulesets: HashMap::new(),
        labels: HashMap::new(),
        errors: Vec::new(),
    };
    let run = assembler.run(&source);
    let mut errors = assembler.errors;
    if errors.is_empty() {
        return Ok(run);
    }
    errors.sort_by_key(|error| (error.line, error.column));
    Err(errors)
}

struct Assembler<'a> {
    header: &'a BoxLine<'a>,
    rulesets: HashMap<&'a str, usize>,
    labels: HashMap<&'a str, usize>,
    errors: Vec<Error>,
}

impl<'a> Assembler<'a> {
    fn wrong(&mut self, at: Token<'_>, message: String) {
        self.errors.push(at.error(message));
    }

    /// What this returns counts only where no error was found.
    fn run(&mut self, source: &'a Source<'a>) -> Run {
        self.name_rulesets(&source.rulesets);
        self.name_labels(source);
        self.check_code(&source.code);
        let handler = self.header.handler.map(|name| self.ruleset(name));
        let program = Program {
            inputs: self.header.inputs,
            outputs: self.header.outputs,
            handler,
            rulesets: source.rulesets.iter().map(|line| self.ruleset_of(line)).collect(),
            code: source
                .code
                .iter()
                .map(|statement| self.instruction(statement))
                .collect(),
        };
        let sheet = source.sheet.at.map(|at| self.sheet(&source.sheet, at));
        Run { program, sheet }
    }

    /// "rulesets R (1..32)"
    fn name_rulesets(&mut self, rulesets: &'a [RulesetLine<'a>]) {
        if rulesets.is_empty() {
            self.wrong(self.header.at, "there is no `ruleset` line".to_string());
        }
        if let Some(extra) = rulesets.get(32) {
            self.wrong(extra.name, "an image has at most 32 rulesets".to_string());
        }
        for (number, ruleset) in rulesets.iter().enumerate() {
            let name = ruleset.name;
            if self.rulesets.insert(name.text, number).is_some() {
                self.wrong(name, format!("a second ruleset `{}`", name.shown()));
            }
        }
    }

    fn name_labels(&mut self, source: &'a Source<'a>) {
        for (name, address) in &source.labels {
            if self.labels.insert(name.text, *address).is_some() {
                self.wrong(*name, format!("a second label `{}`", name.shown()));
            }
            if *address == source.code.len() {
                self.wrong(*name, format!("no instruction comes after label `{}`", name.shown()));
            }
        }
    }

    /// "instruction count N (1..4096)"; "The last instruction is Goto, Return, Raise or Schedule."
    fn check_code(&mut self, code: &[Statement<'_>]) {
        if let Some(extra) = code.get(4096) {
            self.wrong(extra.at, "an image has at most 4096 instructions".to_string());
        }
        match code.last() {
            None => self.wrong(self.header.at, "there is no instruction".to_string()),
            Some(last) if names::may_be_last(last.instruction.opcode) => {}
            Some(last) => {
                let name = last.at.text;
                let message = format!("the last instruction is Goto, Return, Raise or Schedule, not {name}");
                self.wrong(last.at, message);
            }
        }
    }

    fn ruleset(&mut self, name: Token<'_>) -> u8 {
        match self.rulesets.get(name.text) {
            Some(number) => *number as u8,
            None => {
                self.wrong(name, format!("there is no ruleset `{}`", name.shown()));
                0
            }
        }
    }

    fn label(&mut self, name: Token<'_>) -> u16 {
        match self.labels.get(name.text) {
            Some(address) => *address as u16,
            None => {
                self.wrong(name, format!("there is no label `{}`", name.shown()));
                0
            }
        }
    }

    fn ruleset_of(&mut self, line: &RulesetLine<'_>) -> Ruleset {
        Ruleset {
            entry: self.label(line.entry),
            rules: line.rules.iter().map(|rule| self.label(*rule)).collect(),
        }
    }

    fn instruction(&mut self, statement: &Statement<'_>) -> Instruction {
        let mut instruction = statement.instruction;
        let Some(token) = statement.means else {
            return instruction;
        };
        match names::instruction(instruction.opcode) {
            Some((_, Operand::Label)) => instruction.b = self.label(token),
            Some((_, Operand::Ruleset)) => instruction.a = self.ruleset(token),
            Some((_, Operand::Output)) => self.check_wire(token, instruction.a, self.header.outputs, "output"),
            _ => self.check_wire(token, instruction.a, self.header.inputs, "input"),
        }
        instruction
    }

    fn check_wire(&mut self, at: Token<'_>, number: u8, count: u8, kind: &str) {
        if number >= count {
            self.wrong(at, format!("there is no {kind} {number}, the box has {count}"));
        }
    }

    fn sheet(&mut self, lines: &SheetLines<'_>, at: Token<'_>) -> Sheet {
        Sheet {
            time: self.said(lines.time, at, "time"),
            stack: self.said(lines.stack, at, "stack"),
            heap: self.said(lines.heap, at, "heap"),
            card: self.card(lines, at),
            wires: self.wires(lines),
        }
    }

    /// What a run sheet has to say.
    fn said(&mut self, number: Option<u32>, at: Token<'_>, what: &str) -> u32 {
        if number.is_none() {
            self.wrong(at, format!("the run sheet has no `{what}` line"));
        }
        number.unwrap_or(1)
    }

    fn card(&mut self, lines: &SheetLines<'_>, at: Token<'_>) -> Vec<u32> {
        let all = lines.card.get(&0).copied();
        let opcodes = 1..=names::INSTRUCTIONS.len() as u8;
        let own = |opcode| lines.card.get(&opcode).copied();
        if all.is_none() && opcodes.clone().any(|opcode| own(opcode).is_none()) {
            self.wrong(at, "the run sheet has no `card all` line".to_string());
        }
        opcodes.map(|opcode| own(opcode).or(all).unwrap_or(1)).collect()
    }

    /// A wire without a line is empty.
    fn wires(&mut self, lines: &SheetLines<'_>) -> Vec<Option<Value>> {
        let mut wires = vec![None; usize::from(self.header.inputs)];
        for line in &lines.wires {
            match wires.get_mut(line.number) {
                Some(wire) => *wire = line.value.clone(),
                None => self.check_wire(line.at, line.number as u8, self.header.inputs, "input"),
            }
        }
        wires
    }
}
