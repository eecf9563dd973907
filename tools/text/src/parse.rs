//! From text to lines that say something. Names aren't looked up here, since labels may come later.

use crate::line::{Error, Line, Token};
use crate::names::{self, Operand, ONE, TWO};
use crate::program::Instruction;
use crate::value::Value;
use std::collections::BTreeMap;

pub struct BoxLine<'a> {
    pub at: Token<'a>,
    pub inputs: u8,
    pub outputs: u8,
    pub handler: Option<Token<'a>>,
}

pub struct RulesetLine<'a> {
    pub name: Token<'a>,
    pub entry: Token<'a>,
    pub rules: Vec<Token<'a>>,
}

/// An instruction, and the token that says which label, ruleset, input or output it means, if it does.
pub struct Statement<'a> {
    pub at: Token<'a>,
    pub instruction: Instruction,
    pub means: Option<Token<'a>>,
}

pub struct WireLine<'a> {
    pub at: Token<'a>,
    pub number: usize,
    pub value: Option<Value>,
}

/// The lines of a run sheet, in any order.
#[derive(Default)]
pub struct SheetLines<'a> {
    pub at: Option<Token<'a>>,
    pub time: Option<u32>,
    pub stack: Option<u32>,
    pub heap: Option<u32>,
    /// By opcode; `card all` by 0.
    pub card: BTreeMap<u8, u32>,
    pub wires: Vec<WireLine<'a>>,
}

#[derive(Default)]
pub struct Source<'a> {
    pub header: Option<BoxLine<'a>>,
    pub rulesets: Vec<RulesetLine<'a>>,
    /// With the number of instructions before each.
    pub labels: Vec<(Token<'a>, usize)>,
    pub code: Vec<Statement<'a>>,
    pub sheet: SheetLines<'a>,
}

/// Every line, or what is wrong with each line that is wrong.
pub fn parse(text: &str) -> Result<Source<'_>, Vec<Error>> {
    let mut source = Source::default();
    let mut errors = Vec::new();
    for (index, text) in text.split('\n').enumerate() {
        let mut line = Line::new(text, index + 1);
        errors.extend(source.line(&mut line).err());
    }
    if errors.is_empty() {
        Ok(source)
    } else {
        Err(errors)
    }
}

/// The error where something is said again that may be said once.
fn second(at: Token<'_>, what: &str) -> Error {
    at.error(format!("a second line for {what}"))
}

fn set<T>(place: &mut Option<T>, value: T, at: Token<'_>, what: &str) -> Result<(), Error> {
    match place.replace(value) {
        Some(_) => Err(second(at, what)),
        None => Ok(()),
    }
}

impl<'a> Source<'a> {
    /// Labels, then what the first word says.
    fn line(&mut self, line: &mut Line<'a>) -> Result<(), Error> {
        while let Some(label) = line.label()? {
            self.labels.push((label, self.code.len()));
        }
        match line.peek().text {
            "" => {}
            "box" => self.box_line(line)?,
            "ruleset" => self.ruleset(line)?,
            "time" | "stack" | "heap" => self.limit(line)?,
            "card" => self.card(line)?,
            "wire" => self.wire(line)?,
            _ => self.instruction(line)?,
        }
        line.end()
    }

    fn box_line(&mut self, line: &mut Line<'a>) -> Result<(), Error> {
        let at = line.take();
        line.keyword("inputs")?;
        let inputs = line.number("a number of inputs", 0..=8)? as u8;
        line.keyword("outputs")?;
        let outputs = line.number("a number of outputs", 0..=8)? as u8;
        let mut handler = None;
        if line.peek().text == "handler" {
            line.take();
            handler = Some(line.name("a ruleset")?);
        }
        let header = BoxLine {
            at,
            inputs,
            outputs,
            handler,
        };
        set(&mut self.header, header, at, "the box")
    }

    fn ruleset(&mut self, line: &mut Line<'a>) -> Result<(), Error> {
        line.take();
        let name = line.name("the ruleset's name")?;
        line.keyword("entry")?;
        let entry = line.name("a label")?;
        line.keyword("rules")?;
        let mut rules = vec![line.name("a label")?];
        while !line.peek().text.is_empty() {
            rules.push(line.name("a label")?);
        }
        self.rulesets.push(RulesetLine { name, entry, rules });
        // "rule count (1 byte, 1..16)"
        match self.rulesets.last().and_then(|ruleset| ruleset.rules.get(16)) {
            Some(rule) => Err(rule.error("a ruleset has at most 16 rules".to_string())),
            None => Ok(()),
        }
    }

    /// "time T (any 32-bit number), stack S (0..4096 words), heap H (0..16384 words)"
    fn limit(&mut self, line: &mut Line<'a>) -> Result<(), Error> {
        let at = self.sheet_line(line);
        let (place, cap) = match at.text {
            "time" => (&mut self.sheet.time, u32::MAX),
            "stack" => (&mut self.sheet.stack, 4096),
            _ => (&mut self.sheet.heap, 16384),
        };
        let limit = line.number(&format!("a limit on {}", at.text), 0..=cap)?;
        set(place, limit, at, at.text)
    }

    /// "Card: 40 numbers of 32 bits, one per opcode, each 1..65535."
    fn card(&mut self, line: &mut Line<'a>) -> Result<(), Error> {
        self.sheet_line(line);
        let name = line.take();
        let opcode = match (name.text, names::opcode(name.text)) {
            ("all", _) => 0,
            (_, Some(opcode)) => opcode,
            _ => return Err(name.expected("`all` or an instruction")),
        };
        let cycles = line.number("a card number", 1..=65535)?;
        match self.sheet.card.insert(opcode, cycles) {
            Some(_) => Err(second(name, &format!("card {}", name.text))),
            None => Ok(()),
        }
    }

    fn wire(&mut self, line: &mut Line<'a>) -> Result<(), Error> {
        self.sheet_line(line);
        let at = line.peek();
        let number = line.number("the number of an input", 0..=7)? as usize;
        let value = line.wire()?;
        if self.sheet.wires.iter().any(|wire| wire.number == number) {
            return Err(second(at, &format!("wire {number}")));
        }
        self.sheet.wires.push(WireLine { at, number, value });
        Ok(())
    }

    /// The first word of a line of the run sheet.
    fn sheet_line(&mut self, line: &mut Line<'a>) -> Token<'a> {
        let at = line.take();
        self.sheet.at.get_or_insert(at);
        at
    }

    fn instruction(&mut self, line: &mut Line<'a>) -> Result<(), Error> {
        let at = line.take();
        let Some(opcode) = names::opcode(at.text) else {
            return Err(unknown(at));
        };
        let operand = names::instruction(opcode).map_or(Operand::Nothing, |(_, operand)| operand);
        let mut statement = Statement {
            at,
            instruction: Instruction {
                opcode,
                a: 0,
                b: 0,
                c: 0,
            },
            means: None,
        };
        statement.operand(operand, line)?;
        self.code.push(statement);
        Ok(())
    }
}

fn unknown(at: Token<'_>) -> Error {
    let alike = names::INSTRUCTIONS
        .iter()
        .find(|(name, _)| name.eq_ignore_ascii_case(at.text));
    let text = at.shown();
    at.error(match alike {
        Some((name, _)) => format!("no instruction is called `{text}`: is it {name}?"),
        None => format!("no line starts with `{text}`, and no instruction is called so"),
    })
}

impl<'a> Statement<'a> {
    fn operand(&mut self, operand: Operand, line: &mut Line<'a>) -> Result<(), Error> {
        let instruction = &mut self.instruction;
        match operand {
            Operand::Nothing => {}
            Operand::Truth => instruction.c = u32::from(line.truth()?),
            Operand::Int => instruction.c = line.integer()? as u32,
            Operand::Float => instruction.c = line.float()?,
            Operand::Number => instruction.a = line.number("a number", 0..=255)? as u8,
            Operand::Fields => {
                instruction.a = line.number("a number of fields", 0..=255)? as u8;
                line.keyword("tag")?;
                instruction.b = line.number("a tag", 0..=65535)? as u16;
            }
            Operand::Label => self.means = Some(line.name("a label")?),
            Operand::Ruleset => self.means = Some(line.name("a ruleset")?),
            Operand::One => instruction.a = line.primitive(&ONE, ("CallPrim2", &TWO))?,
            Operand::Two => instruction.a = line.primitive(&TWO, ("CallPrim1", &ONE))?,
            Operand::Exception => instruction.b = line.number("an exception", 0..=65535)? as u16,
            Operand::Input | Operand::Output => {
                self.means = Some(line.peek());
                instruction.a = line.number("the number of a wire", 0..=7)? as u8;
            }
        }
        Ok(())
    }
}
