//! An image and a run sheet as data, and their bytes.

use crate::value::{self, Value};

#[derive(Clone, Debug, PartialEq, Eq)]
pub struct Ruleset {
    pub entry: u16,
    pub rules: Vec<u16>,
}

/// "opcode, a (1 byte), b (2), c (4)"
#[derive(Clone, Copy, Debug, PartialEq, Eq)]
pub struct Instruction {
    pub opcode: u8,
    pub a: u8,
    pub b: u16,
    pub c: u32,
}

#[derive(Clone, Debug, PartialEq, Eq)]
pub struct Program {
    pub inputs: u8,
    pub outputs: u8,
    pub handler: Option<u8>,
    /// "Ruleset 0 is the box's."
    pub rulesets: Vec<Ruleset>,
    pub code: Vec<Instruction>,
}

#[derive(Clone, Debug, PartialEq, Eq)]
pub struct Sheet {
    pub time: u32,
    pub stack: u32,
    pub heap: u32,
    /// One per opcode.
    pub card: Vec<u32>,
    /// One per input.
    pub wires: Vec<Option<Value>>,
}

/// An image that the machine accepts, and perhaps a run sheet that it accepts with it.
#[derive(Clone, Debug, PartialEq, Eq)]
pub struct Run {
    pub(crate) program: Program,
    pub(crate) sheet: Option<Sheet>,
}

impl Run {
    /// The image alone.
    pub fn image(&self) -> Vec<u8> {
        self.program.image()
    }

    /// The image, then the run sheet if there is one: what the program reads from standard input.
    pub fn bytes(&self) -> Vec<u8> {
        let mut bytes = self.program.image();
        if let Some(sheet) = &self.sheet {
            bytes.extend(sheet.bytes());
        }
        bytes
    }
}

impl Program {
    fn image(&self) -> Vec<u8> {
        let mut image = vec![0, 0, 0, 0, 1, self.inputs, self.outputs];
        image.extend([self.rulesets.len() as u8, self.handler.unwrap_or(255)]);
        image.extend((self.code.len() as u16).to_be_bytes());
        for ruleset in &self.rulesets {
            image.extend(ruleset.entry.to_be_bytes());
            image.push(ruleset.rules.len() as u8);
            image.extend(ruleset.rules.iter().flat_map(|rule| rule.to_be_bytes()));
        }
        for instruction in &self.code {
            image.extend([instruction.opcode, instruction.a]);
            image.extend(instruction.b.to_be_bytes());
            image.extend(instruction.c.to_be_bytes());
        }
        let length = image.len() as u32;
        image[..4].copy_from_slice(&length.to_be_bytes());
        image
    }
}

impl Sheet {
    /// "length in bytes, itself included, version 1, T, S, H, the 40 card numbers, the input wires"
    fn bytes(&self) -> Vec<u8> {
        let mut words = vec![0, 1, self.time, self.stack, self.heap];
        words.extend(&self.card);
        words.extend(self.wires.iter().flat_map(value::wire));
        words[0] = 4 * words.len() as u32;
        words.iter().flat_map(|word| word.to_be_bytes()).collect()
    }
}
