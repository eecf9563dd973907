//! The instructions by D04's names and the primitives by document 01's.

/// What follows an instruction's name, and the field of the image that it goes to: a (1 byte), b (2) or c (4).
#[derive(Clone, Copy, Debug, PartialEq, Eq)]
pub enum Operand {
    Nothing,
    /// c, 0 or 1
    Truth,
    /// c, two's complement
    Int,
    /// c, bits
    Float,
    /// a: how many, or how far
    Number,
    /// a fields, tag b
    Fields,
    /// b, an address
    Label,
    /// a
    Ruleset,
    /// a, a primitive of one operand
    One,
    /// a, a primitive of two operands
    Two,
    /// b
    Exception,
    /// a
    Input,
    /// a
    Output,
}

use Operand::*;

/// The instructions in the order of their opcodes, the first being 1.
pub const INSTRUCTIONS: [(&str, Operand); 40] = [
    ("MkBool", Truth),
    ("MkInt", Int),
    ("MkFloat", Float),
    ("MkNone", Nothing),
    ("MkTuple", Number),
    ("MkCon", Fields),
    ("Push", Number),
    ("Pop", Number),
    ("Slide", Number),
    ("Copy", Number),
    ("CopyArg", Number),
    ("CreateFrame", Number),
    ("PushVar", Number),
    ("MakeVar", Number),
    ("Goto", Label),
    ("If", Label),
    ("Call", Ruleset),
    ("Return", Nothing),
    ("CallPrim1", One),
    ("CallPrim2", Two),
    ("Raise", Exception),
    ("StartMatches", Nothing),
    ("MatchRule", Nothing),
    ("MatchedRule", Nothing),
    ("MatchNone", Nothing),
    ("MatchAvailable", Nothing),
    ("MatchBool", Truth),
    ("MatchInt", Int),
    ("MatchFloat", Float),
    ("MatchTuple", Number),
    ("MatchCon", Fields),
    ("MatchExn", Exception),
    ("Unpack", Nothing),
    ("Reorder", Nothing),
    ("CopyInput", Input),
    ("Consume", Input),
    ("MaybeConsume", Input),
    ("CheckOutputs", Nothing),
    ("Write", Output),
    ("Schedule", Nothing),
];

/// The primitives in the order of their numbers, the first being 1.
pub const ONE: [&str; 3] = ["not", "toFloat.i", "toInt.f"];

pub const TWO: [&str; 22] = [
    "==.i", "!=.i", ">=.i", ">.i", "<=.i", "<.i", "+.i", "-.i", "*.i", "div.i", "mod.i", "&&", "or", "==.f", ">=.f",
    ">.f", "<=.f", "<.f", "+.f", "-.f", "*.f", "/.f",
];

/// "The last instruction is Goto, Return, Raise or Schedule."
pub fn may_be_last(opcode: u8) -> bool {
    [15, 18, 21, 40].contains(&opcode)
}

pub fn opcode(name: &str) -> Option<u8> {
    let index = INSTRUCTIONS.iter().position(|(own, _)| *own == name)?;
    Some(index as u8 + 1)
}

/// The name and operand of an opcode; `None` where there is no such opcode.
pub fn instruction(opcode: u8) -> Option<(&'static str, Operand)> {
    let index = usize::from(opcode).checked_sub(1)?;
    INSTRUCTIONS.get(index).copied()
}

/// A primitive's number.
pub fn primitive(table: &[&str], name: &str) -> Option<u8> {
    let index = table.iter().position(|own| *own == name)?;
    Some(index as u8 + 1)
}

/// A primitive's name.
pub fn primitive_name(table: &[&'static str], number: u8) -> Option<&'static str> {
    let index = usize::from(number).checked_sub(1)?;
    table.get(index).copied()
}
