//! The image: refusals 1 to 4, and the program as data.

use crate::primitives;

/// An instruction with the arguments that document 01 names for it, already in range.
#[derive(Clone, Copy, Debug, PartialEq)]
pub enum Instruction {
    MkBool(bool),
    MkInt(i32),
    MkFloat(f32),
    MkNone,
    MkTuple { fields: usize },
    MkCon { fields: usize, tag: u16 },
    Push(usize),
    Pop(usize),
    Slide(usize),
    Copy(usize),
    CopyArg(usize),
    CreateFrame { locals: usize },
    PushVar(usize),
    MakeVar(usize),
    Goto(usize),
    If(usize),
    Call { ruleset: usize },
    Return,
    CallPrim1(usize),
    CallPrim2(usize),
    Raise { exception: u16 },
    StartMatches,
    MatchRule,
    MatchedRule,
    MatchNone,
    MatchAvailable,
    MatchBool(bool),
    MatchInt(i32),
    MatchFloat(f32),
    MatchTuple { fields: usize },
    MatchCon { fields: usize, tag: u16 },
    MatchExn { exception: u16 },
    Unpack,
    Reorder,
    CopyInput(usize),
    Consume(usize),
    MaybeConsume(usize),
    CheckOutputs,
    Write(usize),
    Schedule,
}

/// "entry address (2 bytes), rule count (1 byte, 1..16), rule addresses (2 each)"
#[derive(Clone, Debug)]
pub struct Ruleset {
    pub entry: usize,
    pub rules: Vec<usize>,
}

/// An instruction, and the opcode and first argument it came from.
#[derive(Clone, Copy, Debug)]
pub struct Coded {
    pub opcode: u8,
    pub a: u8,
    pub instruction: Instruction,
}

/// The accepted image.
#[derive(Clone, Debug)]
pub struct Program {
    pub inputs: usize,
    pub outputs: usize,
    /// "Ruleset 0 is the box's."
    pub rulesets: Vec<Ruleset>,
    /// "handler ruleset (below R, or 255 for none)"
    pub handler: Option<usize>,
    pub code: Vec<Coded>,
}

impl Program {
    pub fn rule_count(&self, ruleset: usize) -> usize {
        self.rulesets[ruleset].rules.len()
    }
}

/// The bytes "Big-endian", taken from the front; `None` where they run out.
struct Bytes<'a>(&'a [u8]);

impl Bytes<'_> {
    fn number(&mut self, length: usize) -> Option<u32> {
        if self.0.len() < length {
            return None;
        }
        let (front, rest) = self.0.split_at(length);
        self.0 = rest;
        Some(front.iter().fold(0, |number, byte| number << 8 | u32::from(*byte)))
    }

    fn small(&mut self, length: usize) -> Option<usize> {
        self.number(length).map(|number| number as usize)
    }
}

/// The image as data, or the number of the refusal, "first that applies".
pub fn read(image: &[u8]) -> Result<Program, u32> {
    // 1: "fewer than 11 bytes, or the length isn't the slice's"
    if image.len() < 11 {
        return Err(1);
    }
    let mut bytes = Bytes(image);
    if bytes.number(4).map(u64::from) != Some(image.len() as u64) {
        return Err(1);
    }
    // 2: "version"
    if bytes.number(1) != Some(1) {
        return Err(2);
    }
    // 3: "a count or handler outside its range, or the total length doesn't fit the counts"
    let mut program = read_counts(&mut bytes).ok_or(3u32)?;
    // 4: "an opcode, argument, unused field, address or last instruction"
    let length = bytes.0.len() / 8;
    if !addresses_exist(&program.rulesets, length) {
        return Err(4);
    }
    for _ in 0..length {
        let coded = read_instruction(&mut bytes, &program, length).ok_or(4u32)?;
        program.code.push(coded);
    }
    match program.code.last().map(|coded| coded.instruction) {
        Some(Instruction::Goto(_) | Instruction::Return | Instruction::Raise { .. } | Instruction::Schedule) => {
            Ok(program)
        }
        _ => Err(4),
    }
}

/// Everything up to the instructions. `None` is refusal 3.
fn read_counts(bytes: &mut Bytes<'_>) -> Option<Program> {
    let inputs = bytes.small(1).filter(|inputs| *inputs <= 8)?;
    let outputs = bytes.small(1).filter(|outputs| *outputs <= 8)?;
    let count = bytes.small(1).filter(|count| (1..=32).contains(count))?;
    let handler = match bytes.small(1)? {
        255 => None,
        handler if handler < count => Some(handler),
        _ => return None,
    };
    let length = bytes.small(2).filter(|length| (1..=4096).contains(length))?;
    let rulesets = (0..count).map(|_| read_ruleset(bytes)).collect::<Option<Vec<_>>>()?;
    if bytes.0.len() != 8 * length {
        return None;
    }
    Some(Program {
        inputs,
        outputs,
        rulesets,
        handler,
        code: Vec::with_capacity(length),
    })
}

fn read_ruleset(bytes: &mut Bytes<'_>) -> Option<Ruleset> {
    let entry = bytes.small(2)?;
    let count = bytes.small(1).filter(|count| (1..=16).contains(count))?;
    let rules = (0..count).map(|_| bytes.small(2)).collect::<Option<Vec<_>>>()?;
    Some(Ruleset { entry, rules })
}

/// "Addresses count instructions from 0."
fn addresses_exist(rulesets: &[Ruleset], length: usize) -> bool {
    rulesets
        .iter()
        .all(|ruleset| ruleset.entry < length && ruleset.rules.iter().all(|rule| *rule < length))
}

/// Which of a, b and c an instruction names; "Fields not named below are zero."
fn named_fields(opcode: u8) -> Option<(bool, bool, bool)> {
    let (a, b, c) = (true, true, true);
    let fields = match opcode {
        1..=3 | 27..=29 => (!a, !b, c),
        5 | 7..=14 | 17 | 19 | 20 | 30 | 35..=37 | 39 => (a, !b, !c),
        6 | 31 => (a, b, !c),
        15 | 16 | 21 | 32 => (!a, b, !c),
        4 | 18 | 22..=26 | 33 | 34 | 38 | 40 => (!a, !b, !c),
        _ => return None,
    };
    Some(fields)
}

/// "Then N instructions of 8 bytes: opcode, a (1 byte), b (2), c (4)." `None` is refusal 4.
fn read_instruction(bytes: &mut Bytes<'_>, program: &Program, length: usize) -> Option<Coded> {
    let opcode = bytes.number(1)? as u8;
    let a = bytes.small(1)?;
    let b = bytes.small(2)?;
    let c = bytes.number(4)?;
    let (has_a, has_b, has_c) = named_fields(opcode)?;
    if (!has_a && a != 0) || (!has_b && b != 0) || (!has_c && c != 0) {
        return None;
    }
    let instruction = decode(opcode, a, b, c, program, length)?;
    Some(Coded {
        opcode,
        a: a as u8,
        instruction,
    })
}

fn decode(opcode: u8, a: usize, b: usize, c: u32, program: &Program, length: usize) -> Option<Instruction> {
    use Instruction::*;
    // "a of CopyInput, Consume, MaybeConsume, Write, Call and the primitives is checked in the image (it must
    // exist), as is c of MkBool and MatchBool."
    let below = |number: usize, count: usize| if number < count { Some(number) } else { None };
    let truth = |c: u32| if c <= 1 { Some(c == 1) } else { None };
    let tag = b as u16;
    let instruction = match opcode {
        1 => MkBool(truth(c)?),
        2 => MkInt(c as i32),
        3 => MkFloat(primitives::canonical(f32::from_bits(c))),
        4 => MkNone,
        5 => MkTuple { fields: a },
        6 => MkCon { fields: a, tag },
        7 => Push(a),
        8 => Pop(a),
        9 => Slide(a),
        10 => Copy(a),
        11 => CopyArg(a),
        12 => CreateFrame { locals: a },
        13 => PushVar(a),
        14 => MakeVar(a),
        15 => Goto(below(b, length)?),
        16 => If(below(b, length)?),
        17 => Call {
            ruleset: below(a, program.rulesets.len())?,
        },
        18 => Return,
        19 if primitives::cost(1, a).is_some() => CallPrim1(a),
        20 if primitives::cost(2, a).is_some() => CallPrim2(a),
        21 => Raise { exception: tag },
        22 => StartMatches,
        23 => MatchRule,
        24 => MatchedRule,
        25 => MatchNone,
        26 => MatchAvailable,
        27 => MatchBool(truth(c)?),
        28 => MatchInt(c as i32),
        // "floats by their bits, a NaN c read as 7FC00000"
        29 => MatchFloat(primitives::canonical(f32::from_bits(c))),
        30 => MatchTuple { fields: a },
        31 => MatchCon { fields: a, tag },
        32 => MatchExn { exception: tag },
        33 => Unpack,
        34 => Reorder,
        35 => CopyInput(below(a, program.inputs)?),
        36 => Consume(below(a, program.inputs)?),
        37 => MaybeConsume(below(a, program.inputs)?),
        38 => CheckOutputs,
        39 => Write(below(a, program.outputs)?),
        40 => Schedule,
        _ => return None,
    };
    Some(instruction)
}
