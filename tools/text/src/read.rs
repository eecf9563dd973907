//! From bytes to an image and a run sheet, or the refusal that the program would print, and where.

use crate::names::{self, Operand};
use crate::program::{Instruction, Program, Ruleset, Run, Sheet};
use crate::value::{self, Value, WIRE};
use std::fmt;
use std::ops::RangeInclusive;

/// "1 if its length is over 33,899 or the input ends first"
const LONGEST_IMAGE: usize = 33_899;

/// The first refusal that applies, the byte it is about, and what is wrong there.
#[derive(Clone, Debug, PartialEq, Eq)]
pub struct Refusal {
    pub number: u32,
    pub byte: usize,
    pub reason: String,
}

impl fmt::Display for Refusal {
    fn fmt(&self, f: &mut fmt::Formatter<'_>) -> fmt::Result {
        write!(f, "refused {} at byte {}: {}", self.number, self.byte, self.reason)
    }
}

fn refuse<T>(number: u32, byte: usize, reason: String) -> Result<T, Refusal> {
    Err(Refusal { number, byte, reason })
}

/// An image, alone or followed by a run sheet, and how many bytes it was: "Bytes after it aren't read."
pub fn read(bytes: &[u8]) -> Result<(Run, usize), Refusal> {
    let length = image_length(bytes)?;
    let (image, rest) = bytes.split_at(length);
    let program = read_image(image)?;
    if rest.is_empty() {
        return Ok((Run { program, sheet: None }, length));
    }
    let (sheet, used) = read_sheet(rest, length, usize::from(program.inputs))?;
    let sheet = Some(sheet);
    Ok((Run { program, sheet }, length + used))
}

/// Refusal 1.
fn image_length(bytes: &[u8]) -> Result<usize, Refusal> {
    let Some(length) = word(bytes, 0) else {
        return refuse(1, 0, format!("{} bytes are no image", bytes.len()));
    };
    let length = length as usize;
    if length < 11 {
        return refuse(1, 0, format!("an image has at least 11 bytes, not {length}"));
    }
    if length > LONGEST_IMAGE {
        return refuse(1, 0, format!("no image is {length} bytes long, only up to 33899"));
    }
    if length > bytes.len() {
        let reason = format!("the image is {length} bytes long, but here are {}", bytes.len());
        return refuse(1, 0, reason);
    }
    Ok(length)
}

/// The big-endian word at a byte.
fn word(bytes: &[u8], byte: usize) -> Option<u32> {
    let four = bytes.get(byte..byte + 4)?;
    Some(four.iter().fold(0, |word, byte| word << 8 | u32::from(*byte)))
}

/// The image's counts and addresses, from the front.
struct Bytes<'a> {
    image: &'a [u8],
    next: usize,
}

impl Bytes<'_> {
    fn number(&mut self, size: usize, what: &str) -> Result<u32, Refusal> {
        let Some(bytes) = self.image.get(self.next..self.next + size) else {
            return refuse(3, self.next, format!("the image ends before {what}"));
        };
        self.next += size;
        Ok(bytes.iter().fold(0, |number, byte| number << 8 | u32::from(*byte)))
    }

    fn count(&mut self, size: usize, range: RangeInclusive<u32>, what: &str) -> Result<u32, Refusal> {
        let byte = self.next;
        let number = self.number(size, what)?;
        if !range.contains(&number) {
            let (low, high) = (range.start(), range.end());
            return refuse(3, byte, format!("{what}: {number} is not in {low}..{high}"));
        }
        Ok(number)
    }

    /// "handler ruleset (below R, or 255 for none)"
    fn handler(&mut self, rulesets: u32) -> Result<Option<u8>, Refusal> {
        match self.number(1, "the handler")? {
            255 => Ok(None),
            handler if handler < rulesets => Ok(Some(handler as u8)),
            odd => refuse(
                3,
                self.next - 1,
                format!("the handler is {odd}, but there are {rulesets} rulesets"),
            ),
        }
    }

    /// "entry address (2 bytes), rule count (1 byte, 1..16), rule addresses (2 each)"
    fn ruleset(&mut self, number: u32) -> Result<Ruleset, Refusal> {
        let what = format!("the rules of ruleset {number}");
        let entry = self.number(2, &what)? as u16;
        let count = self.count(1, 1..=16, &what)?;
        let rules: Result<Vec<u16>, Refusal> = (0..count).map(|_| Ok(self.number(2, &what)? as u16)).collect();
        Ok(Ruleset { entry, rules: rules? })
    }
}

/// Refusals 2 to 4.
fn read_image(image: &[u8]) -> Result<Program, Refusal> {
    if image[4] != 1 {
        return refuse(2, 4, format!("the version is {}, not 1", image[4]));
    }
    let mut bytes = Bytes { image, next: 5 };
    let inputs = bytes.count(1, 0..=8, "inputs")? as u8;
    let outputs = bytes.count(1, 0..=8, "outputs")? as u8;
    let count = bytes.count(1, 1..=32, "rulesets")?;
    let handler = bytes.handler(count)?;
    let length = bytes.count(2, 1..=4096, "instructions")? as usize;
    let rulesets: Result<Vec<Ruleset>, Refusal> = (0..count).map(|number| bytes.ruleset(number)).collect();
    let program = Program {
        inputs,
        outputs,
        handler,
        rulesets: rulesets?,
        code: Vec::new(),
    };
    let asked = bytes.next + 8 * length;
    if asked != image.len() {
        let reason = format!("the counts ask for {asked} bytes, the image has {}", image.len());
        return refuse(3, 0, reason);
    }
    check_addresses(&program.rulesets, length)?;
    read_code(program, image, bytes.next)
}

/// "Addresses count instructions from 0."
fn check_addresses(rulesets: &[Ruleset], length: usize) -> Result<(), Refusal> {
    let mut byte = 11;
    for (number, ruleset) in rulesets.iter().enumerate() {
        check_address(ruleset.entry, length, byte, &format!("the entry of ruleset {number}"))?;
        byte += 3;
        for rule in &ruleset.rules {
            check_address(*rule, length, byte, &format!("a rule of ruleset {number}"))?;
            byte += 2;
        }
    }
    Ok(())
}

fn check_address(address: u16, length: usize, byte: usize, what: &str) -> Result<(), Refusal> {
    if usize::from(address) < length {
        return Ok(());
    }
    refuse(
        4,
        byte,
        format!("{what} is {address}, but there are {length} instructions"),
    )
}

/// "Then N instructions of 8 bytes".
fn read_code(mut program: Program, image: &[u8], start: usize) -> Result<Program, Refusal> {
    let code: Vec<Instruction> = image[start..].chunks(8).map(read_instruction).collect();
    for (number, instruction) in code.iter().enumerate() {
        if let Err(reason) = check_instruction(*instruction, &program, code.len()) {
            return refuse(4, start + 8 * number, format!("instruction {number}: {reason}"));
        }
    }
    match code.last() {
        Some(last) if names::may_be_last(last.opcode) => {
            program.code = code;
            Ok(program)
        }
        _ => refuse(
            4,
            image.len() - 8,
            "the last instruction is not Goto, Return, Raise or Schedule".to_string(),
        ),
    }
}

fn read_instruction(bytes: &[u8]) -> Instruction {
    Instruction {
        opcode: bytes[0],
        a: bytes[1],
        b: u16::from(bytes[2]) << 8 | u16::from(bytes[3]),
        c: word(bytes, 4).unwrap_or(0),
    }
}

/// "an opcode, argument, unused field, address"
fn check_instruction(instruction: Instruction, program: &Program, length: usize) -> Result<(), String> {
    let Some((name, operand)) = names::instruction(instruction.opcode) else {
        return Err(format!("no instruction has the opcode {}", instruction.opcode));
    };
    if !has_argument(instruction, operand, program) {
        return Err(format!("{name} with an argument that doesn't exist"));
    }
    if !unused_are_zero(instruction, operand) {
        return Err(format!("{name} with an unused field that isn't zero"));
    }
    let target = usize::from(instruction.b);
    if operand == Operand::Label && target >= length {
        return Err(format!("{name} to {target}, but there are {length} instructions"));
    }
    Ok(())
}

/// "a of CopyInput, Consume, MaybeConsume, Write, Call and the primitives is checked in the image (it must exist), as
/// is c of MkBool and MatchBool."
fn has_argument(instruction: Instruction, operand: Operand, program: &Program) -> bool {
    let a = instruction.a;
    match operand {
        Operand::Truth => instruction.c <= 1,
        Operand::Ruleset => usize::from(a) < program.rulesets.len(),
        Operand::One => names::primitive_name(&names::ONE, a).is_some(),
        Operand::Two => names::primitive_name(&names::TWO, a).is_some(),
        Operand::Input => a < program.inputs,
        Operand::Output => a < program.outputs,
        _ => true,
    }
}

/// "Fields not named below are zero."
fn unused_are_zero(instruction: Instruction, operand: Operand) -> bool {
    let (a, b, c) = (instruction.a == 0, instruction.b == 0, instruction.c == 0);
    match operand {
        Operand::Nothing => a && b && c,
        Operand::Truth | Operand::Int | Operand::Float => a && b,
        Operand::Label | Operand::Exception => a && c,
        Operand::Fields => c,
        _ => b && c,
    }
}

/// Refusals 9, 5, 6 and 7, with how many bytes the sheet has; `start` is its own place.
fn read_sheet(bytes: &[u8], start: usize, inputs: usize) -> Result<(Sheet, usize), Refusal> {
    let asked = 4 * (45 + WIRE * inputs);
    if bytes.len() < asked {
        let reason = format!("the run sheet has {asked} bytes, but here are {}", bytes.len());
        return refuse(9, start, reason);
    }
    let words: Vec<u32> = (0..asked / 4).filter_map(|index| word(bytes, 4 * index)).collect();
    if words[0] as usize != asked {
        return refuse(9, start, format!("the run sheet's length is {}, not {asked}", words[0]));
    }
    if words[1] != 1 {
        return refuse(9, start + 4, format!("the run sheet's version is {}, not 1", words[1]));
    }
    check_card(&words[5..45], start + 20)?;
    check_limit("stack", words[3], 4096, start + 12)?;
    check_limit("heap", words[4], 16384, start + 16)?;
    let sheet = Sheet {
        time: words[2],
        stack: words[3],
        heap: words[4],
        card: words[5..45].to_vec(),
        wires: read_wires(&words[45..], start + 180)?,
    };
    Ok((sheet, asked))
}

/// "Card: 40 numbers of 32 bits, one per opcode, each 1..65535."
fn check_card(card: &[u32], start: usize) -> Result<(), Refusal> {
    for (index, cycles) in card.iter().enumerate() {
        if !(1..=65535).contains(cycles) {
            let (name, _) = names::INSTRUCTIONS[index];
            let reason = format!("the card's number for {name}: {cycles} is not in 1..65535");
            return refuse(5, start + 4 * index, reason);
        }
    }
    Ok(())
}

fn check_limit(what: &str, limit: u32, cap: u32, byte: usize) -> Result<(), Refusal> {
    if limit <= cap {
        return Ok(());
    }
    refuse(6, byte, format!("{what}: {limit} is not in 0..{cap}"))
}

fn read_wires(words: &[u32], start: usize) -> Result<Vec<Option<Value>>, Refusal> {
    let wires = words.chunks(WIRE).enumerate();
    let read = wires.map(|(number, wire)| {
        value::read_wire(wire).map_err(|misfit| Refusal {
            number: 7,
            byte: start + 4 * (WIRE * number + misfit.word),
            reason: format!("wire {number}: {}", misfit.reason),
        })
    });
    read.collect()
}
