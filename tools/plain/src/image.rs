//! The image: refusals 1 to 4, and what the machine needs of an accepted one. Nothing is allocated.

/// "entry address (2 bytes), rule count (1 byte, 1..16)"
#[derive(Clone, Copy, Default)]
pub struct Ruleset {
    pub entry: u16,
    pub count: u16,
    /// Where its rules begin, in `Program::rules` and in the rule order.
    pub first: u16,
}

/// An accepted image. The tables are of the largest image's sizes.
pub struct Program<'a> {
    pub inputs: usize,
    pub outputs: usize,
    /// "handler ruleset (below R, or 255 for none)"
    pub handler: usize,
    pub count: usize,
    pub rulesets: [Ruleset; 32],
    /// The rules' addresses, ruleset after ruleset.
    pub rules: [u16; 512],
    /// "N instructions of 8 bytes"
    pub code: &'a [[u8; 8]],
}

impl Program<'_> {
    pub fn rulesets(&self) -> &[Ruleset] {
        &self.rulesets[..self.count]
    }

    /// How many rules there are in all.
    pub fn rule_count(&self) -> usize {
        self.rulesets().iter().map(|ruleset| usize::from(ruleset.count)).sum()
    }
}

/// The program, or the number of the refusal, "first that applies".
pub fn read(image: &[u8]) -> Result<Program<'_>, u32> {
    // 1: "fewer than 11 bytes, or the length isn't the slice's"
    let (head, rest) = image.split_first_chunk::<11>().ok_or(1u32)?;
    let [l0, l1, l2, l3, version, inputs, outputs, rulesets, handler, n0, n1] = *head;
    if u32::from_be_bytes([l0, l1, l2, l3]) as usize != image.len() {
        return Err(1);
    }
    // 2: "version"
    if version != 1 {
        return Err(2);
    }
    // 3: "a count or handler outside its range, or the total length doesn't fit the counts"
    let size = usize::from(u16::from_be_bytes([n0, n1]));
    let mut program = Program {
        inputs: usize::from(inputs),
        outputs: usize::from(outputs),
        handler: usize::from(handler),
        count: usize::from(rulesets),
        rulesets: [Ruleset::default(); 32],
        rules: [0; 512],
        code: &[],
    };
    if !in_range(&program, size) {
        return Err(3);
    }
    let code = read_rulesets(&mut program, rest).ok_or(3u32)?;
    if code.len() != 8 * size {
        return Err(3);
    }
    program.code = code.as_chunks().0;
    // 4: "an opcode, argument, unused field, address or last instruction"
    if addresses_exist(&program) && instructions_fit(&program) {
        Ok(program)
    } else {
        Err(4)
    }
}

/// "inputs (0..8)", "outputs (0..8), 7 rulesets R (1..32), 8 handler ruleset (below R, or 255 for none)",
/// "instruction count N (1..4096)"
fn in_range(program: &Program<'_>, size: usize) -> bool {
    program.inputs <= 8
        && program.outputs <= 8
        && (1..=32).contains(&program.count)
        && (program.handler < program.count || program.handler == 255)
        && (1..=4096).contains(&size)
}

/// Reads the rulesets from the front of the bytes, and returns what is after them.
fn read_rulesets<'a>(program: &mut Program<'_>, mut rest: &'a [u8]) -> Option<&'a [u8]> {
    let mut first = 0;
    for ruleset in &mut program.rulesets[..program.count] {
        let (&[e0, e1, count], after) = rest.split_first_chunk()?;
        let count = usize::from(count);
        if !(1..=16).contains(&count) {
            return None;
        }
        let (rules, after) = after.split_at_checked(2 * count)?;
        *ruleset = Ruleset {
            entry: u16::from_be_bytes([e0, e1]),
            count: count as u16,
            first: first as u16,
        };
        let room = &mut program.rules[first..first + count];
        for (rule, bytes) in room.iter_mut().zip(rules.as_chunks().0) {
            *rule = u16::from_be_bytes(*bytes);
        }
        first += count;
        rest = after;
    }
    Some(rest)
}

/// "Addresses count instructions from 0."
fn addresses_exist(program: &Program<'_>) -> bool {
    let exists = |address: u16| usize::from(address) < program.code.len();
    let rules = &program.rules[..program.rule_count()];
    program.rulesets().iter().all(|ruleset| exists(ruleset.entry)) && rules.iter().all(|rule| exists(*rule))
}

/// What is tested of an instruction: "Fields not named below are zero", and no instruction has more than one field with
/// a range of its own.
#[derive(Clone, Copy)]
struct Format {
    /// The bits of the eight bytes that are zero.
    zero: u64,
    /// Where the field with a range is, and its bits.
    shift: u32,
    mask: u64,
    range: Range,
}

/// What a field is below, or which numbers it is among.
#[derive(Clone, Copy)]
enum Range {
    Never,
    Any,
    Truth,
    Address,
    Input,
    Output,
    Ruleset,
    One,
    Two,
}

const A: u64 = 0x00FF_0000_0000_0000;
const B: u64 = 0x0000_FFFF_0000_0000;
const C: u64 = 0x0000_0000_FFFF_FFFF;

const fn format(zero: u64, shift: u32, mask: u64, range: Range) -> Format {
    Format {
        zero,
        shift,
        mask,
        range,
    }
}

/// One entry for each byte, so that an opcode needs no test before it is looked up.
const FORMATS: [Format; 256] = {
    let mut formats = [format(0, 0, 0, Range::Never); 256];
    let mut opcode = 1;
    while opcode <= 40 {
        formats[opcode] = match opcode {
            1 | 27 => format(A | B, 0, C, Range::Truth),
            2 | 3 | 28 | 29 => format(A | B, 0, 0, Range::Any),
            6 | 31 => format(C, 0, 0, Range::Any),
            5 | 7..=14 | 30 => format(B | C, 0, 0, Range::Any),
            15 | 16 => format(A | C, 32, 0xFFFF, Range::Address),
            17 => format(B | C, 48, 0xFF, Range::Ruleset),
            19 => format(B | C, 48, 0xFF, Range::One),
            20 => format(B | C, 48, 0xFF, Range::Two),
            21 | 32 => format(A | C, 0, 0, Range::Any),
            35..=37 => format(B | C, 48, 0xFF, Range::Input),
            39 => format(B | C, 48, 0xFF, Range::Output),
            _ => format(A | B | C, 0, 0, Range::Any),
        };
        opcode += 1;
    }
    formats
};

/// The least number of each range, and how many there are.
fn ranges(program: &Program<'_>) -> [(u64, u64); 9] {
    let mut ranges = [(0, 0); 9];
    ranges[Range::Any as usize] = (0, 1);
    ranges[Range::Truth as usize] = (0, 2);
    ranges[Range::Address as usize] = (0, program.code.len() as u64);
    ranges[Range::Input as usize] = (0, program.inputs as u64);
    ranges[Range::Output as usize] = (0, program.outputs as u64);
    ranges[Range::Ruleset as usize] = (0, program.count as u64);
    ranges[Range::One as usize] = (1, 3);
    ranges[Range::Two as usize] = (1, 22);
    ranges
}

/// All instructions are tested, without a jump that depends on one: opcodes follow each other in no order that a
/// processor could foresee, and a refused image is rare.
fn instructions_fit(program: &Program<'_>) -> bool {
    let ranges = ranges(program);
    let mut fit = true;
    for bytes in program.code {
        let word = u64::from_be_bytes(*bytes);
        let format = &FORMATS[usize::from(bytes[0])];
        let (least, count) = ranges[format.range as usize];
        let field = (word >> format.shift) & format.mask;
        fit &= (word & format.zero == 0) & (field.wrapping_sub(least) < count);
    }
    fit && program
        .code
        .last()
        .is_some_and(|last| matches!(last[0], 15 | 18 | 21 | 40))
}
