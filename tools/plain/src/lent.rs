//! What is lent besides the image: refusals 5 to 8.

use crate::image::Program;
use crate::words::{BOOL, CONSTR, EXN, FLOAT, INT, NAN, NO_VALUE, TUPLE};

/// "Wires: 65 words each"
pub const WIRE: usize = 65;

/// 5: "Card: 40 numbers of 32 bits, one per opcode, each 1..65535."
pub fn check_card(card: &[u32]) -> Result<(), u32> {
    let good = card.len() == 40 && card.iter().all(|entry| (1..=65535).contains(entry));
    good.then_some(()).ok_or(5)
}

/// 6: "stack S (0..4096 words), heap H (0..16384 words). Stack and heap areas: 32-bit words, at least S and H long."
pub fn check_limits(stack: u32, stack_area: usize, heap: u32, heap_area: usize) -> Result<(), u32> {
    let good = stack <= 4096 && heap <= 16384 && stack as usize <= stack_area && heap as usize <= heap_area;
    good.then_some(()).ok_or(6)
}

/// 7: "Wires: 65 words each, inputs first."
pub fn check_wires(program: &Program<'_>, wires: &[u32]) -> Result<(), u32> {
    let good = wires.len() == WIRE * (program.inputs + program.outputs) && wires.chunks_exact(WIRE).all(wire_fits);
    good.then_some(()).ok_or(7)
}

/// "A wire is a count k (0..64), k words, then zeros. k = 0 means empty. Otherwise the k words are exactly one value"
fn wire_fits(wire: &[u32]) -> bool {
    let count = wire[0] as usize;
    if count >= WIRE {
        return false;
    }
    let (value, zeros) = wire[1..].split_at(count);
    zeros.iter().all(|word| *word == 0) && (count == 0 || is_value(value))
}

/// Whether the words are one value in prefix form: with each header the cells still to come are counted, so that no call
/// is nested. "7 None (header only, never a whole wire value)"
fn is_value(words: &[u32]) -> bool {
    let mut rest = words;
    let mut cells = 1;
    while cells > 0 {
        cells -= 1;
        let Some((&header, after)) = rest.split_first() else {
            return false;
        };
        rest = after;
        if header == NO_VALUE {
            continue;
        }
        let Some((&payload, after)) = rest.split_first() else {
            return false;
        };
        rest = after;
        let Some(fields) = fields_of(header, payload) else {
            return false;
        };
        cells += fields;
    }
    rest.is_empty() && words[0] != NO_VALUE
}

/// How many fields follow, where such a cell may be. "Sizes 0..255. Only Constr and Exn have a tag."
fn fields_of(header: u32, payload: u32) -> Option<u32> {
    match header {
        BOOL => (payload <= 1).then_some(0),
        INT => Some(0),
        // "A Float that is a NaN is 7FC00000."
        FLOAT => (!f32::from_bits(payload).is_nan() || payload == NAN).then_some(0),
        TUPLE => (payload <= 255).then_some(payload),
        _ if header >> 16 == CONSTR >> 16 => (payload <= 255).then_some(payload),
        // "6 Exn (size 1)"
        _ if header >> 16 == EXN >> 16 => (payload == 1).then_some(1),
        _ => None,
    }
}

/// 8: "one word per rule, ruleset after ruleset; in each ruleset a permutation of 0..count-1"
pub fn check_order(program: &Program<'_>, order: &[u32]) -> Result<(), u32> {
    if order.len() != program.rule_count() {
        return Err(8);
    }
    let mut rest = order;
    for ruleset in program.rulesets() {
        let (own, after) = rest.split_at(usize::from(ruleset.count));
        if !is_permutation(own) {
            return Err(8);
        }
        rest = after;
    }
    Ok(())
}

/// There are at most 16: the numbers seen are the bits of a word.
fn is_permutation(words: &[u32]) -> bool {
    let mut seen = 0u32;
    for word in words {
        if *word as usize >= words.len() {
            return false;
        }
        seen |= 1 << word;
    }
    seen == (1 << words.len()) - 1
}
