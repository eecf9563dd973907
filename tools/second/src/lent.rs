//! What is lent besides the image: refusals 5 to 8.

use crate::image::Program;
use crate::wire::{self, Tree, WIRE};

/// 5: "card length or entry". "Card: 40 numbers of 32 bits, one per opcode, each 1..65535."
pub fn check_card(card: &[u32]) -> Result<(), u32> {
    let good = card.len() == 40 && card.iter().all(|entry| (1..=65535).contains(entry));
    good.then_some(()).ok_or(5)
}

/// 6: "a limit above its cap or its area". "stack S (0..4096 words), heap H (0..16384 words)"
pub fn check_limits(stack: u32, stack_area: usize, heap: u32, heap_area: usize) -> Result<(), u32> {
    let good = stack <= 4096 && heap <= 16384 && stack as usize <= stack_area && heap as usize <= heap_area;
    good.then_some(()).ok_or(6)
}

/// 7: "wires: length or any word". "Wires: 65 words each, inputs first."
pub fn read_wires(program: &Program, words: &[u32]) -> Result<Vec<Option<Tree>>, u32> {
    if words.len() != WIRE * (program.inputs + program.outputs) {
        return Err(7);
    }
    words.chunks(WIRE).map(|wire| wire::read(wire).ok_or(7)).collect()
}

/// 8: "Rule order: one word per rule, ruleset after ruleset; in each ruleset a permutation of 0..count-1."
pub fn read_order(program: &Program, words: &[u32]) -> Result<Vec<Vec<usize>>, u32> {
    let total: usize = program.rulesets.iter().map(|ruleset| ruleset.rules.len()).sum();
    if words.len() != total {
        return Err(8);
    }
    let mut rest = words;
    let mut order = Vec::new();
    for ruleset in &program.rulesets {
        let (own, others) = rest.split_at(ruleset.rules.len());
        order.push(read_permutation(own).ok_or(8u32)?);
        rest = others;
    }
    Ok(order)
}

fn read_permutation(words: &[u32]) -> Option<Vec<usize>> {
    let mut sorted = words.to_vec();
    sorted.sort_unstable();
    let permutes = sorted
        .iter()
        .enumerate()
        .all(|(index, word)| index as u64 == u64::from(*word));
    permutes.then(|| words.iter().map(|word| *word as usize).collect())
}
