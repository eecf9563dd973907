//! Valid programs that reach everything.

use crate::assembly::Source;
use crate::compiler;
use crate::limits;
use crate::rng::Rng;
use crate::templates;
use crate::values;
use crate::Case;
use second::wire::Tree;

pub fn case(rng: &mut Rng) -> Case {
    let inputs = some_wires(rng, 80);
    let outputs = some_wires(rng, 15);
    let (source, uniform) = match rng.below(1000) {
        0..=9 => templates::greedy(rng, inputs.len(), outputs.len()),
        10..=249 => (templates::probe(rng, inputs.len(), outputs.len()), None),
        _ => (compiler::compile(rng, &inputs, &outputs), None),
    };
    let mut case = assemble(rng, &source, &inputs, &outputs);
    match uniform {
        Some(cycles) => {
            case.card = vec![cycles; 40];
            case.time = rng.pick(&[u32::MAX, u32::MAX, u32::MAX - 1, u32::MAX - 65_535]);
            case.stack_limit = rng.below(5) as u32;
            case.heap_limit = rng.below(5) as u32;
            limits::make_areas(rng, &mut case);
        }
        None => limits::set_limits(rng, &mut case),
    }
    case
}

/// The case without limits and areas.
pub fn assemble(rng: &mut Rng, source: &Source, inputs: &[Option<Tree>], outputs: &[Option<Tree>]) -> Case {
    let wires = inputs
        .iter()
        .chain(outputs)
        .flat_map(|wire| values::wire(wire.as_ref()))
        .collect();
    Case {
        image: source.image(),
        card: card(rng),
        time: 0,
        stack_limit: 0,
        heap_limit: 0,
        stack: Vec::new(),
        heap: Vec::new(),
        wires,
        order: source.order(rng),
    }
}

pub fn some_wires(rng: &mut Rng, full: usize) -> Vec<Option<Tree>> {
    let count = rng.pick(&[0, 1, 1, 2, 2, 3, 4, 8]);
    (0..count)
        .map(|_| {
            let room = if rng.percent(50) { 64 } else { rng.between(2, 64) };
            rng.percent(full).then(|| values::tree(rng, room))
        })
        .collect()
}

pub fn card(rng: &mut Rng) -> Vec<u32> {
    let highest = rng.pick(&[1, 10, 20, 100, 1000, 65535]);
    match rng.below(5) {
        0 => vec![10; 40],
        1 => vec![highest as u32; 40],
        _ => (0..40).map(|_| rng.between(1, highest) as u32).collect(),
    }
}
