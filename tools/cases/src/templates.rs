//! Programs that random code doesn't reach: the caps, and the largest time.

use crate::assembly::{Ins, Rules, Source};
use crate::rng::Rng;
use crate::values;

fn ins(op: u8, a: u8, b: u16, c: u32) -> Ins {
    Ins { op, a, b, c }
}

/// A program that uses up one of its limits, and the card that it needs, if any.
pub fn greedy(rng: &mut Rng, inputs: usize, outputs: usize) -> (Source, Option<u32>) {
    let integer = values::integer(rng);
    let pushes = rng.between(1, 255) as u8;
    let mut card = None;
    let code = match rng.below(8) {
        // The stack up to its cap.
        0 => vec![ins(4, 0, 0, 0), ins(15, 0, 0, 0)],
        1 => vec![ins(7, pushes, 0, 0), ins(15, 0, 0, 0)],
        // Calls without end.
        2 => vec![ins(17, 0, 0, 0), ins(40, 0, 0, 0)],
        3 => vec![ins(7, 3, 0, 0), ins(12, pushes, 0, 0), ins(15, 0, 0, 0)],
        // The heap up to its cap.
        4 => vec![ins(2, 0, 0, integer), ins(8, 1, 0, 0), ins(15, 0, 0, 0)],
        5 => vec![ins(4, 0, 0, 0), ins(5, 1, 0, 0), ins(15, 0, 1, 0)],
        // 255 fields.
        6 => wide(rng),
        // 65535 cycles 65537 times are 2^32 - 1.
        _ => {
            card = Some(rng.pick(&[65535, 65535, 65534, 40000]));
            vec![ins(15, 0, 0, 0)]
        }
    };
    let source = Source {
        inputs,
        outputs,
        handler: None,
        rulesets: vec![Rules {
            entry: 0,
            rules: vec![0],
        }],
        code,
    };
    (source, card)
}

fn wide(rng: &mut Rng) -> Vec<Ins> {
    let mut code: Vec<Ins> = (0..255).map(|_| ins(rng.pick(&[2, 4]), 0, 0, 0)).collect();
    let tag = values::tag(rng);
    code.push(if rng.percent(50) {
        ins(5, 255, 0, 0)
    } else {
        ins(6, 255, tag, 0)
    });
    code.push(ins(33, 0, 0, 0));
    code.push(ins(9, 254, 0, 0));
    code.push(ins(40, 0, 0, 0));
    code
}

/// A few instructions that may be anything, after a few words of every kind.
pub fn probe(rng: &mut Rng, inputs: usize, outputs: usize) -> Source {
    let rulesets = rng.between(1, 3);
    let mut code = Vec::new();
    for _ in 0..rng.below(6) {
        code.push(word_of_some_kind(rng, rulesets));
    }
    if rng.percent(60) {
        code.push(ins(7, 3, 0, 0));
        code.push(ins(12, rng.below(4) as u8, 0, 0));
    }
    for _ in 0..rng.below(4) {
        code.push(word_of_some_kind(rng, rulesets));
    }
    for _ in 0..rng.between(1, 12) {
        code.push(crate::assembly::any_instruction(rng, inputs, outputs, rulesets));
    }
    let handler = rng.percent(60).then(|| rng.below(rulesets));
    let rulesets = (0..rulesets)
        .map(|number| Rules {
            entry: if number == 0 { 0 } else { rng.below(code.len()) },
            rules: (0..rng.between(1, 4)).map(|_| rng.below(code.len())).collect(),
        })
        .collect();
    let mut source = Source {
        inputs,
        outputs,
        handler,
        rulesets,
        code,
    };
    source.close(rng);
    source
}

fn word_of_some_kind(rng: &mut Rng, rulesets: usize) -> Ins {
    match rng.below(9) {
        0 => ins(1, 0, 0, rng.below(2) as u32),
        1 => ins(2, 0, 0, values::integer(rng)),
        2 => ins(3, 0, 0, values::float(rng)),
        3 => ins(4, 0, 0, 0),
        4 => ins(5, rng.below(3) as u8, 0, 0),
        5 => ins(6, rng.below(3) as u8, values::tag(rng), 0),
        6 => ins(7, 1, 0, 0),
        7 if rng.percent(30) => ins(17, rng.below(rulesets) as u8, 0, 0),
        _ => ins(2, 0, 0, rng.below(4) as u32),
    }
}

/// A good program but for one count, which is at its edge or just over it; everything else fits that count.
pub fn overgrown(rng: &mut Rng) -> Source {
    let (mut inputs, mut outputs, mut rulesets, mut rules, mut length) = (rng.below(3), rng.below(3), 1, 1, 2);
    match rng.below(6) {
        0 => inputs = rng.between(8, 9),
        1 => outputs = rng.between(8, 9),
        2 => rulesets = rng.between(32, 33),
        3 => rules = rng.between(16, 17),
        4 => rules = 0,
        _ => length = rng.between(4095, 4097),
    }
    let mut code: Vec<Ins> = (1..length).map(|_| word_of_some_kind(rng, rulesets)).collect();
    code.push(ins(40, 0, 0, 0));
    let rules = (0..rulesets)
        .map(|number| Rules {
            entry: 0,
            rules: vec![0; if number == 0 { rules } else { 1 }],
        })
        .collect();
    Source {
        inputs,
        outputs,
        handler: None,
        rulesets: rules,
        code,
    }
}
