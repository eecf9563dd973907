//! Noise: bytes, and instructions without any sense.

use crate::assembly::{any_instruction, set_length, Rules, Source};
use crate::rng::Rng;
use crate::valid;
use crate::Case;

pub fn case(rng: &mut Rng) -> Case {
    match rng.below(10) {
        0 => bytes(rng),
        1 => headed_bytes(rng),
        _ => instructions(rng),
    }
}

fn words(rng: &mut Rng, most: usize) -> Vec<u32> {
    let count = rng.below(most + 1);
    (0..count).map(|_| rng.word() >> rng.below(33).min(31)).collect()
}

fn lend(rng: &mut Rng, image: Vec<u8>) -> Case {
    let good_card = rng.percent(70);
    Case {
        image,
        card: if good_card { valid::card(rng) } else { words(rng, 45) },
        time: rng.below(30_000) as u32,
        stack_limit: rng.below(12) as u32,
        heap_limit: rng.below(12) as u32,
        stack: words(rng, 20),
        heap: words(rng, 20),
        wires: words(rng, 140),
        order: words(rng, 6),
    }
}

fn bytes(rng: &mut Rng) -> Case {
    let length = rng.below(80);
    let mut image: Vec<u8> = (0..length).map(|_| rng.word() as u8).collect();
    if rng.percent(50) {
        set_length(&mut image);
    }
    lend(rng, image)
}

/// Good counts, then bytes.
fn headed_bytes(rng: &mut Rng) -> Case {
    let (rulesets, count) = (rng.between(1, 2), rng.between(1, 6));
    let mut image = vec![
        0,
        0,
        0,
        0,
        1,
        rng.below(3) as u8,
        rng.below(3) as u8,
        rulesets as u8,
        255,
        0,
        count as u8,
    ];
    for _ in 0..rulesets {
        image.extend([0, rng.below(count) as u8, 1, 0, rng.below(count + 1) as u8]);
    }
    for _ in 0..count {
        let mut ins = [0; 8];
        ins[0] = rng.between(1, 41) as u8;
        if rng.percent(40) {
            let place = rng.between(1, 7);
            ins[place] = rng.below(4) as u8;
        }
        image.extend(ins);
    }
    set_length(&mut image);
    let mut case = lend(rng, image);
    case.wires = vec![0; 65 * usize::from(case.image[5] + case.image[6])];
    case.order = vec![0; rulesets];
    case
}

/// Instructions without any sense, in a good image, with limits that are enough for most.
fn instructions(rng: &mut Rng) -> Case {
    let inputs = valid::some_wires(rng, 70);
    let outputs = valid::some_wires(rng, 30);
    let rulesets = rng.pick(&[1, 1, 2, 3, 32]);
    let count = if rng.per_mille(5) { 4096 } else { rng.between(1, 60) };
    let code = (0..count)
        .map(|_| any_instruction(rng, inputs.len(), outputs.len(), rulesets))
        .collect();
    let handler = rng.percent(60).then(|| rng.below(rulesets));
    let mut source = Source {
        inputs: inputs.len(),
        outputs: outputs.len(),
        handler,
        rulesets: (0..rulesets)
            .map(|_| Rules {
                entry: rng.below(count),
                rules: (0..rng.pick(&[1, 2, 3, 16])).map(|_| rng.below(count)).collect(),
            })
            .collect(),
        code,
    };
    source.code.truncate(4095);
    source.close(rng);
    let mut case = valid::assemble(rng, &source, &inputs, &outputs);
    case.time = rng.below(20_000) as u32;
    case.stack_limit = rng.pick(&[0, 1, 4, 8, 16, 300, 4096]);
    case.heap_limit = rng.pick(&[0, 2, 5, 16, 64, 300, 16_384]);
    crate::limits::make_areas(rng, &mut case);
    case
}
