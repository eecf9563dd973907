//! Valid cases that were damaged, mostly so that they are turned away.

use crate::assembly::set_length;
use crate::limits;
use crate::rng::Rng;
use crate::templates;
use crate::valid;
use crate::Case;

pub fn case(rng: &mut Rng) -> Case {
    if rng.percent(4) {
        return overgrown(rng);
    }
    let mut case = valid::case(rng);
    let count = rng.pick(&[1, 1, 1, 2, 2, 3]);
    for _ in 0..count {
        match rng.below(20) {
            0 => image_length(rng, &mut case.image),
            1..=3 => image_counts(rng, &mut case.image),
            4..=10 => image_code(rng, &mut case.image),
            11 => any_byte(rng, &mut case.image),
            12 => card(rng, &mut case.card),
            13 => limits_and_areas(rng, &mut case),
            14..=16 => wires(rng, &mut case.wires),
            17 | 18 => order(rng, &mut case.order),
            _ => lengths(rng, &mut case),
        }
    }
    bound_time(&mut case);
    case
}

/// Refusal 3 for one count, with everything else as that count asks.
fn overgrown(rng: &mut Rng) -> Case {
    let source = templates::overgrown(rng);
    let (inputs, outputs) = (vec![None; source.inputs], vec![None; source.outputs]);
    let mut case = valid::assemble(rng, &source, &inputs, &outputs);
    case.time = rng.below(30_000) as u32;
    case.stack_limit = rng.below(4097) as u32;
    case.heap_limit = rng.below(16_385) as u32;
    limits::make_areas(rng, &mut case);
    case
}

/// What was a program with an end may have none now.
fn bound_time(case: &mut Case) {
    let cheapest = case.card.iter().min().copied().unwrap_or(1);
    case.time = case.time.min(cheapest.saturating_mul(300).saturating_add(30_000));
}

/// Changes one element, if there is any.
fn change<T>(rng: &mut Rng, items: &mut [T], place: usize, new: impl FnOnce(&mut Rng, &T) -> T) {
    if let Some(item) = items.get_mut(place) {
        *item = new(rng, item);
    }
}

/// Refusals 1 and 2, and 3 where the length is made to fit the slice.
fn image_length(rng: &mut Rng, image: &mut Vec<u8>) {
    match rng.below(8) {
        0 => image.truncate(rng.below(12)),
        1 => image.truncate(rng.below(image.len() + 1)),
        2 => image.push(0),
        3 => change(rng, image, 3, |_, byte| byte.wrapping_add(1)),
        4 => {
            let byte = rng.below(4);
            change(rng, image, byte, |rng, _| rng.word() as u8)
        }
        5 => change(rng, image, 4, |rng, _| rng.pick(&[0, 2, 255])),
        6 => {
            image.truncate(image.len().saturating_sub(rng.between(1, 9)));
            set_length(image);
        }
        _ => {
            let more = rng.pick(&[1, 2, 3, 7, 8, 16, 34_000]);
            image.extend(std::iter::repeat_n(0, more));
            set_length(image);
        }
    }
}

/// Mostly refusal 3.
fn image_counts(rng: &mut Rng, image: &mut [u8]) {
    let rulesets = image.get(7).copied().unwrap_or(0);
    match rng.below(10) {
        0 => change(rng, image, 4, |rng, _| rng.word() as u8),
        1 => change(rng, image, 5, |rng, byte| rng.pick(&[8, 9, 255, byte.wrapping_add(1)])),
        2 => change(rng, image, 6, |rng, byte| rng.pick(&[8, 9, 255, byte.wrapping_add(1)])),
        3 => change(rng, image, 7, |rng, byte| {
            rng.pick(&[0, 32, 33, byte.wrapping_add(1), byte.wrapping_sub(1)])
        }),
        4 => change(rng, image, 8, |rng, _| {
            rng.pick(&[rulesets, rulesets.wrapping_sub(1), 31, 32, 254, 255, 0])
        }),
        5 => change(rng, image, 9, |rng, _| rng.pick(&[1, 16, 17, 255])),
        6 => change(rng, image, 10, |rng, byte| {
            rng.pick(&[0, byte.wrapping_add(1), byte.wrapping_sub(1)])
        }),
        // N = 0
        7 => {
            change(rng, image, 9, |_, _| 0);
            change(rng, image, 10, |_, _| 0);
        }
        8 => change(rng, image, 13, |rng, byte| {
            rng.pick(&[0, 16, 17, 255, byte.wrapping_add(1)])
        }),
        _ => {
            let place = rng.between(11, 40);
            change(rng, image, place, |rng, _| rng.pick(&[0, 1, 16, 17, 255]))
        }
    }
}

/// Where the instructions start, counted from the end.
fn code_start(image: &[u8]) -> Option<usize> {
    let count = usize::from(*image.get(9)?) * 256 + usize::from(*image.get(10)?);
    image.len().checked_sub(8 * count)
}

/// Mostly refusal 4.
fn image_code(rng: &mut Rng, image: &mut [u8]) {
    let Some(start) = code_start(image).filter(|start| *start < image.len() && *start >= 14) else {
        return any_byte(rng, image);
    };
    let count = (image.len() - start) / 8;
    let at = start + 8 * if rng.percent(20) { count - 1 } else { rng.below(count) };
    match rng.below(9) {
        0 => change(rng, image, at, |rng, _| rng.pick(&[0, 41, 42, 255])),
        1 => change(rng, image, at, |rng, _| rng.between(1, 40) as u8),
        2 => change(rng, image, at + 1, |rng, byte| {
            rng.pick(&[0, 1, 4, 22, 23, 255, byte.wrapping_add(1)])
        }),
        3 => change(rng, image, at + 2, |rng, _| rng.pick(&[1, 16, 255])),
        4 => change(rng, image, at + 3, |rng, byte| {
            rng.pick(&[1, 255, byte.wrapping_add(1)])
        }),
        5 => {
            let place = at + rng.between(4, 7);
            change(rng, image, place, |rng, _| rng.pick(&[1, 2, 128, 255]))
        }
        // An entry or rule address: the first ruleset's are at 11 and from 14 on.
        6 => {
            let place = rng.pick(&[11, 12, 14, 15, 16, 17, start - 1, start - 2]);
            let edge = rng.pick(&[count as u8, (count as u8).wrapping_sub(1), 255, 16]);
            change(rng, image, place, |_, _| edge)
        }
        7 => one_too_high(image, at, count),
        // The last instruction.
        _ => {
            let last = start + 8 * (count - 1);
            image[last..].fill(0);
            image[last] = rng.pick(&[4, 7, 18, 22, 40, 38]);
        }
    }
}

/// The first number that doesn't exist, in the first instruction from here on that names one.
fn one_too_high(image: &mut [u8], at: usize, count: usize) {
    let (inputs, outputs, rulesets) = (image[5], image[6], image[7]);
    for place in (at..image.len()).step_by(8) {
        let limit = match image[place] {
            15 | 16 => {
                image[place + 2..place + 4].copy_from_slice(&(count as u16).to_be_bytes());
                return;
            }
            17 => rulesets,
            19 => 4,
            20 => 23,
            35..=37 => inputs,
            39 => outputs,
            _ => continue,
        };
        image[place + 1] = limit;
        return;
    }
}

fn any_byte(rng: &mut Rng, image: &mut [u8]) {
    if !image.is_empty() {
        let place = rng.below(image.len());
        change(rng, image, place, |rng, byte| byte ^ (1 << rng.below(8)));
    }
}

/// Refusal 5, or a card at its edges.
fn card(rng: &mut Rng, card: &mut Vec<u32>) {
    match rng.below(4) {
        0 => card.truncate(rng.pick(&[0, 1, 39])),
        1 => card.push(1),
        _ => {
            let place = rng.below(40);
            change(rng, card, place, |rng, _| rng.pick(&[0, 65_535, 65_536, u32::MAX, 1]));
        }
    }
}

/// Refusal 6, or limits at their edges.
fn limits_and_areas(rng: &mut Rng, case: &mut Case) {
    match rng.below(8) {
        0 => case.stack_limit = rng.pick(&[4097, u32::MAX, 65_536]),
        1 => case.heap_limit = rng.pick(&[16_385, u32::MAX, 65_536]),
        2 => case.stack_limit = case.stack.len() as u32 + rng.below(2) as u32,
        3 => case.heap_limit = case.heap.len() as u32 + rng.below(2) as u32,
        4 => case
            .stack
            .truncate((case.stack_limit as usize).saturating_sub(rng.below(2))),
        5 => case
            .heap
            .truncate((case.heap_limit as usize).saturating_sub(rng.below(2))),
        // Above the cap, with an area that is long enough.
        6 => {
            case.stack.resize(4100, 9);
            case.stack_limit = rng.pick(&[4096, 4097]);
        }
        _ => {
            case.heap.resize(16_400, 9);
            case.heap_limit = rng.pick(&[16_384, 16_385]);
        }
    }
}

/// Refusal 7, or another value.
fn wires(rng: &mut Rng, wires: &mut [u32]) {
    if wires.len() < 65 {
        return;
    }
    let wire = 65 * rng.below(wires.len() / 65);
    let count = (wires[wire] as usize).min(64);
    let inside = wire + rng.between(1, count.max(1));
    match rng.below(12) {
        0 => change(rng, wires, wire, |rng, word| {
            rng.pick(&[0, 64, 65, 66, u32::MAX, word.wrapping_add(1), word.wrapping_sub(1)])
        }),
        // Something after the value.
        1 => {
            let place = wire + rng.between(count, 64);
            change(rng, wires, place, |rng, _| rng.pick(&[1, 65_536, 458_752]))
        }
        // Headers.
        2 => change(rng, wires, inside, |rng, _| rng.below(9) as u32 * 65_536),
        3 => change(rng, wires, inside, |_, word| word ^ 1),
        4 => change(rng, wires, inside, |rng, word| word ^ (1 << rng.below(32))),
        5 => change(rng, wires, inside, |rng, _| rng.pick(&[0, 1, 2, 3, 255, 256])),
        6 => change(rng, wires, inside, |rng, _| {
            rng.pick(&[0x7FC0_0000, 0x7FC0_0001, 0xFFC0_0000, 0x7F80_0001, 0x7F80_0000])
        }),
        7 => change(rng, wires, inside, |rng, _| rng.word()),
        // A value of its own.
        _ => {
            let words: &[u32] = match rng.below(14) {
                0 => &[1, 458_752],
                1 => &[2, 65_536, 2],
                2 => &[2, 65_537, 1],
                3 => &[2, 196_608, 0x7FC0_0000],
                4 => &[2, 196_608, 0x7FC0_0001],
                5 => &[2, 393_216, 0],
                6 => &[5, 393_216, 2, 458_752, 458_752, 0],
                7 => &[3, 393_223, 1, 458_752],
                8 => &[2, 262_144, 0],
                9 => &[2, 262_145, 0],
                10 => &[2, 327_681, 0],
                11 => &[4, 131_072, 1, 131_072, 1],
                12 => &[3, 262_144, 256, 458_752],
                _ => &[3, 262_144, 1, 458_753],
            };
            wires[wire..wire + 65].fill(0);
            wires[wire..wire + words.len()].copy_from_slice(words);
        }
    }
}

/// Refusal 8, or another permutation.
fn order(rng: &mut Rng, order: &mut [u32]) {
    if order.is_empty() {
        return;
    }
    let (one, other) = (rng.below(order.len()), rng.below(order.len()));
    match rng.below(4) {
        0 | 1 => order.swap(one, other),
        2 => order[one] = order[other],
        _ => order[one] = rng.pick(&[0, 1, 2, 16, u32::MAX, order.len() as u32]),
    }
}

/// Slices that are too long or too short.
fn lengths(rng: &mut Rng, case: &mut Case) {
    let more = rng.pick(&[1, 65, 66]);
    match rng.below(6) {
        0 => case.wires.resize(case.wires.len() + more, 0),
        1 => case.wires.truncate(case.wires.len().saturating_sub(more)),
        2 => case.order.push(rng.below(2) as u32),
        3 => case.order.truncate(case.order.len().saturating_sub(1)),
        4 => case.card.truncate(39),
        _ => case.stack.truncate(case.stack.len() / 2),
    }
}
