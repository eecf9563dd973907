//! Limits near what a program uses, found by running the second machine first.

use crate::rng::Rng;
use crate::Case;
use second::{Figures, Loan, Nobody};

pub const STACK_CAP: u32 = 4096;
pub const HEAP_CAP: u32 = 16384;

/// The figures of the case with these limits, on copies of its wires and order.
fn figures(case: &Case, time: u32, stack_limit: u32, heap_limit: u32) -> Figures {
    let mut stack = vec![0; STACK_CAP as usize];
    let mut heap = vec![0; HEAP_CAP as usize];
    let loan = Loan {
        image: &case.image,
        card: &case.card,
        time,
        stack_limit,
        heap_limit,
        stack: &mut stack,
        heap: &mut heap,
        wires: &mut case.wires.clone(),
        order: &mut case.order.clone(),
    };
    second::run_watched(loan, &mut Nobody).expect("a valid case")
}

/// A time that ends a program without an end soon.
fn enough_time(case: &Case) -> u32 {
    let cheapest = case.card.iter().min().copied().unwrap_or(1);
    30_000 + 300 * cheapest
}

/// Chooses T, S and H, and makes the areas.
pub fn set_limits(rng: &mut Rng, case: &mut Case) {
    let enough = enough_time(case);
    let whole = figures(case, enough, STACK_CAP, HEAP_CAP);
    let (time, stack, heap) = match rng.below(20) {
        0..=2 => (unlimited(rng, &whole, enough), STACK_CAP, HEAP_CAP),
        3..=8 => near(rng, &whole),
        9..=14 => {
            let cut = figures(case, rng.below(whole.time as usize + 1) as u32, STACK_CAP, HEAP_CAP);
            let (time, stack, heap) = near(rng, &cut);
            let time = if rng.percent(50) { time } else { enough };
            let stack = if rng.percent(75) { stack } else { STACK_CAP };
            let heap = if rng.percent(75) { heap } else { HEAP_CAP };
            (time, stack, heap)
        }
        15 => {
            let (time, stack, heap) = (rng.below(300), rng.below(9), rng.below(13));
            (time as u32, stack as u32, heap as u32)
        }
        16 | 17 => {
            let (_, stack, heap) = near(rng, &whole);
            (unlimited(rng, &whole, enough), stack, heap)
        }
        _ => {
            let time = rng.around(whole.time);
            (time, STACK_CAP, HEAP_CAP)
        }
    };
    case.time = time;
    case.stack_limit = stack.min(STACK_CAP);
    case.heap_limit = heap.min(HEAP_CAP);
    make_areas(rng, case);
}

/// Any time does where the program ends by itself.
fn unlimited(rng: &mut Rng, whole: &Figures, enough: u32) -> u32 {
    if whole.ending != 5 && rng.percent(50) {
        u32::MAX
    } else {
        enough
    }
}

/// Exactly the use, or one less or more of each.
fn near(rng: &mut Rng, use_of: &Figures) -> (u32, u32, u32) {
    if rng.percent(25) {
        return (use_of.time, use_of.peak, use_of.heap);
    }
    (
        rng.around(use_of.time),
        rng.around(use_of.peak),
        rng.around(use_of.heap),
    )
}

/// Areas that are as long as the limits or somewhat longer, full of rubbish.
pub fn make_areas(rng: &mut Rng, case: &mut Case) {
    case.stack = rubbish(rng, case.stack_limit as usize);
    case.heap = rubbish(rng, case.heap_limit as usize);
}

fn rubbish(rng: &mut Rng, limit: usize) -> Vec<u32> {
    let more = match rng.below(40) {
        0 => rng.below(20_000),
        1..=15 => rng.between(1, 6),
        _ => 0,
    };
    let seed = rng.word() | 1;
    (0..(limit + more) as u32)
        .map(|index| seed.wrapping_mul(index + 1))
        .collect()
}
