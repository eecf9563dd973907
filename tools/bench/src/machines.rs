//! Both machines, by one call.

use crate::programs::Program;
#[cfg(feature = "proved")]
use homirelanto::{run_numbered, Lent, Limits};

/// What a call writes to.
pub struct Buffers {
    pub stack: Vec<u32>,
    pub heap: Vec<u32>,
    pub wires: Vec<u32>,
    pub order: Vec<u32>,
}

impl Buffers {
    pub fn of(program: &Program) -> Buffers {
        Buffers {
            stack: vec![0; program.stack_limit as usize],
            heap: vec![0; program.heap_limit as usize],
            wires: program.wires.clone(),
            order: program.order.clone(),
        }
    }
}

/// The figures, or the number of the refusal.
pub type Answer = Result<[u32; 8], u32>;

pub type Machine = fn(&Program, &mut Buffers) -> Answer;

/// The handwritten one.
#[inline(never)]
pub fn plain(program: &Program, buffers: &mut Buffers) -> Answer {
    reset(program, buffers);
    plain::run(
        &program.image,
        &program.card,
        program.time,
        program.stack_limit,
        program.heap_limit,
        &mut buffers.stack,
        &mut buffers.heap,
        &mut buffers.wires,
        &mut buffers.order,
    )
}

/// The proved one.
#[cfg(feature = "proved")]
#[inline(never)]
pub fn proved(program: &Program, buffers: &mut Buffers) -> Answer {
    reset(program, buffers);
    let mut figures = [0; 8];
    let limits = Limits {
        time: program.time,
        stack: program.stack_limit,
        heap: program.heap_limit,
    };
    let lent = Lent {
        stack: &mut buffers.stack,
        heap: &mut buffers.heap,
        wires: &mut buffers.wires,
        order: &mut buffers.order,
    };
    let refusal = run_numbered(&program.image, &program.card, limits, lent, &mut figures);
    match refusal {
        0 => Ok(figures),
        _ => Err(refusal),
    }
}

#[cfg(feature = "proved")]
pub const NAME: &str = "proved";

/// Without the feature `proved`, the second machine stands in for it. It isn't made for speed.
#[cfg(not(feature = "proved"))]
pub fn proved(program: &Program, buffers: &mut Buffers) -> Answer {
    reset(program, buffers);
    let result = second::run(
        &program.image,
        &program.card,
        program.time,
        program.stack_limit,
        program.heap_limit,
        &mut buffers.stack,
        &mut buffers.heap,
        &mut buffers.wires,
        &mut buffers.order,
    );
    result.map(|figures| figures.in_order())
}

#[cfg(not(feature = "proved"))]
pub const NAME: &str = "second";

/// A call changes wires and order; each begins with the program's own. Both sides pay for it.
fn reset(program: &Program, buffers: &mut Buffers) {
    buffers.wires.copy_from_slice(&program.wires);
    buffers.order.copy_from_slice(&program.order);
}
