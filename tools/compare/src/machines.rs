//! The machines, each from a case to all that it leaves behind.

use cases::coverage::Coverage;
use cases::Case;
use second::Loan;
use std::sync::atomic::{AtomicBool, Ordering};

/// All that a call leaves behind.
#[derive(Clone, Debug, PartialEq, Eq)]
pub struct Outcome {
    pub result: Answer,
    pub stack: Vec<u32>,
    pub heap: Vec<u32>,
    pub wires: Vec<u32>,
    pub order: Vec<u32>,
}

#[derive(Clone, Debug, PartialEq, Eq)]
pub enum Answer {
    Figures([u32; 8]),
    Refused(u32),
    /// A refusal must leave the figures 0, there are none above 8, and by name it must be the same.
    #[cfg(feature = "proved")]
    Odd(u32, [u32; 8]),
    Panicked,
}

/// Runs `call` on copies of the case's buffers.
fn outcome(case: &Case, call: impl FnOnce(&mut Outcome) -> Answer) -> Outcome {
    let mut outcome = Outcome {
        result: Answer::Panicked,
        stack: case.stack.clone(),
        heap: case.heap.clone(),
        wires: case.wires.clone(),
        order: case.order.clone(),
    };
    outcome.result = call(&mut outcome);
    outcome
}

/// The second machine; what it executes is counted.
pub fn second(case: &Case, coverage: &mut Coverage) -> Outcome {
    outcome(case, |buffers| {
        let loan = Loan {
            image: &case.image,
            card: &case.card,
            time: case.time,
            stack_limit: case.stack_limit,
            heap_limit: case.heap_limit,
            stack: &mut buffers.stack,
            heap: &mut buffers.heap,
            wires: &mut buffers.wires,
            order: &mut buffers.order,
        };
        let result = second::run_watched(loan, coverage);
        coverage.count(case, &result);
        match result {
            Ok(figures) => Answer::Figures(figures.in_order()),
            Err(refusal) => Answer::Refused(refusal),
        }
    })
}

/// The copy of the second machine, with the mistake that is switched on, if any.
pub fn copy(case: &Case) -> Outcome {
    outcome(case, |buffers| {
        let run = std::panic::AssertUnwindSafe(|| {
            wrong::run(
                &case.image,
                &case.card,
                case.time,
                case.stack_limit,
                case.heap_limit,
                &mut buffers.stack,
                &mut buffers.heap,
                &mut buffers.wires,
                &mut buffers.order,
            )
        });
        QUIET.store(true, Ordering::Relaxed);
        let result = std::panic::catch_unwind(run);
        QUIET.store(false, Ordering::Relaxed);
        match result {
            Ok(Ok(figures)) => Answer::Figures(figures.in_order()),
            Ok(Err(refusal)) => Answer::Refused(refusal),
            Err(_) => Answer::Panicked,
        }
    })
}

/// The handwritten machine that speed is measured against.
pub fn plain(case: &Case) -> Outcome {
    outcome(case, |buffers| {
        let result = plain::run(
            &case.image,
            &case.card,
            case.time,
            case.stack_limit,
            case.heap_limit,
            &mut buffers.stack,
            &mut buffers.heap,
            &mut buffers.wires,
            &mut buffers.order,
        );
        match result {
            Ok(figures) => Answer::Figures(figures),
            Err(refusal) => Answer::Refused(refusal),
        }
    })
}

static QUIET: AtomicBool = AtomicBool::new(false);

/// A wrong machine may panic; that is a difference and needn't be told twice.
pub fn keep_quiet() {
    let usual = std::panic::take_hook();
    std::panic::set_hook(Box::new(move |panic| {
        if !QUIET.load(Ordering::Relaxed) {
            usual(panic);
        }
    }));
}

#[cfg(not(feature = "proved"))]
pub use copy as other;

#[cfg(not(feature = "proved"))]
pub const OTHER: &str = "its copy (the feature `proved` is off)";

#[cfg(feature = "proved")]
pub use proved::run as other;

#[cfg(feature = "proved")]
pub const OTHER: &str = "the proved machine";

#[cfg(feature = "proved")]
mod proved {
    use super::{outcome, Answer, Outcome};
    use cases::Case;
    use homirelanto::{run_numbered, Lent, Limits};

    /// The case's call, on these buffers.
    fn call(case: &Case, buffers: &mut Outcome, figures: &mut [u32; 8]) -> u32 {
        let (limits, lent) = lend(case, buffers);
        run_numbered(&case.image, &case.card, limits, lent, figures)
    }

    /// The same by name, in numbers again.
    fn named(case: &Case, buffers: &mut Outcome) -> Result<[u32; 8], u32> {
        let (limits, lent) = lend(case, buffers);
        match homirelanto::run(&case.image, &case.card, limits, lent) {
            Ok(figures) => Ok(figures.in_order()),
            Err(refusal) => Err(refusal as u32),
        }
    }

    fn lend<'a>(case: &Case, buffers: &'a mut Outcome) -> (Limits, Lent<'a>) {
        let limits = Limits {
            time: case.time,
            stack: case.stack_limit,
            heap: case.heap_limit,
        };
        let lent = Lent {
            stack: &mut buffers.stack,
            heap: &mut buffers.heap,
            wires: &mut buffers.wires,
            order: &mut buffers.order,
        };
        (limits, lent)
    }

    pub fn run(case: &Case) -> Outcome {
        outcome(case, |buffers| {
            let mut figures = [0; 8];
            let names = named(case, &mut buffers.clone());
            let refusal = call(case, buffers, &mut figures);
            match refusal {
                0 if names == Ok(figures) => Answer::Figures(figures),
                // "A call turned away returns the number with all figures 0 and writes to no buffer."
                1..=8 if figures == [0; 8] && names == Err(refusal) => Answer::Refused(refusal),
                _ => Answer::Odd(refusal, figures),
            }
        })
    }
}
