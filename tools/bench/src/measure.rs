//! Times: the best of many short rounds, the machines taking turns.

use crate::machines::{plain, proved, Answer, Buffers, Machine};
use crate::programs::Program;
use std::hint::black_box;
use std::time::{Duration, Instant};

/// Other programs may run on the same processor at any time, also for seconds. So a round measures everything once, for a
/// moment, and of many rounds the best is taken.
const ROUNDS: usize = 100;

/// A round calls each machine for about so long.
const MOMENT: Duration = Duration::from_micros(1000);

/// Nanoseconds of one call on each machine.
#[derive(Clone, Copy)]
pub struct Times {
    pub proved: f64,
    pub plain: f64,
}

impl Times {
    /// How long the proved machine takes, the handwritten one taking 1.
    pub fn ratio(&self) -> f64 {
        self.proved / self.plain
    }

    pub fn minus(&self, other: Times) -> Times {
        Times {
            proved: self.proved - other.proved,
            plain: self.plain - other.plain,
        }
    }

    pub fn over(&self, count: f64) -> Times {
        Times {
            proved: self.proved / count,
            plain: self.plain / count,
        }
    }
}

/// A call that is measured, and its best times so far.
pub struct Subject {
    program: Program,
    buffers: Buffers,
    calls: u32,
    pub best: Times,
}

impl Subject {
    pub fn new(program: &Program) -> Subject {
        let mut buffers = Buffers::of(program);
        Subject {
            calls: calls_in_a_moment(program, &mut buffers),
            program: program.clone(),
            buffers,
            best: Times {
                proved: f64::INFINITY,
                plain: f64::INFINITY,
            },
        }
    }

    /// What a call does besides its instructions: the same image with no time, and only as much of the areas as the run
    /// left to be zeroed.
    pub fn setup(program: &Program, figures: &[u32; 8]) -> Subject {
        Subject::new(&Program {
            time: 0,
            stack_limit: program.stack_limit - figures[6],
            heap_limit: program.heap_limit - figures[7],
            ..program.clone()
        })
    }

    fn round(&mut self) {
        self.best.proved = self.best.proved.min(self.moment(proved));
        self.best.plain = self.best.plain.min(self.moment(plain));
    }

    /// Nanoseconds a call.
    fn moment(&mut self, machine: Machine) -> f64 {
        let start = Instant::now();
        calls(machine, &self.program, &mut self.buffers, self.calls);
        start.elapsed().as_nanos() as f64 / f64::from(self.calls)
    }
}

/// Measures all of them.
pub fn measure(subjects: &mut [Subject]) {
    for _ in 0..ROUNDS {
        subjects.iter_mut().for_each(Subject::round);
    }
}

/// What both machines answer, having left the same in every buffer; `None` where they differ.
pub fn answer(program: &Program) -> Option<Answer> {
    let (mut one, mut two) = (Buffers::of(program), Buffers::of(program));
    let answers = (proved(program, &mut one), plain(program, &mut two));
    let same = answers.0 == answers.1
        && (one.stack, one.heap, one.wires, one.order) == (two.stack, two.heap, two.wires, two.order);
    same.then_some(answers.0)
}

/// Calls alone, for a profiler.
pub fn repeat(machine: Machine, program: &Program, count: u32) {
    calls(machine, program, &mut Buffers::of(program), count);
}

fn calls_in_a_moment(program: &Program, buffers: &mut Buffers) -> u32 {
    let mut count = 1;
    loop {
        let start = Instant::now();
        calls(plain, program, buffers, count);
        let taken = start.elapsed();
        if taken * 2 > MOMENT {
            return (f64::from(count) * MOMENT.as_secs_f64() / taken.as_secs_f64()).ceil() as u32;
        }
        count *= 2;
    }
}

fn calls(machine: Machine, program: &Program, buffers: &mut Buffers, count: u32) {
    for _ in 0..count {
        let _ = black_box(machine(black_box(program), buffers));
    }
}
