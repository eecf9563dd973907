//! A host in Rust: puts a control tuple on the monitor's input wire, runs the box once, and prints what came out.
//!
//!     host IMAGE

use homirelanto::{run, Figures, Lent, Limits, Refusal, CARD_ENTRIES, WIRE_WORDS};
use std::process::ExitCode;

const INPUTS: usize = 1;
const OUTPUTS: usize = 2;
const LIMITS: Limits = Limits {
    time: 10000,
    stack: 32,
    heap: 64,
};

/// (17, 1030, 412000): a count of words, then the tuple in prefix form, 4 its kind and 2 an Int's.
const CONTROL_TUPLE: [u32; 9] = [8, 4 << 16, 3, 2 << 16, 17, 2 << 16, 1030, 2 << 16, 412000];

fn run_box(image: &[u8], wires: &mut [u32]) -> Result<Figures, Refusal> {
    let lent = Lent {
        stack: &mut [0; 32],
        heap: &mut [0; 64],
        wires,
        // "in each ruleset a permutation of 0..count-1": the monitor's rulesets have two, two and one rules.
        order: &mut [0, 1, 0, 1, 0],
    };
    run(image, &[10; CARD_ENTRIES], LIMITS, lent)
}

fn print(figures: &Figures, output: &[u32]) {
    let Figures {
        ending,
        pc,
        steps,
        time,
        peak,
        depth,
        heap,
    } = figures;
    println!("{ending:?} at pc {pc}: {steps} steps, time {time}, peak {peak}, depth {depth}, heap {heap}");
    // (instrument, error rate): a tuple of an Int and a Float.
    println!("instrument {}, error rate {}", output[4], f32::from_bits(output[6]));
}

fn main() -> ExitCode {
    let Some(path) = std::env::args().nth(1) else {
        eprintln!("usage: host IMAGE");
        return ExitCode::from(2);
    };
    let image = std::fs::read(path).unwrap_or_default();
    let mut wires = [0; (INPUTS + OUTPUTS) * WIRE_WORDS];
    wires[..CONTROL_TUPLE.len()].copy_from_slice(&CONTROL_TUPLE);
    match run_box(&image, &mut wires) {
        Ok(figures) => print(&figures, &wires[INPUTS * WIRE_WORDS..]),
        Err(refusal) => {
            println!("refused {}", refusal as u32);
            return ExitCode::FAILURE;
        }
    }
    ExitCode::SUCCESS
}
