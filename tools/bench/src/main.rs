//! Measures the proved machine beside the handwritten one, in one run, and prints the tables of docs/BENCHMARKS.md.

mod machines;
mod measure;
mod programs;
mod report;

use std::process::ExitCode;

const USAGE: &str = "\
bench                          measures, and prints tables
bench --quick                  calls both machines once with every program; both must leave the same
bench --calls NAME MACHINE N   only calls a machine (plain or other) N times, for a profiler
The other machine is the proved one with the feature `proved`, else the second.";

fn main() -> ExitCode {
    let arguments: Vec<String> = std::env::args().skip(1).collect();
    let words: Vec<&str> = arguments.iter().map(String::as_str).collect();
    let good = match words[..] {
        [] => {
            let same = quick();
            if same {
                report::print();
            }
            same
        }
        ["--quick"] => quick(),
        ["--calls", name, machine, count] => only_call(name, machine, count),
        _ => {
            eprintln!("{USAGE}");
            false
        }
    };
    if good {
        ExitCode::SUCCESS
    } else {
        ExitCode::FAILURE
    }
}

/// Every program once on both machines; false at the first difference.
fn quick() -> bool {
    let mut calls = programs::all();
    calls.push(programs::long(100_000));
    calls.extend([4, 40, 400, 4096].map(programs::image_only));
    for program in &calls {
        if measure::answer(program).is_none() {
            eprintln!(
                "a difference between {} and plain in `{}`",
                machines::NAME,
                program.name
            );
            return false;
        }
    }
    eprintln!(
        "no difference between {} and plain in {} calls",
        machines::NAME,
        calls.len()
    );
    true
}

fn only_call(name: &str, machine: &str, count: &str) -> bool {
    let machine: machines::Machine = match machine {
        "plain" => machines::plain,
        _ => machines::proved,
    };
    let program = programs::all().into_iter().find(|program| program.name == name);
    match (program, count.parse()) {
        (Some(program), Ok(count)) => {
            measure::repeat(machine, &program, count);
            true
        }
        _ => false,
    }
}
