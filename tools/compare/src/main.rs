//! Runs random cases on two machines and compares everything: the refusal, or else the eight figures, both areas word
//! for word, the wires and the order.

mod machines;
mod mistakes;
mod program;
mod report;
#[cfg(test)]
mod sums;

use cases::coverage::Coverage;
use cases::{case, Case, Kind, KINDS};
use machines::Outcome;
use std::process::ExitCode;
use std::time::Instant;

const USAGE: &str = "\
compare N SEED                 N cases of each kind, on the second machine and the other
compare N SEED --only KIND     N cases of one kind: valid, damaged or noise
compare N SEED --plain         the same with the handwritten machine that speed is measured against
compare N SEED --mistakes      every mistake must be found within N cases of each kind
compare N SEED --program PATH  N standard inputs, to the program PATH and the second machine's
compare N SEED --show KIND     shows case number N of the kind
The other machine is the proved one with the feature `proved`, else a copy of the second.";

fn main() -> ExitCode {
    let arguments: Vec<String> = std::env::args().skip(1).collect();
    let words: Vec<&str> = arguments.iter().map(String::as_str).collect();
    let (count, seed) = match words.get(..2).map(|two| (two[0].parse(), two[1].parse())) {
        Some((Ok(count), Ok(seed))) => (count, seed),
        _ => return usage(),
    };
    let good = match words[2..] {
        [] => compare(count, seed, &KINDS, OTHER),
        ["--plain"] => compare(count, seed, &KINDS, PLAIN),
        ["--only", kind] => match named_kind(kind) {
            Some(kind) => compare(count, seed, &[kind], OTHER),
            None => return usage(),
        },
        ["--mistakes"] => mistakes::find_all(count, seed),
        ["--program", path] => program::compare(path, count, seed),
        ["--show", kind] => match named_kind(kind) {
            Some(kind) => show(kind, seed, count),
            None => return usage(),
        },
        _ => return usage(),
    };
    if good {
        ExitCode::SUCCESS
    } else {
        ExitCode::FAILURE
    }
}

fn usage() -> ExitCode {
    eprintln!("{USAGE}");
    ExitCode::from(2)
}

fn named_kind(name: &str) -> Option<Kind> {
    KINDS
        .into_iter()
        .find(|kind| format!("{kind:?}").to_lowercase() == name)
}

/// A machine that is compared with the second, and its name.
type Named = (&'static str, fn(&Case) -> Outcome);

const OTHER: Named = (machines::OTHER, machines::other);
const PLAIN: Named = ("the handwritten machine", machines::plain);

/// So many cases of each of the kinds; false at the first difference.
fn compare(count: u64, seed: u64, kinds: &[Kind], (name, run): Named) -> bool {
    println!("the second machine and {name}, seed {seed}");
    machines::keep_quiet();
    let start = Instant::now();
    let mut coverage = Coverage::default();
    for kind in kinds.iter().copied() {
        for number in 0..count {
            let case = case(kind, seed, number);
            let second = machines::second(&case, &mut coverage);
            let other = run(&case);
            if second != other {
                println!("{}", report::difference(kind, seed, number, &case, &second, &other));
                return false;
            }
        }
    }
    println!("{coverage}");
    for missing in coverage.missing() {
        println!("not reached: {missing}");
    }
    println!(
        "no difference in {} cases, {:.1} s",
        coverage.cases,
        start.elapsed().as_secs_f64()
    );
    true
}

fn show(kind: Kind, seed: u64, number: u64) -> bool {
    let case: Case = case(kind, seed, number);
    let second: Outcome = machines::second(&case, &mut Coverage::default());
    println!("{}", report::whole_case(kind, seed, number, &case));
    println!("{}", report::outcome("second", &second));
    true
}
