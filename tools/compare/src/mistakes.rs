//! Every mistake of the wrong copy must be found.

use crate::machines::{self, Outcome};
use cases::coverage::Coverage;
use cases::{case, Kind, KINDS};

/// Where a mistake was first seen: for each kind the number of cases up to it.
#[derive(Clone, Copy, Default)]
struct Found([Option<u64>; 3]);

/// Runs every mistake on the cases of each kind until it shows, and prints after how many cases that was.
pub fn find_all(count: u64, seed: u64) -> bool {
    machines::keep_quiet();
    let mut found = vec![Found::default(); wrong::MISTAKES.len()];
    for kind in KINDS {
        for number in 0..count {
            try_case(kind, seed, number, &mut found);
        }
    }
    wrong::switch_on(0);
    print_table(count, seed, &found)
}

fn try_case(kind: Kind, seed: u64, number: u64, found: &mut [Found]) {
    if found.iter().all(|found| found.0[kind as usize].is_some()) {
        return;
    }
    let case = case(kind, seed, number);
    let second: Outcome = machines::second(&case, &mut Coverage::default());
    for (index, found) in found.iter_mut().enumerate() {
        let seen = &mut found.0[kind as usize];
        if seen.is_none() {
            wrong::switch_on(index + 1);
            if machines::copy(&case) != second {
                *seen = Some(number + 1);
            }
        }
    }
}

fn print_table(count: u64, seed: u64, found: &[Found]) -> bool {
    println!("cases until a mistake shows, seed {seed}, at most {count} of each kind");
    println!("{:<42}{:>9}{:>9}{:>9}", "mistake", "valid", "damaged", "noise");
    for (name, found) in wrong::MISTAKES.iter().zip(found) {
        print!("{name:<42}");
        for seen in found.0 {
            print!("{:>9}", seen.map_or("-".to_string(), |number| number.to_string()));
        }
        println!();
    }
    let missed: Vec<&str> = wrong::MISTAKES
        .iter()
        .zip(found)
        .filter(|(_, found)| found.0.iter().all(Option::is_none))
        .map(|(name, _)| *name)
        .collect();
    println!("{} mistakes, {} not found {missed:?}", found.len(), missed.len());
    missed.is_empty()
}
