//! The cases reach everything, and are the same for the same seed.

use cases::coverage::Coverage;
use cases::{case, Case, KINDS};
use second::{run_watched, Loan};

fn run(case: &mut Case, coverage: &mut Coverage) {
    let lent = case.clone();
    let loan = Loan {
        image: &lent.image,
        card: &lent.card,
        time: lent.time,
        stack_limit: lent.stack_limit,
        heap_limit: lent.heap_limit,
        stack: &mut case.stack,
        heap: &mut case.heap,
        wires: &mut case.wires,
        order: &mut case.order,
    };
    let result = run_watched(loan, coverage);
    coverage.count(&lent, &result);
    // "A call turned away ... writes to no buffer."
    assert!(result.is_ok() || *case == lent);
}

#[test]
fn everything_is_reached() {
    let mut coverage = Coverage::default();
    for kind in KINDS {
        for number in 0..6000 {
            run(&mut case(kind, 1, number), &mut coverage);
        }
    }
    assert_eq!(coverage.missing(), Vec::<String>::new());
}

#[test]
fn same_seed_same_case() {
    for kind in KINDS {
        assert!((0..50).all(|number| case(kind, 7, number) == case(kind, 7, number)));
        assert!((0..50).any(|number| case(kind, 7, number) != case(kind, 8, number)));
    }
}

/// Valid cases are never turned away.
#[test]
fn valid_cases_are_accepted() {
    let mut coverage = Coverage::default();
    for number in 0..2000 {
        let mut case = case(cases::Kind::Valid, 3, number);
        run(&mut case, &mut coverage);
    }
    let refused = coverage
        .missing()
        .iter()
        .filter(|missing| missing.starts_with("refusal"))
        .count();
    assert_eq!(refused, 8);
}
