//! A copy of the second machine in which one mistake can be switched on. See `build.rs` and `edits.rs`.

use std::sync::atomic::{AtomicUsize, Ordering};

static MISTAKE: AtomicUsize = AtomicUsize::new(0);

/// Switches the mistake on that has this number in `MISTAKES`, counted from 1, and all others off. 0 is none.
pub fn switch_on(number: usize) {
    MISTAKE.store(number, Ordering::Relaxed);
}

pub fn bug(number: usize) -> bool {
    MISTAKE.load(Ordering::Relaxed) == number
}

include!(concat!(env!("OUT_DIR"), "/copy.rs"));
