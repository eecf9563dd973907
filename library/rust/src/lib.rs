//! The proved machine, for hosts in Rust: one call, with its refusals, endings and figures by name.
//!
//! Any image, card, limits and buffers may be handed in. A call that can't run is refused, and then it has written to no
//! buffer.

mod names;

pub use names::{Ending, Fault, Figures, Refusal};

pub const CARD_ENTRIES: usize = 40;
pub const WIRE_WORDS: usize = 65;
pub const STACK_CAP: usize = 4096;
pub const HEAP_CAP: usize = 16384;
pub const IMAGE_CAP: usize = 33899;

#[derive(Clone, Copy, Debug, PartialEq, Eq)]
pub struct Limits {
    pub time: u32,
    pub stack: u32,
    pub heap: u32,
}

/// What is lent besides the image and the card: both areas, the wires (inputs first) and the rule order.
pub struct Lent<'a> {
    pub stack: &'a mut [u32],
    pub heap: &'a mut [u32],
    pub wires: &'a mut [u32],
    pub order: &'a mut [u32],
}

extern "C" {
    fn ham_run(
        image: *const u8,
        image_length: usize,
        card: *const u32,
        card_length: usize,
        time: u32,
        stack_limit: u32,
        heap_limit: u32,
        stack: *mut u32,
        stack_length: usize,
        heap: *mut u32,
        heap_length: usize,
        wires: *mut u32,
        wires_length: usize,
        order: *mut u32,
        order_length: usize,
        figures: *mut u32,
        figures_length: usize,
    ) -> u32;
}

/// One activation of a box, from empty stack and heap to an ending.
pub fn run(image: &[u8], card: &[u32], limits: Limits, lent: Lent) -> Result<Figures, Refusal> {
    let mut told = [0; 8];
    match run_numbered(image, card, limits, lent, &mut told) {
        0 => Ok(names::figures(told)),
        number => Err(names::refusal(number)),
    }
}

/// The same in document 01's numbers: the refusal's number, or 0 and the eight figures in their order.
pub fn run_numbered(image: &[u8], card: &[u32], limits: Limits, lent: Lent, figures: &mut [u32; 8]) -> u32 {
    // SAFETY: every pointer comes with the length of the slice it was taken from, and the slices that are written are
    // borrowed mutably, so that no two overlap. The machine keeps no pointer.
    unsafe {
        ham_run(
            image.as_ptr(),
            image.len(),
            card.as_ptr(),
            card.len(),
            limits.time,
            limits.stack,
            limits.heap,
            lent.stack.as_mut_ptr(),
            lent.stack.len(),
            lent.heap.as_mut_ptr(),
            lent.heap.len(),
            lent.wires.as_mut_ptr(),
            lent.wires.len(),
            lent.order.as_mut_ptr(),
            lent.order.len(),
            figures.as_mut_ptr(),
            figures.len(),
        )
    }
}
