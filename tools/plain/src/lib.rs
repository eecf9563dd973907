//! The machine of document 01 in safe Rust, written by hand for speed: what the proved machine is measured against.
//!
//! It does what the proved machine does, on the same lent slices: the same refusals, the same tests at each instruction,
//! the same figures, areas, wires and order, and no allocation. It is compared with the second machine on the same random
//! cases. Quoted sentences in the comments are document 01's.

mod copies;
mod image;
mod lent;
mod machine;
mod primitives;
mod words;

/// One box, one activation: the eight figures, or the number of the refusal.
#[allow(clippy::too_many_arguments)]
pub fn run(
    image: &[u8],
    card: &[u32],
    t: u32,
    s: u32,
    h: u32,
    stack: &mut [u32],
    heap: &mut [u32],
    wires: &mut [u32],
    order: &mut [u32],
) -> Result<[u32; 8], u32> {
    let program = image::read(image)?;
    lent::check_card(card)?;
    lent::check_limits(s, stack.len(), h, heap.len())?;
    lent::check_wires(&program, wires)?;
    lent::check_order(&program, order)?;
    let limits = (t, s as usize, h as usize);
    let figures = machine::run(&program, card, limits, stack, heap, wires, order);
    // "every word from sp, or hp, up is 0 at the ending"; what a run reads it has written, so nothing is zeroed before it.
    stack[figures[6] as usize..].fill(0);
    heap[figures[7] as usize..].fill(0);
    Ok(figures)
}
