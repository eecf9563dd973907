//! A second machine, written from document 01 alone and in another style.
//!
//! Nothing here is a word in a slice until the very end: heap cells are [`heap::Object`]s, frames are
//! [`frames::Frame`]s, wires hold [`wire::Tree`]s, instructions are [`image::Instruction`]s. A step is a pure function
//! from the state to a [`machine::Change`] or an [`machine::Ending`]; the limits are tested on the change, and only
//! then is it carried out. The two areas are written once, from the data, when the run has ended.
//!
//! Quoted sentences in the comments are document 01's.

pub mod frames;
pub mod heap;
pub mod image;
pub mod lent;
pub mod machine;
pub mod primitives;
pub mod sheet;
pub mod wire;

use machine::Machine;

/// "Figures: ending, detail, pc, steps charged, time, peak depth (0 at the start), depth, heap."
#[derive(Clone, Copy, Debug, Default, PartialEq, Eq)]
pub struct Figures {
    pub ending: u32,
    pub detail: u32,
    pub pc: u32,
    pub steps: u32,
    pub time: u32,
    pub peak: u32,
    pub depth: u32,
    pub heap: u32,
}

impl Figures {
    /// The eight figures in the order of the sentence above.
    pub fn in_order(&self) -> [u32; 8] {
        [
            self.ending,
            self.detail,
            self.pc,
            self.steps,
            self.time,
            self.peak,
            self.depth,
            self.heap,
        ]
    }
}

/// How an executed instruction left: to the next one, elsewhere, or by an exception into the handler.
#[derive(Clone, Copy, Debug, PartialEq, Eq)]
pub enum Way {
    On,
    Away,
    Raised,
}

/// Somebody who counts what is executed. The machine doesn't depend on it.
pub trait Watch {
    fn executed(&mut self, opcode: u8, a: u8, way: Way);
}

/// Nobody counts.
pub struct Nobody;

impl Watch for Nobody {
    fn executed(&mut self, _opcode: u8, _a: u8, _way: Way) {}
}

/// All that is lent for one call.
pub struct Loan<'a> {
    pub image: &'a [u8],
    pub card: &'a [u32],
    pub time: u32,
    pub stack_limit: u32,
    pub heap_limit: u32,
    pub stack: &'a mut [u32],
    pub heap: &'a mut [u32],
    pub wires: &'a mut [u32],
    pub order: &'a mut [u32],
}

/// One box, one activation: the eight figures, or the number of the refusal.
#[allow(clippy::too_many_arguments)]
pub fn run(
    image: &[u8],
    card: &[u32],
    t: u32,
    s: u32,
    h: u32,
    stack: &mut [u32],
    heap: &mut [u32],
    wires: &mut [u32],
    order: &mut [u32],
) -> Result<Figures, u32> {
    let loan = Loan {
        image,
        card,
        time: t,
        stack_limit: s,
        heap_limit: h,
        stack,
        heap,
        wires,
        order,
    };
    run_watched(loan, &mut Nobody)
}

/// The same, with somebody watching.
pub fn run_watched(loan: Loan<'_>, watch: &mut dyn Watch) -> Result<Figures, u32> {
    // "What is turned away, first that applies": 1 to 4 are the image's, 5 to 8 the rest's.
    let program = image::read(loan.image)?;
    lent::check_card(loan.card)?;
    lent::check_limits(loan.stack_limit, loan.stack.len(), loan.heap_limit, loan.heap.len())?;
    let wires = lent::read_wires(&program, loan.wires)?;
    let order = lent::read_order(&program, loan.order)?;

    let mut machine = Machine::new(&program, loan.card, wires, order);
    machine.limits.time = loan.time;
    machine.limits.stack = loan.stack_limit as usize;
    machine.limits.heap = loan.heap_limit as usize;
    let ending = machine.run(watch);

    // "Both areas are zeroed at the start, and every word from sp, or hp, up is 0 at the ending."
    machine.frames.encode(loan.stack);
    machine.heap.encode(loan.heap);
    for (tree, words) in machine.wires.iter().zip(loan.wires.chunks_mut(wire::WIRE)) {
        wire::encode(tree.as_ref(), words);
    }
    let rules = machine.order.iter().flatten();
    for (rule, word) in rules.zip(loan.order.iter_mut()) {
        *word = *rule as u32;
    }
    Ok(machine.figures(ending))
}
