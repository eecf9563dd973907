//! Document 01's numbers, by name.

/// Why a call was turned away: the first number of document 01's table that applies.
#[derive(Clone, Copy, Debug, PartialEq, Eq)]
pub enum Refusal {
    Length = 1,
    Version = 2,
    Counts = 3,
    Code = 4,
    Card = 5,
    Limits = 6,
    Wires = 7,
    Order = 8,
}

/// How an accepted call ended.
#[derive(Clone, Copy, Debug, PartialEq, Eq)]
pub enum Ending {
    Finished,
    Blocked { output: u32 },
    Fault(Fault),
    NoRule,
    Unhandled { exception: u32 },
    Time,
    Stack,
    Heap,
}

#[derive(Clone, Copy, Debug, PartialEq, Eq)]
pub enum Fault {
    TooFewValues = 1,
    WrongKind = 2,
    NoSuchPlace = 3,
    NoFrame = 4,
    WireFull = 5,
    ValueTooLong = 6,
    RulesUsedUp = 7,
    EmptyInput = 8,
}

/// What an accepted call has used, and where it stands.
#[derive(Clone, Copy, Debug, PartialEq, Eq)]
pub struct Figures {
    pub ending: Ending,
    pub pc: u32,
    pub steps: u32,
    pub time: u32,
    pub peak: u32,
    pub depth: u32,
    pub heap: u32,
}

impl Ending {
    /// "0 finished, 1 blocked (output), 2 fault (number), 3 no rule left after a failed match, 4 exception (number) with
    /// no handler, 5 time, 6 stack, 7 heap."
    pub fn number(self) -> u32 {
        match self {
            Ending::Finished => 0,
            Ending::Blocked { .. } => 1,
            Ending::Fault(_) => 2,
            Ending::NoRule => 3,
            Ending::Unhandled { .. } => 4,
            Ending::Time => 5,
            Ending::Stack => 6,
            Ending::Heap => 7,
        }
    }

    /// "The detail is the bracketed number, else 0."
    pub fn detail(self) -> u32 {
        match self {
            Ending::Blocked { output } => output,
            Ending::Fault(fault) => fault as u32,
            Ending::Unhandled { exception } => exception,
            _ => 0,
        }
    }
}

impl Figures {
    /// The eight figures in document 01's order.
    pub fn in_order(&self) -> [u32; 8] {
        let (number, detail) = (self.ending.number(), self.ending.detail());
        [
            number, detail, self.pc, self.steps, self.time, self.peak, self.depth, self.heap,
        ]
    }
}

pub(crate) fn refusal(number: u32) -> Refusal {
    match number {
        1 => Refusal::Length,
        2 => Refusal::Version,
        3 => Refusal::Counts,
        4 => Refusal::Code,
        5 => Refusal::Card,
        6 => Refusal::Limits,
        7 => Refusal::Wires,
        8 => Refusal::Order,
        _ => unreachable!("the call's promise: refusals are 1 to 8"),
    }
}

fn fault(number: u32) -> Fault {
    match number {
        1 => Fault::TooFewValues,
        2 => Fault::WrongKind,
        3 => Fault::NoSuchPlace,
        4 => Fault::NoFrame,
        5 => Fault::WireFull,
        6 => Fault::ValueTooLong,
        7 => Fault::RulesUsedUp,
        8 => Fault::EmptyInput,
        _ => unreachable!("the call's promise: faults are 1 to 8"),
    }
}

fn ending(number: u32, detail: u32) -> Ending {
    match number {
        0 => Ending::Finished,
        1 => Ending::Blocked { output: detail },
        2 => Ending::Fault(fault(detail)),
        3 => Ending::NoRule,
        4 => Ending::Unhandled { exception: detail },
        5 => Ending::Time,
        6 => Ending::Stack,
        7 => Ending::Heap,
        _ => unreachable!("the call's promise: endings are 0 to 7"),
    }
}

pub(crate) fn figures(told: [u32; 8]) -> Figures {
    let [number, detail, pc, steps, time, peak, depth, heap] = told;
    Figures {
        ending: ending(number, detail),
        pc,
        steps,
        time,
        peak,
        depth,
        heap,
    }
}
