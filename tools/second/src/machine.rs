//! The machine: a step is a change or an ending.

use crate::frames::{Frames, Word};
use crate::heap::{self, Field, Heap, Object};
use crate::image::{Instruction, Program};
use crate::primitives::{self, Yield};
use crate::wire::{Tree, ROOM};
use crate::{Figures, Watch, Way};

/// "0 finished, 1 blocked (output), 2 fault (number), 3 no rule left after a failed match, 4 exception (number) with
/// no handler, 5 time, 6 stack, 7 heap."
#[derive(Clone, Copy, Debug, PartialEq, Eq)]
pub enum Ending {
    Finished,
    Blocked { output: usize },
    Fault(Fault),
    NoRuleLeft,
    Unhandled { exception: u16 },
    OutOfTime,
    OutOfStack,
    OutOfHeap,
}

/// The faults, by their numbers.
#[derive(Clone, Copy, Debug, PartialEq, Eq)]
pub enum Fault {
    TooFewValues = 1,
    WrongKind = 2,
    NoSuchPlace = 3,
    BadFrame = 4,
    WireFull = 5,
    ValueTooLong = 6,
    NoSuchRule = 7,
    WireEmpty = 8,
}

impl Ending {
    /// The number, and "the bracketed number, else 0".
    pub fn numbers(self) -> (u32, u32) {
        match self {
            Ending::Finished => (0, 0),
            Ending::Blocked { output } => (1, output as u32),
            Ending::Fault(fault) => (2, fault as u32),
            Ending::NoRuleLeft => (3, 0),
            Ending::Unhandled { exception } => (4, u32::from(exception)),
            Ending::OutOfTime => (5, 0),
            Ending::OutOfStack => (6, 0),
            Ending::OutOfHeap => (7, 0),
        }
    }
}

impl From<Fault> for Ending {
    fn from(fault: Fault) -> Ending {
        Ending::Fault(fault)
    }
}

/// The registers that aren't seen from the frames (sp, fp) or the heap (hp).
#[derive(Clone, Copy, Debug, Default)]
pub struct Registers {
    pc: usize,
    ruleset: usize,
    rp: usize,
    mp: usize,
    inp: usize,
    slp: usize,
}

/// What an instruction does to the frames.
#[derive(Clone, Copy, Debug)]
enum Shape {
    /// Takes and gives values of the top frame.
    Values,
    /// "values dropped"
    DropAll,
    /// Takes the top value into a local.
    SetLocal {
        local: usize,
        word: Word,
    },
    Open {
        locals: usize,
    },
    Close {
        result: Word,
    },
    Restart {
        exception: Word,
    },
}

/// All that an instruction does, before it is done.
#[derive(Clone, Debug)]
pub struct Change {
    registers: Registers,
    shape: Shape,
    /// Values taken from the top.
    take: usize,
    /// Words pushed after that, the lowest first.
    give: Vec<Word>,
    /// Objects placed on the heap, in this order.
    objects: Vec<Object>,
    /// A wire, and what it holds afterwards.
    wire: Option<(usize, Option<Tree>)>,
    /// The new order of the current ruleset.
    order: Option<Vec<usize>>,
    /// A primitive's "cycles from Table 5 added to the card's".
    cycles: u32,
    finished: bool,
}

impl Change {
    /// "control goes to the next instruction and registers stay, unless said"
    fn next(registers: &Registers) -> Change {
        Change {
            registers: Registers {
                pc: registers.pc + 1,
                ..*registers
            },
            shape: Shape::Values,
            take: 0,
            give: Vec::new(),
            objects: Vec::new(),
            wire: None,
            order: None,
            cycles: 0,
            finished: false,
        }
    }

    fn take(mut self, count: usize) -> Change {
        self.take = count;
        self
    }

    fn give(mut self, word: Word) -> Change {
        self.give.push(word);
        self
    }

    fn shape(mut self, shape: Shape) -> Change {
        self.shape = shape;
        self
    }

    fn goto(mut self, address: usize) -> Change {
        self.registers.pc = address;
        self
    }

    fn wire(mut self, number: usize, tree: Option<Tree>) -> Change {
        self.wire = Some((number, tree));
        self
    }

    /// A new object at `place`, pushed as a reference.
    fn object(mut self, place: usize, object: Object) -> Change {
        self.objects.push(object);
        self.give(Word::Place(place))
    }
}

type Step = Result<Change, Ending>;

#[derive(Clone, Copy, Debug, Default)]
pub struct Limits {
    pub time: u32,
    pub stack: usize,
    pub heap: usize,
}

pub struct Machine<'a> {
    program: &'a Program,
    card: &'a [u32],
    pub limits: Limits,
    registers: Registers,
    pub frames: Frames,
    pub heap: Heap,
    pub wires: Vec<Option<Tree>>,
    /// For each ruleset the rules in the order of trying.
    pub order: Vec<Vec<usize>>,
    steps: u32,
    time: u64,
    peak: usize,
}

impl<'a> Machine<'a> {
    /// "Registers start at 0: sp, hp, fp, slp, rp, mp, inp; the ruleset is 0, pc its entry."
    pub fn new(program: &'a Program, card: &'a [u32], wires: Vec<Option<Tree>>, order: Vec<Vec<usize>>) -> Machine<'a> {
        Machine {
            program,
            card,
            limits: Limits::default(),
            registers: Registers {
                pc: program.rulesets[0].entry,
                ..Registers::default()
            },
            frames: Frames::empty(),
            heap: Heap::default(),
            wires,
            order,
            steps: 0,
            time: 0,
            peak: 0,
        }
    }

    /// "The main loop yields the ending it stopped on".
    pub fn run(&mut self, watch: &mut dyn Watch) -> Ending {
        loop {
            let coded = self.program.code[self.registers.pc];
            let step = self.change(&coded.instruction);
            match step.and_then(|change| self.allow(coded.opcode, change)) {
                // "An instruction that gives any ending but 0 changes nothing, and pc stays on it."
                Err(ending) => return ending,
                Ok((change, time)) => {
                    watch.executed(coded.opcode, coded.a, self.way(&change));
                    let finished = change.finished;
                    self.carry_out(change, time);
                    if finished {
                        return Ending::Finished;
                    }
                }
            }
        }
    }

    pub fn figures(&self, ending: Ending) -> Figures {
        let (ending, detail) = ending.numbers();
        Figures {
            ending,
            detail,
            pc: self.registers.pc as u32,
            steps: self.steps,
            time: self.time as u32,
            peak: self.peak as u32,
            depth: self.frames.depth() as u32,
            heap: self.heap.used() as u32,
        }
    }

    fn way(&self, change: &Change) -> Way {
        match change.shape {
            Shape::Restart { .. } => Way::Raised,
            _ if change.registers.pc == self.registers.pc + 1 => Way::On,
            _ => Way::Away,
        }
    }

    /// "Per instruction: endings 1 to 4 first, uncharged, a fault before the others; then time, then depth after it,
    /// then heap after it." The endings 1 to 4 were the step's; here are the limits.
    fn allow(&self, opcode: u8, change: Change) -> Result<(Change, u64), Ending> {
        let card = self.card[usize::from(opcode) - 1];
        let time = self.time + u64::from(card) + u64::from(change.cycles);
        if time > u64::from(self.limits.time) {
            return Err(Ending::OutOfTime);
        }
        if self.depth_after(&change) > self.limits.stack {
            return Err(Ending::OutOfStack);
        }
        if self.heap.used() + heap::size_of_all(&change.objects) > self.limits.heap {
            return Err(Ending::OutOfHeap);
        }
        Ok((change, time))
    }

    fn depth_after(&self, change: &Change) -> usize {
        let depth = self.frames.depth();
        match change.shape {
            Shape::Values => depth - change.take + change.give.len(),
            Shape::DropAll => depth - self.frames.values().len(),
            Shape::SetLocal { .. } => depth - 1,
            Shape::Open { locals } => depth + 1 + locals,
            Shape::Close { .. } => self.frames.fp() - 3,
            Shape::Restart { .. } => 5,
        }
    }

    fn carry_out(&mut self, change: Change, time: u64) {
        self.steps += 1;
        self.time = time;
        if let Some(order) = change.order {
            self.order[self.registers.ruleset] = order;
        }
        self.registers = change.registers;
        match change.shape {
            Shape::Values => {
                self.frames.drop_values(change.take);
                for word in change.give {
                    self.frames.push(word);
                }
            }
            Shape::DropAll => self.frames.drop_values(self.frames.values().len()),
            Shape::SetLocal { local, word } => {
                self.frames.drop_values(1);
                self.frames.set_local(local, word);
            }
            Shape::Open { locals } => self.frames.open(locals),
            Shape::Close { result } => self.frames.close(result),
            Shape::Restart { exception } => self.frames.restart(exception),
        }
        for object in change.objects {
            self.heap.place(object);
        }
        if let Some((number, tree)) = change.wire {
            self.wires[number] = tree;
        }
        self.peak = self.peak.max(self.frames.depth());
    }

    /// The instructions, in the order of document 01.
    fn change(&self, instruction: &Instruction) -> Step {
        use Instruction as I;
        let next = Change::next(&self.registers);
        let hp = self.heap.used();
        match *instruction {
            I::MkBool(truth) => Ok(next.object(hp, Object::Bool(truth))),
            I::MkInt(integer) => Ok(next.object(hp, Object::Int(integer))),
            I::MkFloat(float) => Ok(next.object(hp, Object::Float(float))),
            // "MkNone and None take no heap"
            I::MkNone => Ok(next.give(Word::None)),
            I::MkTuple { fields } => {
                let object = Object::Tuple(self.fields(fields)?);
                Ok(next.take(fields).object(hp, object))
            }
            I::MkCon { fields, tag } => {
                let object = Object::Constr(tag, self.fields(fields)?);
                Ok(next.take(fields).object(hp, object))
            }
            I::Push(count) => Ok((0..count).fold(next, |next, _| next.give(Word::Null))),
            I::Pop(count) => self.need(count).map(|()| next.take(count)),
            // "Slide a [-a] keeps the top"
            I::Slide(count) => {
                self.need(count + 1)?;
                Ok(next.take(count + 1).give(self.value(0)?))
            }
            // "the word a below the top"
            I::Copy(below) => Ok(next.give(self.value(below)?)),
            I::CopyArg(argument) => self.copy_argument(next, argument),
            I::CreateFrame { locals } => self.create_frame(next, locals),
            I::PushVar(local) => {
                let word = self.frames.locals().get(local).ok_or(Fault::NoSuchPlace)?;
                Ok(next.give(*word))
            }
            I::MakeVar(local) => {
                let word = self.value(0)?;
                self.frames.locals().get(local).ok_or(Fault::NoSuchPlace)?;
                Ok(next.shape(Shape::SetLocal { local, word }))
            }
            I::Goto(address) => Ok(next.goto(address)),
            I::If(address) => match self.cell(0)? {
                Object::Bool(true) => Ok(next.take(1).goto(address)),
                Object::Bool(false) => Ok(next.take(1)),
                _ => Err(Fault::WrongKind.into()),
            },
            I::Call { ruleset } => Ok(self.call(next, ruleset)),
            I::Return => self.give_back(next),
            I::CallPrim1(number) => {
                let outcome = primitives::one(number, self.cell(0)?).ok_or(Fault::WrongKind)?;
                self.primitive(next, 1, number, outcome)
            }
            I::CallPrim2(number) => {
                self.need(2)?;
                let (first, second) = (self.cell(0)?, self.cell(1)?);
                let outcome = primitives::two(number, first, second).ok_or(Fault::WrongKind)?;
                self.primitive(next, 2, number, outcome)
            }
            I::Raise { exception } => {
                let field = self.value(0)?.as_field().ok_or(Fault::WrongKind)?;
                self.raise(next, exception, field)
            }
            // "to the current ruleset's rule at order 0"
            I::StartMatches => Ok(next.goto(self.rule_at(0))),
            I::MatchRule => self.match_rule(next),
            I::MatchedRule => Ok(next.shape(Shape::DropAll)),
            I::MatchNone => Ok(self.match_none(next)),
            I::MatchAvailable => self.match_available(next),
            I::MatchBool(truth) => self.match_cell(next, |cell| *cell == Object::Bool(truth)),
            I::MatchInt(integer) => self.match_cell(next, |cell| *cell == Object::Int(integer)),
            // "floats by their bits"
            I::MatchFloat(float) => self.match_cell(
                next,
                |cell| matches!(cell, Object::Float(own) if own.to_bits() == float.to_bits()),
            ),
            I::MatchTuple { fields } => {
                self.match_cell(next, |cell| matches!(cell, Object::Tuple(own) if own.len() == fields))
            }
            I::MatchCon { fields, tag } => self.match_cell(
                next,
                |cell| matches!(cell, Object::Constr(own_tag, own) if *own_tag == tag && own.len() == fields),
            ),
            I::MatchExn { exception } => {
                self.match_cell(next, |cell| matches!(cell, Object::Exn(own, _) if *own == exception))
            }
            I::Unpack => match self.cell(0)? {
                Object::Tuple(fields) | Object::Constr(_, fields) => Ok(unpack(next, fields)),
                _ => Err(Fault::WrongKind.into()),
            },
            I::Reorder => Ok(self.reorder(next)),
            I::CopyInput(input) => self.copy_input(next, input),
            // "Consume a and MaybeConsume a (empty the wire)"
            I::Consume(input) | I::MaybeConsume(input) => Ok(next.wire(input, None)),
            I::CheckOutputs => self.check_outputs(next),
            I::Write(output) => self.write(next, output),
            // "Schedule is charged and pc stays on it."
            I::Schedule => {
                let mut stay = next.goto(self.registers.pc);
                stay.finished = true;
                Ok(stay)
            }
        }
    }

    /// "1 too few values (an instruction needs those it takes or reads ...)"
    fn need(&self, count: usize) -> Result<(), Ending> {
        if self.frames.values().len() < count {
            return Err(Fault::TooFewValues.into());
        }
        Ok(())
    }

    /// The value so far below the top.
    fn value(&self, below: usize) -> Result<Word, Ending> {
        self.need(below + 1)?;
        let values = self.frames.values();
        Ok(values[values.len() - 1 - below])
    }

    /// The cell that the value so far below the top refers to; "2 wrong kind of word or cell".
    fn cell(&self, below: usize) -> Result<&Object, Ending> {
        match self.value(below)? {
            Word::Place(place) => Ok(self.heap.at(place)),
            _ => Err(Fault::WrongKind.into()),
        }
    }

    /// "field 0 is the top word; each field a reference or None"
    fn fields(&self, count: usize) -> Result<Vec<Field>, Ending> {
        self.need(count)?;
        let words = self.frames.values().iter().rev().take(count);
        let fields: Option<Vec<Field>> = words.map(|word| word.as_field()).collect();
        fields.ok_or(Fault::WrongKind.into())
    }

    /// "the word at fp-5-a"; "3 no such ... argument (fp below 5 plus its number)".
    fn argument(&self, number: usize) -> Result<Word, Ending> {
        match self.frames.fp().checked_sub(5 + number) {
            Some(place) => Ok(self.frames.word_at(place)),
            None => Err(Fault::NoSuchPlace.into()),
        }
    }

    /// "CopyArg copies only null, a reference or None"
    fn copy_argument(&self, next: Change, number: usize) -> Step {
        match self.argument(number)? {
            word @ (Word::Null | Word::Place(_) | Word::None) => Ok(next.give(word)),
            _ => Err(Fault::WrongKind.into()),
        }
    }

    /// "4 CreateFrame without 3 values"
    fn create_frame(&self, next: Change, locals: usize) -> Step {
        if self.frames.values().len() < 3 {
            return Err(Fault::BadFrame.into());
        }
        Ok(next.shape(Shape::Open { locals }))
    }

    /// "return address, ruleset word, static link of slp; slp becomes the new sp + 1, rp 0, pc the entry"
    fn call(&self, next: Change, ruleset: usize) -> Change {
        let old = self.registers;
        let mut change = next
            .give(Word::ReturnAddress(old.pc + 1))
            .give(Word::Rules {
                ruleset: old.ruleset,
                rp: old.rp,
            })
            .give(Word::StaticLink(old.slp));
        change.registers.slp = self.frames.depth() + 3 + 1;
        self.enter(change, ruleset)
    }

    fn enter(&self, mut change: Change, ruleset: usize) -> Change {
        change.registers.ruleset = ruleset;
        change.registers.rp = 0;
        change.goto(self.program.rulesets[ruleset].entry)
    }

    /// Return: "the top word goes to fp-4, sp becomes fp-3, and the four saved words are restored";
    /// "4 ... Return where a saved word has the wrong type or fp is 0".
    fn give_back(&self, next: Change) -> Step {
        let result = self.value(0)?;
        match self.frames.saved() {
            Some([Word::ReturnAddress(address), Word::Rules { ruleset, rp }, Word::StaticLink(slp)]) => {
                let mut change = next.shape(Shape::Close { result }).goto(address);
                change.registers.ruleset = ruleset;
                change.registers.rp = rp;
                change.registers.slp = slp;
                Ok(change)
            }
            _ => Err(Fault::BadFrame.into()),
        }
    }

    /// "result 2 heap words; cycles from Table 5 added to the card's"
    fn primitive(&self, next: Change, operands: usize, number: usize, outcome: Yield) -> Step {
        let mut change = match outcome {
            Yield::Value(object) => next.take(operands).object(self.heap.used(), object),
            // "A raising primitive costs its own time, 3 heap words, and the stack becomes that of Raise."
            Yield::Exception(exception) => self.raise(next, exception, Field::None)?,
        };
        change.cycles = primitives::cost(operands, number).expect("a primitive of the image exists");
        Ok(change)
    }

    /// "makes Exn b of the top value ...; fp = 5, slp 0; the handler is entered with rp 0"
    fn raise(&self, next: Change, exception: u16, field: Field) -> Step {
        let handler = self.program.handler.ok_or(Ending::Unhandled { exception })?;
        let place = Word::Place(self.heap.used());
        let mut change = next.shape(Shape::Restart { exception: place });
        change.objects.push(Object::Exn(exception, field));
        change.registers.slp = 0;
        Ok(self.enter(change, handler))
    }

    /// The address of the rule that is tried at a position of the current ruleset's order.
    fn rule_at(&self, position: usize) -> usize {
        let ruleset = self.registers.ruleset;
        self.program.rulesets[ruleset].rules[self.order[ruleset][position]]
    }

    /// "A failure goes to the rule at order rp." "3 no rule left after a failed match"
    fn fail(&self, change: Change) -> Step {
        let rp = self.registers.rp;
        if rp == self.program.rule_count(self.registers.ruleset) {
            return Err(Ending::NoRuleLeft);
        }
        Ok(change.goto(self.rule_at(rp)))
    }

    /// "MatchRule: rp + 1, mp and inp 0, values dropped"; "7 MatchRule with rp at the count".
    fn match_rule(&self, next: Change) -> Step {
        if self.registers.rp == self.program.rule_count(self.registers.ruleset) {
            return Err(Fault::NoSuchRule.into());
        }
        let mut change = next.shape(Shape::DropAll);
        change.registers.rp += 1;
        change.registers.mp = 0;
        change.registers.inp = 0;
        Ok(change)
    }

    /// "MatchNone: mp + 1, inp + 1."
    fn match_none(&self, mut next: Change) -> Change {
        next.registers.mp += 1;
        next.registers.inp += 1;
        next
    }

    /// "MatchAvailable: inp + 1, fails if that input is empty"; "3 no such ... input (inp at least their number)".
    fn match_available(&self, mut next: Change) -> Step {
        let input = self.registers.inp;
        if input >= self.program.inputs {
            return Err(Fault::NoSuchPlace.into());
        }
        next.registers.inp += 1;
        match self.wires[input] {
            Some(_) => Ok(next),
            None => self.fail(next),
        }
    }

    /// "argument mp, the word at fp-5-mp, then mp + 1"; "a matched ... word is a reference or None; ... a cell of
    /// another kind, or None, only fails a match".
    fn match_cell(&self, mut next: Change, fits: impl Fn(&Object) -> bool) -> Step {
        let field = self.argument(self.registers.mp)?.as_field().ok_or(Fault::WrongKind)?;
        next.registers.mp += 1;
        match field {
            Field::Place(place) if fits(self.heap.at(place)) => Ok(next),
            _ => self.fail(next),
        }
    }

    /// "Reorder: the rule at order position rp goes last, those after it move down one; with rp = count, nothing."
    fn reorder(&self, mut next: Change) -> Change {
        let rp = self.registers.rp;
        let mut order = self.order[self.registers.ruleset].clone();
        if rp < order.len() {
            order[rp..].rotate_left(1);
        }
        next.order = Some(order);
        next
    }

    /// "8 CopyInput from an empty wire"; "CopyInput costs the words it places".
    fn copy_input(&self, mut next: Change, input: usize) -> Step {
        let tree = self.wires[input].as_ref().ok_or(Fault::WireEmpty)?;
        let field = heap::copy(tree, self.heap.used(), &mut next.objects);
        Ok(next.give(Word::from_field(field)))
    }

    fn output(&self, output: usize) -> &Option<Tree> {
        &self.wires[self.program.inputs + output]
    }

    /// "output i is the value i below the top; blocked if one isn't None and its wire is full (the lowest such i)"
    fn check_outputs(&self, next: Change) -> Step {
        let fields = self.fields(self.program.outputs)?;
        for (output, field) in fields.iter().enumerate() {
            if *field != Field::None && self.output(output).is_some() {
                return Err(Ending::Blocked { output });
            }
        }
        Ok(next)
    }

    /// "Write a [-1]: None writes nothing"; "5 Write of a reference to a full wire; 6 value over 64 wire words".
    fn write(&self, next: Change, output: usize) -> Step {
        let field = self.value(0)?.as_field().ok_or(Fault::WrongKind)?;
        let place = match field {
            Field::None => return Ok(next.take(1)),
            Field::Place(place) => place,
        };
        if self.output(output).is_some() {
            return Err(Fault::WireFull.into());
        }
        let mut room = ROOM;
        let tree = self.heap.spread(place, &mut room).ok_or(Fault::ValueTooLong)?;
        Ok(next.take(1).wire(self.program.inputs + output, Some(tree)))
    }
}

/// "pops a Tuple or Constr, pushes field 0 first"
fn unpack(next: Change, fields: &[Field]) -> Change {
    fields
        .iter()
        .fold(next.take(1), |next, field| next.give(Word::from_field(*field)))
}
