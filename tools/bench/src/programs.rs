//! The measured programs, by what they spend their time on.
//!
//! There is no garbage collection: a program that makes objects ends at the heap limit after some ten thousand
//! instructions. The others go on until their time is over.

use cases::assembly::{any_instruction, Rules, Source};
use cases::rng::Rng;
use cases::values;
use second::wire::Tree;

/// Everything lent for one call, before it.
#[derive(Clone)]
pub struct Program {
    pub group: &'static str,
    pub name: &'static str,
    pub image: Vec<u8>,
    pub card: Vec<u32>,
    pub time: u32,
    pub stack_limit: u32,
    pub heap_limit: u32,
    pub wires: Vec<u32>,
    pub order: Vec<u32>,
}

pub const GROUPS: [&str; 6] = [
    "integer loops",
    "calls and returns",
    "matching and tuples",
    "floats",
    "wire copies",
    "exceptions",
];

/// The steps of a program that makes no objects: each costs 1.
const STEPS: u32 = 200_000;

/// Sums the numbers from 10000 down.
const SUM: &str = "
    box inputs 0 outputs 0
    ruleset start entry start rules start
start:
    Push 3
    CreateFrame 2
    MkInt 0
    MakeVar 0
    MkInt 10000
    MakeVar 1
loop:
    MkInt 0
    PushVar 1
    CallPrim2 ==.i
    If done
    PushVar 0
    PushVar 1
    CallPrim2 +.i
    MakeVar 0
    MkInt 1
    PushVar 1
    CallPrim2 -.i
    MakeVar 1
    Goto loop
done:
    Schedule";

/// Euclid's algorithm on two neighbouring Fibonacci numbers, again and again.
const GCD: &str = "
    box inputs 0 outputs 0
    ruleset start entry start rules start
start:
    Push 3
    CreateFrame 2
again:
    MkInt 1134903170
    MakeVar 0
    MkInt 701408733
    MakeVar 1
loop:
    MkInt 0
    PushVar 1
    CallPrim2 ==.i
    If again
    PushVar 1
    PushVar 0
    CallPrim2 mod.i
    PushVar 1
    MakeVar 0
    MakeVar 1
    Goto loop
    Schedule";

/// Comparisons, multiplications and truths.
const COMPARE: &str = "
    box inputs 0 outputs 0
    ruleset start entry start rules start
start:
    Push 3
    CreateFrame 1
    MkInt 3
    MakeVar 0
loop:
    PushVar 0
    MkInt 1664525
    CallPrim2 *.i
    MakeVar 0
    PushVar 0
    MkInt 1000
    CallPrim2 <.i
    PushVar 0
    MkInt 5
    CallPrim2 >.i
    CallPrim2 or
    CallPrim1 not
    If loop
    Goto loop
    Schedule";

/// Words moved on the stack alone.
const SHUFFLE: &str = "
    box inputs 0 outputs 0
    ruleset start entry start rules start
start:
    Push 3
    CreateFrame 2
loop:
    MkNone
    MakeVar 0
    PushVar 0
    PushVar 1
    Copy 1
    Slide 2
    Push 2
    Pop 3
    Goto loop";

/// A function that returns its argument.
const LEAF: &str = "
    box inputs 0 outputs 0
    ruleset start entry start rules start
    ruleset leaf entry leaf rules leaf
start:
    MkNone
loop:
    Call leaf
    Slide 1
    Goto loop
leaf:
    CreateFrame 1
    CopyArg 0
    Return";

/// Three functions, each calling the next twice, and a last one that returns its argument.
const NESTED: &str = "
    box inputs 0 outputs 0
    ruleset start entry start rules start
    ruleset one entry one rules one
    ruleset two entry two rules two
    ruleset three entry three rules three
    ruleset leaf entry leaf rules leaf
start:
    MkNone
    Call one
    Pop 2
    Goto start
one:
    CreateFrame 0
    CopyArg 0
    Call two
    Call two
    Return
two:
    CreateFrame 1
    CopyArg 0
    Call three
    MakeVar 0
    PushVar 0
    Call three
    Return
three:
    CreateFrame 2
    CopyArg 0
    Call leaf
    Call leaf
    Return
leaf:
    CreateFrame 0
    CopyArg 0
    Return";

/// Fibonacci numbers by recursion, with integers on the heap.
const FIBONACCI: &str = "
    box inputs 0 outputs 0
    ruleset start entry start rules start
    ruleset fib entry fib rules fib
start:
    MkInt 20
    Call fib
    Schedule
fib:
    CreateFrame 0
    MkInt 2
    CopyArg 0
    CallPrim2 <.i
    If small
    MkInt 2
    CopyArg 0
    CallPrim2 -.i
    Call fib
    Slide 1
    MkInt 1
    CopyArg 0
    CallPrim2 -.i
    Call fib
    Slide 1
    CallPrim2 +.i
    Return
small:
    CopyArg 0
    Return";

/// A function of five rules on constructors, called with each.
const RULES: &str = "
    box inputs 0 outputs 0
    ruleset start entry start rules start
    ruleset try entry try rules first second third fourth fifth
start:
    Push 3
    CreateFrame 4
    MkCon 0 tag 1
    MakeVar 0
    MkNone
    MkNone
    MkCon 2 tag 2
    MakeVar 1
    MkInt 7
    MakeVar 2
    MkBool True
    MakeVar 3
loop:
    PushVar 0
    Call try
    PushVar 1
    Call try
    PushVar 2
    Call try
    PushVar 3
    Call try
    Pop 8
    Goto loop
try:
    CreateFrame 0
    StartMatches
first:
    MatchRule
    MatchCon 0 tag 1
    MatchedRule
    MkNone
    Return
second:
    MatchRule
    MatchCon 2 tag 2
    MatchedRule
    CopyArg 0
    Return
third:
    MatchRule
    MatchInt 6
    MatchedRule
    MkNone
    Return
fourth:
    MatchRule
    MatchInt 7
    MatchedRule
    CopyArg 0
    Return
fifth:
    MatchRule
    MatchBool True
    MatchedRule
    MkNone
    Return";

/// Walks along a list of four by matching its cells, and back.
const LIST: &str = "
    box inputs 0 outputs 0
    ruleset start entry start rules start
    ruleset walk entry walk rules nil cons
start:
    Push 3
    CreateFrame 1
    MkCon 0 tag 0
    MkNone
    MkCon 2 tag 1
    MkNone
    MkCon 2 tag 1
    MkNone
    MkCon 2 tag 1
    MkNone
    MkCon 2 tag 1
    MakeVar 0
loop:
    PushVar 0
    Call walk
    Pop 2
    Goto loop
walk:
    CreateFrame 1
    StartMatches
nil:
    MatchRule
    MatchCon 0 tag 0
    MatchedRule
    MkNone
    Return
cons:
    MatchRule
    MatchCon 2 tag 1
    MatchedRule
    CopyArg 0
    Unpack
    Call walk
    Return";

/// Tuples made and taken apart.
const TUPLES: &str = "
    box inputs 0 outputs 0
    ruleset start entry start rules start
start:
    MkInt 1
    MkInt 2
    MkInt 3
loop:
    MkTuple 3
    Unpack
    MkTuple 2
    Unpack
    Goto loop";

/// A tuple's fields, matched as arguments.
const PAIRS: &str = "
    box inputs 0 outputs 0
    ruleset start entry start rules start
    ruleset try entry try rules swap same
start:
    Push 3
    CreateFrame 1
    MkInt 4
    MkBool False
    MkTuple 2
    MakeVar 0
loop:
    PushVar 0
    Unpack
    PushVar 0
    Call try
    Pop 4
    Goto loop
try:
    CreateFrame 0
    StartMatches
swap:
    MatchRule
    MatchTuple 2
    MatchInt 3
    MatchBool True
    MatchedRule
    MkNone
    Return
same:
    MatchRule
    MatchTuple 2
    MatchInt 4
    MatchBool False
    MatchedRule
    MkNone
    Return";

/// A logistic map.
const LOGISTIC: &str = "
    box inputs 0 outputs 0
    ruleset start entry start rules start
start:
    Push 3
    CreateFrame 1
    MkFloat 0.3
    MakeVar 0
loop:
    PushVar 0
    MkFloat 1.0
    CallPrim2 -.f
    PushVar 0
    CallPrim2 *.f
    MkFloat 3.7
    CallPrim2 *.f
    MakeVar 0
    MkFloat 0.0
    PushVar 0
    CallPrim2 >.f
    If loop
    Goto loop
    Schedule";

/// Sums, quotients and conversions.
const CONVERT: &str = "
    box inputs 0 outputs 0
    ruleset start entry start rules start
start:
    Push 3
    CreateFrame 1
    MkInt 1
    MakeVar 0
loop:
    MkFloat 8.5
    PushVar 0
    CallPrim1 toFloat.i
    CallPrim2 /.f
    MkFloat 1000.25
    CallPrim2 +.f
    CallPrim1 toInt.f
    MakeVar 0
    Goto loop
    Schedule";

/// An integer, copied from its wire.
const COPY_ATOM: &str = "
    box inputs 1 outputs 0
    ruleset start entry start rules start
start:
    CopyInput 0
    Pop 1
    Goto start";

/// The same of a value of many cells, and of one wide cell.
const COPY_TREES: &str = "
    box inputs 2 outputs 0
    ruleset start entry start rules start
start:
    CopyInput 0
    CopyInput 1
    Pop 2
    Goto start";

/// Wires looked at and emptied, and nothing to write.
const CONSUME: &str = "
    box inputs 2 outputs 2
    ruleset start entry start rules start
start:
    MatchRule
again:
    MkNone
    MkNone
    CheckOutputs
    Write 0
    Write 1
    Consume 0
    MaybeConsume 1
    Goto again";

/// A box of eight wires each way: every input is copied and written to an output. A call writes to a wire once.
const BOX: &str = "
    box inputs 8 outputs 8
    ruleset start entry start rules all
start:
    Push 3
    CreateFrame 0
    StartMatches
all:
    MatchRule
    MatchAvailable
    MatchAvailable
    MatchAvailable
    MatchAvailable
    MatchAvailable
    MatchAvailable
    MatchAvailable
    MatchAvailable
    MatchedRule
    CopyInput 0
    CopyInput 1
    CopyInput 2
    CopyInput 3
    CopyInput 4
    CopyInput 5
    CopyInput 6
    CopyInput 7
    CheckOutputs
    Write 0
    Write 1
    Write 2
    Write 3
    Write 4
    Write 5
    Write 6
    Write 7
    Consume 0
    Consume 1
    Consume 2
    Consume 3
    Consume 4
    Consume 5
    Consume 6
    Consume 7
    Schedule";

/// An exception that its handler matches and raises again.
const RAISE: &str = "
    box inputs 0 outputs 0 handler caught
    ruleset start entry start rules start
    ruleset caught entry caught rules other own
start:
    MkNone
    Raise 7
caught:
    StartMatches
other:
    MatchRule
    MatchExn 3
    MatchedRule
    Schedule
own:
    MatchRule
    MatchExn 7
    MatchedRule
    MkNone
    Raise 7";

/// Divisions by zero, from within a call.
const DIVISION: &str = "
    box inputs 0 outputs 0 handler caught
    ruleset start entry start rules start
    ruleset caught entry caught rules caught
    ruleset divide entry divide rules divide
start:
    MkInt 0
    Call divide
    Schedule
caught:
    MkInt 0
    Call divide
    Schedule
divide:
    CreateFrame 0
    CopyArg 0
    CopyArg 0
    CallPrim2 div.i
    Return";

/// All of them. Each is lent what it needs: areas are zeroed, and a larger one takes longer.
pub fn all() -> Vec<Program> {
    let [integers, calls, matching, floats, wires, exceptions] = GROUPS;
    vec![
        with_heap(integers, "sum", SUM),
        with_heap(integers, "gcd", GCD),
        with_heap(integers, "compare", COMPARE),
        without_heap(integers, "shuffle", SHUFFLE),
        without_heap(calls, "leaf", LEAF),
        without_heap(calls, "nested", NESTED),
        with_heap(calls, "fibonacci", FIBONACCI),
        without_heap(matching, "rules", RULES),
        without_heap(matching, "list", LIST),
        without_heap(matching, "pairs", PAIRS),
        with_heap(matching, "tuples", TUPLES),
        with_heap(floats, "logistic", LOGISTIC),
        with_heap(floats, "convert", CONVERT),
        with_heap(wires, "copy atoms", COPY_ATOM).wires(&[Some(Tree::Int(7))]),
        with_heap(wires, "copy trees", COPY_TREES).wires(&[Some(deep()), Some(wide())]),
        without_heap(wires, "consume", CONSUME).wires(&[Some(deep()), Some(wide()), None, None]),
        a_box(wires),
        with_heap(exceptions, "raise", RAISE),
        with_heap(exceptions, "division", DIVISION),
    ]
}

/// Calls and returns that go on for so many steps.
pub fn long(steps: u32) -> Program {
    Program {
        time: steps,
        ..without_heap("", "long", NESTED)
    }
}

/// An image of so many instructions of every kind, in no order, lent no card: refusal 5, after the whole image is checked.
pub fn image_only(count: usize) -> Program {
    let rng = &mut Rng::new(1, 0, 0);
    let mut source = Source {
        inputs: 4,
        outputs: 4,
        handler: Some(1),
        rulesets: (0..8)
            .map(|start| Rules {
                entry: start,
                rules: vec![start; 2],
            })
            .collect(),
        code: (0..count - 1).map(|_| any_instruction(rng, 4, 4, 8)).collect(),
    };
    source.code.push(cases::assembly::Ins {
        op: 40,
        a: 0,
        b: 0,
        c: 0,
    });
    source.close(rng);
    let mut program = lent("", "image", source.image(), (0, 0, 0));
    program.card.clear();
    program
}

fn with_heap(group: &'static str, name: &'static str, text: &str) -> Program {
    lent(group, name, image_of(text), (u32::MAX, 4096, 16384))
}

fn without_heap(group: &'static str, name: &'static str, text: &str) -> Program {
    lent(group, name, image_of(text), (STEPS, 256, 64))
}

fn a_box(group: &'static str) -> Program {
    let trees = [
        Tree::Int(1),
        Tree::Float(0.5),
        deep(),
        wide(),
        Tree::Bool(true),
        pair(),
        deep(),
        wide(),
    ];
    let inputs = trees.map(Some);
    let mut wires: Vec<Option<Tree>> = inputs.to_vec();
    wires.resize(16, None);
    lent(group, "box", image_of(BOX), (u32::MAX, 64, 512)).wires(&wires)
}

/// The image of a text (`examples/README.md` in the project's directory).
fn image_of(text: &str) -> Vec<u8> {
    text::assemble(text).expect("the text of an image").image()
}

/// Everything lent, with a card of ones, empty wires and the rules in their order.
fn lent(group: &'static str, name: &'static str, image: Vec<u8>, limits: (u32, u32, u32)) -> Program {
    let program = second::image::read(&image).expect("an image that isn't refused");
    let orders = program.rulesets.iter().flat_map(|ruleset| 0..ruleset.rules.len());
    Program {
        group,
        name,
        card: vec![1; 40],
        time: limits.0,
        stack_limit: limits.1,
        heap_limit: limits.2,
        wires: vec![0; 65 * (program.inputs + program.outputs)],
        order: orders.map(|rule| rule as u32).collect(),
        image,
    }
}

impl Program {
    fn wires(mut self, trees: &[Option<Tree>]) -> Program {
        self.wires = trees.iter().flat_map(|tree| values::wire(tree.as_ref())).collect();
        self
    }
}

fn pair() -> Tree {
    Tree::Tuple(vec![Tree::Int(1), Tree::None])
}

/// A list of seven: 51 wire words in 22 cells.
fn deep() -> Tree {
    let nil = Tree::Constr(0, Vec::new());
    (0..7).fold(nil, |rest, number| {
        Tree::Constr(1, vec![Tree::Tuple(vec![Tree::Int(number), Tree::None]), rest])
    })
}

/// A tuple of thirty floats: 62 wire words in 31 cells.
fn wide() -> Tree {
    Tree::Tuple((0..30).map(|number| Tree::Float(number as f32)).collect())
}

#[cfg(test)]
mod tests {
    use super::*;
    use crate::machines::{plain, Buffers};

    /// A measured program goes on to the limit it is meant to reach: none has a fault or ends early.
    #[test]
    fn programs_go_on() {
        for program in all() {
            let figures = plain(&program, &mut Buffers::of(&program)).expect("an accepted call");
            let (ending, least) = match program.name {
                "box" => (0, 39),
                _ if program.heap_limit == 16384 => (7, 300),
                _ => (5, STEPS),
            };
            assert_eq!(figures[0], ending, "{}", program.name);
            assert!(figures[3] >= least, "{}", program.name);
        }
    }

    #[test]
    fn values_are_as_long_as_said() {
        assert_eq!((values::words(&deep()), values::words(&wide())), (51, 62));
    }

    #[test]
    fn images_are_fine_and_have_no_card() {
        for count in [4, 4096] {
            let program = image_only(count);
            assert_eq!(plain(&program, &mut Buffers::of(&program)), Err(5));
        }
    }
}
