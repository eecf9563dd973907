//! P1 to P12 of document 01, and the sentences that are easily got wrong, on all machines.

use crate::machines::{other, plain, second, Answer};
use cases::coverage::Coverage;
use cases::Case;

type Code = Vec<(u8, u8, u16, u32)>;

struct Sum {
    inputs: u8,
    outputs: u8,
    handler: u8,
    /// Entry, and the rules' addresses.
    rulesets: Vec<(u16, Vec<u16>)>,
    code: Code,
    limits: (u32, u32, u32),
    wires: Vec<u32>,
    order: Vec<u32>,
}

struct Outcome {
    figures: [u32; 8],
    stack: Vec<u32>,
    heap: Vec<u32>,
    wires: Vec<u32>,
    order: Vec<u32>,
}

/// What all machines leave, or the refusal; one difference is a failure.
fn both(case: &Case) -> Result<Outcome, u32> {
    let left = second(case, &mut Coverage::default());
    assert_eq!(left, other(case));
    assert_eq!(left, plain(case));
    match left.result {
        Answer::Figures(figures) => Ok(Outcome {
            figures,
            stack: left.stack,
            heap: left.heap,
            wires: left.wires,
            order: left.order,
        }),
        Answer::Refused(refusal) => {
            assert_eq!(
                (&left.stack, &left.heap, &left.wires, &left.order),
                (&case.stack, &case.heap, &case.wires, &case.order)
            );
            Err(refusal)
        }
        odd => panic!("{odd:?}"),
    }
}

/// "Unless shown otherwise: card all 10, one ruleset, every ruleset with one rule at 0, entry 0, no handler, Schedule
/// last, limits at their caps, wires empty."
fn sum(code: &[(u8, u8, u16, u32)]) -> Sum {
    let mut code = code.to_vec();
    code.push((40, 0, 0, 0));
    Sum {
        inputs: 0,
        outputs: 0,
        handler: 255,
        rulesets: vec![(0, vec![0])],
        code,
        limits: (u32::MAX, 4096, 16384),
        wires: vec![],
        order: vec![0],
    }
}

impl Sum {
    fn image(&self) -> Vec<u8> {
        let mut image = vec![
            0,
            0,
            0,
            0,
            1,
            self.inputs,
            self.outputs,
            self.rulesets.len() as u8,
            self.handler,
        ];
        image.extend((self.code.len() as u16).to_be_bytes());
        for (entry, rules) in &self.rulesets {
            image.extend(entry.to_be_bytes());
            image.push(rules.len() as u8);
            for rule in rules {
                image.extend(rule.to_be_bytes());
            }
        }
        for (opcode, a, b, c) in &self.code {
            image.extend([*opcode, *a]);
            image.extend(b.to_be_bytes());
            image.extend(c.to_be_bytes());
        }
        let length = image.len() as u32;
        image[..4].copy_from_slice(&length.to_be_bytes());
        image
    }

    fn limits(mut self, t: u32, s: u32, h: u32) -> Sum {
        self.limits = (t, s, h);
        self
    }

    fn run(&self) -> Outcome {
        let (time, stack_limit, heap_limit) = self.limits;
        let mut wires = self.wires.clone();
        wires.resize(65 * usize::from(self.inputs + self.outputs), 0);
        both(&Case {
            image: self.image(),
            card: vec![10; 40],
            time,
            stack_limit,
            heap_limit,
            stack: vec![0xAAAA_AAAA; 4100],
            heap: vec![0xBBBB_BBBB; 16400],
            wires,
            order: self.order.clone(),
        })
        .unwrap()
    }

    fn figures(&self) -> [u32; 8] {
        self.run().figures
    }
}

fn p1(primitive: u8) -> Sum {
    sum(&[(2, 0, 0, 7), (2, 0, 0, 5), (20, primitive, 0, 0)])
}

#[test]
fn p1_to_p7() {
    let sum = p1(7).limits(156, 2, 6);
    assert_eq!(sum.figures(), [0, 0, 3, 4, 156, 2, 1, 6]);
    assert_eq!(p1(7).limits(155, 2, 6).figures(), [5, 0, 3, 3, 146, 2, 1, 6]);
    assert_eq!(p1(7).limits(156, 1, 6).figures(), [6, 0, 1, 1, 10, 1, 1, 2]);
    assert_eq!(p1(7).limits(156, 2, 5).figures(), [7, 0, 2, 2, 20, 2, 2, 4]);
    let p5 = p1(7).limits(10, 1, 3).figures();
    assert_eq!((p5[0], p5[2]), (5, 1));
    assert_eq!(p1(7).limits(20, 1, 3).figures()[0], 6);
    let p7 = p1(8).run();
    assert_eq!(p7.heap[5] as i32, -2);
    assert!(p7.stack[1..].iter().all(|word| *word == 0));
    assert!(p7.heap[6..].iter().all(|word| *word == 0));
}

#[test]
fn p8() {
    let mut p8 = sum(&[(2, 0, 0, 3), (17, 1, 0, 0)]);
    p8.code.extend([(12, 1, 0, 0), (11, 0, 0, 0), (18, 0, 0, 0)]);
    p8.rulesets.push((3, vec![0]));
    p8.order = vec![0, 0];
    let outcome = p8.run();
    assert_eq!(outcome.figures, [0, 0, 2, 6, 60, 7, 2, 2]);
    assert_eq!(outcome.stack[..3], [1 << 28, 1 << 28, 0]);
}

#[test]
fn p9() {
    let p9 = sum(&[(2, 0, 0, 0), (2, 0, 0, 9), (20, 10, 0, 0)]).figures();
    assert_eq!((p9[0], p9[1], p9[2], p9[7]), (4, 1, 2, 4));
}

#[test]
fn p10() {
    for (integer, float) in [
        (16777217, 0x4B80_0000),
        (16777219, 0x4B80_0002),
        (2147483647, 0x4F00_0000),
    ] {
        assert_eq!(sum(&[(2, 0, 0, integer), (19, 2, 0, 0)]).run().heap[3], float);
    }
}

#[test]
fn p11() {
    let low = sum(&[(3, 0, 0, 0xCF00_0000), (19, 3, 0, 0)]).run();
    assert_eq!(low.heap[3] as i32, -2147483648);
    let high = sum(&[(3, 0, 0, 0x4F00_0000), (19, 3, 0, 0)]).figures();
    assert_eq!((high[0], high[1]), (4, 2));
}

#[test]
fn p12() {
    let mut p12 = sum(&[(35, 0, 0, 0)]);
    p12.inputs = 1;
    p12.wires = vec![5, 262144, 2, 131072, 5, 458752];
    let outcome = p12.run();
    assert_eq!(outcome.figures[7], 6);
    assert_eq!(outcome.heap[..7], [131072, 5, 262144, 2, 268435456, 536870912, 0]);
    assert_eq!(outcome.stack[0], (1 << 28) + 2);
    assert_eq!(outcome.wires[..7], [5, 262144, 2, 131072, 5, 458752, 0]);
}

/// The stack that Raise leaves, word by word, and a handler that is entered at its entry.
#[test]
fn raising() {
    let mut raising = sum(&[(4, 0, 0, 0), (21, 0, 513, 0)]);
    raising.rulesets.push((2, vec![0]));
    raising.handler = 1;
    raising.order = vec![0, 0];
    let outcome = raising.run();
    assert_eq!(outcome.figures, [0, 0, 2, 3, 30, 5, 5, 3]);
    assert_eq!(outcome.stack[..6], [1 << 28, 0, 0, 0, 6 << 28, 0]);
    assert_eq!(outcome.heap[..4], [6 * 65536 + 513, 1, 2 << 28, 0]);
}

/// "the rule at order position rp goes last, those after it move down one"
#[test]
fn reordering() {
    let mut reordering = sum(&[(23, 0, 0, 0), (34, 0, 0, 0)]);
    reordering.rulesets = vec![(0, vec![0, 0, 0, 0])];
    reordering.order = vec![3, 1, 0, 2];
    assert_eq!(reordering.run().order, [3, 0, 2, 1]);
}

/// A value of exactly 64 words can be written, one of 65 can't.
#[test]
fn sixty_four_words() {
    for (nones, ending, words) in [(2, 0, 64), (3, 2, 0)] {
        let mut code = vec![(4, 0, 0, 0); nones];
        code.extend([(2, 0, 0, 1); 30]);
        code.extend([(5, 30 + nones as u8, 0, 0), (39, 0, 0, 0)]);
        let mut writing = sum(&code);
        writing.outputs = 1;
        let outcome = writing.run();
        assert_eq!((outcome.figures[0], outcome.wires[0]), (ending, words));
        assert_eq!(outcome.figures[1], if ending == 2 { 6 } else { 0 });
    }
}

/// The refusals in their order, the buffers untouched.
#[test]
fn refusals() {
    let good = p1(7).image();
    let refuse = |image: &[u8], card: &[u32], s: u32, h: u32, wires: usize, order: &[u32]| {
        let case = Case {
            image: image.to_vec(),
            card: card.to_vec(),
            time: 0,
            stack_limit: s,
            heap_limit: h,
            stack: vec![7; 10],
            heap: vec![7; 10],
            wires: vec![7; wires],
            order: order.to_vec(),
        };
        both(&case).err().unwrap_or(0)
    };
    let changed = |place: usize, byte: u8| {
        let mut image = good.clone();
        image[place] = byte;
        image
    };
    let card = [1; 40];
    assert_eq!(refuse(&good[..10], &[], 5000, 0, 1, &[]), 1);
    assert_eq!(refuse(&changed(3, 0), &[], 5000, 0, 1, &[]), 1);
    assert_eq!(refuse(&changed(4, 2), &[], 5000, 0, 1, &[]), 2);
    for (place, byte) in [
        (5, 9),
        (6, 9),
        (7, 0),
        (7, 33),
        (8, 1),
        (8, 254),
        (10, 0),
        (13, 0),
        (13, 17),
        (13, 2),
    ] {
        assert_eq!(refuse(&changed(place, byte), &[], 5000, 0, 1, &[]), 3);
    }
    for (place, byte) in [(12, 4), (15, 4), (16, 0), (16, 41), (17, 1), (19, 1), (33, 23), (40, 4)] {
        assert_eq!(refuse(&changed(place, byte), &[], 5000, 0, 1, &[]), 4);
    }
    assert_eq!(refuse(&good, &[1; 39], 5000, 0, 1, &[]), 5);
    assert_eq!(refuse(&good, &[65536; 40], 5000, 0, 1, &[]), 5);
    assert_eq!(refuse(&good, &card, 11, 0, 1, &[]), 6);
    assert_eq!(refuse(&good, &card, 0, 11, 1, &[]), 6);
    assert_eq!(refuse(&good, &card, 10, 10, 1, &[]), 7);
    assert_eq!(refuse(&good, &card, 10, 10, 0, &[]), 8);
    assert_eq!(refuse(&good, &card, 10, 10, 0, &[1]), 8);
}

/// The program's form, with bytes after the sheet, and what it turns away.
#[test]
fn program() {
    let image = p1(7).image();
    let mut input = image.clone();
    for number in [180, 1, 156, 2, 6].into_iter().chain([10; 40]) {
        input.extend(u32::to_be_bytes(number));
    }
    let print = |bytes: &[u8]| String::from_utf8(second::sheet::program(&mut &bytes[..])).unwrap();
    assert_eq!(print(&input), "0 0 3 4 156 2 1 6\n");
    assert_eq!(print(&input[..input.len() - 1]), "refused 9\n");
    assert_eq!(print(&input[..image.len() - 1]), "refused 1\n");
    assert_eq!(print(&[0, 0, 0]), "refused 1\n");
    let mut longer = input.clone();
    longer.push(3);
    assert_eq!(print(&longer), "0 0 3 4 156 2 1 6\n");
    let sheet = image.len();
    for (place, byte, line) in [
        (sheet + 3, 181, "refused 9\n"),
        (sheet + 7, 2, "refused 9\n"),
        (sheet + 21, 1, "refused 5\n"),
        (sheet + 12, 1, "refused 6\n"),
        (sheet + 16, 1, "refused 6\n"),
        (4, 2, "refused 2\n"),
        (0, 1, "refused 1\n"),
    ] {
        let mut changed = input.clone();
        changed[place] = byte;
        assert_eq!(print(&changed), line);
    }
}
