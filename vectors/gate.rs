// Calls, one to a line, and the number that document 01 turns each away with, 0 for none. Written from document 01
// alone.
//
//     rustc -O -o /tmp/gate_cases vectors/gate.rs
//     /tmp/gate_cases calls > crates/gate_vectors/stdin
//     /tmp/gate_cases numbers > crates/gate_vectors/stdout
//     /tmp/gate_cases names           says what each line is
//
// A line is pairs of a place and a value. The first line makes the base call; each later one changes that call for
// itself alone. Places below 40000 are bytes of the image; before the first line each byte is 4 where its place is a
// multiple of 8 and else 0. Places from 40000 on are words: 40000 the image's length, 40001 the card's, 40002 the
// stack's, 40003 the heap's, 40004 the wires', 40005 the order's, 40006 to 40008 the limits T, S and H; from 40016 the
// card, from 40128 the wires, from 41400 the rule order. The words of the stack and the heap are 0.
use std::collections::BTreeMap;

const IMAGE: usize = 0;
const LENGTHS: usize = 40000;
const STACK: usize = 40002;
const HEAP: usize = 40003;
const WIRE_WORDS: usize = 40004;
const ORDER_WORDS: usize = 40005;
const T: usize = 40006;
const S: usize = 40007;
const H: usize = 40008;
const CARD: usize = 40016;
const WIRES: usize = 40128;
const ORDER: usize = 41400;

type Patch = Vec<(usize, u32)>;

// ---- document 01

struct Call {
    image: Vec<u8>,
    card: Vec<u32>,
    stack: usize,
    heap: usize,
    wires: Vec<u32>,
    order: Vec<u32>,
    s: u32,
    h: u32,
}

struct Ruleset {
    entry: usize,
    rules: Vec<usize>,
}

fn be(bytes: &[u8]) -> usize {
    bytes.iter().fold(0, |n, b| n * 256 + *b as usize)
}

// 1 to 4, or what the rest needs: inputs, outputs and the rule counts.
fn image(m: &[u8]) -> Result<(usize, usize, Vec<usize>), u32> {
    if m.len() < 11 || be(&m[0..4]) != m.len() {
        return Err(1);
    }
    if m[4] != 1 {
        return Err(2);
    }
    let (inputs, outputs, r) = (m[5] as usize, m[6] as usize, m[7] as usize);
    let (handler, n) = (m[8] as usize, be(&m[9..11]));
    if inputs > 8 || outputs > 8 || !(1..=32).contains(&r) || !(1..=4096).contains(&n) {
        return Err(3);
    }
    if handler >= r && handler != 255 {
        return Err(3);
    }
    let mut rest = &m[11..];
    let mut rulesets = vec![];
    for _ in 0..r {
        if rest.len() < 3 || !(1..=16).contains(&rest[2]) {
            return Err(3);
        }
        let count = rest[2] as usize;
        if rest.len() < 3 + 2 * count {
            return Err(3);
        }
        let rules = rest[3..3 + 2 * count].chunks(2).map(be).collect();
        rulesets.push(Ruleset { entry: be(&rest[..2]), rules });
        rest = &rest[3 + 2 * count..];
    }
    if rest.len() != 8 * n {
        return Err(3);
    }
    for set in &rulesets {
        if set.entry >= n || set.rules.iter().any(|a| *a >= n) {
            return Err(4);
        }
    }
    for word in rest.chunks(8) {
        if !instruction(word, inputs, outputs, r, n) {
            return Err(4);
        }
    }
    match rest[8 * (n - 1)] {
        15 | 18 | 21 | 40 => {}
        _ => return Err(4),
    }
    Ok((inputs, outputs, rulesets.iter().map(|s| s.rules.len()).collect()))
}

fn instruction(word: &[u8], inputs: usize, outputs: usize, r: usize, n: usize) -> bool {
    let (op, a, b, c) = (word[0], word[1] as usize, be(&word[2..4]), be(&word[4..8]));
    // which fields are named, and whether what they name is there
    let (has_a, has_b, has_c) = match op {
        1 | 2 | 3 | 27 | 28 | 29 => (false, false, true),
        5 | 7..=14 | 17 | 19 | 20 | 30 | 35 | 36 | 37 | 39 => (true, false, false),
        6 | 31 => (true, true, false),
        15 | 16 | 21 | 32 => (false, true, false),
        4 | 18 | 22..=26 | 33 | 34 | 38 | 40 => (false, false, false),
        _ => return false,
    };
    if (!has_a && a != 0) || (!has_b && b != 0) || (!has_c && c != 0) {
        return false;
    }
    match op {
        1 | 27 => c <= 1,
        15 | 16 => b < n,
        17 => a < r,
        19 => (1..=3).contains(&a),
        20 => (1..=22).contains(&a),
        35 | 36 | 37 => a < inputs,
        39 => a < outputs,
        _ => true,
    }
}

// The words after the first value, if words begin with one.
fn value(words: &[u32]) -> Option<&[u32]> {
    let (header, rest) = words.split_first()?;
    let (kind, tag) = (header / 65536, header % 65536);
    if kind == 7 {
        return (tag == 0).then_some(rest);
    }
    let (x, mut rest) = rest.split_first()?;
    let whole = match kind {
        1 => tag == 0 && *x <= 1,
        2 => tag == 0,
        3 => tag == 0 && (!f32::from_bits(*x).is_nan() || *x == 0x7FC00000),
        4 => tag == 0 && *x <= 255,
        5 => *x <= 255,
        6 => *x == 1,
        _ => false,
    };
    if !whole {
        return None;
    }
    if kind >= 4 {
        for _ in 0..*x {
            rest = value(rest)?;
        }
    }
    Some(rest)
}

fn wire(w: &[u32]) -> bool {
    let k = w[0] as usize;
    if k > 64 || w[1 + k..].iter().any(|x| *x != 0) {
        return false;
    }
    k == 0 || (w[1] != 7 * 65536 && value(&w[1..1 + k]) == Some(&[]))
}

fn refusal(c: &Call) -> u32 {
    let (inputs, outputs, counts) = match image(&c.image) {
        Ok(parts) => parts,
        Err(number) => return number,
    };
    if c.card.len() != 40 || c.card.iter().any(|x| *x < 1 || *x > 65535) {
        return 5;
    }
    if c.s > 4096 || c.h > 16384 || c.s as usize > c.stack || c.h as usize > c.heap {
        return 6;
    }
    if c.wires.len() != 65 * (inputs + outputs) || !c.wires.chunks(65).all(wire) {
        return 7;
    }
    let mut rest = &c.order[..];
    for count in counts {
        if rest.len() < count {
            return 8;
        }
        let mut part = rest[..count].to_vec();
        part.sort();
        if part.iter().enumerate().any(|(i, x)| i != *x as usize) {
            return 8;
        }
        rest = &rest[count..];
    }
    if rest.is_empty() { 0 } else { 8 }
}

// ---- the calls

struct Cases {
    base: BTreeMap<usize, u32>,
    lines: Vec<(String, Patch)>,
}

impl Cases {
    fn at(&self, place: usize) -> u32 {
        self.base.get(&place).copied().unwrap_or(if place < LENGTHS && place % 8 == 0 { 4 } else { 0 })
    }

    fn add(&mut self, name: impl Into<String>, patch: Patch) {
        self.lines.push((name.into(), patch));
    }

    // each change alone, and each two of them: the lower number wins
    fn pairs(&mut self, faults: &[(&str, Patch)]) {
        for (i, (name, one)) in faults.iter().enumerate() {
            self.add(*name, one.clone());
            for (other, two) in &faults[i + 1..] {
                let both = one.iter().chain(two.iter()).copied().collect();
                self.add(format!("{name} and {other}"), both);
            }
        }
    }

    fn call(&self, patch: &Patch) -> Call {
        let mut all = self.base.clone();
        all.extend(patch.iter().copied());
        let word = |p: usize| all.get(&p).copied().unwrap_or(0);
        let byte = |p: usize| all.get(&p).copied().unwrap_or(if p % 8 == 0 { 4 } else { 0 }) as u8;
        let words = |from: usize, n: u32| (from..from + n as usize).map(word).collect::<Vec<u32>>();
        Call {
            image: (0..word(LENGTHS) as usize).map(byte).collect(),
            card: words(CARD, word(LENGTHS + 1)),
            stack: word(STACK) as usize,
            heap: word(HEAP) as usize,
            wires: words(WIRES, word(WIRE_WORDS)),
            order: words(ORDER, word(ORDER_WORDS)),
            s: word(S),
            h: word(H),
        }
    }
}

fn wide(place: usize, size: usize, x: u32) -> Patch {
    (0..size).map(|i| (place + i, x >> (8 * (size - 1 - i)) & 255)).collect()
}

// an image of r rulesets with `rules` rules each, all at 0, no inputs or outputs, and n instructions, MkNone and then Schedule
fn plain(r: usize, rules: usize, n: usize) -> Patch {
    let code = 11 + r * (3 + 2 * rules);
    let length = code + 8 * n;
    let mut p = wide(0, 4, length as u32);
    p.extend([(4, 1), (5, 0), (6, 0), (7, r as u32), (8, 255)]);
    p.extend(wide(9, 2, n as u32));
    for k in 11..code {
        p.push((k, 0));
    }
    for k in 0..r {
        p.push((11 + k * (3 + 2 * rules) + 2, rules as u32));
    }
    // instructions stand at multiples of 8 only where the table ends at one
    for k in 0..if code % 8 == 0 { 0 } else { n } {
        for i in 0..8 {
            p.push((code + 8 * k + i, if i == 0 { 4 } else { 0 }));
        }
    }
    p.push((code + 8 * (n - 1), 40));
    p.push((LENGTHS, length as u32));
    p.push((WIRE_WORDS, 0));
    p.push((ORDER_WORDS, (r * rules) as u32));
    for k in 0..r * rules {
        p.push((ORDER + k, (k % rules) as u32));
    }
    p
}

// words on the wire 0, whose words the base has 5 of
fn on_wire(words: &[u32]) -> Patch {
    let mut p = vec![(WIRES, words.len() as u32)];
    p.extend(words.iter().enumerate().map(|(i, x)| (WIRES + 1 + i, *x)));
    p.extend((words.len()..5).map(|i| (WIRES + 1 + i, 0)));
    p
}

fn cases() -> Cases {
    let mut c = Cases { base: BTreeMap::new(), lines: vec![] };
    // 2 inputs, 1 output, 2 rulesets with 2 rules and 1, and one instruction of each opcode
    let code = 11 + 7 + 5;
    let length = code + 8 * 40;
    let mut base = wide(IMAGE, 4, length as u32);
    base.extend([(4, 1), (5, 2), (6, 1), (7, 2), (8, 1), (9, 0), (10, 40)]);
    base.extend([(11, 0), (12, 3), (13, 2), (14, 0), (15, 7), (16, 0), (17, 9)]);
    base.extend([(18, 0), (19, 39), (20, 1), (21, 0), (22, 0)]);
    for k in 0..40 {
        for i in 0..8 {
            base.push((code + 8 * k + i, 0));
        }
        base.push((code + 8 * k, k as u32 + 1));
    }
    base.push((code + 8 * 18 + 1, 1));
    base.push((code + 8 * 19 + 1, 1));
    base.extend([(LENGTHS, length as u32), (LENGTHS + 1, 40), (STACK, 4096), (HEAP, 16384), (T, 1000), (S, 4096), (H, 16384)]);
    base.extend((0..40).map(|k| (CARD + k, 10)));
    base.push((WIRE_WORDS, 195));
    base.extend([(WIRES, 5), (WIRES + 1, 262144), (WIRES + 2, 2), (WIRES + 3, 131072), (WIRES + 4, 5), (WIRES + 5, 458752)]);
    base.extend([(ORDER_WORDS, 3), (ORDER, 1), (ORDER + 1, 0), (ORDER + 2, 0)]);
    c.base = base.iter().copied().collect();
    c.add("base", base);

    // each number alone, and each two: the lower wins
    c.pairs(&[
        ("length", vec![(3, (length as u32 + 1) & 255)]),
        ("version", vec![(4, 2)]),
        ("handler", vec![(8, 2)]),
        ("opcode", vec![(code, 41)]),
        ("card", vec![(CARD + 39, 0)]),
        ("limit", vec![(S, 4097)]),
        ("wire", vec![(WIRES + 195 - 1, 1)]),
        ("order", vec![(ORDER, 0)]),
    ]);
    c.pairs(&[
        ("too short", vec![(LENGTHS, 10)]),
        ("version 0", vec![(4, 0)]),
        ("counts", vec![(13, 0)]),
        ("address", vec![(17, 40)]),
        ("card length", vec![(LENGTHS + 1, 39)]),
        ("area", vec![(STACK, 4095)]),
        ("wires length", vec![(WIRE_WORDS, 194)]),
        ("order length", vec![(ORDER_WORDS, 4)]),
    ]);

    // the counts
    for x in [0, 1, 8, 9, 255] {
        for (place, name) in [(5, "inputs"), (6, "outputs")] {
            let n = x + c.at(11 - place);
            c.add(format!("{name} {x}, wires to fit"), vec![(place, x), (WIRE_WORDS, 65 * n)]);
            c.add(format!("{name} {x}"), vec![(place, x)]);
        }
    }
    for x in [0, 1, 2, 3, 31, 32, 33, 254, 255] {
        c.add(format!("rulesets {x}"), vec![(7, x)]);
        c.add(format!("handler {x}"), vec![(8, x)]);
    }
    for x in [0, 1, 39, 40, 41, 4096, 4097, 65535] {
        c.add(format!("instructions {x}"), wide(9, 2, x));
    }
    for (x, place) in [0, 1, 2, 16, 17, 255].iter().flat_map(|x| [(*x, 13), (*x, 20)]) {
        c.add(format!("rules {x} at {place}"), vec![(place, x)]);
    }
    for (r, rules, n) in [(1, 1, 1), (1, 16, 2), (1, 17, 2), (2, 16, 1), (3, 2, 5), (32, 1, 1), (33, 1, 1), (32, 16, 1)] {
        c.add(format!("{r} rulesets of {rules}, {n} instructions"), plain(r, rules, n));
    }
    for n in [4095, 4096, 4097] {
        c.add(format!("1 ruleset of 1, {n} instructions"), plain(1, 1, n));
    }
    // addresses
    for x in [0, 1, 39, 40, 41, 255, 256, 65535] {
        for place in [11, 14, 16, 18, 21] {
            c.add(format!("address {x} at {place}"), wide(place, 2, x));
        }
    }
    // every field of every opcode
    for k in 0..40 {
        let at = code + 8 * k;
        for x in [0, 1, 2, 3, 4, 22, 23, 255] {
            c.add(format!("opcode {} a {x}", k + 1), vec![(at + 1, x)]);
        }
        for x in [0, 1, 39, 40, 41, 65535] {
            c.add(format!("opcode {} b {x}", k + 1), wide(at + 2, 2, x));
        }
        for x in [0, 1, 2, 0x7FC00000, 0xFFFFFFFF] {
            c.add(format!("opcode {} c {x}", k + 1), wide(at + 4, 4, x));
        }
    }
    // opcodes, anywhere and last
    for x in [0, 1, 40, 41, 42, 127, 128, 255] {
        c.add(format!("opcode {x} first"), vec![(code, x)]);
    }
    for x in 0..=41 {
        c.add(format!("opcode {x} last"), vec![(code + 8 * 39, x)]);
    }
    // the card and the limits
    for x in [0, 1, 65535, 65536, 0xFFFFFFFF] {
        for k in [0, 20, 39] {
            c.add(format!("card {k} is {x}"), vec![(CARD + k, x)]);
        }
        c.add(format!("time {x}"), vec![(T, x)]);
    }
    for x in [0, 1, 39, 40, 41] {
        c.add(format!("card length {x}"), vec![(LENGTHS + 1, x), (CARD + 40, 1)]);
    }
    for (limit, area, cap) in [(S, STACK, 4096), (H, HEAP, 16384)] {
        for x in [0, 1, cap - 1, cap, cap + 1, 0xFFFFFFFF] {
            c.add(format!("limit {x}"), vec![(limit, x)]);
        }
        for x in [0, 1, cap - 1, cap, cap + 1] {
            c.add(format!("area {x}"), vec![(area, x)]);
            c.add(format!("area and limit {x}"), vec![(area, x), (limit, x)]);
        }
    }
    // wires
    for x in [0, 64, 65, 130, 194, 195, 196, 260] {
        c.add(format!("wires length {x}"), vec![(WIRE_WORDS, x)]);
    }
    for x in [0, 1, 4, 5, 6, 64, 65, 66, 0xFFFFFFFF] {
        c.add(format!("wire count {x}"), vec![(WIRES, x)]);
    }
    for i in 0..3 {
        c.add(format!("wire {i} dirty"), vec![(WIRES + 65 * i + 64, 1)]);
    }
    let bool_of = |x: u32| vec![1 << 16, x];
    for kind in 0..9u32 {
        for tag in [0, 1, 65535] {
            for x in [0, 1, 2, 255, 256] {
                let header = kind * 65536 + tag;
                c.add(format!("header {kind} {tag}, {x}"), on_wire(&[header, x]));
                c.add(format!("header {kind} {tag}, {x}, None"), on_wire(&[header, x, 458752]));
                c.add(format!("header {kind} {tag}, {x}, in a Tuple"), on_wire(&[262144, 1, header, x]));
            }
            c.add(format!("header {kind} {tag} alone"), on_wire(&[kind * 65536 + tag]));
        }
    }
    for x in [0u32, 1, 0x7F7FFFFF, 0x7F800000, 0x7F800001, 0x7FBFFFFF, 0x7FC00000, 0x7FC00001, 0x7FFFFFFF, 0x80000000] {
        c.add(format!("float {x:X}"), on_wire(&[3 << 16, x]));
        c.add(format!("float {:X}", x | 1 << 31), on_wire(&[3 << 16, x | 1 << 31]));
    }
    for n in [0, 1, 2, 61, 62, 63, 64, 255, 256] {
        let mut words = vec![262144, n as u32];
        words.extend(vec![458752; n]);
        words.truncate(64);
        c.add(format!("tuple of {n} None"), on_wire(&words));
        let mut deep: Vec<u32> = (0..n).flat_map(|_| [262144, 1]).collect();
        deep.truncate(63);
        deep.push(458752);
        c.add(format!("{n} tuples in one another"), on_wire(&deep));
        let mut chain: Vec<u32> = (0..n).flat_map(|_| [5 * 65536 + 3, 2, 458752]).collect();
        chain.truncate(62);
        chain.extend(bool_of(1));
        c.add(format!("list of {n}"), on_wire(&chain));
    }
    for k in 0..6 {
        for x in [0, 1, 458752, 262144, 65536] {
            c.add(format!("word {k} of the wire is {x}"), vec![(WIRES + k, x)]);
        }
    }
    // the rule order
    for (a, b, d) in [(0, 1, 0), (1, 0, 0), (0, 0, 0), (1, 1, 0), (0, 2, 0), (2, 1, 0), (0, 1, 1), (0, 1, 0xFFFFFFFF), (65536, 1, 0)] {
        c.add(format!("order {a} {b} {d}"), vec![(ORDER, a), (ORDER + 1, b), (ORDER + 2, d)]);
    }
    for x in [0, 1, 2, 3, 4] {
        c.add(format!("order length {x}"), vec![(ORDER_WORDS, x)]);
    }
    let mut sixteen = plain(1, 16, 2);
    c.add("16 rules", sixteen.clone());
    for (place, x) in [(ORDER, 15), (ORDER + 15, 0), (ORDER + 15, 16), (ORDER + 7, 8)] {
        let mut p = sixteen.clone();
        p.push((place, x));
        c.add(format!("16 rules, {x} at {place}"), p);
    }
    sixteen.extend((0..16).map(|k| (ORDER + k, 15 - k as u32)));
    c.add("16 rules, backwards", sixteen);
    // a truncation at every length, as it is and with its own length written in
    for n in 0..=length as u32 {
        c.add(format!("first {n} bytes"), vec![(LENGTHS, n)]);
        let mut p = wide(0, 4, n);
        p.push((LENGTHS, n));
        c.add(format!("first {n} bytes, which say so"), p);
    }
    // one flipped bit at every byte
    for place in 0..length {
        for bit in 0..8 {
            let x = c.at(place) ^ 1 << bit;
            c.add(format!("bit {bit} of byte {place}"), vec![(place, x)]);
        }
    }
    c
}

fn main() {
    let c = cases();
    let what = std::env::args().nth(1).unwrap_or_default();
    for (i, (name, patch)) in c.lines.iter().enumerate() {
        let number = refusal(&c.call(patch));
        match what.as_str() {
            "calls" => {
                let words: Vec<String> = patch.iter().map(|(p, x)| format!("{p} {x}")).collect();
                println!("{}", words.join(" "));
            }
            "numbers" => println!("{number}"),
            _ => println!("{} {number} {name}", i + 1),
        }
    }
}
