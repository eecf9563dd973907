//! Numbers, tags and wire values that are likely to meet each other.

use crate::rng::Rng;
use second::wire::{encode, Tree, WIRE};

const INTEGERS: [i32; 16] = [
    0,
    1,
    2,
    3,
    -1,
    -2,
    7,
    -7,
    i32::MAX,
    i32::MIN,
    16_777_217,
    16_777_219,
    -16_777_217,
    65_535,
    46_341,
    2_147_483_584,
];

const FLOATS: [u32; 24] = [
    0x0000_0000, // 0
    0x8000_0000, // -0
    0x3F80_0000, // 1
    0xBF80_0000, // -1
    0x3F00_0000, // 0.5
    0x4049_0FDB, // 3.14159...
    0x7F80_0000, // infinity
    0xFF80_0000,
    0x7FC0_0000, // NaN
    0xFFC0_0000,
    0x7F80_0001,
    0x0000_0001, // subnormal
    0x807F_FFFF,
    0x0080_0000,
    0x7F7F_FFFF, // largest
    0x4F00_0000, // 2^31
    0xCF00_0000, // -2^31
    0x4EFF_FFFF, // the one below 2^31
    0xCF00_0001,
    0x4B80_0000, // 2^24
    0x3FFF_FFFF,
    0xBFFF_FFFF,
    0x4E80_0001,
    0x3EAA_AAAB,
];

pub fn integer(rng: &mut Rng) -> u32 {
    match rng.below(10) {
        0 => rng.word(),
        1 => rng.word() >> rng.below(32),
        2..=5 => INTEGERS[rng.below(4)] as u32,
        _ => rng.pick(&INTEGERS) as u32,
    }
}

/// Bits of a float, of a NaN too.
pub fn float(rng: &mut Rng) -> u32 {
    match rng.below(10) {
        0 | 1 => rng.word(),
        2 => ((rng.word() as i32) as f32).to_bits(),
        // Between 1 and 2, or -1 and -2.
        3 => 0x3F80_0000 | (rng.word() & 0x807F_FFFF),
        // 0, -0 and the NaN: equal and not the same, the same and not equal.
        4 => rng.pick(&[0, 0x8000_0000, 0x7FC0_0000]),
        _ => rng.pick(&FLOATS),
    }
}

pub fn tag(rng: &mut Rng) -> u16 {
    match rng.below(12) {
        0 => rng.word() as u16,
        1 => 65_535,
        2 => 0,
        _ => rng.pick(&[1, 2, 2, 1, 7, 513]),
    }
}

/// A wire value of at most `room` words; `room` is at least 2.
pub fn tree(rng: &mut Rng, room: usize) -> Tree {
    match rng.below(40) {
        0 => exact(rng, room),
        1 => chain(rng, room),
        _ => small_tree(rng, room, 4),
    }
}

fn small_tree(rng: &mut Rng, room: usize, nesting: usize) -> Tree {
    let kinds = if nesting == 0 { 3 } else { 7 };
    match rng.below(kinds) {
        0 => Tree::Bool(rng.percent(50)),
        1 => Tree::Int(integer(rng) as i32),
        2 => Tree::Float(canonical_float(rng)),
        3 | 4 => Tree::Tuple(fields(rng, room - 2, nesting - 1)),
        5 => Tree::Constr(tag(rng), fields(rng, room - 2, nesting - 1)),
        _ if room < 4 => Tree::Int(0),
        _ => Tree::Exn(tag(rng), Box::new(field(rng, room - 2, nesting - 1))),
    }
}

fn canonical_float(rng: &mut Rng) -> f32 {
    second::primitives::canonical(f32::from_bits(float(rng)))
}

/// A field of at most `room` words; `room` is at least 1.
fn field(rng: &mut Rng, room: usize, nesting: usize) -> Tree {
    if room < 2 || rng.percent(15) {
        Tree::None
    } else {
        small_tree(rng, room, nesting)
    }
}

fn fields(rng: &mut Rng, mut room: usize, nesting: usize) -> Vec<Tree> {
    let count = rng.pick(&[0, 1, 1, 2, 2, 2, 3, 4]);
    let mut fields = Vec::new();
    for _ in 0..count {
        if room == 0 {
            break;
        }
        let field = field(rng, room, nesting);
        room -= words(&field);
        fields.push(field);
    }
    fields
}

/// As many words as there is room for, in one flat value.
fn exact(rng: &mut Rng, room: usize) -> Tree {
    let mut left = room - 2;
    let mut fields = Vec::new();
    while left > 0 {
        let field = if left == 1 || rng.percent(20) {
            Tree::None
        } else {
            small_tree(rng, left, 0)
        };
        left -= words(&field);
        fields.push(field);
    }
    if rng.percent(50) {
        Tree::Tuple(fields)
    } else {
        Tree::Constr(tag(rng), fields)
    }
}

/// A value as deep as there is room for.
fn chain(rng: &mut Rng, room: usize) -> Tree {
    let mut tree = if rng.percent(50) {
        Tree::None
    } else {
        small_tree(rng, 2, 0)
    };
    loop {
        tree = match rng.below(3) {
            0 => Tree::Tuple(vec![tree]),
            1 => Tree::Constr(tag(rng), vec![tree]),
            _ => Tree::Exn(tag(rng), Box::new(tree)),
        };
        if words(&tree) + 2 > room {
            return tree;
        }
    }
}

/// The words a value takes on a wire.
pub fn words(tree: &Tree) -> usize {
    match tree {
        Tree::None => 1,
        Tree::Bool(_) | Tree::Int(_) | Tree::Float(_) => 2,
        Tree::Tuple(fields) | Tree::Constr(_, fields) => 2 + fields.iter().map(words).sum::<usize>(),
        Tree::Exn(_, field) => 2 + words(field),
    }
}

/// The 65 words of a wire.
pub fn wire(tree: Option<&Tree>) -> [u32; WIRE] {
    let mut words = [0; WIRE];
    encode(tree, &mut words);
    words
}
