//! The primitives: what they take, what they cost, and what they yield.

use crate::words::{stored, BOOL, FLOAT, INT};

/// The header of each operand, and the cycles "from Table 5 added to the card's".
#[derive(Clone, Copy)]
pub struct Primitive {
    pub takes: u32,
    pub cycles: u32,
}

const fn takes(takes: u32, cycles: u32) -> Primitive {
    Primitive { takes, cycles }
}

/// "One operand: 1 not 118, 2 toFloat.i 699, 3 toInt.f 2973."; no operand has the header 0.
pub const ONE: [Primitive; 4] = [takes(0, 0), takes(BOOL, 118), takes(INT, 699), takes(FLOAT, 2973)];

/// "Two: 1 ==.i 125, 2 !=.i 243, ... 22 /.f 959.", in a table whose length is a power of two: its index is masked.
pub const TWO: [Primitive; 32] = {
    let mut table = [takes(0, 0); 32];
    let cycles = [
        125, 243, 122, 124, 122, 124, // ==.i !=.i >=.i >.i <=.i <.i
        116, 116, 124, 206, 1294, // +.i -.i *.i div.i mod.i
        153, 156, // && or
        125, 211, 209, 211, 209, // ==.f >=.f >.f <=.f <.f
        1106, 1112, 356, 959, // +.f -.f *.f /.f
    ];
    let mut number = 1;
    while number <= cycles.len() {
        let header = match number {
            1..=11 => INT,
            12 | 13 => BOOL,
            _ => FLOAT,
        };
        table[number] = takes(header, cycles[number - 1]);
        number += 1;
    }
    table
};

/// The header and the payload of the result, or an exception's number.
pub type Yield = Result<(u32, u32), u32>;

/// Of an operand of the right kind.
#[inline(always)]
pub fn one(number: usize, x: u32) -> Yield {
    match number {
        1 => truth(x == 0),
        2 => float(x as i32 as f32),
        _ => to_int(f32::from_bits(x)),
    }
}

/// Of operands of the right kind, "the top word being the first operand".
#[inline(always)]
pub fn two(number: usize, x: u32, y: u32) -> Yield {
    let (i, j) = (x as i32, y as i32);
    let (f, g) = (f32::from_bits(x), f32::from_bits(y));
    match number {
        1 => truth(i == j),
        2 => truth(i != j),
        3 => truth(i >= j),
        4 => truth(i > j),
        5 => truth(i <= j),
        6 => truth(i < j),
        // "Integers wrap at 32 bits."
        7 => integer(i.wrapping_add(j)),
        8 => integer(i.wrapping_sub(j)),
        9 => integer(i.wrapping_mul(j)),
        // "Integer zero divisor: exception 1 with None."
        10 | 11 if j == 0 => Err(1),
        10 => integer(i.wrapping_div(j)),
        11 => integer(i.wrapping_rem(j)),
        12 => truth(x & y == 1),
        13 => truth(x | y == 1),
        14 => truth(f == g),
        15 => truth(f >= g),
        16 => truth(f > g),
        17 => truth(f <= g),
        18 => truth(f < g),
        19 => float(f + g),
        20 => float(f - g),
        21 => float(f * g),
        _ => float(f / g),
    }
}

#[inline(always)]
fn truth(truth: bool) -> Yield {
    Ok((BOOL, u32::from(truth)))
}

#[inline(always)]
fn integer(integer: i32) -> Yield {
    Ok((INT, integer as u32))
}

#[inline(always)]
fn float(float: f32) -> Yield {
    Ok((FLOAT, stored(float)))
}

/// "toInt.f drops the fraction; NaN or outside -2^31..2^31-1 raises exception 2 with None." No float lies between
/// 2^31 - 1 and 2^31, or between -2^31 - 1 and -2^31.
#[inline(always)]
fn to_int(float: f32) -> Yield {
    if (-2_147_483_648.0..2_147_483_648.0).contains(&float) {
        integer(float as i32)
    } else {
        Err(2)
    }
}
