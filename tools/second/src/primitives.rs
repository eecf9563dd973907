//! The primitives: their costs, and what they yield.

use crate::heap::Object;

/// "One operand: 1 not 118, 2 toFloat.i 699, 3 toInt.f 2973."
const ONE: [u32; 3] = [118, 699, 2973];

/// "Two: 1 ==.i 125, 2 !=.i 243, ... 22 /.f 959."
const TWO: [u32; 22] = [
    125, 243, 122, 124, 122, 124, // ==.i !=.i >=.i >.i <=.i <.i
    116, 116, 124, 206, 1294, // +.i -.i *.i div.i mod.i
    153, 156, // && or
    125, 211, 209, 211, 209, // ==.f >=.f >.f <=.f <.f
    1106, 1112, 356, 959, // +.f -.f *.f /.f
];

/// The cycles that a primitive adds to the card's, or `None` where there is no such primitive.
pub fn cost(operands: usize, number: usize) -> Option<u32> {
    let table: &[u32] = if operands == 1 { &ONE } else { &TWO };
    table.get(number.checked_sub(1)?).copied()
}

/// What a primitive yields: a new object, or an exception "with None".
#[derive(Clone, Debug)]
pub enum Yield {
    Value(Object),
    Exception(u16),
}

/// "any NaN stored is 7FC00000"
pub fn canonical(number: f32) -> f32 {
    if number.is_nan() {
        f32::from_bits(0x7FC0_0000)
    } else {
        number
    }
}

/// A primitive of one operand; `None` where the operand is of another kind.
pub fn one(number: usize, operand: &Object) -> Option<Yield> {
    let value = match (number, operand) {
        (1, Object::Bool(truth)) => Object::Bool(!truth),
        // "toFloat.i rounds to nearest, ties to even": this is what `as` does.
        (2, Object::Int(integer)) => Object::Float(*integer as f32),
        (3, Object::Float(float)) => return Some(to_int(*float)),
        _ => return None,
    };
    Some(Yield::Value(value))
}

/// "toInt.f drops the fraction; NaN or outside -2^31..2^31-1 raises exception 2 with None."
fn to_int(float: f32) -> Yield {
    let whole = f64::from(float).trunc();
    if (-2_147_483_648.0..=2_147_483_647.0).contains(&whole) {
        Yield::Value(Object::Int(whole as i32))
    } else {
        Yield::Exception(2)
    }
}

/// A primitive of two operands, "the top word being the first operand"; `None` where a kind is another.
pub fn two(number: usize, first: &Object, second: &Object) -> Option<Yield> {
    match (first, second) {
        (Object::Int(x), Object::Int(y)) => integers(number, *x, *y),
        (Object::Bool(x), Object::Bool(y)) => truths(number, *x, *y).map(Yield::Value),
        (Object::Float(x), Object::Float(y)) => floats(number, *x, *y).map(Yield::Value),
        _ => None,
    }
}

fn integers(number: usize, x: i32, y: i32) -> Option<Yield> {
    let value = match number {
        1 => Object::Bool(x == y),
        2 => Object::Bool(x != y),
        3 => Object::Bool(x >= y),
        4 => Object::Bool(x > y),
        5 => Object::Bool(x <= y),
        6 => Object::Bool(x < y),
        // "Integers wrap at 32 bits."
        7 => Object::Int(x.wrapping_add(y)),
        8 => Object::Int(x.wrapping_sub(y)),
        9 => Object::Int(x.wrapping_mul(y)),
        // "Integer zero divisor: exception 1 with None."
        10 | 11 if y == 0 => return Some(Yield::Exception(1)),
        // "div goes toward zero, mod has the dividend's sign, -2^31 div -1 is -2^31, mod 0"
        10 => Object::Int(x.wrapping_div(y)),
        11 => Object::Int(x.wrapping_rem(y)),
        _ => return None,
    };
    Some(Yield::Value(value))
}

fn truths(number: usize, x: bool, y: bool) -> Option<Object> {
    match number {
        12 => Some(Object::Bool(x && y)),
        13 => Some(Object::Bool(x || y)),
        _ => None,
    }
}

/// "Floats are IEEE 754 binary32, rounded once; any NaN stored is 7FC00000."
fn floats(number: usize, x: f32, y: f32) -> Option<Object> {
    let value = match number {
        14 => Object::Bool(x == y),
        15 => Object::Bool(x >= y),
        16 => Object::Bool(x > y),
        17 => Object::Bool(x <= y),
        18 => Object::Bool(x < y),
        19 => Object::Float(canonical(x + y)),
        20 => Object::Float(canonical(x - y)),
        21 => Object::Float(canonical(x * y)),
        22 => Object::Float(canonical(x / y)),
        _ => return None,
    };
    Some(value)
}
