// The lines that crates/arith_vectors is compared with: what Rust's own i32 and f32 make of the operands that
// crates/arith_vectors/src/main.rt describes. It shares no code with the crates.
//
//     rustc -O vectors/arith.rs -o /tmp/x && /tmp/x > crates/arith_vectors/stdout
//     /tmp/x count       says how many pairs of each sort there are
//     /tmp/x up          the same lines with a to_float that rounds ties away from zero: lines of 15 differ
//     /tmp/x nan         the same lines with another NaN: lines of 7 to 11 differ
//     /tmp/x floor       the same lines with a div that rounds down: lines of 3 differ
//
// Document 01: "Integers wrap at 32 bits", "div goes toward zero", "mod has the dividend's sign", "any NaN stored is
// 7FC00000", "toFloat.i rounds to nearest, ties to even", "toInt.f drops the fraction", "NaN or outside -2^31..2^31-1 raises
// exception 2". A zero divisor, which raises an exception before the division, makes 0 of div and the dividend of mod.
use std::collections::BTreeMap;

#[derive(Clone, Copy, PartialEq)]
enum Mistake {
    Nothing,
    Up,
    Nan,
    Floor,
}

fn next(s: &mut u32) -> u32 {
    let now = *s;
    *s = s.wrapping_mul(1664525).wrapping_add(1013904223);
    now
}

fn word(s: &mut u32) -> u32 {
    let upper = next(s) & 0xFFFF_0000;
    upper | next(s) >> 16
}

fn fold(h: u64, r: u32) -> u64 {
    (h * 16777619 + u64::from(r)) % 4294967311
}

// 24 digits and a half: from 25 to 31 digits in all.
fn tie(w: u32) -> u32 {
    (0x4000_0000 | w & 0x3FFF_FF80 | 0x40) >> (w % 7)
}

fn integer(class: u32, w: u32) -> u32 {
    match class {
        0 => 0,
        1 => 1,
        2 => -1i32 as u32,
        3 => i32::MIN as u32,
        4 => i32::MAX as u32,
        5 => w & 31,
        6 => (w & 31).wrapping_neg(),
        7 => 0x8000_0000 - (w & 31),
        8 => 0x8000_0000 | w & 31,
        9 => w % 1000,
        10 => (w % 70000).wrapping_neg(),
        11 => (1u32 << (w >> 4 & 31)).wrapping_add(w & 15).wrapping_sub(8),
        12 => tie(w),
        13 => tie(w).wrapping_neg(),
        _ => w,
    }
}

fn float(w: u32, exponent: u32, digits: u32) -> u32 {
    w & 0x8000_0000 | (exponent & 0xFF) << 23 | digits & 0x7F_FFFF
}

fn floating(class: u32, w: u32) -> u32 {
    match class {
        0 => float(w, 0, 0),
        1 => float(w, 0, w),
        2 => (w & 0x8000_0000) + 0x7F_FFF8 + (w & 15),
        3 => float(w, 255, 0),
        4 => float(w, 255, w % 0x7F_FFFF + 1),
        5 => float(w, w >> 4, w & 15),
        6 => float(w, w >> 4, !(w & 15)),
        7 => float(w, 120 + w % 30, (w >> 5) << 21),
        8 => float(w, 147 + (w >> 10 & 7), w),
        9 => float(w, 125 + (w & 3), (w >> 4) << 11),
        10 => float(w, 52 + (w & 15), (w >> 4) << 11),
        11 => float(w, 240 + (w >> 10) % 15, w),
        12 => float(w, 254, !(w & 15)),
        13 => float(w, 117 + (w >> 10) % 21, w),
        14 => float(w, 124 + (w & 7), 0),
        _ => w,
    }
}

fn operand(op: u32, class: u32, w: u32) -> u32 {
    match op {
        0..=6 | 15 => integer(class, w),
        _ => floating(class, w),
    }
}

fn stored(x: f32, m: Mistake) -> u32 {
    match x.is_nan() {
        true if m == Mistake::Nan => 0xFFC0_0000,
        true => 0x7FC0_0000,
        false => x.to_bits(),
    }
}

fn to_float(i: i32, m: Mistake) -> f32 {
    let near = i as f32;
    let ulp = f32::from_bits(near.to_bits() + 1) as f64 - near as f64;
    match m == Mistake::Up && (i as f64 - near as f64) == ulp / 2.0 {
        true => f32::from_bits(near.to_bits() + 1),
        false => near,
    }
}

// 0x12345678, the whole part of no float, stands for none.
fn to_int(x: f32) -> u32 {
    let t = (x as f64).trunc();
    if t >= i32::MIN as f64 && t <= i32::MAX as f64 {
        t as i32 as u32
    } else {
        0x1234_5678
    }
}

fn result(op: u32, a: u32, b: u32, m: Mistake) -> u32 {
    let (i, j) = (a as i32, b as i32);
    let (x, y) = (f32::from_bits(a), f32::from_bits(b));
    match op {
        0 => i.wrapping_add(j) as u32,
        1 => i.wrapping_sub(j) as u32,
        2 => i.wrapping_mul(j) as u32,
        3 if j == 0 => 0,
        3 if m == Mistake::Floor && i.wrapping_rem(j) != 0 && (i < 0) != (j < 0) => (i / j - 1) as u32,
        3 => i.wrapping_div(j) as u32,
        4 if j == 0 => a,
        4 => i.wrapping_rem(j) as u32,
        5 => (i < j) as u32,
        6 => (i <= j) as u32,
        7 => stored(x, m),
        8 => stored(x + y, m),
        9 => stored(x - y, m),
        10 => stored(x * y, m),
        11 => stored(x / y, m),
        12 => (x == y) as u32,
        13 => (x < y) as u32,
        14 => (x <= y) as u32,
        15 => to_float(i, m).to_bits(),
        _ => to_int(x),
    }
}

fn pairs(op: u32, class: u32) -> Vec<(u32, u32)> {
    let mut s = op * 16 + class;
    (0..65536)
        .map(|i| {
            let a = operand(op, class, word(&mut s));
            (a, operand(op, i % 16, word(&mut s)))
        })
        .collect()
}

fn near(part: u32) -> Vec<(u32, u32)> {
    (part * 64..part * 64 + 64)
        .flat_map(|k| (0..1024).map(move |d| ((k << 22).wrapping_add(d).wrapping_sub(512), 0)))
        .collect()
}

fn all() -> Vec<(u32, u32, Vec<(u32, u32)>)> {
    let random = (0..17).flat_map(|op| (0..16).map(move |class| (op, class, pairs(op, class))));
    let close = (15..17).flat_map(|op| (0..16).map(move |part| (op, 16 + part, near(part))));
    random.chain(close).collect()
}

// Is the exact result of a float operation halfway between two floats? Of quotients only those by powers of two count.
fn halfway(op: u32, a: u32, b: u32) -> bool {
    let (x, y) = (f32::from_bits(a) as f64, f32::from_bits(b) as f64);
    let sum = |x: f64, y: f64| {
        let s = x + y;
        let part = s - x;
        ((x - (s - part)) + (y - part) == 0.0).then_some(s)
    };
    let exact = match op {
        8 => sum(x, y),
        9 => sum(x, -y),
        10 => Some(x * y),
        11 if b & 0x7F_FFFF == 0 && y.abs() > 1e-38 => Some(x / y),
        _ => None,
    };
    let Some(exact) = exact else { return false };
    let r = exact as f32;
    if !r.is_finite() {
        return false;
    }
    let bits = r.to_bits();
    let up = f32::from_bits(bits + 1) as f64 - r as f64;
    let down = r as f64 - f32::from_bits(bits.wrapping_sub(1)) as f64;
    exact != r as f64 && (exact - r as f64 == up / 2.0 || r as f64 - exact == down / 2.0)
}

fn sort(op: u32, a: u32, b: u32) -> &'static str {
    let (x, y) = (f32::from_bits(a), f32::from_bits(b));
    let r = f32::from_bits(result(op, a, b, Mistake::Nothing));
    match op {
        3 | 4 if b == 0 => "by zero",
        3 | 4 if a as i32 == i32::MIN && b as i32 == -1 => "-2^31 by -1",
        12..=14 if x.is_nan() || y.is_nan() => "of a NaN",
        12..=14 => {
            if result(op, a, b, Mistake::Nothing) == 1 {
                "true"
            } else {
                "false"
            }
        }
        8..=11 if x.is_nan() || y.is_nan() => "of a NaN",
        8..=11 if r.is_nan() => "NaN made",
        8..=11 if x.is_infinite() || y.is_infinite() => "of an infinity",
        8..=11 if r.is_infinite() => "infinity made",
        8..=11 if halfway(op, a, b) && (r.is_subnormal() || r == 0.0) => "halfway, result below the normal numbers",
        8..=11 if halfway(op, a, b) => "halfway",
        8..=11 if r.is_subnormal() => "subnormal result",
        8..=11 if r == 0.0 => {
            if r.is_sign_negative() {
                "zero, negative"
            } else {
                "zero, positive"
            }
        }
        15 => {
            let d = ((a as i32) as f64 - r as f64).abs();
            let ulp = f32::from_bits((r.abs().to_bits()).max(1) - 1);
            let below = r.abs() as f64 - ulp as f64;
            let above = f32::from_bits(r.abs().to_bits() + 1) as f64 - r.abs() as f64;
            if d == 0.0 {
                "exact"
            } else if d == below / 2.0 || d == above / 2.0 {
                "halfway"
            } else {
                "rounded"
            }
        }
        16 if x.is_nan() => "of a NaN",
        16 if to_int(x) == 0x1234_5678 => "out of range",
        16 if to_int(x) == 0 => "0",
        _ => "else",
    }
}

fn main() {
    let word = std::env::args().nth(1).unwrap_or_default();
    let mistake = match word.as_str() {
        "up" => Mistake::Up,
        "nan" => Mistake::Nan,
        "floor" => Mistake::Floor,
        _ => Mistake::Nothing,
    };
    if word == "count" {
        let mut counts = BTreeMap::new();
        for (op, _, list) in all() {
            for (a, b) in list {
                *counts.entry((op, sort(op, a, b))).or_insert(0) += 1;
            }
        }
        for ((op, name), n) in counts {
            println!("{op} {name}: {n}");
        }
        return;
    }
    for (op, part, list) in all() {
        let h = list.iter().fold(0, |h, &(a, b)| fold(h, result(op, a, b, mistake)));
        println!("{op} {part} {h}");
    }
}
