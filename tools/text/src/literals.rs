//! Ints and Floats as they are written.

use crate::line::{Error, Token};
use crate::value::{self, Value};

pub fn decimal(text: &str) -> Option<u64> {
    let digits = !text.is_empty() && text.bytes().all(|byte| byte.is_ascii_digit());
    if digits {
        text.parse().ok()
    } else {
        None
    }
}

fn hexadecimal(text: &str) -> Option<u64> {
    let digits = !text.is_empty() && text.bytes().all(|byte| byte.is_ascii_hexdigit());
    if digits {
        u64::from_str_radix(text, 16).ok()
    } else {
        None
    }
}

/// Decimals, perhaps with a sign, or 0x and hexadecimals.
pub fn signed(text: &str) -> Option<i64> {
    let (negative, magnitude) = match (text.strip_prefix('-'), text.strip_prefix("0x")) {
        (Some(digits), _) => (true, decimal(digits)?),
        (_, Some(digits)) => (false, hexadecimal(digits)?),
        _ => (false, decimal(text)?),
    };
    let magnitude = i64::try_from(magnitude).ok()?;
    Some(if negative { -magnitude } else { magnitude })
}

pub fn looks_like_integer(text: &str) -> bool {
    let digits = text.strip_prefix('-').unwrap_or(text);
    digits.starts_with(|first: char| first.is_ascii_digit())
}

pub fn looks_like_float(text: &str) -> bool {
    let named = ["NaN", "Infinity", "-Infinity"].contains(&text);
    let hexadecimals = text.starts_with("0x");
    let point = looks_like_integer(text) && !hexadecimals && text.contains(['.', 'e', 'E']);
    named || point || text.starts_with("0f")
}

/// An Int: signed decimals, or 0x and the bits.
pub fn integer(token: Token<'_>) -> Result<i32, Error> {
    let expected = || token.expected("an Int in -2147483648..2147483647, or 0x and its bits");
    let number = signed(token.text).ok_or_else(expected)?;
    let bits = token.text.starts_with("0x");
    let integer = if bits {
        u32::try_from(number).ok().map(|bits| bits as i32)
    } else {
        i32::try_from(number).ok()
    };
    integer.ok_or_else(expected)
}

/// A Float's bits: decimals with a point or an exponent, NaN, Infinity, -Infinity, or 0f and the bits.
pub fn float(token: Token<'_>) -> Result<u32, Error> {
    let bits = match token.text {
        "NaN" => Some(value::NAN),
        "Infinity" => Some(f32::INFINITY.to_bits()),
        "-Infinity" => Some(f32::NEG_INFINITY.to_bits()),
        text => match text.strip_prefix("0f") {
            Some(digits) => float_bits(digits),
            None => decimal_float(token)?,
        },
    };
    bits.ok_or_else(|| token.expected("a Float, such as 3.0, 1e-3, NaN, -Infinity or 0f40400000"))
}

fn float_bits(digits: &str) -> Option<u32> {
    let bits = hexadecimal(digits)?;
    if digits.len() == 8 {
        u32::try_from(bits).ok()
    } else {
        None
    }
}

/// The nearest Float, ties to even: this is what `parse` gives.
fn decimal_float(token: Token<'_>) -> Result<Option<u32>, Error> {
    if !is_decimal_float(token.text) {
        return Ok(None);
    }
    match token.text.parse::<f32>() {
        Ok(float) if float.is_finite() => Ok(Some(float.to_bits())),
        Ok(_) => Err(token.error(format!("`{}` is too large for a Float", token.shown()))),
        Err(_) => Ok(None),
    }
}

/// Digits, then a point and digits, or an exponent, or both.
fn is_decimal_float(text: &str) -> bool {
    let unsigned = text.strip_prefix('-').unwrap_or(text);
    let (mantissa, exponent) = match unsigned.split_once(['e', 'E']) {
        Some((mantissa, exponent)) => (mantissa, Some(exponent)),
        None => (unsigned, None),
    };
    let (whole, fraction) = match mantissa.split_once('.') {
        Some((whole, fraction)) => (whole, Some(fraction)),
        None => (mantissa, None),
    };
    let digits = |text: &str| !text.is_empty() && text.bytes().all(|byte| byte.is_ascii_digit());
    let good_exponent = |text: &str| digits(text.strip_prefix(['-', '+']).unwrap_or(text));
    let is_integer = fraction.is_none() && exponent.is_none();
    !is_integer && digits(whole) && fraction.is_none_or(digits) && exponent.is_none_or(good_exponent)
}

/// "A Float that is a NaN is 7FC00000."
pub fn wire_float(token: Token<'_>) -> Result<Value, Error> {
    let bits = float(token)?;
    if value::is_odd_nan(bits) {
        return Err(token.error("a NaN on a wire is 7FC00000: write NaN".to_string()));
    }
    Ok(Value::Float(bits))
}
