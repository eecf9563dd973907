//! Values, as they stand on a wire and as they are written.

use std::fmt;

/// "Wires: 65 words each"
pub const WIRE: usize = 65;

/// "A wire is a count k (0..64), k words, then zeros."
pub const ROOM: usize = 64;

/// "A Float that is a NaN is 7FC00000."
pub const NAN: u32 = 0x7FC0_0000;

/// A value. Floats are kept as their bits.
#[derive(Clone, Debug, PartialEq, Eq)]
pub enum Value {
    Bool(bool),
    Int(i32),
    Float(u32),
    Tuple(Vec<Value>),
    Constr(u16, Vec<Value>),
    Exn(u16, Box<Value>),
    None,
}

/// Why words aren't a wire, and which of them it is.
#[derive(Clone, Debug, PartialEq, Eq)]
pub struct Misfit {
    pub word: usize,
    pub reason: String,
}

/// A wire's 65 words as a value, or `empty`.
pub fn show_wire(words: &[u32]) -> Result<String, Misfit> {
    read_wire(words).map(|value| wire_text(&value))
}

pub fn wire_text(value: &Option<Value>) -> String {
    match value {
        Some(value) => value.to_string(),
        None => "empty".to_string(),
    }
}

pub fn is_odd_nan(bits: u32) -> bool {
    f32::from_bits(bits).is_nan() && bits != NAN
}

/// The shortest decimals that are read back as the same bits; a NaN that isn't document 01's only has its bits.
pub fn float_text(bits: u32) -> String {
    let float = f32::from_bits(bits);
    if is_odd_nan(bits) {
        format!("0f{bits:08X}")
    } else if float.is_nan() {
        "NaN".to_string()
    } else if float.is_infinite() {
        let sign = if float < 0.0 { "-" } else { "" };
        format!("{sign}Infinity")
    } else {
        format!("{float:?}")
    }
}

pub fn truth_text(truth: bool) -> &'static str {
    if truth {
        "True"
    } else {
        "False"
    }
}

impl fmt::Display for Value {
    fn fmt(&self, f: &mut fmt::Formatter<'_>) -> fmt::Result {
        match self {
            Value::Bool(truth) => write!(f, "{}", truth_text(*truth)),
            Value::Int(integer) => write!(f, "{integer}"),
            Value::Float(bits) => write!(f, "{}", float_text(*bits)),
            Value::Tuple(fields) => write!(f, "({})", list(fields)),
            Value::Constr(tag, fields) => write!(f, "C{tag}({})", list(fields)),
            Value::Exn(exception, field) => write!(f, "E{exception}({field})"),
            Value::None => write!(f, "None"),
        }
    }
}

fn list(values: &[Value]) -> String {
    let texts: Vec<String> = values.iter().map(Value::to_string).collect();
    texts.join(", ")
}

/// "The header is kind × 65536 + tag"
fn header(kind: u32, tag: u16) -> u32 {
    kind * 65536 + u32::from(tag)
}

impl Value {
    /// "in prefix form: header, then payload; Tuple, Constr and Exn write header, size, then each field in full"
    fn write(&self, words: &mut Vec<u32>) {
        match self {
            Value::Bool(truth) => words.extend([header(1, 0), u32::from(*truth)]),
            Value::Int(integer) => words.extend([header(2, 0), *integer as u32]),
            Value::Float(bits) => words.extend([header(3, 0), *bits]),
            Value::Tuple(fields) => write_fields(header(4, 0), fields, words),
            Value::Constr(tag, fields) => write_fields(header(5, *tag), fields, words),
            Value::Exn(exception, field) => {
                words.extend([header(6, *exception), 1]);
                field.write(words);
            }
            Value::None => words.push(header(7, 0)),
        }
    }
}

fn write_fields(header: u32, fields: &[Value], words: &mut Vec<u32>) {
    words.extend([header, fields.len() as u32]);
    for field in fields {
        field.write(words);
    }
}

/// The 65 words of a wire that holds nothing, or a value of at most 64 words.
pub fn wire(value: &Option<Value>) -> Vec<u32> {
    let mut words = vec![0];
    if let Some(value) = value {
        value.write(&mut words);
    }
    words[0] = words.len() as u32 - 1;
    words.resize(WIRE, 0);
    words
}

/// "k = 0 means empty. Otherwise the k words are exactly one value".
pub fn read_wire(words: &[u32]) -> Result<Option<Value>, Misfit> {
    if words.len() != WIRE {
        return misfit(0, format!("a wire has 65 words, not {}", words.len()));
    }
    let count = words[0] as usize;
    if count > ROOM {
        return misfit(0, format!("the count is {count}, not in 0..64"));
    }
    if let Some(word) = (count + 1..WIRE).find(|word| words[*word] != 0) {
        return misfit(word, format!("{} after the value instead of 0", words[word]));
    }
    if count == 0 {
        return Ok(None);
    }
    let mut reader = Reader {
        words: &words[..=count],
        next: 1,
    };
    let value = reader.value()?;
    if reader.next <= count {
        return misfit(reader.next, "the value ends before the count does".to_string());
    }
    if value == Value::None {
        return misfit(1, "None is never a whole wire value".to_string());
    }
    Ok(Some(value))
}

fn misfit<T>(word: usize, reason: String) -> Result<T, Misfit> {
    Err(Misfit { word, reason })
}

/// The words of one wire, and the next to read.
struct Reader<'a> {
    words: &'a [u32],
    next: usize,
}

impl Reader<'_> {
    fn word(&mut self) -> Result<u32, Misfit> {
        match self.words.get(self.next) {
            Some(word) => {
                self.next += 1;
                Ok(*word)
            }
            None => misfit(self.next, "the count ends before the value does".to_string()),
        }
    }

    /// Each value inside another takes two words of it, so this goes at most 32 deep.
    fn value(&mut self) -> Result<Value, Misfit> {
        let place = self.next;
        let head = self.word()?;
        let (kind, tag) = (head >> 16, head as u16);
        if !(1..=7).contains(&kind) {
            return misfit(place, format!("no value has the header {head}"));
        }
        if tag != 0 && kind != 5 && kind != 6 {
            return misfit(place, format!("kind {kind} has no tag, but here it is {tag}"));
        }
        match kind {
            1 => self.truth(),
            2 => Ok(Value::Int(self.word()? as i32)),
            3 => self.float(),
            4 => Ok(Value::Tuple(self.fields()?)),
            5 => Ok(Value::Constr(tag, self.fields()?)),
            6 => self.exception(tag),
            _ => Ok(Value::None),
        }
    }

    fn truth(&mut self) -> Result<Value, Misfit> {
        match self.word()? {
            0 => Ok(Value::Bool(false)),
            1 => Ok(Value::Bool(true)),
            odd => misfit(self.next - 1, format!("a Bool is 0 or 1, not {odd}")),
        }
    }

    fn float(&mut self) -> Result<Value, Misfit> {
        let bits = self.word()?;
        if is_odd_nan(bits) {
            return misfit(self.next - 1, format!("a NaN is 7FC00000, not {bits:08X}"));
        }
        Ok(Value::Float(bits))
    }

    /// "6 Exn (size 1)"
    fn exception(&mut self, number: u16) -> Result<Value, Misfit> {
        let size = self.word()?;
        if size != 1 {
            return misfit(self.next - 1, format!("an Exn's size is 1, not {size}"));
        }
        Ok(Value::Exn(number, Box::new(self.value()?)))
    }

    /// "Sizes 0..255."
    fn fields(&mut self) -> Result<Vec<Value>, Misfit> {
        let size = self.word()?;
        if size > 255 {
            return misfit(self.next - 1, format!("the size is {size}, not in 0..255"));
        }
        (0..size).map(|_| self.value()).collect()
    }
}
