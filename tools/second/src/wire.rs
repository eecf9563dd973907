//! Wires as trees.

use crate::heap::{header, BOOL, CONSTR, EXN, FLOAT, INT, NONE, TUPLE};

/// "Wires: 65 words each"
pub const WIRE: usize = 65;

/// "A wire is a count k (0..64), k words, then zeros."
pub const ROOM: usize = 64;

/// A value on a wire. None only inside another one.
#[derive(Clone, Debug, PartialEq)]
pub enum Tree {
    Bool(bool),
    Int(i32),
    Float(f32),
    Tuple(Vec<Tree>),
    Constr(u16, Vec<Tree>),
    Exn(u16, Box<Tree>),
    None,
}

/// A wire's 65 words: empty, or one value. The outer `None` is a wire that is turned away.
pub fn read(words: &[u32]) -> Option<Option<Tree>> {
    let count = *words.first()? as usize;
    if count > ROOM {
        return None;
    }
    let (value, rest) = words[1..].split_at(count);
    if rest.iter().any(|word| *word != 0) {
        return None;
    }
    // "k = 0 means empty. Otherwise the k words are exactly one value"
    if count == 0 {
        return Some(None);
    }
    match read_value(value)? {
        // "7 None (header only, never a whole wire value)"
        (Tree::None, _) => None,
        (tree, []) => Some(Some(tree)),
        _ => None,
    }
}

/// "in prefix form: header, then payload; Tuple, Constr and Exn write header, size, then each field in full"
fn read_value(words: &[u32]) -> Option<(Tree, &[u32])> {
    let (head, rest) = words.split_first()?;
    let (kind, tag) = (head >> 16, *head as u16);
    // "Only Constr and Exn have a tag."
    if tag != 0 && kind != CONSTR && kind != EXN {
        return None;
    }
    if kind == NONE {
        return Some((Tree::None, rest));
    }
    let (payload, rest) = rest.split_first()?;
    match kind {
        BOOL if *payload <= 1 => Some((Tree::Bool(*payload == 1), rest)),
        INT => Some((Tree::Int(*payload as i32), rest)),
        FLOAT => Some((Tree::Float(read_float(*payload)?), rest)),
        TUPLE => read_fields(*payload, rest).map(|(fields, rest)| (Tree::Tuple(fields), rest)),
        CONSTR => read_fields(*payload, rest).map(|(fields, rest)| (Tree::Constr(tag, fields), rest)),
        // "6 Exn (size 1)"
        EXN if *payload == 1 => read_value(rest).map(|(field, rest)| (Tree::Exn(tag, Box::new(field)), rest)),
        _ => None,
    }
}

/// "A Float that is a NaN is 7FC00000."
fn read_float(bits: u32) -> Option<f32> {
    let float = f32::from_bits(bits);
    if float.is_nan() && bits != 0x7FC0_0000 {
        return None;
    }
    Some(float)
}

fn read_fields(size: u32, words: &[u32]) -> Option<(Vec<Tree>, &[u32])> {
    // "Sizes 0..255." No field is shorter than a word, so a larger size than the words left can't be read anyway.
    if size > 255 {
        return None;
    }
    let mut fields = Vec::new();
    let mut rest = words;
    for _ in 0..size {
        let (field, after) = read_value(rest)?;
        fields.push(field);
        rest = after;
    }
    Some((fields, rest))
}

/// A wire's 65 words, written from the data.
pub fn encode(tree: Option<&Tree>, words: &mut [u32]) {
    let mut value = Vec::new();
    if let Some(tree) = tree {
        write_value(tree, &mut value);
    }
    words.fill(0);
    words[0] = value.len() as u32;
    words[1..1 + value.len()].copy_from_slice(&value);
}

fn write_value(tree: &Tree, words: &mut Vec<u32>) {
    match tree {
        Tree::Bool(truth) => words.extend([header(BOOL, 0), u32::from(*truth)]),
        Tree::Int(integer) => words.extend([header(INT, 0), *integer as u32]),
        Tree::Float(float) => words.extend([header(FLOAT, 0), float.to_bits()]),
        Tree::Tuple(fields) => write_fields(header(TUPLE, 0), fields, words),
        Tree::Constr(tag, fields) => write_fields(header(CONSTR, *tag), fields, words),
        Tree::Exn(exception, field) => {
            words.extend([header(EXN, *exception), 1]);
            write_value(field, words);
        }
        Tree::None => words.push(header(NONE, 0)),
    }
}

fn write_fields(header: u32, fields: &[Tree], words: &mut Vec<u32>) {
    words.extend([header, fields.len() as u32]);
    for field in fields {
        write_value(field, words);
    }
}
