//! One line of text: its tokens, and what is read from them.

use crate::literals;
use crate::names;
use crate::value::{Value, ROOM};
use std::fmt;
use std::ops::RangeInclusive;

/// What is wrong, and where. Lines and columns count from 1, columns in characters.
#[derive(Clone, Debug, PartialEq, Eq)]
pub struct Error {
    pub line: usize,
    pub column: usize,
    pub message: String,
}

impl fmt::Display for Error {
    fn fmt(&self, f: &mut fmt::Formatter<'_>) -> fmt::Result {
        write!(f, "{}:{}: {}", self.line, self.column, self.message)
    }
}

/// A word, or one of the marks ( ) , and : with its place. At the end of a line it is empty.
#[derive(Clone, Copy, Debug)]
pub struct Token<'a> {
    pub text: &'a str,
    pub line: usize,
    pub column: usize,
}

impl Token<'_> {
    pub fn error(&self, message: String) -> Error {
        Error {
            line: self.line,
            column: self.column,
            message,
        }
    }

    pub fn expected(&self, what: &str) -> Error {
        match self.text {
            "" => self.error(format!("expected {what}, but the line ends here")),
            _ => self.error(format!("expected {what}, not `{}`", self.shown())),
        }
    }

    /// The token in a message, where a long one or a control character would be in the way.
    pub fn shown(&self) -> String {
        let letters = self.text.chars().take(40);
        letters
            .map(|letter| if letter.is_control() { '?' } else { letter })
            .collect()
    }

    fn is_name(&self) -> bool {
        let good = |letter: char| letter.is_ascii_alphanumeric() || letter == '_';
        self.text.chars().all(good) && self.text.starts_with(|first: char| !first.is_ascii_digit())
    }
}

/// The tokens of a line, the last of them empty, and the next to read.
pub struct Line<'a> {
    tokens: Vec<Token<'a>>,
    next: usize,
}

fn is_mark(letter: char) -> bool {
    "(),:".contains(letter)
}

/// The line up to the comment, if there is one.
fn without_comment(text: &str) -> &str {
    let starts = [text.find("--"), text.find(';')];
    let start = starts.into_iter().flatten().min();
    &text[..start.unwrap_or(text.len())]
}

/// The length in bytes of what stands first: a mark, one blank, or a word up to the next of either.
fn first_length(text: &str) -> usize {
    let single = |letter: char| is_mark(letter) || letter.is_whitespace();
    match text.chars().next() {
        Some(first) if single(first) => first.len_utf8(),
        _ => text.find(single).unwrap_or(text.len()),
    }
}

impl<'a> Line<'a> {
    pub fn new(text: &'a str, line: usize) -> Line<'a> {
        let mut tokens: Vec<Token<'a>> = Vec::new();
        let mut rest = without_comment(text);
        let mut column = 1;
        let mut end = 1;
        while !rest.is_empty() {
            let (text, after) = rest.split_at(first_length(rest));
            let start = column;
            column += text.chars().count();
            rest = after;
            if !text.trim().is_empty() {
                tokens.push(Token {
                    text,
                    line,
                    column: start,
                });
                end = column;
            }
        }
        tokens.push(Token {
            text: "",
            line,
            column: end,
        });
        Line { tokens, next: 0 }
    }

    /// The next token, which stays there.
    pub fn peek(&self) -> Token<'a> {
        self.tokens[self.next]
    }

    /// The next token; at the end of the line it is the empty one again and again.
    pub fn take(&mut self) -> Token<'a> {
        let token = self.peek();
        if !token.text.is_empty() {
            self.next += 1;
        }
        token
    }

    /// The name of a label, if the next token is one with a colon after it.
    pub fn label(&mut self) -> Result<Option<Token<'a>>, Error> {
        match self.tokens.get(self.next + 1) {
            Some(mark) if mark.text == ":" => {
                let name = self.name("a label")?;
                self.next += 1;
                Ok(Some(name))
            }
            _ => Ok(None),
        }
    }

    pub fn end(&self) -> Result<(), Error> {
        match self.peek() {
            token if token.text.is_empty() => Ok(()),
            token => Err(token.expected("the end of the line")),
        }
    }

    pub fn keyword(&mut self, word: &str) -> Result<(), Error> {
        match self.take() {
            token if token.text == word => Ok(()),
            token => Err(token.expected(&format!("`{word}`"))),
        }
    }

    pub fn name(&mut self, what: &str) -> Result<Token<'a>, Error> {
        match self.take() {
            token if token.is_name() => Ok(token),
            token => Err(token.expected(what)),
        }
    }

    /// A number that isn't negative, in decimals or as 0x and hexadecimals.
    pub fn number(&mut self, what: &str, range: RangeInclusive<u32>) -> Result<u32, Error> {
        let token = self.take();
        let (low, high) = (*range.start(), *range.end());
        let expected = || token.expected(&format!("{what} in {low}..{high}"));
        let number = literals::signed(token.text).ok_or_else(expected)?;
        u32::try_from(number)
            .ok()
            .filter(|number| range.contains(number))
            .ok_or_else(expected)
    }

    pub fn primitive(&mut self, own: &[&str], other: (&str, &[&str])) -> Result<u8, Error> {
        let token = self.take();
        if let Some(number) = names::primitive(own, token.text) {
            return Ok(number);
        }
        let (instruction, table) = other;
        match names::primitive(table, token.text) {
            Some(_) => Err(token.error(format!("`{}` is a primitive of {instruction}", token.text))),
            None => Err(token.expected("a primitive")),
        }
    }

    pub fn truth(&mut self) -> Result<bool, Error> {
        match self.take() {
            token if token.text == "True" => Ok(true),
            token if token.text == "False" => Ok(false),
            token => Err(token.expected("True or False")),
        }
    }

    pub fn integer(&mut self) -> Result<i32, Error> {
        literals::integer(self.take())
    }

    pub fn float(&mut self) -> Result<u32, Error> {
        literals::float(self.take())
    }

    /// What a wire holds: `empty`, or one value.
    pub fn wire(&mut self) -> Result<Option<Value>, Error> {
        let first = self.peek();
        if first.text == "empty" {
            self.next += 1;
            return Ok(None);
        }
        match self.value(&mut ROOM.clone())? {
            Value::None => Err(first.error("None is never a whole wire value".to_string())),
            value => Ok(Some(value)),
        }
    }

    /// A value in the room that is left. Each value inside another takes two words of it, so this goes at most 32
    /// deep.
    fn value(&mut self, room: &mut usize) -> Result<Value, Error> {
        let token = self.take();
        let words = if token.text == "None" { 1 } else { 2 };
        if *room < words {
            return Err(token.error("here the value takes more than the 64 words of a wire".to_string()));
        }
        *room -= words;
        match token.text {
            "None" => Ok(Value::None),
            "True" => Ok(Value::Bool(true)),
            "False" => Ok(Value::Bool(false)),
            "(" => Ok(Value::Tuple(self.fields(room)?)),
            text if text.starts_with(['C', 'E']) => self.tagged(token, room),
            text if literals::looks_like_float(text) => literals::wire_float(token),
            text if literals::looks_like_integer(text) => Ok(Value::Int(literals::integer(token)?)),
            _ => Err(token.expected("a value")),
        }
    }

    /// C and a tag, or E and an exception, then fields.
    fn tagged(&mut self, token: Token<'a>, room: &mut usize) -> Result<Value, Error> {
        let (kind, digits) = token.text.split_at(1);
        let tag = literals::decimal(digits).and_then(|tag| u16::try_from(tag).ok());
        let Some(tag) = tag else {
            return Err(token.error(format!(
                "expected {kind} and a tag in 0..65535, not `{}`",
                token.shown()
            )));
        };
        self.keyword("(")?;
        if kind == "C" {
            return Ok(Value::Constr(tag, self.fields(room)?));
        }
        let field = self.value(room)?;
        self.keyword(")")?;
        Ok(Value::Exn(tag, Box::new(field)))
    }

    /// Values between commas, after the opening mark and up to the closing one.
    fn fields(&mut self, room: &mut usize) -> Result<Vec<Value>, Error> {
        let mut fields = Vec::new();
        if self.peek().text == ")" {
            self.next += 1;
            return Ok(fields);
        }
        loop {
            fields.push(self.value(room)?);
            match self.take() {
                token if token.text == "," => {}
                token if token.text == ")" => return Ok(fields),
                token => return Err(token.expected("`,` or `)`")),
            }
        }
    }
}
