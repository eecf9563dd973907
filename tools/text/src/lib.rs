//! Images and run sheets as plain text, for people who read and write rules.
//!
//! [`assemble`] goes from text to bytes, [`disassemble`] back. The image keeps no names, so the text that comes back has
//! made-up ones; it is the canonical text of its bytes, and gives the same bytes and the same text again. Both refuse
//! what the machine refuses, and say where. `examples/README.md` describes the text.
//!
//! Quoted sentences in the comments are document 01's.

mod assemble;
pub mod files;
mod line;
mod literals;
mod names;
mod parse;
mod program;
mod read;
mod show;
mod value;

pub use assemble::assemble;
pub use line::Error;
pub use program::Run;
pub use read::{read, Refusal};
pub use show::show;
pub use value::{show_wire, Misfit};

/// The canonical text of an image, or of an image and its run sheet.
pub fn disassemble(bytes: &[u8]) -> Result<String, Refusal> {
    read(bytes).map(|(run, _)| show(&run, false))
}

/// The same as [`assemble`], of bytes that may not be text at all.
pub fn assemble_bytes(bytes: &[u8]) -> Result<Run, Vec<Error>> {
    match std::str::from_utf8(bytes) {
        Ok(text) => assemble(text),
        Err(error) => Err(vec![not_text(&bytes[..error.valid_up_to()])]),
    }
}

/// The error after so much good text.
fn not_text(good: &[u8]) -> Error {
    let good = String::from_utf8_lossy(good);
    let last = good.rsplit('\n').next().unwrap_or("");
    Error {
        line: good.matches('\n').count() + 1,
        column: last.chars().count() + 1,
        message: "these bytes are not UTF-8".to_string(),
    }
}
