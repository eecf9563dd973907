//! The program: from the bytes of standard input to the bytes of standard output.

use crate::wire::WIRE;
use crate::{image, run, Figures};
use std::io::Read;

/// "1 if its length is over 33,899 or the input ends first"
pub const LONGEST_IMAGE: u32 = 33_899;

/// The line that is printed: "the eight figures in that order on one line, or `refused N`".
pub fn program(input: &mut dyn Read) -> Vec<u8> {
    let line = match outcome(input) {
        Ok(figures) => figures.in_order().map(|figure| figure.to_string()).join(" "),
        Err(refusal) => format!("refused {refusal}"),
    };
    format!("{line}\n").into_bytes()
}

fn outcome(input: &mut dyn Read) -> Result<Figures, u32> {
    let image = read_image(input).ok_or(1u32)?;
    let accepted = image::read(&image)?;
    // "9 ... the program alone tests this, between 4 and 5"
    let sheet = read_sheet(input, accepted.inputs).ok_or(9u32)?;
    run_sheet(&image, &accepted, &sheet)
}

/// "A program reads the image (1 if its length is over 33,899 or the input ends first)".
fn read_image(input: &mut dyn Read) -> Option<Vec<u8>> {
    let mut image = read_bytes(input, 4)?;
    let length = u32::from_be_bytes([image[0], image[1], image[2], image[3]]);
    if !(4..=LONGEST_IMAGE).contains(&length) {
        return None;
    }
    image.extend(read_bytes(input, length as usize - 4)?);
    Some(image)
}

/// "a run sheet from standard input: length in bytes, itself included, version 1, T, S, H, the 40 card numbers, the
/// input wires, all big-endian 32-bit. Bytes after it aren't read."
fn read_sheet(input: &mut dyn Read, inputs: usize) -> Option<Vec<u32>> {
    let words = 5 + 40 + WIRE * inputs;
    let bytes = read_bytes(input, 4 * words)?;
    let sheet: Vec<u32> = bytes
        .chunks(4)
        .map(|four| u32::from_be_bytes([four[0], four[1], four[2], four[3]]))
        .collect();
    let good = sheet[0] as usize == 4 * words && sheet[1] == 1;
    good.then_some(sheet)
}

/// "Outputs start empty, order 0, 1, 2..."
fn run_sheet(image: &[u8], accepted: &image::Program, sheet: &[u32]) -> Result<Figures, u32> {
    let mut stack = vec![0; 4096];
    let mut heap = vec![0; 16384];
    let mut wires = sheet[45..].to_vec();
    wires.resize(WIRE * (accepted.inputs + accepted.outputs), 0);
    let mut order: Vec<u32> = accepted
        .rulesets
        .iter()
        .flat_map(|ruleset| 0..ruleset.rules.len() as u32)
        .collect();
    run(
        image,
        &sheet[5..45],
        sheet[2],
        sheet[3],
        sheet[4],
        &mut stack,
        &mut heap,
        &mut wires,
        &mut order,
    )
}

/// So many bytes, or `None` where the input ends first.
fn read_bytes(input: &mut dyn Read, count: usize) -> Option<Vec<u8>> {
    let mut bytes = vec![0; count];
    input.read_exact(&mut bytes).ok()?;
    Some(bytes)
}
