//! What every test uses: the examples, the second machine's answer, and the law that every accepted text or image keeps.

mod errors;
mod examples;
mod laws;
mod names;
mod programs;

use std::fs;
use std::path::PathBuf;
use text::{assemble, disassemble};

fn directory() -> PathBuf {
    PathBuf::from(env!("CARGO_MANIFEST_DIR")).join("../../examples")
}

/// The names of the examples without their endings, in order.
fn examples() -> Vec<String> {
    let files = fs::read_dir(directory()).unwrap();
    let paths = files.map(|file| file.unwrap().path());
    let sources = paths.filter(|path| path.extension().is_some_and(|ending| ending == "ham"));
    let mut names: Vec<String> = sources
        .map(|path| path.file_stem().unwrap().to_str().unwrap().to_string())
        .collect();
    names.sort();
    names
}

fn file(name: &str) -> String {
    fs::read_to_string(directory().join(name)).unwrap()
}

/// The bytes give a text that gives the bytes again; so it is the same text again.
fn keeps_the_law(bytes: &[u8]) {
    let text = disassemble(bytes).unwrap();
    let again = assemble(&text)
        .unwrap_or_else(|errors| panic!("{errors:?} in\n{text}"))
        .bytes();
    assert!(again == bytes, "other bytes from\n{text}");
    assert_eq!(disassemble(&again).unwrap(), text);
}

/// The length of the image that the bytes begin with.
fn image_length(bytes: &[u8]) -> usize {
    let four = bytes.iter().take(4);
    four.fold(0, |length, byte| length << 8 | usize::from(*byte))
}

/// The refusal that the second machine's program prints, if it does. No limit on time is refused, so it is set to 0:
/// nothing has to run.
fn refusal(bytes: &[u8]) -> Option<u32> {
    let mut bytes = bytes.to_vec();
    let time = image_length(&bytes) + 8;
    bytes.iter_mut().skip(time).take(4).for_each(|byte| *byte = 0);
    let line = String::from_utf8(second::sheet::program(&mut &bytes[..])).unwrap();
    line.strip_prefix("refused ")
        .map(|number| number.trim_end().parse().unwrap())
}
