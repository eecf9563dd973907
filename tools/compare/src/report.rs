//! A case and its outcomes, for reading.

use crate::machines::Outcome;
use cases::coverage::NAMES;
use cases::{Case, Kind};
use std::fmt::Write;

/// The whole case, both results, and where they differ.
pub fn difference(kind: Kind, seed: u64, number: u64, case: &Case, second: &Outcome, other: &Outcome) -> String {
    let mut text = whole_case(kind, seed, number, case);
    text.push_str(&outcome("second", second));
    text.push_str(&outcome("other", other));
    for (name, one, two) in [
        ("stack", &second.stack, &other.stack),
        ("heap", &second.heap, &other.heap),
        ("wires", &second.wires, &other.wires),
        ("order", &second.order, &other.order),
    ] {
        let differing = one.iter().zip(two).enumerate().filter(|(_, (one, two))| one != two);
        for (place, (one, two)) in differing.take(20) {
            let _ = writeln!(text, "{name}[{place}]: second {one:#010x}, other {two:#010x}");
        }
    }
    text
}

pub fn whole_case(kind: Kind, seed: u64, number: u64, case: &Case) -> String {
    let mut text = format!("{kind:?} case {number} of seed {seed}\n");
    let _ = writeln!(text, "image ({} bytes): {}", case.image.len(), hexadecimal(&case.image));
    text.push_str(&listing(&case.image));
    let _ = writeln!(text, "card ({}): {:?}", case.card.len(), case.card);
    let _ = writeln!(text, "T {} S {} H {}", case.time, case.stack_limit, case.heap_limit);
    let _ = writeln!(
        text,
        "areas: stack {} words, heap {} words",
        case.stack.len(),
        case.heap.len()
    );
    text.push_str(&wires(&case.wires));
    let _ = writeln!(text, "order ({}): {:?}", case.order.len(), case.order);
    text
}

pub fn outcome(name: &str, outcome: &Outcome) -> String {
    let mut text = format!("--- {name}: {:?}\n", outcome.result);
    for (area, words) in [("stack", &outcome.stack), ("heap", &outcome.heap)] {
        let used = words.iter().rposition(|word| *word != 0).map_or(0, |last| last + 1);
        let _ = write!(text, "{area} ({used} words, then {} zeros):", words.len() - used);
        for word in words[..used].iter().take(400) {
            let _ = write!(text, " {word:x}");
        }
        text.push('\n');
    }
    text.push_str(&wires(&outcome.wires));
    let _ = writeln!(text, "order: {:?}", outcome.order);
    text
}

fn wires(words: &[u32]) -> String {
    let mut text = format!("wires ({} words)\n", words.len());
    for (number, wire) in words.chunks(65).enumerate() {
        let used = wire.iter().rposition(|word| *word != 0).map_or(0, |last| last + 1);
        let _ = writeln!(text, "  wire {number}: {:?} and zeros", &wire[..used]);
    }
    text
}

/// The rulesets and instructions, if the image is one.
fn listing(image: &[u8]) -> String {
    let program = match second::image::read(image) {
        Ok(program) => program,
        Err(refusal) => return format!("  (refusal {refusal})\n"),
    };
    let mut text = format!(
        "  inputs {} outputs {} handler {:?}\n",
        program.inputs, program.outputs, program.handler
    );
    for (number, ruleset) in program.rulesets.iter().enumerate() {
        let _ = writeln!(
            text,
            "  ruleset {number}: entry {} rules {:?}",
            ruleset.entry, ruleset.rules
        );
    }
    let start = image.len() - 8 * program.code.len();
    for (address, bytes) in image[start..].chunks(8).enumerate() {
        let b = u16::from_be_bytes([bytes[2], bytes[3]]);
        let c = u32::from_be_bytes([bytes[4], bytes[5], bytes[6], bytes[7]]);
        let name = NAMES[usize::from(bytes[0]) - 1];
        let _ = writeln!(text, "  {address:>4} {name:<14} a {} b {b} c {c:#x}", bytes[1]);
    }
    text
}

fn hexadecimal(bytes: &[u8]) -> String {
    bytes.iter().map(|byte| format!("{byte:02x}")).collect()
}
