//! The examples through the assembler and the second machine.

use crate::{examples, file, keeps_the_law};
use second::sheet::program;
use text::{assemble, show_wire};

fn line(text: &str) -> String {
    let bytes = assemble(text).unwrap().bytes();
    String::from_utf8(program(&mut &bytes[..])).unwrap()
}

#[test]
fn every_example_prints_its_line() {
    let names = examples();
    assert_eq!(names.len(), 16);
    for name in names {
        let text = file(&format!("{name}.ham"));
        assert_eq!(line(&text), file(&format!("{name}.out")), "{name}");
        keeps_the_law(&assemble(&text).unwrap().bytes());
        keeps_the_law(&assemble(&text).unwrap().image());
    }
}

/// What document 01 says of the sums; where it leaves a figure open, there is a -.
const STATED: [(&str, &str); 15] = [
    ("p01", "0 0 3 4 156 2 1 6"),
    ("p02", "5 0 3 3 146 2 1 6"),
    ("p03", "6 0 1 1 10 1 1 2"),
    ("p04", "7 0 2 2 20 2 2 4"),
    ("p05", "5 - 1 - - - - -"),
    ("p06", "6 - - - - - - -"),
    ("p07", "- - - - - - - -"),
    ("p08", "- - - - 60 7 2 2"),
    ("p09", "4 1 2 - - - - 4"),
    ("p10a", "- - - - - - - -"),
    ("p10b", "- - - - - - - -"),
    ("p10c", "- - - - - - - -"),
    ("p11a", "- - - - - - - -"),
    ("p11b", "4 2 - - - - - -"),
    ("p12", "- - - - - - - 6"),
];

#[test]
fn the_lines_are_document_01s() {
    for (name, stated) in STATED {
        let line = file(&format!("{name}.out"));
        let figures: Vec<&str> = line.trim_end().split(' ').collect();
        let stated: Vec<&str> = stated.split(' ').collect();
        assert_eq!(figures.len(), 8);
        let agree = figures
            .iter()
            .zip(stated)
            .all(|(figure, stated)| stated == "-" || stated == *figure);
        assert!(agree, "{name}: {line}");
    }
}

/// The heap and the wires that the second machine leaves.
fn left(text: &str) -> (Vec<u32>, Vec<u32>) {
    let run = assemble(text).unwrap();
    let (image, bytes) = (run.image(), run.bytes());
    let words: Vec<u32> = bytes[image.len()..]
        .chunks(4)
        .map(|four| u32::from_be_bytes([four[0], four[1], four[2], four[3]]))
        .collect();
    let (card, inputs) = (&words[5..45], &words[45..]);
    let mut wires = inputs.to_vec();
    wires.resize(inputs.len() + 65 * usize::from(image[6]), 0);
    let rulesets = second::image::read(&image).unwrap().rulesets;
    let mut order: Vec<u32> = rulesets
        .iter()
        .flat_map(|ruleset| 0..ruleset.rules.len() as u32)
        .collect();
    let (mut stack, mut heap) = (vec![0; 4096], vec![0; 16384]);
    let (t, s, h) = (words[2], words[3], words[4]);
    second::run(&image, card, t, s, h, &mut stack, &mut heap, &mut wires, &mut order).unwrap();
    (heap, wires)
}

/// What document 01 says of the heap.
#[test]
fn the_heaps_are_document_01s() {
    let heap = |name: &str| left(&file(&format!("{name}.ham"))).0;
    assert_eq!(heap("p07")[5] as i32, -2);
    assert_eq!(heap("p10a")[3], 0x4B80_0000);
    assert_eq!(heap("p10b")[3], 0x4B80_0002);
    assert_eq!(heap("p10c")[3], 0x4F00_0000);
    assert_eq!(heap("p11a")[3] as i32, -2147483648);
    assert_eq!(heap("p12")[..6], [131072, 5, 262144, 2, 268435456, 536870912]);
}

/// "wire 5, 262144, 2, 131072, 5, 458752"
#[test]
fn the_wire_is_document_01s() {
    let (_, wires) = left(&file("p12.ham"));
    assert_eq!(wires[..7], [5, 262144, 2, 131072, 5, 458752, 0]);
}

/// The output wires of the monitor rule, as the file `monitor.wires` has them.
fn outputs(text: &str) -> String {
    let (_, wires) = left(text);
    let shown = wires.chunks(65).skip(1).enumerate();
    shown
        .map(|(number, wire)| format!("output {number} {}\n", show_wire(wire).unwrap()))
        .collect()
}

#[test]
fn the_monitor_rule_writes_the_rate() {
    assert_eq!(outputs(&file("monitor.ham")), file("monitor.wires"));
}

/// The other rules of the monitor: an older instrument, no bases, and a tuple that nobody sends.
#[test]
fn the_monitor_rule_on_other_tuples() {
    let text = file("monitor.ham");
    let own = "(17, 1030, 412000)";
    assert!(text.contains(&format!("wire 0 {own}\n")));
    let with = |tuple: &str| text.replace(&format!("wire 0 {own}"), &format!("wire 0 {tuple}"));
    let older = with("(4, 3, 600, 400)");
    assert_eq!(outputs(&older), "output 0 (4, 0.003)\noutput 1 empty\n");
    for uncounted in ["(17, 0, 0)", "(17, 5, 0)", "(17, 5, 40, -40)"] {
        assert_eq!(outputs(&with(uncounted)), "output 0 empty\noutput 1 E7(17)\n");
    }
    assert!(line(&with("(17, 1030)")).starts_with("3 0 13 "));
    assert!(line(&with("empty")).starts_with("2 8 0 "));
}
