//! What the assembler and the disassembler say is wrong, and where; and that nothing else happens with any text.

use crate::{examples, file, keeps_the_law, refusal};
use cases::rng::Rng;
use cases::stdin;
use text::{assemble, assemble_bytes, disassemble, show_wire};

/// A good text with a place for each kind of line.
const GOOD: &str = "\
box inputs 2 outputs 1 handler main
ruleset main entry a rules a b
a:  MkInt 7
b:  Schedule
time 9
stack 9
heap 9
card all 9
wire 1 (1, C2(None))
";

fn errors(text: &str) -> Vec<String> {
    match assemble(text) {
        Ok(_) => Vec::new(),
        Err(errors) => errors.iter().map(|error| error.to_string()).collect(),
    }
}

/// The one error of the good text with line `number` (from 1) replaced.
fn error_with(number: usize, line: &str) -> String {
    let lines = GOOD.lines().enumerate();
    let text: Vec<&str> = lines
        .map(|(index, own)| if index + 1 == number { line } else { own })
        .collect();
    let found = errors(&text.join("\n"));
    assert_eq!(found.len(), 1, "{line}: {found:?}");
    found[0].clone()
}

#[test]
fn the_good_text_is_good() {
    assert_eq!(errors(GOOD), Vec::<String>::new());
}

const WRONG_LINES: [(usize, &str, &str); 64] = [
    // The box.
    (1, "", "1:1: there is no `box` line"),
    (
        1,
        "box inputs 9 outputs 1",
        "1:12: expected a number of inputs in 0..8, not `9`",
    ),
    (
        1,
        "box inputs 2 outputs -1",
        "1:22: expected a number of outputs in 0..8, not `-1`",
    ),
    (1, "box outputs 1 inputs 2", "1:5: expected `inputs`, not `outputs`"),
    (1, "box inputs 2", "1:13: expected `outputs`, but the line ends here"),
    (
        1,
        "box inputs 2 outputs 1 handler",
        "1:31: expected a ruleset, but the line ends here",
    ),
    (
        1,
        "box inputs 2 outputs 1 handler man",
        "1:32: there is no ruleset `man`",
    ),
    (
        1,
        "box inputs 2 outputs 1 main",
        "1:24: expected the end of the line, not `main`",
    ),
    (1, "box inputs 1 outputs 1", "9:6: there is no input 1, the box has 1"),
    // The rulesets.
    (
        2,
        "ruleset main entry a rules",
        "2:27: expected a label, but the line ends here",
    ),
    (2, "ruleset main entry a rules a, b", "2:29: expected a label, not `,`"),
    (2, "ruleset main rules a entry a", "2:14: expected `entry`, not `rules`"),
    (
        2,
        "ruleset 7 entry a rules a",
        "2:9: expected the ruleset's name, not `7`",
    ),
    (2, "ruleset main entry c rules a b", "2:20: there is no label `c`"),
    (2, "ruleset main entry a rules a c", "2:30: there is no label `c`"),
    (
        2,
        "ruleset main entry a rules a a a a a a a a a a a a a a a a b",
        "2:60: a ruleset has at most 16 rules",
    ),
    (2, "ruleset x entry a rules a", "1:32: there is no ruleset `main`"),
    // The code.
    (3, "a: mkint 7", "3:4: no instruction is called `mkint`: is it MkInt?"),
    (
        3,
        "a: Jump b",
        "3:4: no line starts with `Jump`, and no instruction is called so",
    ),
    (
        3,
        "a: MkInt",
        "3:9: expected an Int in -2147483648..2147483647, or 0x and its bits, but the line ends here",
    ),
    (
        3,
        "a: MkInt 2147483648",
        "3:10: expected an Int in -2147483648..2147483647, or 0x and its bits, not `2147483648`",
    ),
    (
        3,
        "a: MkInt 0x100000000",
        "3:10: expected an Int in -2147483648..2147483647, or 0x and its bits, not `0x100000000`",
    ),
    (
        3,
        "a: MkInt 7.0",
        "3:10: expected an Int in -2147483648..2147483647, or 0x and its bits, not `7.0`",
    ),
    (3, "a: MkInt 7 7", "3:12: expected the end of the line, not `7`"),
    (
        3,
        "a: MkFloat 7",
        "3:12: expected a Float, such as 3.0, 1e-3, NaN, -Infinity or 0f40400000, not `7`",
    ),
    (
        3,
        "a: MkFloat .5",
        "3:12: expected a Float, such as 3.0, 1e-3, NaN, -Infinity or 0f40400000, not `.5`",
    ),
    (
        3,
        "a: MkFloat 1e",
        "3:12: expected a Float, such as 3.0, 1e-3, NaN, -Infinity or 0f40400000, not `1e`",
    ),
    (
        3,
        "a: MkFloat 0f123",
        "3:12: expected a Float, such as 3.0, 1e-3, NaN, -Infinity or 0f40400000, not `0f123`",
    ),
    (3, "a: MkFloat 3.5e38", "3:12: `3.5e38` is too large for a Float"),
    (3, "a: MkBool 1", "3:11: expected True or False, not `1`"),
    (3, "a: MkTuple 256", "3:12: expected a number in 0..255, not `256`"),
    (3, "a: MkTuple 1.5", "3:12: expected a number in 0..255, not `1.5`"),
    (3, "a: MkCon 3 5", "3:12: expected `tag`, not `5`"),
    (
        3,
        "a: MkCon 3 tag 65536",
        "3:16: expected a tag in 0..65535, not `65536`",
    ),
    (
        3,
        "a: Raise 65536",
        "3:10: expected an exception in 0..65535, not `65536`",
    ),
    (3, "a: Goto c", "3:9: there is no label `c`"),
    (3, "a: Goto 3", "3:9: expected a label, not `3`"),
    (3, "a: Call a", "3:9: there is no ruleset `a`"),
    (3, "a: CallPrim1 +.i", "3:14: `+.i` is a primitive of CallPrim2"),
    (3, "a: CallPrim2 not", "3:14: `not` is a primitive of CallPrim1"),
    (3, "a: CallPrim2 7", "3:14: expected a primitive, not `7`"),
    (3, "a: CopyInput 2", "3:14: there is no input 2, the box has 2"),
    (
        3,
        "a: Consume 8",
        "3:12: expected the number of a wire in 0..7, not `8`",
    ),
    (3, "a: Write 1", "3:10: there is no output 1, the box has 1"),
    (3, "a: a: MkInt 7", "3:4: a second label `a`"),
    (3, "a: 7: MkInt 7", "3:4: expected a label, not `7`"),
    (3, "a: MkInt 7 ü", "3:12: expected the end of the line, not `ü`"),
    (
        4,
        "b: MkInt 7",
        "4:4: the last instruction is Goto, Return, Raise or Schedule, not MkInt",
    ),
    // The run sheet.
    (5, "", "6:1: the run sheet has no `time` line"),
    (
        5,
        "time 4294967296",
        "5:6: expected a limit on time in 0..4294967295, not `4294967296`",
    ),
    (6, "stack 4097", "6:7: expected a limit on stack in 0..4096, not `4097`"),
    (
        7,
        "heap 16385",
        "7:6: expected a limit on heap in 0..16384, not `16385`",
    ),
    (8, "card MkInt 9", "5:1: the run sheet has no `card all` line"),
    (8, "card all 0", "8:10: expected a card number in 1..65535, not `0`"),
    (8, "card some 7", "8:6: expected `all` or an instruction, not `some`"),
    (9, "wire 2 empty", "9:6: there is no input 2, the box has 2"),
    (9, "wire 1 None", "9:8: None is never a whole wire value"),
    (9, "wire 1 (1, 2", "9:13: expected `,` or `)`, but the line ends here"),
    (9, "wire 1 (1 2)", "9:11: expected `,` or `)`, not `2`"),
    (9, "wire 1 (1,)", "9:11: expected a value, not `)`"),
    (9, "wire 1 C(1)", "9:8: expected C and a tag in 0..65535, not `C`"),
    (9, "wire 1 E1()", "9:11: expected a value, not `)`"),
    (9, "wire 1 (0f7F800001)", "9:9: a NaN on a wire is 7FC00000: write NaN"),
    (9, "wire 1 1 -- c\nwire 1 2", "10:6: a second line for wire 1"),
];

#[test]
fn errors_name_line_and_column() {
    for (number, line, error) in WRONG_LINES {
        assert_eq!(error_with(number, line), error);
    }
}

/// Each wrong line is named.
#[test]
fn every_wrong_line() {
    let text = "box inputs 2 outputs\nruleset main\nMkInt\n-- good\nMkNone\nwire 0 (";
    let places: Vec<String> = errors(text)
        .iter()
        .map(|error| error.split(": ").next().unwrap().to_string())
        .collect();
    assert_eq!(places, ["1:21", "2:13", "3:6", "6:9"]);
}

/// Said twice, too many, and none.
#[test]
fn counts() {
    let twice = |line: &str| errors(&format!("{GOOD}{line}"));
    assert_eq!(twice("time 1"), ["10:1: a second line for time"]);
    assert_eq!(twice("box inputs 2 outputs 1"), ["10:1: a second line for the box"]);
    assert_eq!(twice("card all 1"), ["10:6: a second line for card all"]);
    assert_eq!(twice("ruleset main entry a rules a"), ["10:9: a second ruleset `main`"]);
    assert_eq!(twice("end:"), ["10:1: no instruction comes after label `end`"]);
    assert_eq!(errors(""), ["1:1: there is no `box` line"]);
    assert_eq!(
        errors("box inputs 0 outputs 0"),
        ["1:1: there is no `ruleset` line", "1:1: there is no instruction"]
    );
    let rulesets: String = (0..33)
        .map(|number| format!("ruleset r{number} entry a rules a\n"))
        .collect();
    let many = format!("box inputs 0 outputs 0\n{rulesets}a: Schedule");
    assert_eq!(errors(&many), ["34:9: an image has at most 32 rulesets"]);
    let long = |count: usize| {
        let code = "MkNone\n".repeat(count - 1);
        errors(&format!(
            "box inputs 0 outputs 0\nruleset r entry a rules a\na:\n{code}Schedule"
        ))
    };
    assert_eq!(long(4096), Vec::<String>::new());
    assert_eq!(long(4097), ["4100:1: an image has at most 4096 instructions"]);
}

/// "64 words fit, 65 don't", however deep.
#[test]
fn sixty_four_words() {
    let wire = |value: &str| errors(&GOOD.replace("(1, C2(None))", value));
    let ints = vec!["1"; 31].join(", ");
    assert_eq!(wire(&format!("({ints})")), Vec::<String>::new());
    let over = "here the value takes more than the 64 words of a wire";
    let column = 8 + 1 + ints.len() + 2;
    assert_eq!(wire(&format!("({ints}, None)")), [format!("9:{column}: {over}")]);
    let deep = |levels: usize| format!("{}{}", "(".repeat(levels), ")".repeat(levels));
    assert_eq!(wire(&deep(32)), Vec::<String>::new());
    assert_eq!(wire(&deep(33)), [format!("9:40: {over}")]);
    assert_eq!(wire(&"(".repeat(200_000)), [format!("9:40: {over}")]);
    assert_eq!(wire(&"E1(".repeat(200_000)), [format!("9:104: {over}")]);
}

#[test]
fn bytes_that_are_no_text() {
    let found = assemble_bytes(b"box inputs 0 outputs 0\n-- \xC3\xBC \xFF").unwrap_err();
    assert_eq!(found[0].to_string(), "2:6: these bytes are not UTF-8");
}

/// The forms of numbers, and where they may stand.
#[test]
fn numbers() {
    let line = |line: &str| {
        let text = GOOD.replace("MkInt 7", line);
        let shown = disassemble(&assemble(&text).unwrap().bytes()).unwrap();
        shown.lines().nth(4).unwrap().trim().to_string()
    };
    for (written, shown) in [
        ("MkInt -2147483648", "MkInt -2147483648"),
        ("MkInt 0x80000000", "MkInt -2147483648"),
        ("MkInt 0xffffffff", "MkInt -1"),
        ("MkInt -0", "MkInt 0"),
        ("MkInt 007", "MkInt 7"),
        ("MkFloat 0.1", "MkFloat 0.1"),
        ("MkFloat 0.100000001", "MkFloat 0.1"),
        ("MkFloat -0.0", "MkFloat -0.0"),
        ("MkFloat 1E3", "MkFloat 1000.0"),
        ("MkFloat 1e-45", "MkFloat 1e-45"),
        ("MkFloat 16777217.0", "MkFloat 16777216.0"),
        ("MkFloat 0f3F800000", "MkFloat 1.0"),
        ("MkFloat 0f7fc00000", "MkFloat NaN"),
        ("MkFloat 0fFFC00000", "MkFloat 0fFFC00000"),
        ("MatchFloat -Infinity", "MatchFloat -Infinity"),
        ("MatchBool True -- yes", "MatchBool True"),
        ("MatchCon 0x2 tag 0xFFFF ; no", "MatchCon 2 tag 65535"),
        ("CallPrim2 -.f", "CallPrim2 -.f"),
        ("CallPrim2 &&", "CallPrim2 &&"),
    ] {
        assert_eq!(line(written), shown);
    }
}

/// For hosts.
#[test]
fn wires_are_shown() {
    let mut words = [0; 65];
    assert_eq!(show_wire(&words).unwrap(), "empty");
    words[..9].copy_from_slice(&[8, 0x4_0000, 3, 0x3_0000, 0x3F00_0000, 0x6_0007, 1, 0x7_0000, 0x7_0000]);
    assert_eq!(show_wire(&words).unwrap(), "(0.5, E7(None), None)");
    words[2] = 4;
    assert_eq!(show_wire(&words).unwrap_err().word, 9);
    assert_eq!(show_wire(&words[1..]).unwrap_err().word, 0);
}

#[test]
fn refusals_name_the_place() {
    let image = assemble(GOOD).unwrap().bytes();
    let refusal = |place: usize, byte: u8| {
        let mut damaged = image.clone();
        damaged[place] = byte;
        disassemble(&damaged).unwrap_err().to_string()
    };
    assert_eq!(refusal(4, 3), "refused 2 at byte 4: the version is 3, not 1");
    assert_eq!(refusal(5, 9), "refused 3 at byte 5: inputs: 9 is not in 0..8");
    assert_eq!(
        refusal(10, 3),
        "refused 3 at byte 0: the counts ask for 42 bytes, the image has 34"
    );
    assert_eq!(
        refusal(17, 2),
        "refused 4 at byte 16: a rule of ruleset 0 is 2, but there are 2 instructions"
    );
    assert_eq!(
        refusal(18, 41),
        "refused 4 at byte 18: instruction 0: no instruction has the opcode 41"
    );
    assert_eq!(
        refusal(29, 1),
        "refused 4 at byte 26: instruction 1: Schedule with an unused field that isn't zero"
    );
    let last = "the last instruction is not Goto, Return, Raise or Schedule";
    assert_eq!(refusal(26, 4), format!("refused 4 at byte 26: {last}"));
    assert_eq!(
        refusal(41, 2),
        "refused 9 at byte 38: the run sheet's version is 2, not 1"
    );
    assert_eq!(
        refusal(57, 0),
        "refused 5 at byte 54: the card's number for MkBool: 0 is not in 1..65535"
    );
    assert_eq!(refusal(48, 255), "refused 6 at byte 46: stack: 65289 is not in 0..4096");
    assert_eq!(
        refusal(217, 65),
        "refused 7 at byte 214: wire 0: the count is 65, not in 0..64"
    );
}

const WORDS: [&str; 44] = [
    "box",
    "inputs",
    "outputs",
    "handler",
    "ruleset",
    "entry",
    "rules",
    "time",
    "stack",
    "heap",
    "card",
    "all",
    "wire",
    "empty",
    "tag",
    "MkInt",
    "Goto",
    "Call",
    "CallPrim2",
    "CopyInput",
    "Write",
    "MatchCon",
    "Schedule",
    "MkNone",
    "L0",
    "L4095",
    "ruleset0",
    "ruleset31",
    "None",
    "True",
    "C1(",
    "E65536(",
    "(",
    ")",
    ",",
    ":",
    "-1",
    "0x",
    "255",
    "256",
    "1e39",
    "0f7F800001",
    "--",
    "\n",
];

/// A text with a few things deleted, doubled, exchanged or put in.
fn damaged(text: &str, rng: &mut Rng) -> String {
    let mut parts: Vec<String> = text.split_inclusive([' ', '\n']).map(str::to_string).collect();
    for _ in 0..rng.between(1, 4) {
        let place = rng.below(parts.len());
        let other = rng.below(parts.len());
        match rng.below(7) {
            0 => parts[place].clear(),
            1 => parts.swap(place, other),
            2 => parts[place] = parts[other].clone(),
            3 => parts[place] = format!("{} ", rng.pick(&WORDS)),
            4 => parts.insert(place, format!("{} ", rng.pick(&WORDS))),
            5 => parts[place] = format!("{}\n", rng.below(70_000)),
            _ => parts[place] = parts[place].chars().rev().collect(),
        }
    }
    parts.concat()
}

/// Assembled to something that the machine accepts and that keeps the law, or errors inside the text. True for the
/// first.
fn assembles_or_says_where(text: &str) -> bool {
    match assemble(text) {
        Ok(run) => {
            let bytes = run.bytes();
            keeps_the_law(&bytes);
            assert!(second::image::read(&run.image()).is_ok(), "{text}");
            let alone = bytes.len() == run.image().len();
            assert_eq!(refusal(&bytes), alone.then_some(9), "{text}");
            true
        }
        Err(errors) => {
            assert!(!errors.is_empty());
            let lines: Vec<&str> = text.split('\n').collect();
            for error in errors {
                let length = lines[error.line - 1].chars().count();
                assert!((1..=length + 1).contains(&error.column), "{error} {text}");
                assert!(!error.message.contains('\n'));
            }
            false
        }
    }
}

#[test]
fn damaged_texts() {
    let mut texts: Vec<String> = examples().iter().map(|name| file(&format!("{name}.ham"))).collect();
    texts.extend((0..400).filter_map(|number| disassemble(&stdin::bytes(21, number)).ok()));
    let rng = &mut Rng::new(22, 0, 0);
    let mut good = 0;
    for _ in 0..6000 {
        let text = rng.pick(&texts);
        good += usize::from(assembles_or_says_where(&damaged(&text, rng)));
    }
    assert!((500..4000).contains(&good), "{good}");
}

/// Characters and words without any sense.
#[test]
fn noise() {
    let rng = &mut Rng::new(23, 0, 0);
    for _ in 0..4000 {
        let words = rng.below(60);
        let text: String = (0..words)
            .map(|_| match rng.below(3) {
                0 => char::from_u32(rng.word() >> rng.between(11, 31))
                    .unwrap_or('\n')
                    .to_string(),
                1 => format!("{} ", rng.pick(&WORDS)),
                _ => format!("{}\n", rng.pick(&WORDS)),
            })
            .collect();
        assembles_or_says_where(&text);
        let bytes: Vec<u8> = (0..words).map(|_| rng.word() as u8).collect();
        let _ = assemble_bytes(&bytes).is_ok();
        assert!(disassemble(&bytes).is_err());
    }
}
