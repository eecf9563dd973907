//! Each name means the instruction or primitive that document 01 gives it to.

use cases::coverage::NAMES;
use text::{assemble, disassemble, show_wire};

/// An operand for each instruction that has one.
const OPERANDS: [(&str, &str); 29] = [
    ("MkBool", "True"),
    ("MkInt", "1"),
    ("MkFloat", "1.0"),
    ("MkTuple", "1"),
    ("MkCon", "1 tag 1"),
    ("Push", "1"),
    ("Pop", "1"),
    ("Slide", "1"),
    ("Copy", "1"),
    ("CopyArg", "1"),
    ("CreateFrame", "1"),
    ("PushVar", "1"),
    ("MakeVar", "1"),
    ("Goto", "a"),
    ("If", "a"),
    ("Call", "r"),
    ("CallPrim1", "not"),
    ("CallPrim2", "or"),
    ("Raise", "1"),
    ("MatchBool", "True"),
    ("MatchInt", "1"),
    ("MatchFloat", "1.0"),
    ("MatchTuple", "1"),
    ("MatchCon", "1 tag 1"),
    ("MatchExn", "1"),
    ("CopyInput", "1"),
    ("Consume", "1"),
    ("MaybeConsume", "1"),
    ("Write", "1"),
];

#[test]
fn instructions() {
    for (index, name) in NAMES.iter().enumerate() {
        let operand = OPERANDS.iter().find(|(own, _)| own == name);
        let line = format!("{name} {}", operand.map_or("", |(_, operand)| operand));
        let text = format!("box inputs 2 outputs 2\nruleset r entry a rules a\na: {line}\nSchedule");
        let image = assemble(&text).unwrap().image();
        assert_eq!(usize::from(image[16]), index + 1, "{name}");
        let named = line.trim_end().replace(" a", " L0").replace(" r", " ruleset0");
        let expected = format!("    {named}");
        assert!(
            disassemble(&image).unwrap().lines().any(|line| line == expected),
            "{name}"
        );
    }
}

/// Operands, the first operand last since it is the top word, a primitive, and its result.
const RESULTS: [(&str, &str, &str); 34] = [
    ("MkBool True", "CallPrim1 not", "False"),
    ("MkInt 3", "CallPrim1 toFloat.i", "3.0"),
    ("MkFloat -3.5", "CallPrim1 toInt.f", "-3"),
    ("MkInt 5; MkInt 7", "CallPrim2 ==.i", "False"),
    ("MkInt 5; MkInt 5", "CallPrim2 ==.i", "True"),
    ("MkInt 5; MkInt 7", "CallPrim2 !=.i", "True"),
    ("MkInt 5; MkInt 5", "CallPrim2 !=.i", "False"),
    ("MkInt 5; MkInt 7", "CallPrim2 >=.i", "True"),
    ("MkInt 5; MkInt 5", "CallPrim2 >=.i", "True"),
    ("MkInt 5; MkInt 7", "CallPrim2 >.i", "True"),
    ("MkInt 5; MkInt 5", "CallPrim2 >.i", "False"),
    ("MkInt 5; MkInt 7", "CallPrim2 <=.i", "False"),
    ("MkInt 5; MkInt 5", "CallPrim2 <=.i", "True"),
    ("MkInt 7; MkInt 5", "CallPrim2 <.i", "True"),
    ("MkInt 5; MkInt 5", "CallPrim2 <.i", "False"),
    ("MkInt 5; MkInt 17", "CallPrim2 +.i", "22"),
    ("MkInt 5; MkInt 17", "CallPrim2 -.i", "12"),
    ("MkInt 5; MkInt 17", "CallPrim2 *.i", "85"),
    ("MkInt 5; MkInt 17", "CallPrim2 div.i", "3"),
    ("MkInt 5; MkInt 17", "CallPrim2 mod.i", "2"),
    ("MkBool True; MkBool False", "CallPrim2 &&", "False"),
    ("MkBool True; MkBool False", "CallPrim2 or", "True"),
    ("MkFloat 0.5; MkFloat 0.5", "CallPrim2 ==.f", "True"),
    ("MkFloat 0.5; MkFloat 1.5", "CallPrim2 ==.f", "False"),
    ("MkFloat 0.5; MkFloat 1.5", "CallPrim2 >=.f", "True"),
    ("MkFloat 0.5; MkFloat 0.5", "CallPrim2 >=.f", "True"),
    ("MkFloat 0.5; MkFloat 1.5", "CallPrim2 >.f", "True"),
    ("MkFloat 0.5; MkFloat 0.5", "CallPrim2 >.f", "False"),
    ("MkFloat 1.5; MkFloat 0.5", "CallPrim2 <=.f", "True"),
    ("MkFloat 0.5; MkFloat 0.5", "CallPrim2 <.f", "False"),
    ("MkFloat 0.5; MkFloat 1.5", "CallPrim2 +.f", "2.0"),
    ("MkFloat 0.5; MkFloat 1.5", "CallPrim2 -.f", "1.0"),
    ("MkFloat 0.5; MkFloat 1.5", "CallPrim2 *.f", "0.75"),
    ("MkFloat 0.5; MkFloat 1.5", "CallPrim2 /.f", "3.0"),
];

/// What is left on the one output wire.
fn output(code: &str) -> String {
    let text = format!("box inputs 0 outputs 1\nruleset r entry a rules a\na:\n{code}\nWrite 0\nSchedule");
    let image = assemble(&text).unwrap().image();
    let (mut stack, mut heap, mut wires) = ([0; 9], [0; 9], [0; 65]);
    let figures = second::run(
        &image,
        &[1; 40],
        99_999,
        9,
        9,
        &mut stack,
        &mut heap,
        &mut wires,
        &mut [0],
    );
    assert_eq!(figures.unwrap().ending, 0, "{code}");
    show_wire(&wires).unwrap()
}

#[test]
fn primitives() {
    for (operands, primitive, result) in RESULTS {
        let code = format!("{}\n{primitive}", operands.replace("; ", "\n"));
        assert_eq!(output(&code), result, "{operands} {primitive}");
    }
}

/// `card all` has the number that is there most often, of several the smallest.
#[test]
fn the_usual_number() {
    let text = |card: &str| {
        let head = "box inputs 0 outputs 0\nruleset ruleset0 entry L0 rules L0\n\nL0:\n    Schedule\n\n";
        format!("{head}time 1\nstack 0\nheap 0\ncard all 7\n{card}")
    };
    let shown = |card: &str| disassemble(&assemble(&text(card)).unwrap().bytes()).unwrap();
    let some = "card Slide 6\ncard Schedule 65535\n";
    assert_eq!(shown(some), text(some));
    let half: String = NAMES[..20].iter().map(|name| format!("card {name} 6\n")).collect();
    let other: String = NAMES[20..].iter().map(|name| format!("card {name} 7\n")).collect();
    assert_eq!(shown(&half), text(&other).replace("card all 7", "card all 6"));
}
