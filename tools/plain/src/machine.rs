//! The machine itself: one function, one loop, one `match` on the opcode, and every register a local variable, so that the
//! compiler can keep them in the processor's. What calls something, or loops, is in functions of its own beside it.

use crate::copies::{heap_words, place, spread};
use crate::image::{Program, Ruleset};
use crate::primitives::{self, ONE, TWO};
use crate::words::*;

/// "0 finished, 1 blocked (output), 2 fault (number), 3 no rule left after a failed match, 4 exception (number) with no
/// handler, 5 time, 6 stack, 7 heap."
const FINISHED: u32 = 0;
const BLOCKED: u32 = 1;
const FAULT: u32 = 2;
const NO_RULE: u32 = 3;
const UNHANDLED: u32 = 4;
const TIME: u32 = 5;
const STACK: u32 = 6;
const HEAP: u32 = 7;

/// The card by opcode, one entry for each byte: an opcode needs no test before it is looked up.
fn costs(card: &[u32]) -> [u32; 256] {
    let mut costs = [0; 256];
    costs[1..41].copy_from_slice(card);
    costs
}

/// The address of the rule at a position of a ruleset's order.
#[inline(always)]
fn rule(program: &Program<'_>, ruleset: Ruleset, order: &[u32], position: usize) -> usize {
    let first = usize::from(ruleset.first);
    usize::from(program.rules[first + order[first + position] as usize])
}

/// "the rule at order position rp goes last, those after it move down one; with rp = count, nothing"
#[inline(always)]
fn move_last(order: &mut [u32], rp: usize) {
    if let Some(&rule) = order.get(rp) {
        let last = order.len() - 1;
        order.copy_within(rp + 1.., rp);
        order[last] = rule;
    }
}

/// The lowest output that isn't None and whose wire is full.
#[inline(always)]
fn first_full(top: &[u32], outputs: &[[u32; 65]]) -> Option<usize> {
    let mut both = top.iter().rev().zip(outputs);
    both.position(|(word, wire)| *word != NONE && wire[0] != 0)
}

/// Most tuples are small, and for them the call of a copying function would take longer than the copy.
#[inline(always)]
fn copy_fields(to: &mut [u32], from: &[u32]) {
    match (to, from) {
        ([a], [x]) => *a = *x,
        ([a, b], [x, y]) => (*a, *b) = (*x, *y),
        ([a, b, c], [x, y, z]) => (*a, *b, *c) = (*x, *y, *z),
        (to, from) => to.copy_from_slice(from),
    }
}

/// The same of nulls.
#[inline(always)]
fn clear(words: &mut [u32]) {
    match words {
        [] => {}
        [a] => *a = 0,
        [a, b] => (*a, *b) = (0, 0),
        [a, b, c] => (*a, *b, *c) = (0, 0, 0),
        words => words.fill(0),
    }
}

/// Runs an accepted program to its ending, and gives the eight figures. Instructions are read from the image's bytes as
/// they come, as by the proved machine. A table of all of them, made before the run, was measured too: two or three
/// hundredths off a long run, for 32 KB and a microsecond more in each call.
pub fn run(
    program: &Program<'_>,
    card: &[u32],
    limits: (u32, usize, usize),
    stack: &mut [u32],
    heap: &mut [u32],
    wires: &mut [u32],
    order: &mut [u32],
) -> [u32; 8] {
    // As long as the limits: a place that a slice doesn't have is one beyond the limit.
    let stack = &mut stack[..limits.1];
    let heap = &mut heap[..limits.2];
    let wires = wires.as_chunks_mut::<65>().0;
    let code = program.code;
    let costs = costs(card);
    // "Registers start at 0: sp, hp, fp, slp, rp, mp, inp; the ruleset is 0, pc its entry." "lp is fp + n".
    let (mut sp, mut hp, mut fp, mut lp, mut slp) = (0usize, 0usize, 0usize, 0usize, 0usize);
    let (mut rp, mut mp, mut inp, mut rs) = (0usize, 0usize, 0usize, 0usize);
    let mut pc = usize::from(program.rulesets[0].entry);
    let (mut left, mut steps, mut peak) = (limits.0, 0u32, 0usize);

    let (ending, detail) = loop {
        // "opcode, a (1 byte), b (2), c (4)", in one load: byte by byte takes a fifth longer.
        let instruction = u64::from_be_bytes(code[pc]);
        let opcode = (instruction >> 56) as u8;
        let a = usize::from((instruction >> 48) as u8);
        let b = (instruction >> 32) as u16;
        let c = instruction as u32;

        // The opcode is known in its arm, and so is the place of its cost.
        macro_rules! cost {
            () => {
                costs[usize::from(opcode)]
            };
        }
        // An ending leaves every register as it was.
        macro_rules! fault_if {
            ($condition:expr, $number:expr) => {
                if $condition {
                    break (FAULT, $number);
                }
            };
        }
        // "then time, then depth after it, then heap after it": what is left after this cost, or the ending.
        macro_rules! left_after {
            ($cost:expr) => {
                match left.checked_sub($cost) {
                    Some(rest) => rest,
                    None => break (TIME, 0),
                }
            };
        }
        macro_rules! charged {
            ($rest:expr, $depth:expr) => {
                left = $rest;
                steps += 1;
                sp = $depth;
                peak = peak.max(sp);
            };
        }
        // Where neither the depth nor the heap grows.
        macro_rules! pay {
            () => {
                left = left_after!(cost!());
                steps += 1;
            };
        }
        // One word more, at the next instruction.
        macro_rules! push {
            ($word:expr) => {
                let rest = left_after!(cost!());
                let Some(place) = stack.get_mut(sp) else {
                    break (STACK, 0);
                };
                *place = $word;
                charged!(rest, sp + 1);
                pc += 1;
            };
        }
        // An object of two words, referred to from the place `low` of the stack, which becomes the top.
        macro_rules! make {
            ($cost:expr, $low:expr, $header:expr, $payload:expr) => {
                let rest = left_after!($cost);
                let Some(place) = stack.get_mut($low) else {
                    break (STACK, 0);
                };
                let Some(object) = heap.get_mut(hp..hp + 2) else {
                    break (HEAP, 0);
                };
                object[0] = $header;
                object[1] = $payload;
                *place = REFERENCE + hp as u32;
                charged!(rest, $low + 1);
                hp += 2;
                pc += 1;
            };
        }
        // "field 0 is the top word; each field a reference or None"
        macro_rules! make_block {
            ($header:expr) => {
                fault_if!(sp - lp < a, 1);
                let low = sp - a;
                fault_if!(!stack[low..sp].iter().all(|word| is_value(*word)), 2);
                let rest = left_after!(cost!());
                if low >= stack.len() {
                    break (STACK, 0);
                }
                let Some(object) = heap.get_mut(hp..hp + 2 + a) else {
                    break (HEAP, 0);
                };
                object[0] = $header;
                object[1] = a as u32;
                for (field, word) in object[2..].iter_mut().zip(stack[low..sp].iter().rev()) {
                    *field = *word;
                }
                stack[low] = REFERENCE + hp as u32;
                charged!(rest, low + 1);
                hp += 2 + a;
                pc += 1;
            };
        }
        // "makes Exn b of the top value; the stack becomes the exception, three nulls and a frame link with fp 0 and n 0;
        // fp = 5, slp 0; the handler is entered with rp 0"
        macro_rules! raise {
            ($cost:expr, $number:expr, $field:expr) => {
                let Some(handler) = program.rulesets.get(program.handler) else {
                    break (UNHANDLED, $number);
                };
                let rest = left_after!($cost);
                let Some(bottom) = stack.first_chunk_mut::<5>() else {
                    break (STACK, 0);
                };
                let Some(object) = heap.get_mut(hp..hp + 3) else {
                    break (HEAP, 0);
                };
                *bottom = [REFERENCE + hp as u32, 0, 0, 0, FRAME_LINK];
                object.copy_from_slice(&[EXN + $number, 1, $field]);
                charged!(rest, 5);
                hp += 3;
                (fp, lp, slp, rp) = (5, 5, 0, 0);
                rs = program.handler;
                pc = usize::from(handler.entry);
            };
        }
        // "result 2 heap words"; "A raising primitive costs its own time, 3 heap words, and the stack becomes that of Raise."
        macro_rules! settle {
            ($yielded:expr, $cycles:expr, $low:expr) => {
                match $yielded {
                    Ok((header, payload)) => {
                        make!(cost!() + $cycles, $low, header, payload);
                    }
                    Err(number) => {
                        raise!(cost!() + $cycles, number, NONE);
                    }
                }
            };
        }
        // "the word at fp-5-mp"; "a matched ... word is a reference or None"
        macro_rules! argument {
            () => {{
                let Some(place) = fp.checked_sub(5 + mp) else {
                    break (FAULT, 3);
                };
                let word = stack[place];
                fault_if!(!is_value(word), 2);
                word
            }};
        }
        // "A failure goes to the rule at order rp."
        macro_rules! go_on {
            ($hit:expr) => {
                let to = if $hit {
                    pc + 1
                } else {
                    let ruleset = program.rulesets[rs % 32];
                    if rp >= usize::from(ruleset.count) {
                        break (NO_RULE, 0);
                    }
                    rule(program, ruleset, order, rp)
                };
                pay!();
                pc = to;
            };
        }
        // "a cell of another kind, or None, only fails a match"
        macro_rules! match_cell {
            ($header:expr, $second:expr) => {
                let word = argument!();
                go_on!(is_reference(word) && cell(heap, word) == ($header, $second));
                mp += 1;
            };
        }

        match opcode {
            // MkBool, MkInt, MkFloat
            1 => {
                make!(cost!(), sp, BOOL, c);
            }
            2 => {
                make!(cost!(), sp, INT, c);
            }
            3 => {
                make!(cost!(), sp, FLOAT, canonical(c));
            }
            // MkNone
            4 => {
                push!(NONE);
            }
            // MkTuple, MkCon
            5 => {
                make_block!(TUPLE);
            }
            6 => {
                make_block!(CONSTR + u32::from(b));
            }
            // Push
            7 => {
                let rest = left_after!(cost!());
                let Some(nulls) = stack.get_mut(sp..sp + a) else {
                    break (STACK, 0);
                };
                clear(nulls);
                charged!(rest, sp + a);
                pc += 1;
            }
            // Pop
            8 => {
                fault_if!(sp - lp < a, 1);
                pay!();
                sp -= a;
                pc += 1;
            }
            // Slide: "keeps the top"
            9 => {
                fault_if!(sp - lp <= a, 1);
                pay!();
                stack[sp - 1 - a] = stack[sp - 1];
                sp -= a;
                pc += 1;
            }
            // Copy: "the word a below the top"
            10 => {
                fault_if!(sp - lp <= a, 1);
                let word = stack[sp - 1 - a];
                push!(word);
            }
            // CopyArg: "the word at fp-5-a"; "copies only null, a reference or None"
            11 => {
                let Some(place) = fp.checked_sub(5 + a) else {
                    break (FAULT, 3);
                };
                let word = stack[place];
                fault_if!(!is_plain(word), 2);
                push!(word);
            }
            // CreateFrame: "pushes the frame link, sets fp to the new sp, pushes a nulls"
            12 => {
                fault_if!(sp - lp < 3, 4);
                let rest = left_after!(cost!());
                let Some(frame) = stack.get_mut(sp..sp + 1 + a) else {
                    break (STACK, 0);
                };
                frame[0] = FRAME_LINK + (fp * 256 + a) as u32;
                clear(&mut frame[1..]);
                fp = sp + 1;
                lp = fp + a;
                charged!(rest, lp);
                pc += 1;
            }
            // PushVar
            13 => {
                fault_if!(lp - fp <= a, 3);
                let word = stack[fp + a];
                push!(word);
            }
            // MakeVar
            14 => {
                fault_if!(sp == lp, 1);
                fault_if!(lp - fp <= a, 3);
                pay!();
                sp -= 1;
                stack[fp + a] = stack[sp];
                pc += 1;
            }
            // Goto
            15 => {
                pay!();
                pc = usize::from(b);
            }
            // If: "jumps on true"
            16 => {
                fault_if!(sp == lp, 1);
                let word = stack[sp - 1];
                fault_if!(!is_reference(word), 2);
                let (header, truth) = cell(heap, word);
                fault_if!(header != BOOL, 2);
                pay!();
                sp -= 1;
                pc = if truth == 1 { usize::from(b) } else { pc + 1 };
            }
            // Call: "return address, ruleset word, static link of slp; slp becomes the new sp + 1, rp 0, pc the entry"
            17 => {
                let rest = left_after!(cost!());
                let Some(saved) = stack.get_mut(sp..sp + 3) else {
                    break (STACK, 0);
                };
                saved[0] = RETURN_ADDRESS + pc as u32 + 1;
                saved[1] = RULES + (rs * 256 + rp) as u32;
                saved[2] = STATIC_LINK + slp as u32;
                charged!(rest, sp + 3);
                slp = sp + 1;
                (rs, rp) = (a, 0);
                pc = usize::from(program.rulesets[a % 32].entry);
            }
            // Return: "the top word goes to fp-4, sp becomes fp-3, and the four saved words are restored"
            18 => {
                fault_if!(sp == lp, 1);
                let top = stack[sp - 1];
                fault_if!(fp < 4, 4);
                let saved = &mut stack[fp - 4..fp];
                let (address, rules, slink, link) = (saved[0], saved[1], saved[2], saved[3]);
                // A frame link can't be moved, so the word at fp-1 is one.
                let whole = kind(address) == RETURN_ADDRESS && kind(rules) == RULES && kind(slink) == STATIC_LINK;
                fault_if!(!whole, 4);
                pay!();
                saved[0] = top;
                sp = fp - 3;
                pc = payload(address);
                (rs, rp) = (payload(rules) >> 8, payload(rules) & 255);
                slp = payload(slink);
                fp = payload(link) >> 8;
                lp = if fp == 0 {
                    0
                } else {
                    fp + (stack[fp - 1] & 255) as usize
                };
            }
            // CallPrim1
            19 => {
                fault_if!(sp == lp, 1);
                let word = stack[sp - 1];
                fault_if!(!is_reference(word), 2);
                let (header, x) = cell(heap, word);
                let primitive = ONE[a % 4];
                fault_if!(header != primitive.takes, 2);
                settle!(primitives::one(a, x), primitive.cycles, sp - 1);
            }
            // CallPrim2: "the top word being the first operand"
            20 => {
                fault_if!(sp - lp < 2, 1);
                let operands = &stack[sp - 2..sp];
                let (first, second) = (operands[1], operands[0]);
                fault_if!(!is_reference(first) || !is_reference(second), 2);
                let ((one, x), (two, y)) = (cell(heap, first), cell(heap, second));
                let primitive = TWO[a % 32];
                fault_if!(one != primitive.takes || two != primitive.takes, 2);
                settle!(primitives::two(a, x, y), primitive.cycles, sp - 2);
            }
            // Raise
            21 => {
                fault_if!(sp == lp, 1);
                let word = stack[sp - 1];
                fault_if!(!is_value(word), 2);
                raise!(cost!(), u32::from(b), word);
            }
            // StartMatches: "to the current ruleset's rule at order 0"
            22 => {
                pay!();
                pc = rule(program, program.rulesets[rs % 32], order, 0);
            }
            // MatchRule: "rp + 1, mp and inp 0, values dropped"; "7 MatchRule with rp at the count"
            23 => {
                fault_if!(rp >= usize::from(program.rulesets[rs % 32].count), 7);
                pay!();
                sp = lp;
                rp += 1;
                (mp, inp) = (0, 0);
                pc += 1;
            }
            // MatchedRule: "values dropped"
            24 => {
                pay!();
                sp = lp;
                pc += 1;
            }
            // MatchNone
            25 => {
                pay!();
                mp += 1;
                inp += 1;
                pc += 1;
            }
            // MatchAvailable: "inp + 1, fails if that input is empty"
            26 => {
                fault_if!(inp >= program.inputs, 3);
                go_on!(wires[inp][0] != 0);
                inp += 1;
            }
            // MatchBool, MatchInt
            27 => {
                match_cell!(BOOL, c);
            }
            28 => {
                match_cell!(INT, c);
            }
            // MatchFloat: "floats by their bits, a NaN c read as 7FC00000"
            29 => {
                match_cell!(FLOAT, canonical(c));
            }
            // MatchTuple, MatchCon
            30 => {
                match_cell!(TUPLE, a as u32);
            }
            31 => {
                match_cell!(CONSTR + u32::from(b), a as u32);
            }
            // MatchExn
            32 => {
                match_cell!(EXN + u32::from(b), 1);
            }
            // Unpack: "pops a Tuple or Constr, pushes field 0 first"
            33 => {
                fault_if!(sp == lp, 1);
                let low = sp - 1;
                let word = stack[low];
                fault_if!(!is_reference(word), 2);
                let (header, size) = cell(heap, word);
                fault_if!(header != TUPLE && header >> 16 != CONSTR >> 16, 2);
                let rest = left_after!(cost!());
                let from = payload(word) + 2;
                let fields = &heap[from..from + size as usize];
                let Some(places) = stack.get_mut(low..low + fields.len()) else {
                    break (STACK, 0);
                };
                copy_fields(places, fields);
                charged!(rest, low + fields.len());
                pc += 1;
            }
            // Reorder
            34 => {
                pay!();
                let ruleset = program.rulesets[rs % 32];
                let first = usize::from(ruleset.first);
                move_last(&mut order[first..first + usize::from(ruleset.count)], rp);
                pc += 1;
            }
            // CopyInput: "costs the words it places"; "8 CopyInput from an empty wire"
            35 => {
                let wire = &wires[a];
                let count = wire[0] as usize;
                fault_if!(count == 0, 8);
                if wire[1] < TUPLE {
                    make!(cost!(), sp, wire[1], wire[2]);
                    continue;
                }
                let value = &wire[1..1 + count];
                let words = heap_words(value);
                let rest = left_after!(cost!());
                let Some(top) = stack.get_mut(sp) else { break (STACK, 0) };
                if heap.len() - hp < words {
                    break (HEAP, 0);
                }
                *top = place(value, heap, hp);
                charged!(rest, sp + 1);
                hp += words;
                pc += 1;
            }
            // Consume, MaybeConsume: "empty the wire"
            36 | 37 => {
                pay!();
                wires[a] = [0; 65];
                pc += 1;
            }
            // CheckOutputs: "output i is the value i below the top; blocked if one isn't None and its wire is full"
            38 => {
                fault_if!(sp - lp < program.outputs, 1);
                let top = &stack[sp - program.outputs..sp];
                fault_if!(!top.iter().all(|word| is_value(*word)), 2);
                if let Some(output) = first_full(top, &wires[program.inputs..]) {
                    break (BLOCKED, output as u32);
                }
                pay!();
                pc += 1;
            }
            // Write: "None writes nothing"; "5 Write of a reference to a full wire; 6 value over 64 wire words"
            39 => {
                fault_if!(sp == lp, 1);
                let word = stack[sp - 1];
                fault_if!(!is_value(word), 2);
                if word != NONE {
                    let wire = &mut wires[program.inputs + a];
                    fault_if!(wire[0] != 0, 5);
                    let Some(count) = spread(heap, word, wire) else {
                        break (FAULT, 6);
                    };
                    // It was empty, and is again if this isn't charged.
                    if left < cost!() {
                        *wire = [0; 65];
                        break (TIME, 0);
                    }
                    wire[0] = count as u32;
                }
                pay!();
                sp -= 1;
                pc += 1;
            }
            // Schedule: "is charged and pc stays on it"
            _ => {
                pay!();
                break (FINISHED, 0);
            }
        }
    };
    let time = limits.0 - left;
    [
        ending,
        detail,
        pc as u32,
        steps,
        time,
        peak as u32,
        sp as u32,
        hp as u32,
    ]
}
