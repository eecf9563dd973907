//! What the cases reached, counted on the second machine.

use crate::Case;
use second::{Figures, Watch, Way};
use std::fmt;

pub const NAMES: [&str; 40] = [
    "MkBool",
    "MkInt",
    "MkFloat",
    "MkNone",
    "MkTuple",
    "MkCon",
    "Push",
    "Pop",
    "Slide",
    "Copy",
    "CopyArg",
    "CreateFrame",
    "PushVar",
    "MakeVar",
    "Goto",
    "If",
    "Call",
    "Return",
    "CallPrim1",
    "CallPrim2",
    "Raise",
    "StartMatches",
    "MatchRule",
    "MatchedRule",
    "MatchNone",
    "MatchAvailable",
    "MatchBool",
    "MatchInt",
    "MatchFloat",
    "MatchTuple",
    "MatchCon",
    "MatchExn",
    "Unpack",
    "Reorder",
    "CopyInput",
    "Consume",
    "MaybeConsume",
    "CheckOutputs",
    "Write",
    "Schedule",
];

const ENDINGS: [&str; 8] = [
    "finished",
    "blocked",
    "fault",
    "no rule",
    "exception",
    "time",
    "stack",
    "heap",
];

const ONE: [&str; 3] = ["not", "toFloat.i", "toInt.f"];

const TWO: [&str; 22] = [
    "==.i", "!=.i", ">=.i", ">.i", "<=.i", "<.i", "+.i", "-.i", "*.i", "div.i", "mod.i", "&&", "or", "==.f", ">=.f",
    ">.f", "<=.f", "<.f", "+.f", "-.f", "*.f", "/.f",
];

/// The faults that an instruction can give, by document 01.
const POSSIBLE_FAULTS: [&[u32]; 40] = [
    &[],
    &[],
    &[],
    &[],
    &[1, 2],
    &[1, 2],
    &[],
    &[1],
    &[1],
    &[1],
    &[2, 3],
    &[4],
    &[3],
    &[1, 3],
    &[],
    &[1, 2],
    &[],
    &[1, 4],
    &[1, 2],
    &[1, 2],
    &[1, 2],
    &[],
    &[7],
    &[],
    &[],
    &[3],
    &[2, 3],
    &[2, 3],
    &[2, 3],
    &[2, 3],
    &[2, 3],
    &[2, 3],
    &[1, 2],
    &[],
    &[8],
    &[],
    &[],
    &[1, 2],
    &[1, 2, 5, 6],
    &[],
];

/// On, away, raised.
type Ways = [u64; 3];

pub struct Coverage {
    pub cases: u64,
    executed: [Ways; 40],
    one: [Ways; 3],
    two: [Ways; 22],
    endings: [[u64; 8]; 40],
    faults: [[u64; 9]; 40],
    refusals: [u64; 9],
}

impl Default for Coverage {
    fn default() -> Coverage {
        Coverage {
            cases: 0,
            executed: [[0; 3]; 40],
            one: [[0; 3]; 3],
            two: [[0; 3]; 22],
            endings: [[0; 8]; 40],
            faults: [[0; 9]; 40],
            refusals: [0; 9],
        }
    }
}

impl Watch for Coverage {
    fn executed(&mut self, opcode: u8, a: u8, way: Way) {
        let way = way as usize;
        self.executed[usize::from(opcode) - 1][way] += 1;
        match opcode {
            19 => self.one[usize::from(a) - 1][way] += 1,
            20 => self.two[usize::from(a) - 1][way] += 1,
            _ => {}
        }
    }
}

impl Coverage {
    /// Counts how a case went.
    pub fn count(&mut self, case: &Case, result: &Result<Figures, u32>) {
        self.cases += 1;
        match result {
            Err(refusal) => self.refusals[*refusal as usize] += 1,
            Ok(figures) => {
                let opcode = opcode_at(&case.image, figures.pc);
                self.endings[opcode - 1][figures.ending as usize] += 1;
                if figures.ending == 2 {
                    self.faults[opcode - 1][figures.detail as usize] += 1;
                }
            }
        }
    }

    /// What was never reached.
    pub fn missing(&self) -> Vec<String> {
        let mut missing = Vec::new();
        self.missing_ways(&mut missing);
        for ending in 0..8 {
            if self.endings.iter().all(|row| row[ending] == 0) {
                missing.push(format!("ending {ending} ({})", ENDINGS[ending]));
            }
        }
        for (opcode, faults) in POSSIBLE_FAULTS.iter().enumerate() {
            for fault in *faults {
                if self.faults[opcode][*fault as usize] == 0 {
                    missing.push(format!("fault {fault} of {}", NAMES[opcode]));
                }
            }
        }
        for refusal in 1..=8 {
            if self.refusals[refusal] == 0 {
                missing.push(format!("refusal {refusal}"));
            }
        }
        missing
    }

    fn missing_ways(&self, missing: &mut Vec<String>) {
        for (index, ways) in self.executed.iter().enumerate() {
            // Both ways of If and of the matches.
            let both = index + 1 == 16 || (26..=32).contains(&(index + 1));
            if ways.iter().sum::<u64>() == 0 || (both && (ways[0] == 0 || ways[1] == 0)) {
                missing.push(format!("a way of {}", NAMES[index]));
            }
        }
        for (index, ways) in self.one.iter().enumerate() {
            if ways[0] == 0 || (index == 2 && ways[2] == 0) {
                missing.push(format!("primitive {}", ONE[index]));
            }
        }
        for (index, ways) in self.two.iter().enumerate() {
            let raises = index == 9 || index == 10;
            if ways[0] == 0 || (raises && ways[2] == 0) {
                missing.push(format!("primitive {}", TWO[index]));
            }
        }
    }
}

fn opcode_at(image: &[u8], pc: u32) -> usize {
    let count = usize::from(image[9]) * 256 + usize::from(image[10]);
    usize::from(image[image.len() - 8 * count + 8 * pc as usize])
}

impl fmt::Display for Coverage {
    fn fmt(&self, f: &mut fmt::Formatter<'_>) -> fmt::Result {
        writeln!(f, "{} cases", self.cases)?;
        writeln!(
            f,
            "\nexecuted:            next        away      raised   ended here by (blocked, fault 1.., ...)"
        )?;
        for (index, ways) in self.executed.iter().enumerate() {
            write!(
                f,
                "{:>2} {:<14}{:>9}{:>12}{:>12}   ",
                index + 1,
                NAMES[index],
                ways[0],
                ways[1],
                ways[2]
            )?;
            for (ending, count) in self.endings[index].iter().enumerate().filter(|(_, count)| **count > 0) {
                if ending != 2 {
                    write!(f, " {}:{count}", ENDINGS[ending])?;
                }
            }
            for (fault, count) in self.faults[index].iter().enumerate().filter(|(_, count)| **count > 0) {
                write!(f, " F{fault}:{count}")?;
            }
            writeln!(f)?;
        }
        writeln!(f, "\nprimitives (yielded, raised):")?;
        let named = ONE.iter().zip(&self.one).chain(TWO.iter().zip(&self.two));
        for (index, (name, ways)) in named.enumerate() {
            let line = if index % 5 == 4 { "\n" } else { "" };
            write!(f, "{name:>10} {:>7} {:>5}{line}", ways[0] + ways[1], ways[2])?;
        }
        write!(f, "\n\nendings: ")?;
        for (ending, name) in ENDINGS.iter().enumerate() {
            let count: u64 = self.endings.iter().map(|row| row[ending]).sum();
            write!(f, " {ending} {name}:{count}")?;
        }
        write!(f, "\nfaults:  ")?;
        for fault in 1..=8 {
            let count: u64 = self.faults.iter().map(|row| row[fault]).sum();
            write!(f, " {fault}:{count}")?;
        }
        write!(f, "\nrefusals:")?;
        for refusal in 1..=8 {
            write!(f, " {refusal}:{}", self.refusals[refusal])?;
        }
        writeln!(f)
    }
}
