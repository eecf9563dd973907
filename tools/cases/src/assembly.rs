//! Instructions, and the image made of them.

use crate::rng::Rng;

#[derive(Clone, Copy, Debug, PartialEq, Eq)]
pub struct Ins {
    pub op: u8,
    pub a: u8,
    pub b: u16,
    pub c: u32,
}

/// An address that is chosen when the code is complete.
pub const SOMEWHERE: u16 = 0xFFFF;

#[derive(Clone, Debug)]
pub struct Rules {
    pub entry: usize,
    pub rules: Vec<usize>,
}

#[derive(Clone, Debug)]
pub struct Source {
    pub inputs: usize,
    pub outputs: usize,
    pub handler: Option<usize>,
    pub rulesets: Vec<Rules>,
    pub code: Vec<Ins>,
}

impl Source {
    /// Chooses the open addresses, and puts a Schedule last where nothing that may be last is there.
    pub fn close(&mut self, rng: &mut Rng) {
        if !matches!(self.code.last(), Some(ins) if [15, 18, 21, 40].contains(&ins.op)) {
            self.code.push(Ins {
                op: 40,
                a: 0,
                b: 0,
                c: 0,
            });
        }
        let length = self.code.len();
        for ins in &mut self.code {
            if matches!(ins.op, 15 | 16) && usize::from(ins.b) >= length {
                ins.b = rng.below(length) as u16;
            }
        }
        for ruleset in &mut self.rulesets {
            for address in ruleset.rules.iter_mut().chain([&mut ruleset.entry]) {
                if *address >= length {
                    *address = rng.below(length);
                }
            }
        }
    }

    pub fn image(&self) -> Vec<u8> {
        let handler = self.handler.map_or(255, |handler| handler as u8);
        let mut image = vec![0, 0, 0, 0, 1];
        image.extend([
            self.inputs as u8,
            self.outputs as u8,
            self.rulesets.len() as u8,
            handler,
        ]);
        image.extend((self.code.len() as u16).to_be_bytes());
        for ruleset in &self.rulesets {
            image.extend((ruleset.entry as u16).to_be_bytes());
            image.push(ruleset.rules.len() as u8);
            for rule in &ruleset.rules {
                image.extend((*rule as u16).to_be_bytes());
            }
        }
        for ins in &self.code {
            image.extend([ins.op, ins.a]);
            image.extend(ins.b.to_be_bytes());
            image.extend(ins.c.to_be_bytes());
        }
        set_length(&mut image);
        image
    }

    /// A permutation for each ruleset.
    pub fn order(&self, rng: &mut Rng) -> Vec<u32> {
        let mut order = Vec::new();
        for ruleset in &self.rulesets {
            let mut own: Vec<u32> = (0..ruleset.rules.len() as u32).collect();
            if rng.percent(60) {
                rng.shuffle(&mut own);
            }
            order.extend(own);
        }
        order
    }
}

/// Writes the length of the image into its first four bytes.
pub fn set_length(image: &mut [u8]) {
    let length = (image.len() as u32).to_be_bytes();
    for (byte, own) in image.iter_mut().zip(length) {
        *byte = own;
    }
}

/// Any instruction that an image with these counts may have. Jumps go somewhere.
pub fn any_instruction(rng: &mut Rng, inputs: usize, outputs: usize, rulesets: usize) -> Ins {
    let mut op = rng.between(1, 40) as u8;
    if (inputs == 0 && (35..=37).contains(&op)) || (outputs == 0 && op == 39) {
        op = 10;
    }
    let count = if rng.percent(90) { rng.below(5) } else { rng.below(256) };
    let a = match op {
        5..=14 | 30 | 31 => count,
        17 => rng.below(rulesets),
        19 => rng.between(1, 3),
        20 => rng.between(1, 22),
        35..=37 => rng.below(inputs),
        39 => rng.below(outputs),
        _ => 0,
    };
    let b = match op {
        15 | 16 => SOMEWHERE,
        6 | 21 | 31 | 32 => crate::values::tag(rng),
        _ => 0,
    };
    let c = match op {
        1 | 27 => rng.below(2) as u32,
        2 | 28 => crate::values::integer(rng),
        3 | 29 => crate::values::float(rng),
        _ => 0,
    };
    Ins { op, a: a as u8, b, c }
}
