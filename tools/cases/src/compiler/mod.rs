//! A small random compiler. It keeps track of what lies on the stack, so that most of what it makes runs on; with a
//! chance that is chosen for each case it breaks its own rules.

mod expressions;
mod rulesets;
mod statements;

use crate::assembly::{any_instruction, Ins, Source, SOMEWHERE};
use crate::rng::Rng;
use crate::values;
use second::wire::Tree;

/// What is known of a word.
#[derive(Clone, Debug, PartialEq, Eq)]
pub enum Ty {
    Bool,
    Int,
    Float,
    Tuple(Vec<Ty>),
    Con(u16, Vec<Ty>),
    Exn,
    None,
    Null,
    /// A return address, ruleset word or static link.
    Saved,
    Unknown,
}

impl Ty {
    pub fn of(tree: &Tree) -> Ty {
        match tree {
            Tree::Bool(_) => Ty::Bool,
            Tree::Int(_) => Ty::Int,
            Tree::Float(_) => Ty::Float,
            Tree::Tuple(fields) => Ty::Tuple(fields.iter().map(Ty::of).collect()),
            Tree::Constr(tag, fields) => Ty::Con(*tag, fields.iter().map(Ty::of).collect()),
            Tree::Exn(..) => Ty::Exn,
            Tree::None => Ty::None,
        }
    }

    fn is_field(&self) -> bool {
        !matches!(self, Ty::Null | Ty::Saved | Ty::Unknown)
    }

    /// Whether `construct` can make one.
    fn is_made(&self) -> bool {
        match self {
            Ty::Exn | Ty::Saved | Ty::Unknown => false,
            Ty::Tuple(fields) | Ty::Con(_, fields) => fields.iter().all(|field| field.is_field() && field.is_made()),
            _ => true,
        }
    }
}

/// What lies in reach of the code being made.
#[derive(Clone, Debug, Default)]
pub struct Scope {
    pub values: Vec<Ty>,
    pub locals: Vec<Ty>,
    pub args: Vec<Ty>,
    /// For each argument the payload it often has.
    pub favourites: Vec<u32>,
    /// The rulesets from here on may be called.
    pub callable: usize,
}

#[derive(Clone, Debug)]
struct Function {
    args: Vec<Ty>,
    /// For each argument the payload that it often is called with and matched against.
    favourites: Vec<u32>,
    result: Ty,
}

pub struct Compiler<'r> {
    pub rng: &'r mut Rng,
    pub code: Vec<Ins>,
    /// What each input wire holds, as far as known.
    inputs: Vec<Option<Ty>>,
    /// The second word of the value on each input wire.
    payloads: Vec<u32>,
    /// Which output wires are full, as far as known.
    outputs: Vec<bool>,
    /// The rulesets 1, 2, ... that are functions.
    functions: Vec<Function>,
    handler: Option<usize>,
    /// Of 1000 instructions, how many are spoilt.
    sabotage: usize,
    fuel: usize,
}

/// The program of one box whose wires hold these values.
pub fn compile(rng: &mut Rng, inputs: &[Option<Tree>], outputs: &[Option<Tree>]) -> Source {
    let sabotage = rng.pick(&[0, 0, 0, 3, 10, 30, 80]);
    let functions = rng.pick(&[0, 0, 1, 1, 2, 3, 4]);
    let with_handler = rng.percent(50);
    let mut compiler = Compiler {
        rng,
        code: Vec::new(),
        inputs: inputs.iter().map(|wire| wire.as_ref().map(Ty::of)).collect(),
        payloads: inputs.iter().map(|wire| values::wire(wire.as_ref())[2]).collect(),
        outputs: outputs.iter().map(Option::is_some).collect(),
        functions: Vec::new(),
        handler: with_handler.then_some(functions + 1),
        sabotage,
        fuel: 0,
    };
    compiler.functions = (0..functions).map(|_| compiler.signature()).collect();
    let mut rulesets = vec![compiler.box_rules()];
    for function in 0..functions {
        rulesets.push(compiler.function_rules(function));
    }
    if with_handler {
        rulesets.push(compiler.handler_rules());
    }
    let handler = match compiler.handler {
        // Now and then a function or the box itself is the handler.
        Some(_) if compiler.rng.percent(8) => Some(compiler.rng.below(rulesets.len())),
        handler => handler,
    };
    let code = std::mem::take(&mut compiler.code);
    if compiler.rng.percent(2) {
        compiler.more_rulesets(&mut rulesets);
    }
    let mut source = Source {
        inputs: inputs.len(),
        outputs: outputs.len(),
        handler,
        rulesets,
        code,
    };
    source.close(rng);
    source
}

impl Compiler<'_> {
    /// Adds an instruction, or now and then something else.
    fn emit(&mut self, op: u8, a: usize, b: usize, c: u32) -> usize {
        let ins = Ins {
            op,
            a: a.min(255) as u8,
            b: b as u16,
            c,
        };
        self.fuel = self.fuel.saturating_sub(1);
        if self.rng.per_mille(self.sabotage) {
            self.spoil(ins);
        } else {
            self.code.push(ins);
        }
        self.code.len().saturating_sub(1)
    }

    fn spoil(&mut self, ins: Ins) {
        let rulesets = 1 + self.functions.len() + usize::from(self.handler.is_some());
        let any = any_instruction(self.rng, self.inputs.len(), self.outputs.len(), rulesets);
        let takes_any_a = (5..=14).contains(&ins.op) || ins.op == 30 || ins.op == 31;
        match self.rng.below(6) {
            0 => {}
            1 => self.code.extend([ins, ins]),
            2 | 3 if takes_any_a => self.code.push(Ins {
                a: self
                    .rng
                    .pick(&[0, 1, 2, ins.a.wrapping_add(1), ins.a.wrapping_sub(1), 255]),
                ..ins
            }),
            2 if matches!(ins.op, 15 | 16) => self.code.push(Ins { b: SOMEWHERE, ..ins }),
            4 => self.code.extend([ins, any]),
            _ => self.code.push(any),
        }
    }

    /// An instruction that takes so many values and gives these.
    fn op(&mut self, scope: &mut Scope, op: u8, a: usize, takes: usize, gives: &[Ty]) {
        self.emit(op, a, 0, 0);
        let left = scope.values.len().saturating_sub(takes);
        scope.values.truncate(left);
        scope.values.extend_from_slice(gives);
    }

    fn here(&self) -> usize {
        self.code.len()
    }

    /// Lets a jump made before go here.
    fn land(&mut self, jump: usize) {
        let here = self.here() as u16;
        if let Some(ins) = self.code.get_mut(jump) {
            if matches!(ins.op, 15 | 16) && ins.b == SOMEWHERE {
                ins.b = here;
            }
        }
    }

    fn plain_type(&mut self) -> Ty {
        self.rng.pick(&[Ty::Int, Ty::Int, Ty::Bool, Ty::Float])
    }

    fn any_type(&mut self, nesting: usize) -> Ty {
        if nesting == 0 || self.rng.percent(65) {
            return self.plain_type();
        }
        let count = self.rng.pick(&[0, 1, 2, 2, 3]);
        let fields = (0..count).map(|_| self.field_type(nesting - 1)).collect();
        if self.rng.percent(50) {
            Ty::Tuple(fields)
        } else {
            Ty::Con(values::tag(self.rng), fields)
        }
    }

    /// A type that a function yields, if there is one.
    fn wanted_type(&mut self, scope: &Scope) -> Ty {
        match self.functions.get(scope.callable.saturating_sub(1)..) {
            Some(functions) if !functions.is_empty() && self.rng.percent(60) => {
                functions[self.rng.below(functions.len())].result.clone()
            }
            _ => self.any_type(2),
        }
    }

    fn field_type(&mut self, nesting: usize) -> Ty {
        if self.rng.percent(12) {
            Ty::None
        } else {
            self.any_type(nesting)
        }
    }

    fn signature(&mut self) -> Function {
        let count = self.rng.pick(&[0, 1, 1, 2, 2, 3]);
        let args: Vec<Ty> = (0..count).map(|_| self.field_type(1)).collect();
        Function {
            favourites: args.iter().map(|arg| self.favourite(arg)).collect(),
            args,
            result: self.any_type(1),
        }
    }

    fn favourite(&mut self, ty: &Ty) -> u32 {
        match ty {
            Ty::Bool => self.rng.below(2) as u32,
            // Those that are equal without being the same, or the same without being equal.
            Ty::Float if self.rng.percent(40) => self.rng.pick(&[0, 0x8000_0000, 0x7FC0_0000]),
            Ty::Float => values::float(self.rng),
            _ => values::integer(self.rng),
        }
    }

    /// An expression, or with a good chance the favourite itself.
    fn argument(&mut self, scope: &mut Scope, ty: &Ty, favourite: u32) {
        let op = match ty {
            Ty::Bool => 1,
            Ty::Int => 2,
            Ty::Float => 3,
            _ => 0,
        };
        if op == 0 || self.rng.percent(40) {
            return self.expression(scope, ty);
        }
        self.emit(op, 0, 0, favourite);
        scope.values.push(ty.clone());
    }
}
