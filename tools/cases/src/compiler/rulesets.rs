//! The rulesets of the box, the functions and the handler.

use super::{Compiler, Function, Scope, Ty};
use crate::assembly::{Rules, SOMEWHERE};
use crate::values;

impl Compiler<'_> {
    /// One of the ways a rule of the box or handler ends.
    pub(super) fn ending(&mut self, scope: &mut Scope) {
        match self.rng.below(20) {
            0 => {
                let ty = self.field_type(1);
                self.expression(scope, &ty);
                let exception = usize::from(values::tag(self.rng));
                self.emit(21, 0, exception, 0);
            }
            1 => {
                self.emit(15, 0, usize::from(SOMEWHERE), 0);
            }
            2 => {
                self.emit(18, 0, 0, 0);
            }
            3 | 4 => {
                self.emit(40, 0, 0, 0);
            }
            _ => self.all_outputs(scope),
        }
    }

    /// "output i is the value i below the top": the last output is pushed first.
    pub(super) fn all_outputs(&mut self, scope: &mut Scope) {
        let count = self.outputs.len();
        for output in (0..count).rev() {
            let ignored = self.rng.percent(if self.outputs[output] { 70 } else { 20 });
            let ty = if ignored { Ty::None } else { self.wanted_type(scope) };
            if self.rng.percent(3) {
                self.near_the_most();
                scope.values.push(Ty::Unknown);
            } else {
                self.expression(scope, &ty);
            }
        }
        self.emit(38, 0, 0, 0);
        if self.rng.percent(90) {
            for output in 0..count {
                self.op(scope, 39, output, 1, &[]);
            }
        }
        if self.rng.percent(30) {
            self.emit(34, 0, 0, 0);
        }
        self.emit(40, 0, 0, 0);
    }

    pub(super) fn refuel(&mut self) {
        self.fuel = self.rng.pick(&[10, 30, 60, 120]);
    }

    pub(super) fn box_rules(&mut self) -> Rules {
        self.refuel();
        match self.rng.below(4) {
            0 => self.plain_box(),
            1 => self.available_box(),
            _ => self.matching_box(),
        }
    }

    /// No matching: one piece of code.
    pub(super) fn plain_box(&mut self) -> Rules {
        let entry = self.here();
        let mut scope = Scope {
            callable: 1,
            ..Scope::default()
        };
        self.statements(&mut scope, 10);
        self.ending(&mut scope);
        let rules = (0..self.rng.between(1, 4)).map(|_| self.rng.below(4000)).collect();
        Rules { entry, rules }
    }

    /// Each rule asks which inputs are there, and copies them itself.
    pub(super) fn available_box(&mut self) -> Rules {
        let entry = self.here();
        self.emit(22, 0, 0, 0);
        let count = self.rng.between(1, 4);
        let mut rules = Vec::new();
        for _ in 0..count {
            rules.push(self.here());
            self.refuel();
            self.emit(23, 0, 0, 0);
            for _ in 0..self.rng.below(self.inputs.len() + 1) {
                let op = self.rng.pick(&[25, 26, 26]);
                self.emit(op, 0, 0, 0);
            }
            let mut scope = Scope {
                callable: 1,
                ..Scope::default()
            };
            self.statements(&mut scope, 5);
            self.ending(&mut scope);
        }
        Rules { entry, rules }
    }

    /// As in D04: the inputs are the arguments of a frame, and the rules match them.
    pub(super) fn matching_box(&mut self) -> Rules {
        let entry = self.here();
        let mut scope = Scope {
            callable: 1,
            ..Scope::default()
        };
        let inputs = self.inputs.clone();
        for (number, input) in inputs.iter().enumerate().rev() {
            match input {
                Some(ty) => self.op(&mut scope, 35, number, 0, std::slice::from_ref(ty)),
                None => self.op(&mut scope, 4, 0, 0, &[Ty::None]),
            }
            scope.favourites.push(self.payloads[number]);
        }
        if self.rng.percent(30) {
            let ty = if self.rng.percent(15) {
                Ty::Null
            } else {
                self.plain_type()
            };
            let favourite = self.favourite(&ty);
            self.argument(&mut scope, &ty, favourite);
            scope.favourites.push(favourite);
        }
        self.emit(7, 3, 0, 0);
        let locals = self.rng.below(5);
        self.emit(12, locals, 0, 0);
        scope.args = scope.values.drain(..).rev().collect();
        scope.favourites.reverse();
        scope.locals = vec![Ty::Null; locals];
        self.emit(22, 0, 0, 0);
        let count = self.rng.pick(&[1, 2, 2, 3, 4, 6]);
        let rules = (0..count).map(|_| self.rule(&scope, Some(inputs.len()))).collect();
        Rules { entry, rules }
    }

    /// A rule of the box (with its inputs) or of the handler.
    pub(super) fn rule(&mut self, outer: &Scope, inputs: Option<usize>) -> usize {
        let address = self.here();
        self.refuel();
        let mut scope = outer.clone();
        self.emit(23, 0, 0, 0);
        self.matches(&scope, inputs);
        if self.rng.percent(70) {
            self.emit(24, 0, 0, 0);
        }
        if self.rng.percent(25) {
            self.emit(34, 0, 0, 0);
        }
        self.statements(&mut scope, 6);
        self.ending(&mut scope);
        address
    }

    pub(super) fn matches(&mut self, scope: &Scope, inputs: Option<usize>) {
        for (number, arg) in scope.args.iter().enumerate() {
            if self.rng.percent(8) {
                return;
            }
            let has_input = inputs.is_some_and(|inputs| number < inputs);
            if self.rng.percent(35) {
                self.emit(25, 0, 0, 0);
                continue;
            }
            if has_input && self.rng.percent(60) {
                self.emit(26, 0, 0, 0);
            }
            self.match_of(arg, scope.favourites.get(number).copied());
        }
    }

    /// A match that has a good chance.
    pub(super) fn match_of(&mut self, arg: &Ty, favourite: Option<u32>) {
        let other = self.plain_type();
        let arg = if self.rng.percent(92) { arg } else { &other };
        let payload = favourite.filter(|_| self.rng.percent(75));
        match arg {
            Ty::Bool => {
                let truth = self.rng.below(2) as u32;
                self.emit(27, 0, 0, payload.unwrap_or(truth) & 1);
            }
            Ty::Int => {
                let integer = values::integer(self.rng);
                self.emit(28, 0, 0, payload.unwrap_or(integer));
            }
            Ty::Float => {
                let float = payload.unwrap_or(values::float(self.rng));
                let other_sign = if self.rng.percent(20) { 0x8000_0000 } else { 0 };
                self.emit(29, 0, 0, float ^ other_sign);
            }
            Ty::Tuple(fields) => {
                let count = if self.rng.percent(85) {
                    fields.len()
                } else {
                    self.rng.below(4)
                };
                self.emit(30, count, 0, 0);
            }
            Ty::Con(tag, fields) => {
                let tag = if self.rng.percent(85) {
                    *tag
                } else {
                    values::tag(self.rng)
                };
                let count = if self.rng.percent(85) {
                    fields.len()
                } else {
                    self.rng.below(4)
                };
                self.emit(31, count, usize::from(tag), 0);
            }
            _ => {
                let exception = usize::from(values::tag(self.rng));
                self.emit(32, 0, exception, 0);
            }
        }
    }

    pub(super) fn function_rules(&mut self, function: usize) -> Rules {
        let entry = self.here();
        self.refuel();
        let Function {
            args,
            favourites,
            result,
        } = self.functions[function].clone();
        let mut scope = Scope {
            args,
            favourites,
            callable: function + 2,
            ..Scope::default()
        };
        if self.rng.percent(12) {
            self.saved_words(&mut scope);
        }
        let locals = self.rng.below(4);
        self.emit(12, locals, 0, 0);
        scope.values.clear();
        scope.locals = vec![Ty::Null; locals];
        if self.rng.percent(35) {
            if self.rng.percent(15) {
                self.matches(&scope, Some(1));
            }
            self.body(&mut scope, &result);
            let rules = (0..self.rng.between(1, 3)).map(|_| entry).collect();
            return Rules { entry, rules };
        }
        self.emit(22, 0, 0, 0);
        let count = self.rng.pick(&[1, 2, 3, 3, 5]);
        let rules = (0..count).map(|_| self.function_rule(&scope, &result)).collect();
        Rules { entry, rules }
    }

    /// The saved words are values until CreateFrame: they can be copied.
    pub(super) fn saved_words(&mut self, scope: &mut Scope) {
        scope.values = vec![Ty::Saved, Ty::Saved, Ty::Saved];
        match self.rng.below(3) {
            0 => {
                for _ in 0..3 {
                    self.op(scope, 10, 2, 0, &[Ty::Saved]);
                }
            }
            1 => self.loose(scope),
            _ => {
                let below = self.rng.below(3);
                self.op(scope, 10, below, 0, &[Ty::Saved]);
            }
        }
    }

    pub(super) fn function_rule(&mut self, outer: &Scope, result: &Ty) -> usize {
        let address = self.here();
        let mut scope = outer.clone();
        self.emit(23, 0, 0, 0);
        self.matches(&scope, None);
        self.emit(24, 0, 0, 0);
        if self.rng.percent(20) {
            self.emit(34, 0, 0, 0);
        }
        self.body(&mut scope, result);
        address
    }

    pub(super) fn body(&mut self, scope: &mut Scope, result: &Ty) {
        if self.rng.percent(3) {
            self.sweep(scope);
        }
        self.statements(scope, 3);
        self.expression(scope, result);
        self.emit(18, 0, 0, 0);
    }

    /// "the stack becomes the exception, three nulls and a frame link": one argument, no locals.
    pub(super) fn handler_rules(&mut self) -> Rules {
        let entry = self.here();
        self.refuel();
        let mut scope = Scope {
            args: vec![Ty::Exn],
            callable: 1,
            ..Scope::default()
        };
        if self.rng.percent(4) {
            self.emit(11, 0, 0, 0);
            self.emit(33, 0, 0, 0);
        }
        if self.rng.percent(40) {
            self.statements(&mut scope, 2);
            self.ending(&mut scope);
            let rules = vec![entry; self.rng.between(1, 2)];
            return Rules { entry, rules };
        }
        self.emit(22, 0, 0, 0);
        let count = self.rng.between(1, 3);
        let rules = (0..count).map(|_| self.rule(&scope, None)).collect();
        Rules { entry, rules }
    }

    /// Rulesets that are there and are hardly used, up to 32 of them with up to 16 rules.
    pub(super) fn more_rulesets(&mut self, rulesets: &mut Vec<Rules>) {
        let total = self.rng.between(rulesets.len(), 32);
        while rulesets.len() < total {
            let count = self.rng.pick(&[1, 2, 15, 16]);
            rulesets.push(Rules {
                entry: self.rng.below(60),
                rules: (0..count).map(|_| self.rng.below(60)).collect(),
            });
        }
    }
}
