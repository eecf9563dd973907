//! Statements: code that moves words about, and now and then goes wrong.

use super::{Compiler, Scope, Ty};
use crate::assembly::{any_instruction, Ins, SOMEWHERE};
use crate::values;

impl Compiler<'_> {
    pub(super) fn statements(&mut self, scope: &mut Scope, most: usize) {
        for _ in 0..self.rng.between(0, most) {
            if self.fuel == 0 || self.code.len() > 3000 {
                return;
            }
            self.statement(scope);
        }
    }

    pub(super) fn statement(&mut self, scope: &mut Scope) {
        match self.rng.below(400) {
            0..=4 => return self.odd_operand(scope),
            5..=12 => return self.odd_pair(scope),
            13..=21 => return self.stray(scope),
            22 | 23 if !scope.args.is_empty() => {
                // The exception of a handler, say.
                self.emit(11, 0, 0, 0);
                self.emit(33, 0, 0, 0);
            }
            _ => {}
        }
        match self.rng.below(24) {
            0..=3 => {
                let ty = self.wanted_type(scope);
                self.expression(scope, &ty);
            }
            4 => self.pop(scope),
            5 | 6 => self.make_var(scope),
            7 => self.unpack(scope),
            8 => self.consume(),
            9 => self.write(scope),
            10 => {
                self.emit(34, 0, 0, 0);
            }
            11 => self.condition(scope),
            12 => self.counted_loop(scope),
            13 => self.maybe_raise(scope),
            14 => {
                let float = self.rng.percent(50);
                self.maybe_raising_primitive(scope, float);
            }
            15..=17 => self.loose(scope),
            18 => self.long_value(scope),
            19 => {
                self.emit(25, 0, 0, 0);
            }
            20 => self.refreshed_frame(scope),
            21 => self.outputs_and_check(scope),
            _ => {
                for _ in 0..self.rng.between(1, 6) {
                    self.loose(scope);
                }
            }
        }
    }

    /// Words of any kind where one kind is needed.
    pub(super) fn odd_operand(&mut self, scope: &mut Scope) {
        let kinds = [
            Ty::Bool,
            Ty::Int,
            Ty::Float,
            Ty::None,
            Ty::Null,
            Ty::Tuple(vec![]),
            Ty::Con(1, vec![Ty::None]),
        ];
        for _ in 0..self.rng.between(1, 3) {
            match self.rng.below(4) {
                0 => {
                    let zero = self.rng.between(1, 3) as u8;
                    self.emit(zero, 0, 0, 0);
                }
                1 if !scope.args.is_empty() => {
                    let argument = self.rng.below(scope.args.len());
                    self.emit(11, argument, 0, 0);
                }
                _ => {
                    let ty = self.rng.pick(&kinds);
                    self.construct(scope, &ty);
                }
            }
            scope.values.push(Ty::Unknown);
        }
        let op = self.rng.pick(&[5, 6, 16, 19, 20, 20, 20, 20, 21, 33, 38, 39]);
        let ins = self.any_with(op);
        self.emit(ins.op, usize::from(ins.a), usize::from(ins.b), ins.c);
    }

    /// A primitive whose one operand would do, and the other may be anything.
    pub(super) fn odd_pair(&mut self, scope: &mut Scope) {
        let number = self.rng.pick(&[10, 11, 12, 13, 10, 12]);
        let fitting = if number < 12 { 2 } else { 1 };
        let payload = if self.rng.percent(75) { 0 } else { 1 };
        let other = self
            .rng
            .pick(&[Ty::Bool, Ty::Int, Ty::Float, Ty::None, Ty::Null, Ty::Tuple(vec![])]);
        if self.rng.percent(50) {
            self.emit(fitting, 0, 0, payload);
            self.construct(scope, &other);
        } else {
            self.construct(scope, &other);
            self.emit(fitting, 0, 0, payload);
        }
        self.emit(20, number, 0, 0);
        scope.values.push(Ty::Unknown);
    }

    /// Matches without a MatchRule before them, and looks far below.
    pub(super) fn stray(&mut self, scope: &mut Scope) {
        match self.rng.below(5) {
            0 => {
                for _ in 0..self.rng.between(1, 6) {
                    self.emit(25, 0, 0, 0);
                }
                let ty = self.plain_type();
                self.match_of(&ty, None);
            }
            1 => {
                self.emit(26, 0, 0, 0);
            }
            2 => {
                let below = scope.args.len() + self.rng.below(10);
                self.op(scope, 11, below, 0, &[Ty::Unknown]);
            }
            3 => self.sweep(scope),
            _ => {
                let ty = self.plain_type();
                let arg = scope.args.first().cloned().unwrap_or(ty);
                self.match_of(&arg, scope.favourites.first().copied());
            }
        }
    }

    /// CopyArg further and further down, to a word that can't be copied or to the bottom.
    pub(super) fn sweep(&mut self, scope: &mut Scope) {
        for argument in scope.args.len()..scope.args.len() + self.rng.between(4, 16) {
            self.op(scope, 11, argument, 0, &[Ty::Unknown]);
        }
    }

    /// This opcode with any arguments it may have; CheckOutputs for a Write without outputs.
    pub(super) fn any_with(&mut self, op: u8) -> Ins {
        let rulesets = 1 + self.functions.len();
        if op == 39 && self.outputs.is_empty() {
            return self.any_with(38);
        }
        loop {
            let ins = any_instruction(self.rng, self.inputs.len(), self.outputs.len(), rulesets);
            if ins.op == op {
                return ins;
            }
        }
    }

    pub(super) fn pop(&mut self, scope: &mut Scope) {
        let count = self.rng.below(scope.values.len() + 1);
        self.op(scope, 8, count, count, &[]);
    }

    pub(super) fn make_var(&mut self, scope: &mut Scope) {
        if scope.locals.is_empty() {
            return;
        }
        let ty = self.any_type(1);
        self.expression(scope, &ty);
        let local = self.rng.below(scope.locals.len());
        self.op(scope, 14, local, 1, &[]);
        scope.locals[local] = ty;
    }

    pub(super) fn unpack(&mut self, scope: &mut Scope) {
        if let Some(Ty::Tuple(fields) | Ty::Con(_, fields)) = scope.values.last().cloned() {
            self.op(scope, 33, 0, 1, &fields);
        }
    }

    pub(super) fn consume(&mut self) {
        if self.inputs.is_empty() {
            return;
        }
        let input = self.rng.below(self.inputs.len());
        let op = self.rng.between(36, 37) as u8;
        self.emit(op, input, 0, 0);
        self.inputs[input] = None;
    }

    pub(super) fn write(&mut self, scope: &mut Scope) {
        if self.outputs.is_empty() {
            return;
        }
        let output = self.rng.below(self.outputs.len());
        let ty = if self.outputs[output] && self.rng.percent(60) {
            Ty::None
        } else {
            self.any_type(2)
        };
        self.expression(scope, &ty);
        self.op(scope, 39, output, 1, &[]);
        self.outputs[output] |= ty != Ty::None;
    }

    /// A piece of code that is skipped or not, and leaves the stack as it was.
    pub(super) fn condition(&mut self, scope: &mut Scope) {
        self.expression(scope, &Ty::Bool);
        let jump = self.emit(16, 0, usize::from(SOMEWHERE), 0);
        scope.values.pop();
        let before = scope.clone();
        self.statements(scope, 2);
        let more = scope.values.len().saturating_sub(before.values.len());
        self.emit(8, more, 0, 0);
        self.land(jump);
        *scope = before;
    }

    /// A loop that counts a local down.
    pub(super) fn counted_loop(&mut self, scope: &mut Scope) {
        if scope.locals.is_empty() {
            return;
        }
        let local = self.rng.below(scope.locals.len());
        let rounds = self.rng.between(1, 6) as u32;
        self.emit(2, 0, 0, rounds);
        self.emit(14, local, 0, 0);
        scope.locals[local] = Ty::Unknown;
        let start = self.here();
        let depth = scope.values.len();
        self.statements(scope, 2);
        if self.rng.percent(70) {
            let more = scope.values.len().saturating_sub(depth);
            self.op(scope, 8, more, more, &[]);
        }
        self.emit(2, 0, 0, 1);
        self.emit(13, local, 0, 0);
        self.emit(20, 8, 0, 0);
        self.emit(14, local, 0, 0);
        self.emit(2, 0, 0, 0);
        self.emit(13, local, 0, 0);
        self.emit(20, 4, 0, 0);
        self.emit(16, 0, start, 0);
    }

    pub(super) fn maybe_raise(&mut self, scope: &mut Scope) {
        self.expression(scope, &Ty::Bool);
        let jump = self.emit(16, 0, usize::from(SOMEWHERE), 0);
        scope.values.pop();
        let ty = self.field_type(1);
        self.expression(scope, &ty);
        let exception = usize::from(values::tag(self.rng));
        self.emit(21, 0, exception, 0);
        scope.values.pop();
        self.land(jump);
    }

    pub(super) fn maybe_raising_primitive(&mut self, scope: &mut Scope, float: bool) {
        if float {
            self.primitive(scope, 1, 3, &Ty::Float);
            scope.values.pop();
        } else {
            let divisor = self.rng.pick(&[0, 0, 1, u32::MAX]);
            self.emit(2, 0, 0, divisor);
            scope.values.push(Ty::Int);
            self.expression(scope, &Ty::Int);
            let number = self.rng.between(10, 11);
            self.emit(20, number, 0, 0);
            scope.values.truncate(scope.values.len().saturating_sub(2));
        }
        scope.values.push(Ty::Int);
    }

    /// Any instruction that moves words about, with what is there, whatever it is.
    pub(super) fn loose(&mut self, scope: &mut Scope) {
        let count = scope.values.len();
        let fields = scope.values.iter().rev().take_while(|ty| ty.is_field()).count();
        match self.rng.below(13) {
            0 => {
                let nulls = self.rng.below(4);
                self.op(scope, 7, nulls, 0, &vec![Ty::Null; nulls]);
            }
            1 => self.pop(scope),
            2 if count > 0 => {
                let top = scope.values[count - 1].clone();
                let slide = self.rng.below(count);
                self.op(scope, 9, slide, slide + 1, &[top]);
            }
            3 if count > 0 => {
                let below = self.rng.below(count);
                let ty = scope.values[count - 1 - below].clone();
                self.op(scope, 10, below, 0, &[ty]);
            }
            4 if !scope.args.is_empty() => {
                let argument = self.rng.below(scope.args.len());
                let ty = scope.args[argument].clone();
                self.op(scope, 11, argument, 0, &[ty]);
            }
            5 if !scope.locals.is_empty() => {
                let local = self.rng.below(scope.locals.len());
                let ty = scope.locals[local].clone();
                self.op(scope, 13, local, 0, &[ty]);
            }
            6 if !scope.locals.is_empty() && count > 0 => {
                let local = self.rng.below(scope.locals.len());
                scope.locals[local] = scope.values[count - 1].clone();
                self.op(scope, 14, local, 1, &[]);
            }
            7 | 8 => self.structure(scope, fields),
            9 => self.op(scope, 4, 0, 0, &[Ty::None]),
            10 => self.unpack(scope),
            11 if !self.inputs.is_empty() => {
                let input = self.rng.below(self.inputs.len());
                if let Some(ty) = self.inputs[input].clone() {
                    self.op(scope, 35, input, 0, &[ty]);
                }
            }
            _ => {
                let ty = self.plain_type();
                self.construct(scope, &ty);
                scope.values.push(ty);
            }
        }
    }

    pub(super) fn structure(&mut self, scope: &mut Scope, fields: usize) {
        let count = self.rng.below(fields.min(6) + 1);
        let types: Vec<Ty> = scope.values.iter().rev().take(count).cloned().collect();
        if self.rng.percent(50) {
            self.op(scope, 5, count, count, &[Ty::Tuple(types)]);
        } else {
            let tag = values::tag(self.rng);
            self.emit(6, count, usize::from(tag), 0);
            scope.values.truncate(scope.values.len() - count);
            scope.values.push(Ty::Con(tag, types));
        }
    }

    /// A Write of a long value.
    pub(super) fn long_value(&mut self, scope: &mut Scope) {
        if self.outputs.is_empty() || self.rng.percent(50) {
            return;
        }
        let empty = self.outputs.iter().position(|full| !full);
        let output = match empty {
            Some(output) if self.rng.percent(70) => output,
            _ => self.rng.below(self.outputs.len()),
        };
        self.near_the_most();
        self.op(scope, 39, output, 0, &[]);
        self.outputs[output] = true;
    }

    /// A value near 64 wire words, or far above them.
    pub(super) fn near_the_most(&mut self) {
        match self.rng.below(3) {
            0 => self.flat_value(),
            1 => self.nested_value(),
            _ => self.shared_value(),
        }
    }

    /// Integers and Nones in one tuple: 62 to 66 words.
    pub(super) fn flat_value(&mut self) {
        let words = self.rng.between(60, 64);
        let nones = words % 2 + 2 * self.rng.below(3);
        let integers = (words - nones) / 2;
        for _ in 0..integers {
            let integer = values::integer(self.rng);
            self.emit(2, 0, 0, integer);
        }
        for _ in 0..nones {
            self.emit(4, 0, 0, 0);
        }
        self.emit(5, integers + nones, 0, 0);
    }

    /// One field in the other: 58 to 66 words.
    pub(super) fn nested_value(&mut self) {
        self.emit(2, 0, 0, 5);
        for _ in 0..self.rng.between(28, 32) {
            let tag = usize::from(values::tag(self.rng));
            if self.rng.percent(50) {
                self.emit(5, 1, 0, 0);
            } else {
                self.emit(6, 1, tag, 0);
            }
        }
    }

    /// Each field twice the same: 2^n cells when spread out.
    pub(super) fn shared_value(&mut self) {
        self.emit(1, 0, 0, 1);
        for _ in 0..self.rng.pick(&[2, 3, 4, 4, 5, 12, 40]) {
            self.emit(10, 0, 0, 0);
            self.emit(5, 2, 0, 0);
        }
    }

    /// Another frame over what is there; the code goes on in it.
    pub(super) fn refreshed_frame(&mut self, scope: &mut Scope) {
        if self.rng.percent(60) {
            return;
        }
        let locals = self.rng.below(4);
        if self.rng.percent(50) {
            self.op(scope, 7, 3, 0, &[Ty::Null, Ty::Null, Ty::Null]);
        }
        if scope.values.len() < 3 {
            return;
        }
        self.emit(12, locals, 0, 0);
        let below = scope.values.len() - 3;
        scope.args = scope.values[..below].iter().rev().cloned().collect();
        scope.values.clear();
        scope.locals = vec![Ty::Null; locals];
    }

    pub(super) fn outputs_and_check(&mut self, scope: &mut Scope) {
        if self.rng.percent(60) {
            return;
        }
        for _ in 0..self.outputs.len() {
            let ty = if self.rng.percent(15) {
                Ty::Null
            } else {
                self.field_type(0)
            };
            self.expression(scope, &ty);
        }
        self.emit(38, 0, 0, 0);
    }
}
