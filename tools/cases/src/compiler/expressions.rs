//! Expressions: code that leaves one more value, of the type asked for.

use super::{Compiler, Function, Scope, Ty};
use crate::assembly::SOMEWHERE;
use crate::values;

impl Compiler<'_> {
    pub(super) fn expression(&mut self, scope: &mut Scope, ty: &Ty) {
        let depth = scope.values.len();
        if !self.at_hand(scope, ty) && (self.fuel < 20 || !self.detour(scope, ty)) {
            self.construct(scope, ty);
        }
        scope.values.truncate(depth);
        scope.values.push(ty.clone());
    }

    /// A copy of something that is there already.
    pub(super) fn at_hand(&mut self, scope: &mut Scope, ty: &Ty) -> bool {
        let place_of = |words: &[Ty]| words.iter().rposition(|own| own == ty);
        let must = !ty.is_made();
        match self.rng.below(if must { 4 } else { 10 }) {
            0 | 1 => {
                if let Some(place) = place_of(&scope.values) {
                    self.emit(10, scope.values.len() - 1 - place, 0, 0);
                    return true;
                }
            }
            2 => {
                if let Some(local) = place_of(&scope.locals) {
                    self.emit(13, local, 0, 0);
                    return true;
                }
            }
            3 => {
                if let Some(argument) = place_of(&scope.args) {
                    self.emit(11, argument, 0, 0);
                    return true;
                }
                if let Some(input) = self.inputs.iter().position(|own| own.as_ref() == Some(ty)) {
                    self.emit(35, input, 0, 0);
                    return true;
                }
            }
            _ => {}
        }
        false
    }

    /// A way round to a value of the type.
    pub(super) fn detour(&mut self, scope: &mut Scope, ty: &Ty) -> bool {
        match self.rng.below(16) {
            0 => self.choice(scope, ty),
            1 => self.slid(scope, ty),
            2 => self.unpacked(scope, ty),
            3..=8 => return self.call(scope, ty),
            _ => return false,
        }
        true
    }

    /// if ... then ... else ...
    pub(super) fn choice(&mut self, scope: &mut Scope, ty: &Ty) {
        let depth = scope.values.len();
        self.expression(scope, &Ty::Bool);
        let jump = self.emit(16, 0, usize::from(SOMEWHERE), 0);
        scope.values.truncate(depth);
        self.expression(scope, ty);
        let skip = self.emit(15, 0, usize::from(SOMEWHERE), 0);
        scope.values.truncate(depth);
        self.land(jump);
        self.expression(scope, ty);
        self.land(skip);
    }

    pub(super) fn call(&mut self, scope: &mut Scope, ty: &Ty) -> bool {
        let first = if self.rng.percent(3) { 1 } else { scope.callable };
        let fitting = |number: &usize| *number >= first && self.functions[*number - 1].result == *ty;
        let fitting: Vec<usize> = (1..=self.functions.len()).filter(fitting).collect();
        if fitting.is_empty() {
            return false;
        }
        let number = self.rng.pick(&fitting);
        let Function { args, favourites, .. } = self.functions[number - 1].clone();
        for (arg, favourite) in args.iter().zip(favourites).rev() {
            self.argument(scope, arg, favourite);
        }
        self.op(scope, 17, number, 0, std::slice::from_ref(ty));
        if !args.is_empty() {
            self.op(scope, 9, args.len(), args.len() + 1, std::slice::from_ref(ty));
        }
        true
    }

    /// Something else below it, removed by Slide.
    pub(super) fn slid(&mut self, scope: &mut Scope, ty: &Ty) {
        let count = self.rng.between(0, 3);
        for _ in 0..count {
            let other = self.rng.pick(&[Ty::Null, Ty::Int, Ty::None, Ty::Bool]);
            self.expression(scope, &other);
        }
        self.expression(scope, ty);
        self.emit(9, count, 0, 0);
    }

    /// Out of a structure that is made for it.
    pub(super) fn unpacked(&mut self, scope: &mut Scope, ty: &Ty) {
        if !ty.is_field() {
            return self.construct(scope, ty);
        }
        // Field 0 is pushed first, so the last field is on top afterwards.
        let mut fields: Vec<Ty> = (0..self.rng.between(0, 2)).map(|_| self.field_type(0)).collect();
        fields.push(ty.clone());
        let others = fields.len() - 1;
        let whole = if self.rng.percent(50) {
            Ty::Tuple(fields)
        } else {
            Ty::Con(values::tag(self.rng), fields)
        };
        self.expression(scope, &whole);
        self.emit(33, 0, 0, 0);
        self.emit(9, others, 0, 0);
    }

    pub(super) fn construct(&mut self, scope: &mut Scope, ty: &Ty) {
        let simple = self.fuel < 10;
        match ty {
            Ty::Bool if simple || self.rng.percent(30) => {
                let truth = self.rng.below(2) as u32;
                self.emit(1, 0, 0, truth);
            }
            Ty::Bool => self.truth(scope),
            Ty::Int if simple || self.rng.percent(50) => {
                let integer = values::integer(self.rng);
                self.emit(2, 0, 0, integer);
            }
            Ty::Int => self.integer(scope),
            Ty::Float if simple || self.rng.percent(50) => {
                let float = values::float(self.rng);
                self.emit(3, 0, 0, float);
            }
            Ty::Float => self.float(scope),
            Ty::Tuple(fields) => {
                self.fields(scope, fields);
                self.emit(5, fields.len(), 0, 0);
            }
            Ty::Con(tag, fields) => {
                self.fields(scope, fields);
                self.emit(6, fields.len(), usize::from(*tag), 0);
            }
            Ty::Null => {
                self.emit(7, 1, 0, 0);
            }
            Ty::None | Ty::Exn | Ty::Saved | Ty::Unknown => {
                self.emit(4, 0, 0, 0);
            }
        }
    }

    /// "field 0 is the top word"
    pub(super) fn fields(&mut self, scope: &mut Scope, fields: &[Ty]) {
        for field in fields.iter().rev() {
            self.expression(scope, field);
        }
    }

    pub(super) fn truth(&mut self, scope: &mut Scope) {
        match self.rng.below(5) {
            0 => self.primitive(scope, 1, 1, &Ty::Bool),
            1 => {
                let number = self.rng.between(12, 13);
                self.primitive(scope, 2, number, &Ty::Bool);
            }
            2 | 3 => {
                let number = self.rng.between(1, 6);
                self.primitive(scope, 2, number, &Ty::Int);
            }
            _ => {
                let number = self.rng.between(14, 18);
                if self.rng.percent(60) {
                    return self.primitive(scope, 2, number, &Ty::Float);
                }
                for _ in 0..2 {
                    let float = self.rng.pick(&[0, 0x8000_0000, 0x7FC0_0000, 0x3F80_0000]);
                    self.emit(3, 0, 0, float);
                }
                self.emit(20, number, 0, 0);
            }
        }
    }

    pub(super) fn integer(&mut self, scope: &mut Scope) {
        if self.rng.percent(15) {
            self.primitive(scope, 1, 3, &Ty::Float);
        } else {
            let number = self.rng.between(7, 11);
            self.primitive(scope, 2, number, &Ty::Int);
        }
    }

    pub(super) fn float(&mut self, scope: &mut Scope) {
        if self.rng.percent(30) {
            self.primitive(scope, 1, 2, &Ty::Int);
        } else {
            let number = self.rng.between(19, 22);
            self.primitive(scope, 2, number, &Ty::Float);
        }
    }

    pub(super) fn primitive(&mut self, scope: &mut Scope, operands: usize, number: usize, of: &Ty) {
        for _ in 0..operands {
            self.expression(scope, of);
        }
        self.emit(18 + operands as u8, number, 0, 0);
    }
}
