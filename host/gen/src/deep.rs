//! Routines whose types nest, and whose values are built, changed, stored into one another and then read
//! whole, by instructions of every kind: what is read may be tracked, and its parts too.

use oracle::form::*;

use crate::draft::Draft;
use crate::rng::Rng;

pub const FELT: TypeNo = TypeNo(0);
pub const BOOL: TypeNo = TypeNo(1);
const U32: TypeNo = TypeNo(2);
const UNIT: TypeNo = TypeNo(3);

/// How deep parts are built on the way to a value.
const DEPTH: usize = 5;

/// The most instructions, and values, that one step makes.
const STEP: usize = 40;

/// A routine of up to `size` instructions; `odd` of a hundred choices are such that types disagree, counts are
/// others, or a value is read that comes later or is itself.
pub fn routine(rng: &mut Rng, size: usize, odd: usize) -> Routine {
    let types = types(rng);
    let blocks = if rng.chance(70) { 1 } else { rng.within(2, 4) };
    let draft = Draft::new(rng, types, most::IN_ALL);
    let mut deep = Deep { draft, scope: Vec::new(), loose: Vec::new(), odd };
    for _ in 0..deep.draft.rng.below(4) {
        let ty = deep.any_type();
        let parameter = deep.define(ty);
        deep.draft.parameters.push(parameter);
    }
    for block in 0..blocks {
        deep.block(block, blocks, size / blocks);
    }
    for _ in 0..AHEAD {
        deep.draft.fresh(Some(FELT));
    }
    deep.draft.finish(BlockNo(0))
}

/// So many numbers a value may be ahead that is read before it is defined.
const AHEAD: usize = 3;

/// Scalars, then aggregates of what stands before them, and a pointer now and then.
fn types(rng: &mut Rng) -> Vec<Type> {
    let mut types = vec![Type::Felt, Type::Bool, Type::U32, Type::Unit];
    let rows = types.len() + rng.within(3, 9);
    while types.len() < rows {
        let own = types.len();
        let width = match rng.below(25) {
            0 => rng.pick(&[7, 8, 9, 16]),
            1..=2 => 0,
            _ => rng.within(1, 3),
        };
        let part = |rng: &mut Rng| {
            let low = if own > 4 && rng.chance(70) { own.saturating_sub(2).max(4) } else { 0 };
            TypeNo((low + rng.below(own - low)) as u16)
        };
        let next = match rng.below(12) {
            0..=5 => Type::Tuple((0..width).map(|_| part(rng)).collect()),
            6..=8 => {
                let mut fields: Vec<(NameNo, TypeNo)> =
                    (0..width).map(|n| (NameNo(n as u16), part(rng))).collect();
                fields.reverse();
                Type::Struct { name: NameNo(rng.below(3) as u16), fields }
            }
            9..=10 => Type::FixedArray { element: part(rng), size: width as u32 },
            _ => Type::Pointer(part(rng)),
        };
        if !types.contains(&next) {
            types.push(next);
        }
    }
    types
}

pub struct Deep<'r> {
    pub draft: Draft<'r>,
    pub scope: Vec<(ValueNo, TypeNo)>,
    /// Arrays that are stored into, and so never become a part where all is well.
    pub loose: Vec<ValueNo>,
    odd: usize,
}

impl Deep<'_> {
    /// Whether this choice is an odd one.
    pub fn odd(&mut self) -> bool {
        self.draft.rng.chance(self.odd)
    }

    /// The same where any choice may be one.
    pub fn very_odd(&mut self) -> bool {
        self.odd > 0 && self.draft.rng.chance(30)
    }

    /// Aggregates as a rule.
    pub fn any_type(&mut self) -> TypeNo {
        let all = self.draft.types.len();
        let low = if self.draft.rng.chance(80) { 4 } else { 0 };
        TypeNo((low + self.draft.rng.below(all - low)) as u16)
    }

    /// The type that is named where `ty` is meant.
    pub fn named(&mut self, ty: TypeNo) -> TypeNo {
        if self.odd() {
            self.any_type()
        } else {
            ty
        }
    }

    pub fn define(&mut self, ty: TypeNo) -> ValueNo {
        let recorded = match self.odd() {
            true if self.draft.rng.chance(25) => None,
            true if self.draft.rng.chance(25) => Some(FELT),
            true => Some(self.any_type()),
            false => Some(ty),
        };
        let value = self.draft.fresh(recorded);
        self.scope.push((value, ty));
        if matches!(self.draft.row(ty), Type::FixedArray { .. }) && self.draft.rng.chance(50) {
            self.loose.push(value);
        }
        value
    }

    fn block(&mut self, here: usize, blocks: usize, size: usize) {
        let keep = self.draft.rng.chance(25);
        self.scope.retain(|(_, ty)| keep || *ty <= UNIT);
        let left = self.draft.left.saturating_sub(size.max(1));
        if here > 0 && self.draft.rng.chance(30) {
            self.phi(here);
        }
        while self.draft.left > left && self.can_step() {
            self.step();
        }
        let terminator = self.terminator(here, blocks);
        self.draft.close(terminator);
    }

    fn can_step(&self) -> bool {
        self.draft.room() > STEP && self.draft.has_values(STEP + AHEAD)
    }

    fn phi(&mut self, here: usize) {
        let ty = if self.draft.rng.chance(80) { FELT } else { self.any_type() };
        let source = self.scope.iter().find(|(_, own)| *own == ty).map(|(v, _)| Value::Operand(*v));
        let sources = vec![(BlockNo(here as u16 - 1), source.unwrap_or(Value::Integer(1)))];
        let dest = self.define(ty);
        self.draft.push(Kind::Phi { dest, ty, sources });
    }

    fn terminator(&mut self, here: usize, blocks: usize) -> Terminator {
        if here + 1 == blocks || self.draft.rng.chance(10) {
            let count = self.draft.rng.below(5);
            return Terminator::Return((0..count).map(|_| self.read()).collect());
        }
        let then_target = BlockNo(here as u16 + 1);
        let else_target = BlockNo(self.draft.rng.below(blocks) as u16);
        match self.draft.rng.below(4) {
            0 => Terminator::If { condition: self.value(BOOL, 0), then_target, else_target },
            1 => {
                let (left, right) = (self.value(FELT, 0), self.value(FELT, 0));
                Terminator::BranchCmp { op: 4, left, right, then_target, else_target }
            }
            _ => Terminator::Jump(then_target),
        }
    }

    /// A late value of any type, to be read whole.
    pub fn read(&mut self) -> Value {
        match self.late(|_, _| true) {
            Some(_) if self.odd() => self.odd_value(),
            Some((v, _)) => Value::Operand(v),
            None => Value::Integer(self.draft.rng.number()),
        }
    }

    /// A late value for which `fits` holds, with its type; aggregates more often.
    pub fn late(
        &mut self,
        fits: impl Fn(&Self, (ValueNo, TypeNo)) -> bool,
    ) -> Option<(ValueNo, TypeNo)> {
        let fitting: Vec<(ValueNo, TypeNo)> =
            self.scope.iter().copied().filter(|own| fits(self, *own)).collect();
        let wide: Vec<(ValueNo, TypeNo)> =
            fitting.iter().copied().filter(|(_, ty)| *ty > UNIT).collect();
        let from = if self.draft.rng.chance(85) && !wide.is_empty() { wide } else { fitting };
        (!from.is_empty()).then(|| self.draft.rng.pick_late(&from))
    }

    /// Any value there is, or one that comes later, or no operand.
    fn odd_value(&mut self) -> Value {
        let known = self.draft.recorded.len();
        match self.draft.rng.below(8) {
            0 => Value::Error,
            1 => Value::Boolean(true),
            2..=4 => Value::Operand(ValueNo(self.draft.rng.below(known + AHEAD) as u16)),
            _ => {
                Value::Operand(ValueNo((known.saturating_sub(4) + self.draft.rng.below(6)) as u16))
            }
        }
        .within(known + AHEAD)
    }

    /// A value of the type that may become a part: one that is there, or one that is made.
    pub fn value(&mut self, ty: TypeNo, depth: usize) -> Value {
        if self.odd() {
            return self.odd_value();
        }
        let there = self.late(|deep, (v, own)| own == ty && !deep.loose.contains(&v));
        let can_make = self.draft.room() > 2 * DEPTH && self.draft.has_values(2 * DEPTH + AHEAD);
        let anew = ty > UNIT && can_make && depth > 0 && self.draft.rng.chance(35);
        match (there, ty) {
            (Some((v, _)), _) if !anew && (ty > UNIT || self.draft.rng.chance(50)) => {
                Value::Operand(v)
            }
            (_, FELT | U32) => Value::Integer(self.draft.rng.number()),
            (_, BOOL) => Value::Boolean(self.draft.rng.chance(50)),
            (_, UNIT) => Value::Unit,
            _ if can_make && depth < DEPTH => Value::Operand(self.build(ty, depth)),
            (Some((v, _)), _) => Value::Operand(v),
            _ if can_make => Value::Operand(self.called(ty)),
            _ => Value::Unit,
        }
    }

    /// Builds a value of an aggregate type; any other is given by a Call.
    pub fn build(&mut self, ty: TypeNo, depth: usize) -> ValueNo {
        let row = self.draft.row(ty).clone();
        let Some(count) = row.count() else {
            return self.called(ty);
        };
        let mut elements: Vec<Value> = (0..count)
            .map(|at| self.value(row.part(at).expect("it has so many parts"), depth + 1))
            .collect();
        if self.odd() {
            match elements.len() {
                0..=14 if self.draft.rng.chance(50) => elements.push(self.odd_value()),
                _ => drop(elements.pop()),
            }
        }
        let struct_ty = self.named(ty);
        let dest = self.define(ty);
        let kind = match row {
            Type::Struct { fields, .. } => {
                let names = fields.iter().map(|(name, _)| *name);
                let mut fields: Vec<(NameNo, Value)> = names.zip(elements).collect();
                if self.draft.rng.chance(30) {
                    fields.reverse();
                }
                Kind::MakeStruct { dest, fields, struct_ty }
            }
            Type::FixedArray { element, .. } => {
                let is_const = self.draft.rng.chance(20);
                Kind::MakeFixedArray { dest, elements, element_ty: element, is_const }
            }
            _ => Kind::MakeTuple { dest, elements },
        };
        self.draft.push(kind);
        dest
    }

    pub fn called(&mut self, ty: TypeNo) -> ValueNo {
        let dest = self.define(ty);
        let (args, param_types) = (Vec::new(), Vec::new());
        let call = Call { dests: vec![dest], callee: 2, args, param_types, return_types: vec![ty] };
        self.draft.push(Kind::Call(call));
        dest
    }
}

/// A value whose number, if it has one, is below `next`.
trait Within {
    fn within(self, next: usize) -> Self;
}

impl Within for Value {
    fn within(self, next: usize) -> Self {
        match self {
            Value::Operand(v) => Value::Operand(ValueNo(v.0.min(next as u16 - 1))),
            other => other,
        }
    }
}
