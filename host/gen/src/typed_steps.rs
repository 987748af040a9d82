//! The steps of a well-typed routine: each takes values of the types it needs, making them where
//! none reaches.

use oracle::form::*;

use crate::draft::Draft;
use crate::rng::Rng;
use crate::tables::{BOOL, FELT, U32, UNIT};

/// A typed routine that grows, with the values that reach the open block.
pub struct Typed<'r> {
    pub draft: Draft<'r>,
    pub scope: Vec<(ValueNo, TypeNo)>,
    aggregates: Vec<TypeNo>,
}

/// How deep a value's parts are made before a call gives them.
const DEPTH: usize = 3;

/// The most instructions or values that one step is counted on to make.
const STEP: usize = 4;

impl<'r> Typed<'r> {
    pub fn new(draft: Draft<'r>) -> Self {
        let number = |(i, ty): (usize, &Type)| ty.is_aggregate().then_some(TypeNo(i as u16));
        let aggregates = draft.types.iter().enumerate().filter_map(number).collect();
        Self { draft, scope: Vec::new(), aggregates }
    }

    /// Parameters of any types.
    pub fn parameters(&mut self, count: usize) {
        for _ in 0..count {
            let ty = self.any_type();
            let value = self.define(ty);
            self.draft.parameters.push(value);
        }
    }

    /// A fresh value that reaches what follows.
    pub fn define(&mut self, ty: TypeNo) -> ValueNo {
        let value = self.draft.fresh(Some(ty));
        self.scope.push((value, ty));
        value
    }

    pub fn can_step(&self) -> bool {
        self.draft.room() > 0 && self.draft.has_values(STEP)
    }

    /// Whether something may still be made on the way to another thing.
    fn can_make(&self) -> bool {
        self.draft.room() > STEP && self.draft.has_values(2 * STEP)
    }

    fn any_type(&mut self) -> TypeNo {
        match self.draft.rng.pick_some(&self.aggregates) {
            Some(ty) if self.draft.rng.chance(60) => ty,
            _ => TypeNo(self.draft.rng.below(self.draft.types.len()) as u16),
        }
    }

    fn scalar(&mut self) -> TypeNo {
        self.draft.rng.pick(&[FELT, BOOL, U32])
    }

    /// A value of `ty`: one that takes no instruction, or one that is made for it. Where there is
    /// neither such a value nor room to make one, Unit stands for it.
    pub fn need(&mut self, ty: TypeNo, depth: usize) -> Value {
        let there = literal_or_reaching(self.draft.rng, ty, &self.scope);
        match there {
            Some(value) if !self.can_make() || self.draft.rng.chance(75) => value,
            there if self.can_make() => match self.make(ty, depth) {
                Some(made) => Value::Operand(made),
                None => there.unwrap_or_else(|| self.made_by_call(ty)),
            },
            there => there.unwrap_or(Value::Unit),
        }
    }

    fn made_by_call(&mut self, ty: TypeNo) -> Value {
        let dest = self.define(ty);
        let callee = self.draft.rng.below(4) as u16;
        self.draft.push(Kind::Call(Call {
            dests: vec![dest],
            callee,
            args: Vec::new(),
            param_types: Vec::new(),
            return_types: vec![ty],
        }));
        Value::Operand(dest)
    }

    /// Builds a value of an aggregate or pointer type.
    fn make(&mut self, ty: TypeNo, depth: usize) -> Option<ValueNo> {
        let row = self.draft.row(ty).clone();
        let parts = parts_of(&row).filter(|_| depth < DEPTH)?;
        let mut values: Vec<Value> = parts.iter().map(|p| self.need(*p, depth + 1)).collect();
        if self.draft.room() == 0 || !self.draft.has_values(1) {
            return None;
        }
        let dest = self.define(ty);
        let kind = match row {
            Type::Struct { fields, .. } => {
                let names = fields.iter().map(|(name, _)| *name);
                let mut fields: Vec<_> = names.zip(values).collect();
                if self.draft.rng.chance(30) {
                    fields.reverse();
                }
                Kind::MakeStruct { dest, fields, struct_ty: ty }
            }
            Type::FixedArray { element, .. } => {
                let is_const = self.draft.rng.chance(20);
                Kind::MakeFixedArray { dest, elements: values, element_ty: element, is_const }
            }
            Type::Pointer(_) => Kind::HeapAllocCells { dest, cells: values.remove(0) },
            _ => Kind::MakeTuple { dest, elements: values },
        };
        self.draft.push(kind);
        Some(dest)
    }

    /// A value that reaches and whose type `fits`, with its type.
    fn some_value(&mut self, fits: impl Fn(&Type) -> bool) -> Option<(ValueNo, TypeNo)> {
        let types = &self.draft.types;
        let found = self.scope.iter().rev().filter(|(_, ty)| fits(&types[ty.index()])).take(6);
        let found: Vec<_> = found.copied().collect();
        self.draft.rng.pick_some(&found)
    }

    /// One step of the routine.
    pub fn step(&mut self) {
        match self.draft.rng.below(24) {
            0..=4 => self.build(),
            5..=8 => self.extract(),
            9..=11 => self.insert(),
            12..=13 => self.assign(),
            14..=16 => self.load(),
            17..=18 => self.store(),
            19..=20 => self.call(),
            21..=22 => self.operation(),
            _ => self.mark(),
        }
    }

    fn build(&mut self) {
        let Some(ty) = self.draft.rng.pick_some(&self.aggregates) else {
            return self.operation();
        };
        if self.make(ty, DEPTH - 2).is_none() {
            self.operation();
        }
    }

    fn extract(&mut self) {
        let Some((value, ty)) = self.some_value(|ty| has_fields(ty) || has_parts(ty)) else {
            return self.build();
        };
        let kind = match self.draft.row(ty).clone() {
            Type::Struct { fields, .. } => {
                let (field_name, field_ty) = self.draft.rng.pick(&fields);
                let dest = self.define(field_ty);
                let struct_val = Value::Operand(value);
                Kind::ExtractStructField { dest, struct_val, field_name, field_ty }
            }
            Type::Tuple(parts) => {
                let index = self.draft.rng.below(parts.len());
                let element_ty = parts[index];
                let dest = self.define(element_ty);
                let tuple = Value::Operand(value);
                Kind::ExtractTupleElement { dest, tuple, index: index as u32, element_ty }
            }
            _ => return,
        };
        self.draft.push(kind);
    }

    fn insert(&mut self) {
        let Some((value, ty)) = self.some_value(|ty| has_fields(ty) || has_parts(ty)) else {
            return self.build();
        };
        let kind = match self.draft.row(ty).clone() {
            Type::Struct { fields, .. } => {
                let (field_name, field_ty) = self.draft.rng.pick(&fields);
                let new_value = self.need(field_ty, 1);
                let (dest, struct_val) = (self.define(ty), Value::Operand(value));
                Kind::InsertField(InsertField {
                    dest,
                    struct_val,
                    field_name,
                    new_value,
                    struct_ty: ty,
                })
            }
            Type::Tuple(parts) => {
                let index = self.draft.rng.below(parts.len());
                let new_value = self.need(parts[index], 1);
                let (dest, tuple_val) = (self.define(ty), Value::Operand(value));
                let index = index as u32;
                Kind::InsertTuple(InsertTuple { dest, tuple_val, index, new_value, tuple_ty: ty })
            }
            _ => return,
        };
        self.draft.push(kind);
    }

    fn assign(&mut self) {
        let ty = self.any_type();
        let source = self.need(ty, 1);
        if self.draft.room() > 0 {
            let dest = self.define(ty);
            self.draft.push(Kind::Assign { dest, source, ty });
        }
    }

    /// Steps from a value of `ty` to some part, with the part's type.
    fn walk(&mut self, mut ty: TypeNo, base_is_pointer: bool) -> (Vec<Projection>, TypeNo) {
        let mut steps = Vec::new();
        while steps.len() < most::PROJECTIONS && (steps.is_empty() || self.draft.rng.chance(60)) {
            let (step, part) = match self.draft.row(ty).clone() {
                Type::Tuple(parts) if !parts.is_empty() => {
                    let index = self.draft.rng.below(parts.len());
                    (Projection::Tuple(index as u32), parts[index])
                }
                Type::Struct { fields, .. } if !fields.is_empty() => {
                    let (name, part) = self.draft.rng.pick(&fields);
                    (Projection::Field(name), part)
                }
                Type::FixedArray { element, size } if size > 0 => (self.index(size), element),
                Type::Pointer(element) if base_is_pointer && steps.is_empty() => {
                    (self.index(8), element)
                }
                _ => break,
            };
            steps.push(step);
            ty = part;
        }
        (steps, ty)
    }

    fn index(&mut self, size: u32) -> Projection {
        let value = if self.draft.rng.chance(92) {
            Value::Integer(self.draft.rng.below(size as usize) as u32)
        } else {
            self.need(FELT, 1)
        };
        Projection::Index(value)
    }

    /// A base that a place can start from, arrays first.
    fn base(&mut self) -> Option<(ValueNo, TypeNo)> {
        let array = self.some_value(|ty| matches!(ty, Type::FixedArray { size: 1.., .. }));
        array.filter(|_| self.draft.rng.chance(70)).or_else(|| {
            self.some_value(|ty| has_fields(ty) || has_parts(ty) || matches!(ty, Type::Pointer(_)))
        })
    }

    fn load(&mut self) {
        let Some((base, base_ty)) = self.base() else {
            return self.build();
        };
        let pointer = matches!(self.draft.row(base_ty), Type::Pointer(_));
        let (projections, ty) = self.walk(base_ty, pointer);
        if self.draft.room() > 0 {
            let dest = self.define(ty);
            self.draft.push(Kind::Load { dest, place: Place { base, projections }, ty });
        }
    }

    fn store(&mut self) {
        let Some((base, base_ty)) = self.base() else {
            return self.build();
        };
        let pointer = matches!(self.draft.row(base_ty), Type::Pointer(_));
        let (projections, ty) = self.walk(base_ty, pointer);
        let value = self.need(ty, 1);
        if self.draft.room() > 0 {
            self.draft.push(Kind::Store { place: Place { base, projections }, value, ty });
        }
    }

    fn call(&mut self) {
        let count = self.draft.rng.below(4);
        let mut args = Vec::with_capacity(count);
        let mut param_types = Vec::with_capacity(count);
        for _ in 0..count {
            let ty = self.any_type();
            args.push(self.need(ty, 1));
            param_types.push(ty);
        }
        let results = self.draft.rng.below(3);
        if self.draft.room() == 0 || !self.draft.has_values(results) {
            return;
        }
        let return_types: Vec<TypeNo> = (0..results).map(|_| self.any_type()).collect();
        let dests = return_types.iter().map(|ty| self.define(*ty)).collect();
        let callee = self.draft.rng.below(6) as u16;
        self.draft.push(Kind::Call(Call { dests, callee, args, param_types, return_types }));
    }

    fn operation(&mut self) {
        let (from, to) = (self.scalar(), self.scalar());
        let (left, right) = (self.need(from, 1), self.need(from, 1));
        if self.draft.room() == 0 {
            return;
        }
        let dest = self.define(to);
        let kind = match self.draft.rng.below(5) {
            0 => self.draft.unary(dest, left),
            1 => Kind::Cast { dest, source: left, source_type: from, target_type: to },
            _ => self.draft.binary(dest, left, right),
        };
        self.draft.push(kind);
    }

    fn mark(&mut self) {
        let ty = self.scalar();
        let (left, right) = (self.need(ty, 1), self.need(ty, 1));
        if self.draft.room() == 0 {
            return;
        }
        let kind = match self.draft.rng.below(4) {
            0 => Kind::Nop,
            1 => Kind::Debug { message: self.draft.rng.number(), values: vec![left, right] },
            _ => Kind::AssertEq { left, right },
        };
        self.draft.push(kind);
    }
}

fn literal(rng: &mut Rng, ty: TypeNo) -> Option<Value> {
    match ty {
        FELT | U32 => Some(Value::Integer(rng.number())),
        BOOL => Some(Value::Boolean(rng.chance(50))),
        UNIT => Some(Value::Unit),
        _ => None,
    }
}

/// One of the last values of `ty` in `scope`.
fn reaching(rng: &mut Rng, ty: TypeNo, scope: &[(ValueNo, TypeNo)]) -> Option<Value> {
    let fits = |(value, own): &(ValueNo, TypeNo)| (*own == ty).then_some(*value);
    let values: Vec<ValueNo> = scope.iter().rev().filter_map(fits).take(4).collect();
    rng.pick_some(&values).map(Value::Operand)
}

/// A value of `ty` that takes no instruction, where there is one.
pub fn literal_or_reaching(
    rng: &mut Rng,
    ty: TypeNo,
    scope: &[(ValueNo, TypeNo)],
) -> Option<Value> {
    let value = reaching(rng, ty, scope);
    if value.is_some() && rng.chance(70) {
        return value;
    }
    literal(rng, ty).or(value)
}

/// What a build of `row` takes, where it can be built.
fn parts_of(row: &Type) -> Option<Vec<TypeNo>> {
    match row {
        Type::Tuple(parts) => Some(parts.clone()),
        Type::Struct { fields, .. } => Some(fields.iter().map(|(_, ty)| *ty).collect()),
        Type::FixedArray { element, size } => Some(vec![*element; *size as usize]),
        Type::Pointer(_) => Some(vec![FELT]),
        _ => None,
    }
}

fn has_fields(ty: &Type) -> bool {
    matches!(ty, Type::Struct { fields, .. } if !fields.is_empty())
}

fn has_parts(ty: &Type) -> bool {
    matches!(ty, Type::Tuple(parts) if !parts.is_empty())
}
