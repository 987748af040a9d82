//! The steps of a deep routine: changes of its values, and reads of them that stay.

use oracle::form::*;

use crate::deep::{Deep, BOOL, FELT};

/// A name that no struct has.
const NO_FIELD: NameNo = NameNo(77);

impl Deep<'_> {
    pub fn step(&mut self) {
        match self.draft.rng.below(30) {
            0..=6 => {
                let ty = self.any_type();
                self.build(ty, 0);
            }
            7..=8 => self.extract(),
            9..=12 => self.insert(),
            13..=14 => self.copy(),
            15..=17 => self.load(),
            18..=20 => self.store(),
            21..=23 => self.debug(),
            24..=25 => self.assert_eq(),
            26..=27 => self.call(),
            _ => self.operation(),
        }
    }

    /// A tuple or struct with a part, the part's place and type.
    fn with_part(&mut self) -> Option<(ValueNo, TypeNo, usize, TypeNo)> {
        let named = |row: &Type| matches!(row, Type::Tuple(_) | Type::Struct { .. });
        let (from, ty) = self.late(|deep, (_, ty)| {
            let row = deep.draft.row(ty);
            named(row) && row.count() > Some(0)
        })?;
        let count = self.draft.row(ty).count().expect("an aggregate");
        let index = self.draft.rng.below(count) + usize::from(self.odd());
        let part = self.draft.row(ty).part(index).unwrap_or(FELT);
        Some((from, ty, index, part))
    }

    fn field(&self, ty: TypeNo, index: usize) -> Option<NameNo> {
        match self.draft.row(ty) {
            Type::Struct { fields, .. } => {
                Some(fields.get(index).map_or(NO_FIELD, |(name, _)| *name))
            }
            _ => None,
        }
    }

    fn extract(&mut self) {
        let Some((from, ty, index, part)) = self.with_part() else {
            return self.debug();
        };
        let named = self.named(part);
        let dest = self.define(part);
        let from = Value::Operand(from);
        self.draft.push(match self.field(ty, index) {
            Some(field_name) => {
                Kind::ExtractStructField { dest, struct_val: from, field_name, field_ty: named }
            }
            None => Kind::ExtractTupleElement {
                dest,
                tuple: from,
                index: index as u32,
                element_ty: named,
            },
        });
    }

    fn insert(&mut self) {
        let Some((into, ty, index, part)) = self.with_part() else {
            return self.debug();
        };
        let new_value = self.value(part, 1);
        let named = self.named(ty);
        let dest = self.define(ty);
        let into = Value::Operand(into);
        self.draft.push(match self.field(ty, index) {
            Some(field_name) => Kind::InsertField(InsertField {
                dest,
                struct_val: into,
                field_name,
                new_value,
                struct_ty: named,
            }),
            None => Kind::InsertTuple(InsertTuple {
                dest,
                tuple_val: into,
                index: index as u32,
                new_value,
                tuple_ty: named,
            }),
        });
    }

    fn copy(&mut self) {
        let Some((source, ty)) = self.late(|_, _| true) else {
            return self.debug();
        };
        let named = self.named(ty);
        let dest = self.define(ty);
        self.draft.push(Kind::Assign { dest, source: Value::Operand(source), ty: named });
    }

    /// A base, steps from it, and the type they lead to: an array first, at times a pointer, or a tuple or
    /// struct, whose Loads and Stores stay.
    fn walk(&mut self) -> Option<(Place, TypeNo)> {
        let array = |row: &Type| matches!(row, Type::FixedArray { size: 1.., .. });
        let other = |row: &Type| matches!(row, Type::Pointer(_)) || row.count() > Some(0);
        let base = self.late(|deep, (_, ty)| array(deep.draft.row(ty)));
        let base = base.filter(|_| self.draft.rng.chance(75));
        let (base, mut ty) =
            base.or_else(|| self.late(|deep, (_, ty)| other(deep.draft.row(ty))))?;
        let mut projections = Vec::new();
        while projections.len() < most::PROJECTIONS
            && (projections.is_empty() || self.draft.rng.chance(35))
        {
            let Some((step, part)) = self.into(ty, projections.is_empty()) else {
                break;
            };
            projections.push(step);
            ty = part;
        }
        Some((Place { base, projections }, ty))
    }

    fn into(&mut self, ty: TypeNo, first: bool) -> Option<(Projection, TypeNo)> {
        let row = self.draft.row(ty).clone();
        let count = match row {
            Type::Pointer(_) => first.then_some(3)?,
            _ => row.count().filter(|n| *n > 0)?,
        };
        let index = self.draft.rng.below(count);
        if !first && self.very_odd() {
            let step = Projection::Index(Value::Boolean(index % 2 == 1));
            return Some((step, row.part(index % 2).unwrap_or(FELT)));
        }
        Some(match row {
            Type::Struct { fields, .. } => (Projection::Field(fields[index].0), fields[index].1),
            Type::Tuple(parts) => (Projection::Tuple(index as u32), parts[index]),
            Type::Pointer(part) | Type::FixedArray { element: part, .. } => {
                (self.index(index), part)
            }
            _ => return None,
        })
    }

    fn index(&mut self, index: usize) -> Projection {
        Projection::Index(match self.late(|_, (_, ty)| ty == FELT) {
            Some((v, _)) if self.draft.rng.chance(8) => Value::Operand(v),
            _ if self.odd() => Value::Boolean(index == 1),
            _ => Value::Integer(index as u32),
        })
    }

    fn load(&mut self) {
        let Some((place, ty)) = self.walk() else {
            return self.debug();
        };
        let named = self.named(ty);
        let dest = self.define(ty);
        self.draft.push(Kind::Load { dest, place, ty: named });
    }

    /// Into an array that is never a part as a rule, or what a place leads to.
    fn store(&mut self) {
        let Some((place, ty)) = self.walk() else {
            return self.debug();
        };
        let array = matches!(self.base_row(&place), Some(Type::FixedArray { .. }));
        if array && !self.loose.contains(&place.base) && !self.odd() {
            return self.load();
        }
        let itself = self.odd() && self.draft.rng.chance(50);
        let value = if itself { Value::Operand(place.base) } else { self.value(ty, 1) };
        let ty = self.named(ty);
        self.draft.push(Kind::Store { place, value, ty });
    }

    fn base_row(&self, place: &Place) -> Option<&Type> {
        let (_, ty) = self.scope.iter().find(|(v, _)| *v == place.base)?;
        Some(self.draft.row(*ty))
    }

    fn debug(&mut self) {
        let count = if self.draft.rng.chance(2) { most::LIST } else { self.draft.rng.within(1, 3) };
        let values = (0..count).map(|_| self.read()).collect();
        self.draft.push(Kind::Debug { message: 7, values });
    }

    fn assert_eq(&mut self) {
        let Some((left, ty)) = self.late(|_, _| true) else {
            return self.debug();
        };
        let right =
            if self.draft.rng.chance(70) { Value::Operand(left) } else { self.value(ty, 1) };
        self.draft.push(Kind::AssertEq { left: Value::Operand(left), right });
    }

    fn call(&mut self) {
        let count = self.draft.rng.within(1, 3);
        let (mut args, mut param_types) = (Vec::new(), Vec::new());
        for _ in 0..count {
            if let Some((v, ty)) = self.late(|_, _| true) {
                args.push(Value::Operand(v));
                param_types.push(self.named(ty));
            }
        }
        if self.odd() {
            param_types.pop();
        }
        let return_types: Vec<TypeNo> =
            (0..self.draft.rng.below(3)).map(|_| self.any_type()).collect();
        let dests = return_types.iter().map(|ty| self.define(*ty)).collect();
        self.draft.push(Kind::Call(Call { dests, callee: 1, args, param_types, return_types }));
    }

    /// Of scalars, or of anything where that is odd.
    fn operation(&mut self) {
        let [left, right] = [(); 2].map(|()| match self.very_odd() {
            true => self.read(),
            false => self.value(FELT, 0),
        });
        let kind = match self.draft.rng.below(6) {
            0 => {
                let dest = self.define(FELT);
                self.draft.unary(dest, left)
            }
            1 => {
                let dest = self.define(BOOL);
                let (source_type, target_type) = (FELT, BOOL);
                Kind::Cast { dest, source: left, source_type, target_type }
            }
            2 => match self.late(|deep, (_, ty)| matches!(deep.draft.row(ty), Type::Pointer(_))) {
                Some((_, ty)) => {
                    let dest = self.define(ty);
                    Kind::HeapAllocCells { dest, cells: left }
                }
                None => Kind::Nop,
            },
            _ => {
                let dest = self.define(FELT);
                self.draft.binary(dest, left, right)
            }
        };
        self.draft.push(kind);
    }
}
