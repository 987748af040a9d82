//! Well-typed routines that change a few aggregates again and again, and then show them: so that a
//! part that is lost or stale is seen in what a run records.

use oracle::form::*;

use crate::draft::Draft;
use crate::rng::Rng;

const FELT: TypeNo = TypeNo(0);
const BOOL: TypeNo = TypeNo(1);
const FLAT: TypeNo = TypeNo(2);
const RECORD: TypeNo = TypeNo(3);
const ROW: TypeNo = TypeNo(4);
/// From here on types hold aggregates.
const ROWS: TypeNo = TypeNo(5);
const NEST: TypeNo = TypeNo(6);
const HOLDER: TypeNo = TypeNo(7);

fn types(rng: &mut Rng) -> Vec<Type> {
    let width = if rng.chance(90) { rng.within(1, 4) } else { rng.within(7, 9) };
    let size = if rng.chance(90) { rng.within(1, 4) } else { rng.within(7, 9) };
    let name = NameNo(0);
    let mut fields: Vec<(NameNo, TypeNo)> =
        (0..width).map(|n| (NameNo(n as u16), if n == 1 { BOOL } else { FELT })).collect();
    fields.reverse();
    vec![
        Type::Felt,
        Type::Bool,
        Type::Tuple(vec![FELT; width]),
        Type::Struct { name, fields },
        Type::FixedArray { element: FELT, size: size as u32 },
        Type::FixedArray { element: FLAT, size: 2 },
        Type::Tuple(vec![FLAT, BOOL, RECORD]),
        Type::Struct { name, fields: vec![(NameNo(7), ROW), (NameNo(3), RECORD)] },
    ]
}

struct Churn<'r> {
    draft: Draft<'r>,
    scope: Vec<(ValueNo, TypeNo)>,
    /// Arrays that are stored into, and so never become a part.
    loose: Vec<ValueNo>,
    /// Whether a Store may go into a tuple of an array.
    deep: bool,
}

/// A routine of up to `size` instructions; where it is `deep`, some Stores have two projections.
pub fn routine(rng: &mut Rng, size: usize, deep: bool) -> Routine {
    let types = types(rng);
    let blocks = if rng.chance(50) { 1 } else { rng.within(2, 4) };
    let draft = Draft::new(rng, types, most::IN_ALL);
    let mut churn = Churn { draft, scope: Vec::new(), loose: Vec::new(), deep };
    for _ in 0..churn.draft.rng.below(4) {
        let ty = churn.any_type();
        let parameter = churn.define(ty);
        churn.draft.parameters.push(parameter);
    }
    for block in 0..blocks {
        churn.block(block, blocks, size / blocks);
    }
    churn.draft.finish(BlockNo(0))
}

impl Churn<'_> {
    fn any_type(&mut self) -> TypeNo {
        TypeNo(self.draft.rng.below(self.draft.types.len()) as u16)
    }

    fn define(&mut self, ty: TypeNo) -> ValueNo {
        let value = self.draft.fresh(Some(ty));
        self.scope.push((value, ty));
        if ty == ROW && self.draft.rng.chance(60) {
            self.loose.push(value);
        }
        value
    }

    fn block(&mut self, here: usize, blocks: usize, size: usize) {
        let keep = self.draft.rng.chance(30);
        self.scope.retain(|(_, ty)| keep || *ty <= BOOL);
        let left = self.draft.left.saturating_sub(size.max(1));
        while self.draft.left > left && self.draft.room() > 8 && self.draft.has_values(16) {
            self.step();
        }
        self.show();
        let terminator = self.terminator(here, blocks);
        self.draft.close(terminator);
    }

    /// A Call with scalars, and at times with a tuple.
    fn show(&mut self) {
        let tuples = self.draft.rng.chance(30);
        let shown = |ty: TypeNo| ty <= BOOL || (tuples && ty == FLAT);
        let late = self.scope.iter().rev().filter(|(_, ty)| shown(*ty)).take(8);
        let (args, param_types) = late.map(|(v, ty)| (Value::Operand(*v), *ty)).unzip();
        let (dests, return_types) = (Vec::new(), Vec::new());
        self.draft.push(Kind::Call(Call { dests, callee: 1, args, param_types, return_types }));
    }

    fn terminator(&mut self, here: usize, blocks: usize) -> Terminator {
        if here + 1 == blocks || self.draft.rng.chance(15) {
            let deepest = if self.draft.rng.chance(90) { ROW } else { HOLDER };
            let shown = self.scope.iter().rev().filter(|(_, ty)| *ty <= deepest);
            let values = shown.take(most::LIST).map(|(v, _)| Value::Operand(*v)).collect();
            return Terminator::Return(values);
        }
        let then_target = BlockNo(here as u16 + 1);
        if self.draft.rng.chance(50) {
            return Terminator::Jump(then_target);
        }
        let else_target = BlockNo(self.draft.rng.below(blocks) as u16);
        Terminator::If { condition: self.value(BOOL), then_target, else_target }
    }

    /// A value of the type that may become a part: one that is there, or one that is made.
    fn value(&mut self, ty: TypeNo) -> Value {
        let fits =
            |(v, own): &(ValueNo, TypeNo)| (*own == ty && !self.loose.contains(v)).then_some(*v);
        let there: Vec<ValueNo> = self.scope.iter().rev().filter_map(fits).take(5).collect();
        match self.draft.rng.pick_some(&there) {
            Some(v) if ty > BOOL || self.draft.rng.chance(60) => Value::Operand(v),
            _ if ty == FELT => Value::Integer(self.draft.rng.number()),
            _ if ty == BOOL => Value::Boolean(self.draft.rng.chance(50)),
            _ => Value::Operand(self.build(ty)),
        }
    }

    fn build(&mut self, ty: TypeNo) -> ValueNo {
        let row = self.draft.row(ty).clone();
        let count = row.count().unwrap_or(0);
        let mut parts = (0..count).map(|at| row.part(at).expect("it has so many parts"));
        let elements: Vec<Value> = parts.by_ref().map(|part| self.value(part)).collect();
        let dest = self.define(ty);
        let kind = match row {
            Type::Struct { fields, .. } => {
                let names = fields.iter().map(|(name, _)| *name);
                let mut fields: Vec<(NameNo, Value)> = names.zip(elements).collect();
                if self.draft.rng.chance(30) {
                    fields.reverse();
                }
                Kind::MakeStruct { dest, fields, struct_ty: ty }
            }
            Type::FixedArray { element, .. } => {
                Kind::MakeFixedArray { dest, elements, element_ty: element, is_const: false }
            }
            _ => Kind::MakeTuple { dest, elements },
        };
        self.draft.push(kind);
        dest
    }

    /// A late value whose type is one of `of`.
    fn some_of(&mut self, of: &[TypeNo]) -> Option<(ValueNo, TypeNo)> {
        let late = self.scope.iter().rev().filter(|(_, ty)| of.contains(ty)).take(6);
        let late: Vec<(ValueNo, TypeNo)> = late.copied().collect();
        self.draft.rng.pick_some(&late)
    }

    fn step(&mut self) {
        match self.draft.rng.below(20) {
            0..=3 => self.make(),
            4..=6 => self.extract(),
            7..=9 => self.insert(),
            10..=11 => self.copy(),
            12..=14 => self.load(),
            15..=17 => self.store(),
            18 => self.operation(),
            _ => self.assert_eq(),
        }
    }

    fn make(&mut self) {
        let ty = if self.draft.rng.chance(40) { ROW } else { self.any_type() };
        if ty > BOOL {
            self.build(ty);
        } else {
            self.operation();
        }
    }

    fn extract(&mut self) {
        let Some((from, ty)) = self.some_of(&[FLAT, RECORD, NEST, HOLDER]) else {
            return self.make();
        };
        let row = self.draft.row(ty).clone();
        let index = self.draft.rng.below(row.count().expect("an aggregate"));
        let part = row.part(index).expect("it has so many parts");
        let dest = self.define(part);
        let from = Value::Operand(from);
        self.draft.push(match row {
            Type::Struct { fields, .. } => Kind::ExtractStructField {
                dest,
                struct_val: from,
                field_name: fields[index].0,
                field_ty: part,
            },
            _ => Kind::ExtractTupleElement {
                dest,
                tuple: from,
                index: index as u32,
                element_ty: part,
            },
        });
    }

    fn insert(&mut self) {
        let Some((into, ty)) = self.some_of(&[FLAT, RECORD, NEST, HOLDER]) else {
            return self.make();
        };
        let row = self.draft.row(ty).clone();
        let index = self.draft.rng.below(row.count().expect("an aggregate"));
        let new_value = self.value(row.part(index).expect("it has so many parts"));
        let dest = self.define(ty);
        let into = Value::Operand(into);
        self.draft.push(match row {
            Type::Struct { fields, .. } => Kind::InsertField(InsertField {
                dest,
                struct_val: into,
                field_name: fields[index].0,
                new_value,
                struct_ty: ty,
            }),
            _ => Kind::InsertTuple(InsertTuple {
                dest,
                tuple_val: into,
                index: index as u32,
                new_value,
                tuple_ty: ty,
            }),
        });
    }

    fn copy(&mut self) {
        let Some((source, ty)) = self.some_of(&[FLAT, RECORD, ROW, ROW, ROWS, NEST, HOLDER]) else {
            return self.make();
        };
        let dest = self.define(ty);
        self.draft.push(Kind::Assign { dest, source: Value::Operand(source), ty });
    }

    /// An Index into an array of type `ty`, seldom an operand.
    fn index(&mut self, ty: TypeNo) -> Projection {
        let size = self.draft.row(ty).count().expect("an array");
        let operand = self.draft.rng.chance(3);
        Projection::Index(match self.some_of(&[FELT]) {
            Some((v, _)) if operand => Value::Operand(v),
            _ => Value::Integer(self.draft.rng.below(size) as u32),
        })
    }

    fn load(&mut self) {
        let Some((base, base_ty)) = self.some_of(&[ROW, ROW, ROWS]) else {
            return self.make();
        };
        let mut projections = vec![self.index(base_ty)];
        let mut ty = if base_ty == ROW { FELT } else { FLAT };
        if ty == FLAT && self.draft.rng.chance(50) {
            projections.push(Projection::Tuple(0));
            ty = FELT;
        }
        let dest = self.define(ty);
        self.draft.push(Kind::Load { dest, place: Place { base, projections }, ty });
    }

    /// Into a loose array, or now and then into an array of tuples.
    fn store(&mut self) {
        let late: Vec<ValueNo> = self.loose.iter().rev().copied().take(4).collect();
        let reach = |(v, ty): &(ValueNo, TypeNo)| *ty == ROWS || late.contains(v);
        let bases: Vec<(ValueNo, TypeNo)> = self.scope.iter().copied().filter(reach).collect();
        let Some((base, base_ty)) = self.draft.rng.pick_some(&bases) else {
            return self.make();
        };
        let mut projections = vec![self.index(base_ty)];
        let mut ty = if base_ty == ROW { FELT } else { FLAT };
        if self.deep && ty == FLAT && self.draft.rng.chance(20) {
            projections.push(Projection::Tuple(0));
            ty = FELT;
        }
        let value = self.value(ty);
        self.draft.push(Kind::Store { place: Place { base, projections }, value, ty });
    }

    fn operation(&mut self) {
        let (left, right) = (self.value(FELT), self.value(FELT));
        let dest = self.define(FELT);
        let kind = self.draft.binary(dest, left, right);
        self.draft.push(kind);
    }

    fn assert_eq(&mut self) {
        let left = self.value(FELT);
        let right = if self.draft.rng.chance(80) { left } else { self.value(FELT) };
        self.draft.push(Kind::AssertEq { left, right });
    }
}
