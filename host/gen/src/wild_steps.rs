//! The steps of a wild routine: every field is drawn by itself, but towards what the pass looks at.

use oracle::form::*;

use crate::draft::Draft;
use crate::tables::list_length;

/// A wild routine that grows.
pub struct Wild<'r> {
    pub draft: Draft<'r>,
    pub next: usize,
    pub wide: bool,
    /// The open block's values that may stand for an aggregate.
    pub builds: Vec<ValueNo>,
    /// Whether aggregates are read on purpose alone, so that more of them can be taken apart.
    calm: bool,
    blocks: usize,
    tuples: Vec<TypeNo>,
    structs: Vec<TypeNo>,
    arrays: Vec<TypeNo>,
}

impl<'r> Wild<'r> {
    pub fn new(draft: Draft<'r>, next: usize, blocks: usize, wide: bool) -> Self {
        let of = |fits: fn(&Type) -> bool| -> Vec<TypeNo> {
            let rows = draft.types.iter().enumerate();
            rows.filter(|(_, ty)| fits(ty)).map(|(i, _)| TypeNo(i as u16)).collect()
        };
        let tuples = of(|ty| matches!(ty, Type::Tuple(_)));
        let structs = of(|ty| matches!(ty, Type::Struct { .. }));
        let arrays = of(|ty| matches!(ty, Type::FixedArray { .. }));
        let calm = draft.rng.chance(60);
        Self { draft, next, wide, builds: Vec::new(), calm, blocks, tuples, structs, arrays }
    }

    pub fn any_block(&mut self) -> BlockNo {
        BlockNo(self.draft.rng.below(self.blocks) as u16)
    }

    pub fn any_type(&mut self) -> TypeNo {
        TypeNo(self.draft.rng.below(self.draft.types.len()) as u16)
    }

    pub fn any_record(&mut self) -> Option<TypeNo> {
        let ty = self.any_type();
        self.draft.rng.chance(90).then_some(ty)
    }

    pub fn has_fresh(&self) -> bool {
        self.draft.recorded.len() < self.next
    }

    /// One of `of` as a rule, else any type.
    fn type_of(&mut self, of: fn(&Self) -> &Vec<TypeNo>) -> TypeNo {
        let found = of(self).clone();
        match self.draft.rng.pick_some(&found) {
            Some(ty) if self.draft.rng.chance(92) => ty,
            _ => self.any_type(),
        }
    }

    fn aggregate_type(&mut self) -> TypeNo {
        match self.draft.rng.below(3) {
            0 => self.type_of(|w| &w.tuples),
            1 => self.type_of(|w| &w.structs),
            _ => self.type_of(|w| &w.arrays),
        }
    }

    /// `ty` as a rule, else another or none.
    pub fn recorded(&mut self, ty: TypeNo) -> Option<TypeNo> {
        if self.draft.rng.chance(90) {
            Some(ty)
        } else {
            self.any_record()
        }
    }

    /// The recorded type of a value as a rule, else any.
    fn type_at(&mut self, value: Value) -> TypeNo {
        let own = match value {
            Value::Operand(v) => self.draft.recorded.get(v.index()).copied().flatten(),
            _ => None,
        };
        match own {
            Some(ty) if self.draft.rng.chance(80) => ty,
            _ => self.any_type(),
        }
    }

    /// Any value at all; in a calm routine, seldom one of this block.
    pub fn value(&mut self) -> Value {
        let next = self.next;
        let made = self.draft.recorded.len();
        let rng = &mut *self.draft.rng;
        match rng.below(20) {
            0..=9 if made > 0 && !self.calm => {
                let window = made.min(8);
                Value::Operand(ValueNo((made - 1 - rng.below(window)) as u16))
            }
            0..=3 if !self.draft.parameters.is_empty() => {
                Value::Operand(rng.pick(&self.draft.parameters))
            }
            10 if next > 0 => Value::Operand(ValueNo(rng.below(next) as u16)),
            11..=12 => Value::Boolean(rng.chance(50)),
            13 => Value::Unit,
            14 => Value::Error,
            _ => Value::Integer(rng.number()),
        }
    }

    /// A value that stands for an aggregate, as a rule.
    pub fn aggregate(&mut self) -> Value {
        if self.builds.is_empty() || self.draft.rng.chance(15) {
            return self.value();
        }
        Value::Operand(self.draft.rng.pick_late(&self.builds))
    }

    /// A part of a build: scalars, and aggregates of the block.
    pub fn part(&mut self) -> Value {
        if self.draft.rng.chance(if self.calm { 4 } else { 30 }) {
            self.aggregate()
        } else {
            self.value()
        }
    }

    fn parts(&mut self, count: usize) -> Vec<Value> {
        (0..count).map(|_| self.part()).collect()
    }

    /// `count` as a rule, else another length.
    fn about(&mut self, count: usize) -> usize {
        if count <= most::LIST && self.draft.rng.chance(85) {
            count
        } else {
            list_length(self.draft.rng, self.wide)
        }
    }

    /// A fresh value that may stand for an aggregate.
    pub fn aggregate_dest(&mut self, ty: Option<TypeNo>) -> ValueNo {
        let dest = self.draft.fresh(ty);
        self.builds.push(dest);
        dest
    }

    /// One instruction of any kind but Phi.
    pub fn step(&mut self) {
        let kind = match self.draft.rng.below(40) {
            _ if !self.has_fresh() => self.without_dest(),
            0..=5 => self.make_tuple(),
            6..=10 => self.make_struct(),
            11..=13 => self.make_array(),
            14..=18 => self.extract(),
            19..=22 => self.insert(),
            23..=25 => self.assign(),
            26..=29 => self.load(),
            30..=33 => self.without_dest(),
            34..=36 => self.call(),
            _ => self.scalar_kind(),
        };
        self.draft.push(kind);
    }

    pub fn make_tuple(&mut self) -> Kind {
        let ty = self.type_of(|w| &w.tuples);
        let count = match self.draft.row(ty) {
            Type::Tuple(parts) => parts.len(),
            _ => 2,
        };
        let count = self.about(count);
        let elements = self.parts(count);
        let recorded = self.recorded(ty);
        Kind::MakeTuple { dest: self.aggregate_dest(recorded), elements }
    }

    pub fn make_struct(&mut self) -> Kind {
        let struct_ty = self.type_of(|w| &w.structs);
        let mut names: Vec<NameNo> = match self.draft.row(struct_ty) {
            Type::Struct { fields, .. } => fields.iter().map(|(name, _)| *name).collect(),
            _ => vec![NameNo(0)],
        };
        match self.draft.rng.below(12) {
            0 => drop(names.pop()),
            1 if names.len() < most::LIST => names.insert(0, NameNo(1)),
            2 => names.reverse(),
            _ => {}
        }
        let fields = names.into_iter().map(|name| (name, self.part())).collect();
        let recorded = self.recorded(struct_ty);
        Kind::MakeStruct { dest: self.aggregate_dest(recorded), fields, struct_ty }
    }

    pub fn make_array(&mut self) -> Kind {
        let ty = self.type_of(|w| &w.arrays);
        let (element_ty, size) = match *self.draft.row(ty) {
            Type::FixedArray { element, size } => (element, size as usize),
            _ => (ty, 2),
        };
        let count = self.about(size);
        let elements = self.parts(count);
        let recorded = self.recorded(ty);
        let dest = self.aggregate_dest(recorded);
        Kind::MakeFixedArray { dest, elements, element_ty, is_const: self.draft.rng.chance(25) }
    }

    /// A name of a field of `ty`, where it has one.
    fn field_in(&mut self, ty: TypeNo) -> Option<NameNo> {
        match &self.draft.types[ty.index()] {
            Type::Struct { fields, .. } => self.draft.rng.pick_some(fields).map(|(name, _)| name),
            _ => None,
        }
    }

    /// A name of a field, of a struct that the table has as a rule.
    fn field(&mut self) -> NameNo {
        let ty = self.type_of(|w| &w.structs);
        self.field_in(ty).unwrap_or_else(|| NameNo(self.draft.rng.number() as u16))
    }

    /// A name of a field of the value's recorded struct, as a rule.
    pub fn field_of(&mut self, value: Value) -> NameNo {
        let ty = self.type_at(value);
        self.field_in(ty).unwrap_or_else(|| self.field())
    }

    pub fn index(&mut self) -> u32 {
        if self.draft.rng.chance(90) {
            self.draft.rng.below(4) as u32
        } else {
            self.draft.rng.number()
        }
    }

    fn extract(&mut self) -> Kind {
        let from = self.aggregate();
        self.extract_from(from)
    }

    pub fn extract_from(&mut self, from: Value) -> Kind {
        let ty = self.any_type();
        let recorded = self.recorded(ty);
        if self.draft.rng.chance(50) {
            let field_name = self.field_of(from);
            let dest = self.aggregate_dest(recorded);
            Kind::ExtractStructField { dest, struct_val: from, field_name, field_ty: ty }
        } else {
            let index = self.index();
            let dest = self.aggregate_dest(recorded);
            Kind::ExtractTupleElement { dest, tuple: from, index, element_ty: ty }
        }
    }

    fn insert(&mut self) -> Kind {
        let into = self.aggregate();
        let new_value = self.part();
        let ty = self.type_at(into);
        let recorded = self.recorded(ty);
        if self.draft.rng.chance(50) {
            let field_name = self.field_of(into);
            let dest = self.aggregate_dest(recorded);
            let struct_val = into;
            Kind::InsertField(InsertField {
                dest,
                struct_val,
                field_name,
                new_value,
                struct_ty: ty,
            })
        } else {
            let index = self.index();
            let dest = self.aggregate_dest(recorded);
            let tuple_val = into;
            Kind::InsertTuple(InsertTuple { dest, tuple_val, index, new_value, tuple_ty: ty })
        }
    }

    fn assign(&mut self) -> Kind {
        let source = self.aggregate();
        self.copy(source)
    }

    /// A copy of a value, recorded at another type more often than a build is.
    pub fn copy(&mut self, source: Value) -> Kind {
        let ty = self.type_at(source);
        let recorded = match self.draft.rng.below(10) {
            0..=5 => Some(ty),
            6..=7 => Some(self.type_of(|w| &w.structs)),
            _ => self.any_record(),
        };
        Kind::Assign { dest: self.aggregate_dest(recorded), source, ty }
    }

    /// A place whose first step is an Integer index as a rule.
    fn place(&mut self) -> Place {
        let base = match self.aggregate() {
            Value::Operand(base) => base,
            _ => ValueNo(self.draft.rng.below(self.next) as u16),
        };
        let count = match self.draft.rng.below(10) {
            _ if self.wide => self.draft.rng.pick(&[0, 7, 8]),
            0 => 0,
            1..=5 => 1,
            9 => self.draft.rng.within(4, 8),
            n => n - 4,
        };
        let projections = (0..count).map(|at| self.projection(at == 0)).collect();
        Place { base, projections }
    }

    pub fn projection(&mut self, first: bool) -> Projection {
        match self.draft.rng.below(if first { 30 } else { 6 }) {
            0 => Projection::Field(self.field()),
            1 => Projection::Tuple(self.index()),
            2 => Projection::Index(Value::Boolean(self.draft.rng.chance(50))),
            3 if first => Projection::Index(self.value()),
            _ => Projection::Index(Value::Integer(self.index())),
        }
    }

    fn load(&mut self) -> Kind {
        let place = self.place();
        let ty = if self.draft.rng.chance(60) { self.aggregate_type() } else { self.any_type() };
        let recorded = self.recorded(ty);
        Kind::Load { dest: self.aggregate_dest(recorded), place, ty }
    }

    /// The kinds that define nothing.
    fn without_dest(&mut self) -> Kind {
        match self.draft.rng.below(9) {
            0 => Kind::Nop,
            1 => {
                let count = list_length(self.draft.rng, self.wide);
                let values = self.parts(count);
                Kind::Debug { message: self.draft.rng.number(), values }
            }
            2 => Kind::AssertEq { left: self.part(), right: self.part() },
            _ if self.next == 0 => Kind::Nop,
            _ => {
                let place = self.place();
                let value = self.part();
                Kind::Store { place, value, ty: self.type_at(value) }
            }
        }
    }

    fn call(&mut self) -> Kind {
        let count = list_length(self.draft.rng, self.wide);
        let args: Vec<Value> = (0..count).map(|_| self.part()).collect();
        let mut param_types: Vec<TypeNo> = args.iter().map(|arg| self.type_at(*arg)).collect();
        if self.draft.rng.chance(20) {
            param_types.pop();
        }
        let many = self.wide || self.draft.rng.chance(5);
        let results =
            if many { list_length(self.draft.rng, true) } else { self.draft.rng.below(3) };
        let results = results.min(self.next - self.draft.recorded.len());
        let return_types: Vec<TypeNo> = (0..results).map(|_| self.any_type()).collect();
        let dests = return_types.iter().map(|ty| self.draft.fresh(Some(*ty))).collect();
        let callee = self.draft.rng.number() as u16;
        Kind::Call(Call { dests, callee, args, param_types, return_types })
    }

    fn scalar_kind(&mut self) -> Kind {
        let (left, right) = (self.part(), self.value());
        let (source_type, target_type) = (self.any_type(), self.any_type());
        let recorded = self.any_record();
        let dest = self.draft.fresh(recorded);
        match self.draft.rng.below(4) {
            0 => self.draft.unary(dest, left),
            1 => Kind::Cast { dest, source: left, source_type, target_type },
            2 => Kind::HeapAllocCells { dest, cells: left },
            _ => self.draft.binary(dest, left, right),
        }
    }
}
