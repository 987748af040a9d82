//! Reason 1: "Types disagree".

use oracle::form::*;

/// Whether some type, count, field or index is another than the recorded types have.
pub fn disagree(routine: &Routine) -> bool {
    let typing = Typing { routine };
    let parameters = routine.parameters.iter().all(|v| typing.is_recorded(*v));
    let instructions = routine.instructions().all(|i| typing.instruction(&i.kind));
    let ends = routine.blocks.iter().all(|block| typing.terminator(&block.terminator));
    !(parameters && instructions && ends)
}

struct Typing<'a> {
    routine: &'a Routine,
}

impl Typing<'_> {
    fn recorded(&self, value: ValueNo) -> Option<TypeNo> {
        self.routine.recorded_type(value)
    }

    fn is_recorded(&self, value: ValueNo) -> bool {
        self.recorded(value).is_some()
    }

    fn is(&self, value: ValueNo, ty: TypeNo) -> bool {
        self.recorded(value) == Some(ty)
    }

    fn row(&self, ty: TypeNo) -> &Type {
        &self.routine.types[ty.index()]
    }

    /// The recorded row of an operand.
    fn row_of(&self, value: Value) -> Option<&Type> {
        match value {
            Value::Operand(v) => self.routine.row(self.recorded(v)),
            _ => None,
        }
    }

    /// A value may be read: it has a recorded type, and is not Error.
    fn may_stand(&self, value: Value) -> bool {
        match value {
            Value::Operand(v) => self.is_recorded(v),
            Value::Error => false,
            _ => true,
        }
    }

    /// "Integer fits Felt and U32, Boolean Bool, Unit Unit"; an operand fits its recorded type.
    fn fits(&self, value: Value, ty: TypeNo) -> bool {
        match value {
            Value::Operand(v) => self.is(v, ty),
            Value::Integer(_) => matches!(self.row(ty), Type::Felt | Type::U32),
            Value::Boolean(_) => matches!(self.row(ty), Type::Bool),
            Value::Unit => matches!(self.row(ty), Type::Unit),
            Value::Error => false,
        }
    }

    /// As many values as types, each fitting its own.
    fn all_fit(&self, values: &[Value], types: &[TypeNo]) -> bool {
        let mut pairs = values.iter().zip(types);
        values.len() == types.len() && pairs.all(|(value, ty)| self.fits(*value, *ty))
    }

    /// "scalars (all but aggregates)".
    fn is_scalar(&self, value: Value) -> bool {
        !self.row_of(value).is_some_and(Type::is_aggregate)
    }

    fn gives_scalar(&self, dest: ValueNo) -> bool {
        self.is_scalar(Value::Operand(dest))
    }

    /// All that is asked of an instruction; of a Debug, that its values may be read.
    fn instruction(&self, kind: &Kind) -> bool {
        let reads = kind.values().into_iter().all(|value| self.may_stand(value));
        let defines = kind.dests().iter().all(|dest| self.is_recorded(*dest));
        reads && defines && self.kind(kind)
    }

    fn kind(&self, kind: &Kind) -> bool {
        match kind {
            Kind::Assign { dest, source, ty } => self.is(*dest, *ty) && self.fits(*source, *ty),
            Kind::Phi { dest, ty, sources } => {
                self.is(*dest, *ty) && sources.iter().all(|(_, value)| self.fits(*value, *ty))
            }
            Kind::UnaryOp { dest, source, .. }
            | Kind::Cast { dest, source, .. }
            | Kind::HeapAllocCells { dest, cells: source } => {
                self.is_scalar(*source) && self.gives_scalar(*dest)
            }
            Kind::BinaryOp { dest, left, right, .. } => {
                self.is_scalar(*left) && self.is_scalar(*right) && self.gives_scalar(*dest)
            }
            Kind::Call(call) => {
                let mut dests = call.dests.iter().zip(&call.return_types);
                self.all_fit(&call.args, &call.param_types)
                    && call.dests.len() == call.return_types.len()
                    && dests.all(|(dest, ty)| self.is(*dest, *ty))
            }
            Kind::Load { dest, place, ty } => self.place(place) == Some(*ty) && self.is(*dest, *ty),
            Kind::Store { place, value, ty } => {
                self.place(place) == Some(*ty) && self.fits(*value, *ty)
            }
            Kind::AssertEq { left, right } => self.equal_types(*left, *right),
            Kind::Debug { .. } | Kind::Nop => true,
            _ => self.aggregate_kind(kind),
        }
    }

    /// "Kinds .. named for tuples, structs or arrays take those alone."
    fn aggregate_kind(&self, kind: &Kind) -> bool {
        match kind {
            Kind::MakeTuple { dest, elements } => match self.row_of(Value::Operand(*dest)) {
                Some(Type::Tuple(parts)) => self.all_fit(elements, parts),
                _ => false,
            },
            Kind::MakeFixedArray { dest, elements, element_ty, .. } => {
                match self.row_of(Value::Operand(*dest)) {
                    Some(Type::FixedArray { element, size }) => {
                        element == element_ty
                            && elements.len() == *size as usize
                            && elements.iter().all(|value| self.fits(*value, *element))
                    }
                    _ => false,
                }
            }
            Kind::MakeStruct { dest, fields, struct_ty } => {
                self.is(*dest, *struct_ty) && self.builds(fields, self.row(*struct_ty))
            }
            Kind::ExtractTupleElement { dest, tuple, index, element_ty } => {
                match self.row_of(*tuple) {
                    Some(Type::Tuple(parts)) => {
                        parts.get(*index as usize) == Some(element_ty)
                            && self.is(*dest, *element_ty)
                    }
                    _ => false,
                }
            }
            Kind::ExtractStructField { dest, struct_val, field_name, field_ty } => {
                let part = self.row_of(*struct_val).and_then(|row| field_type(row, *field_name));
                part == Some(*field_ty) && self.is(*dest, *field_ty)
            }
            Kind::InsertField(insert) => self.insert_field(insert),
            Kind::InsertTuple(insert) => self.insert_tuple(insert),
            _ => unreachable!("the other kinds build no aggregate"),
        }
    }

    /// "Struct builds name each field once."
    fn builds(&self, given: &[(NameNo, Value)], row: &Type) -> bool {
        let Type::Struct { fields, .. } = row else {
            return false;
        };
        let fits = |(name, ty): &(NameNo, TypeNo)| {
            let value = given.iter().find(|(own, _)| own == name);
            value.is_some_and(|(_, value)| self.fits(*value, *ty))
        };
        given.len() == fields.len() && fields.iter().all(fits)
    }

    fn insert_field(&self, insert: &InsertField) -> bool {
        let part = field_type(self.row(insert.struct_ty), insert.field_name);
        self.is(insert.dest, insert.struct_ty)
            && self.takes(insert.struct_val, insert.struct_ty)
            && part.is_some_and(|part| self.fits(insert.new_value, part))
    }

    fn insert_tuple(&self, insert: &InsertTuple) -> bool {
        let part = match self.row(insert.tuple_ty) {
            Type::Tuple(parts) => parts.get(insert.index as usize),
            _ => None,
        };
        self.is(insert.dest, insert.tuple_ty)
            && self.takes(insert.tuple_val, insert.tuple_ty)
            && part.is_some_and(|part| self.fits(insert.new_value, *part))
    }

    /// An insert's source: an operand of the named type.
    fn takes(&self, source: Value, ty: TypeNo) -> bool {
        matches!(source, Value::Operand(v) if self.is(v, ty))
    }

    /// The type that a place leads to: "base is an aggregate, or a Pointer whose first step is
    /// Index; else Index walks arrays".
    fn place(&self, place: &Place) -> Option<TypeNo> {
        let base = self.recorded(place.base)?;
        let (mut ty, steps) = match (self.row(base), place.projections.split_first()) {
            (Type::Pointer(element), Some((Projection::Index(index), rest))) => {
                (self.is_index(*index).then_some(*element)?, rest)
            }
            (row, _) if row.is_aggregate() => (base, &place.projections[..]),
            _ => return None,
        };
        for step in steps {
            ty = self.step(self.row(ty), step)?;
        }
        Some(ty)
    }

    fn step(&self, row: &Type, step: &Projection) -> Option<TypeNo> {
        match (row, step) {
            (Type::FixedArray { element, .. }, Projection::Index(index)) => {
                self.is_index(*index).then_some(*element)
            }
            (Type::Tuple(parts), Projection::Tuple(index)) => parts.get(*index as usize).copied(),
            (row, Projection::Field(name)) => field_type(row, *name),
            _ => None,
        }
    }

    /// "its value is Integer, Felt or U32".
    fn is_index(&self, value: Value) -> bool {
        match value {
            Value::Integer(_) => true,
            value => matches!(self.row_of(value), Some(Type::Felt | Type::U32)),
        }
    }

    /// "AssertEq equal types".
    fn equal_types(&self, left: Value, right: Value) -> bool {
        match (left, right) {
            (Value::Operand(v), other) | (other, Value::Operand(v)) => {
                self.recorded(v).is_some_and(|ty| self.fits(other, ty))
            }
            (Value::Integer(_), Value::Integer(_))
            | (Value::Boolean(_), Value::Boolean(_))
            | (Value::Unit, Value::Unit) => true,
            _ => false,
        }
    }

    fn terminator(&self, terminator: &Terminator) -> bool {
        let stand = terminator.values().into_iter().all(|value| self.may_stand(value));
        stand
            && match *terminator {
                Terminator::If { condition, .. } => match condition {
                    Value::Boolean(_) => true,
                    value => matches!(self.row_of(value), Some(Type::Bool)),
                },
                Terminator::BranchCmp { left, right, .. } => {
                    self.is_scalar(left) && self.is_scalar(right)
                }
                _ => true,
            }
    }
}

/// The type of a struct's field.
fn field_type(row: &Type, name: NameNo) -> Option<TypeNo> {
    row.part(row.position(name)?)
}
