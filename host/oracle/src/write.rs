//! The writer of document 01's byte form. Each field goes out with its class, so that the same
//! code writes bytes and tells where each field stands.

use crate::field::{Class, Sink};
use crate::form::*;

/// The bytes of a routine.
pub fn write(routine: &Routine) -> Vec<u8> {
    let mut bytes = Vec::with_capacity(256);
    write_routine(&mut bytes, routine);
    bytes
}

/// "u16 type count, types; u16 next value; u16 block count; u16 entry block; u8 parameter count,
/// u16 each; a bit map of next-value bits .., then a u16 type for each set bit, rising; then the
/// blocks: u16 instruction count, instructions, terminator."
pub fn write_routine(to: &mut impl Sink, routine: &Routine) {
    let mut out = Writer { to };
    out.put(Class::TypeCount, routine.types.len(), 2);
    routine.types.iter().for_each(|ty| out.ty(ty));
    out.put(Class::NextValue, routine.recorded.len(), 2);
    out.put(Class::BlockCount, routine.blocks.len(), 2);
    out.block_use(routine.entry);
    out.list(&routine.parameters, |out, p| out.dest(*p));
    for eight in routine.recorded.chunks(8) {
        let set = |(i, ty): (usize, &Option<TypeNo>)| usize::from(ty.is_some()) << i;
        out.put(Class::ValueBits, eight.iter().enumerate().map(set).sum(), 1);
    }
    routine.recorded.iter().flatten().for_each(|ty| out.type_use(*ty));
    for block in &routine.blocks {
        out.put(Class::InstructionCount, block.instructions.len(), 2);
        block.instructions.iter().for_each(|i| out.instruction(i));
        out.terminator(&block.terminator);
    }
}

struct Writer<'a, S> {
    to: &'a mut S,
}

impl<S: Sink> Writer<'_, S> {
    fn put(&mut self, class: Class, number: usize, width: usize) {
        self.to.put(class, number as u64, width);
    }

    fn plain(&mut self, number: impl Into<u64>, width: usize) {
        self.to.put(Class::Plain, number.into(), width);
    }

    fn dest(&mut self, value: ValueNo) {
        self.put(Class::ValueDef, value.index(), 2);
    }

    fn value_use(&mut self, value: ValueNo) {
        self.put(Class::ValueUse, value.index(), 2);
    }

    fn type_use(&mut self, ty: TypeNo) {
        self.put(Class::TypeUse, ty.index(), 2);
    }

    fn block_use(&mut self, block: BlockNo) {
        self.put(Class::BlockUse, block.index(), 2);
    }

    fn name(&mut self, name: NameNo) {
        self.plain(name.0, 2);
    }

    fn list<T>(&mut self, items: &[T], item: impl FnMut(&mut Self, &T)) {
        self.counted(Class::ListCount, items, item);
    }

    fn counted<T>(&mut self, class: Class, items: &[T], mut item: impl FnMut(&mut Self, &T)) {
        self.put(class, items.len(), 1);
        items.iter().for_each(|i| item(self, i));
    }

    fn parts(&mut self, parts: &[TypeNo]) {
        self.list(parts, |out, ty| out.part(*ty));
    }

    fn part(&mut self, ty: TypeNo) {
        self.put(Class::TypePart, ty.index(), 2);
    }

    /// "A type is a u8 in `MirType` order, then: ..".
    fn ty(&mut self, ty: &Type) {
        self.put(Class::TypeKind, usize::from(ty.byte()), 1);
        match ty {
            Type::Tuple(parts) => self.parts(parts),
            Type::Struct { name, fields } => {
                self.name(*name);
                self.list(fields, |out, (name, ty)| {
                    out.put(Class::FieldName, usize::from(name.0), 2);
                    out.part(*ty);
                });
            }
            Type::FixedArray { element, size } => {
                self.part(*element);
                self.plain(*size, 4);
            }
            Type::Pointer(element) => self.part(*element),
            Type::Function { params, result } => {
                self.parts(params);
                self.part(*result);
            }
            Type::Felt | Type::Bool | Type::U32 | Type::Unit | Type::Error | Type::Unknown => {}
        }
    }

    fn values(&mut self, values: &[Value]) {
        self.list(values, |out, v| out.value(*v));
    }

    fn value(&mut self, value: Value) {
        let kind = |out: &mut Self, n| out.put(Class::ValueKind, n, 1);
        match value {
            Value::Integer(n) => {
                kind(self, 0);
                self.plain(n, 4);
            }
            Value::Boolean(b) => {
                kind(self, 1);
                self.put(Class::Boolean, usize::from(b), 1);
            }
            Value::Unit => kind(self, 2),
            Value::Operand(v) => {
                kind(self, 3);
                self.value_use(v);
            }
            Value::Error => kind(self, 4),
        }
    }

    fn place(&mut self, place: &Place) {
        self.value_use(place.base);
        self.counted(Class::ProjectionCount, &place.projections, |out, p| out.projection(*p));
    }

    fn projection(&mut self, projection: Projection) {
        let kind = |out: &mut Self, n| out.put(Class::ProjectionKind, n, 1);
        match projection {
            Projection::Index(value) => {
                kind(self, 0);
                self.value(value);
            }
            Projection::Field(name) => {
                kind(self, 1);
                self.name(name);
            }
            Projection::Tuple(index) => {
                kind(self, 2);
                self.plain(index, 4);
            }
        }
    }

    fn instruction(&mut self, instruction: &Instruction) {
        let Meta { span, expression, comment } = instruction.meta;
        let is_const = matches!(instruction.kind, Kind::MakeFixedArray { is_const: true, .. });
        let bit = |stands: bool, bit: u8| if stands { usize::from(bit) } else { 0 };
        let map = bit(span.is_some(), bits::SPAN)
            | bit(expression.is_some(), bits::EXPRESSION)
            | bit(comment.is_some(), bits::COMMENT)
            | bit(is_const, bits::IS_CONST);
        self.put(Class::InstructionBits, map, 1);
        self.put(Class::InstructionKind, usize::from(instruction.kind.byte()), 1);
        if let Some((start, end)) = span {
            self.plain(start, 4);
            self.plain(end, 4);
        }
        if let Some((index, file)) = expression {
            self.plain(index, 4);
            self.plain(file, 8);
        }
        if let Some(comment) = comment {
            self.plain(comment, 4);
        }
        self.kind(&instruction.kind);
    }

    fn op(&mut self, class: Class, op: u8) {
        self.put(class, usize::from(op), 1);
    }

    fn kind(&mut self, kind: &Kind) {
        match kind {
            Kind::Assign { dest, source, ty } => {
                self.dest(*dest);
                self.value(*source);
                self.type_use(*ty);
            }
            Kind::UnaryOp { op, dest, source } => {
                self.op(Class::UnaryOp, *op);
                self.dest(*dest);
                self.value(*source);
            }
            Kind::BinaryOp { op, dest, left, right } => {
                self.op(Class::BinaryOp, *op);
                self.dest(*dest);
                self.value(*left);
                self.value(*right);
            }
            Kind::Cast { dest, source, source_type, target_type } => {
                self.dest(*dest);
                self.value(*source);
                self.type_use(*source_type);
                self.type_use(*target_type);
            }
            Kind::Nop => {}
            Kind::AssertEq { left, right } => {
                self.value(*left);
                self.value(*right);
            }
            Kind::HeapAllocCells { dest, cells } => {
                self.dest(*dest);
                self.value(*cells);
            }
            _ => self.outer_kind(kind),
        }
    }

    /// The kinds that have to do with other blocks, other functions and places.
    fn outer_kind(&mut self, kind: &Kind) {
        match kind {
            Kind::Call(call) => self.call(call),
            Kind::Load { dest, place, ty } => {
                self.dest(*dest);
                self.place(place);
                self.type_use(*ty);
            }
            Kind::Store { place, value, ty } => {
                self.place(place);
                self.value(*value);
                self.type_use(*ty);
            }
            Kind::Debug { message, values } => {
                self.plain(*message, 4);
                self.values(values);
            }
            Kind::Phi { dest, ty, sources } => {
                self.dest(*dest);
                self.type_use(*ty);
                self.list(sources, |out, (block, value)| {
                    out.block_use(*block);
                    out.value(*value);
                });
            }
            _ => self.aggregate_kind(kind),
        }
    }

    /// The kinds that build, read and change aggregates.
    fn aggregate_kind(&mut self, kind: &Kind) {
        match kind {
            Kind::MakeTuple { dest, elements } => {
                self.dest(*dest);
                self.values(elements);
            }
            Kind::MakeStruct { dest, fields, struct_ty } => {
                self.dest(*dest);
                self.list(fields, |out, (name, value)| {
                    out.name(*name);
                    out.value(*value);
                });
                self.type_use(*struct_ty);
            }
            Kind::MakeFixedArray { dest, elements, element_ty, .. } => {
                self.dest(*dest);
                self.values(elements);
                self.type_use(*element_ty);
            }
            _ => self.part_kind(kind),
        }
    }

    /// The kinds that read or change one part.
    fn part_kind(&mut self, kind: &Kind) {
        match kind {
            Kind::ExtractTupleElement { dest, tuple, index, element_ty } => {
                self.dest(*dest);
                self.value(*tuple);
                self.plain(*index, 4);
                self.type_use(*element_ty);
            }
            Kind::ExtractStructField { dest, struct_val, field_name, field_ty } => {
                self.dest(*dest);
                self.value(*struct_val);
                self.name(*field_name);
                self.type_use(*field_ty);
            }
            Kind::InsertField(insert) => {
                self.dest(insert.dest);
                self.value(insert.struct_val);
                self.name(insert.field_name);
                self.value(insert.new_value);
                self.type_use(insert.struct_ty);
            }
            Kind::InsertTuple(insert) => {
                self.dest(insert.dest);
                self.value(insert.tuple_val);
                self.plain(insert.index, 4);
                self.value(insert.new_value);
                self.type_use(insert.tuple_ty);
            }
            _ => unreachable!("the other kinds have arms above"),
        }
    }

    fn call(&mut self, call: &Call) {
        self.list(&call.dests, |out, d| out.dest(*d));
        self.plain(call.callee, 2);
        self.values(&call.args);
        self.list(&call.param_types, |out, ty| out.type_use(*ty));
        self.counted(Class::ReturnCount, &call.return_types, |out, ty| out.type_use(*ty));
    }

    fn terminator(&mut self, terminator: &Terminator) {
        let kind = |out: &mut Self, n| out.put(Class::TerminatorKind, n, 1);
        match terminator {
            Terminator::Jump(target) => {
                kind(self, 0);
                self.block_use(*target);
            }
            Terminator::If { condition, then_target, else_target } => {
                kind(self, 1);
                self.value(*condition);
                self.block_use(*then_target);
                self.block_use(*else_target);
            }
            Terminator::BranchCmp { op, left, right, then_target, else_target } => {
                kind(self, 2);
                self.op(Class::BinaryOp, *op);
                self.value(*left);
                self.value(*right);
                self.block_use(*then_target);
                self.block_use(*else_target);
            }
            Terminator::Return(values) => {
                kind(self, 3);
                self.values(values);
            }
            Terminator::Unreachable => kind(self, 4),
        }
    }
}
