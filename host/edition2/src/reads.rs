//! What a kept instruction reads, in byte order, and may read instead.

use oracle::form::*;

/// Puts another value for each that the instruction reads, left to right; "the base of a kept Store" is
/// none of them, and a phi's sources are none.
pub fn each<E>(kind: &mut Kind, mut other: impl FnMut(Value) -> Result<Value, E>) -> Result<(), E> {
    let mut put = |value: &mut Value| -> Result<(), E> {
        *value = other(*value)?;
        Ok(())
    };
    match kind {
        Kind::Nop | Kind::Phi { .. } => Ok(()),
        Kind::Assign { source, .. }
        | Kind::UnaryOp { source, .. }
        | Kind::Cast { source, .. }
        | Kind::HeapAllocCells { cells: source, .. }
        | Kind::ExtractTupleElement { tuple: source, .. }
        | Kind::ExtractStructField { struct_val: source, .. } => put(source),
        Kind::BinaryOp { left, right, .. } | Kind::AssertEq { left, right } => {
            put(left)?;
            put(right)
        }
        Kind::InsertField(insert) => {
            put(&mut insert.struct_val)?;
            put(&mut insert.new_value)
        }
        Kind::InsertTuple(insert) => {
            put(&mut insert.tuple_val)?;
            put(&mut insert.new_value)
        }
        Kind::Call(call) => call.args.iter_mut().try_for_each(put),
        Kind::Debug { values, .. }
        | Kind::MakeTuple { elements: values, .. }
        | Kind::MakeFixedArray { elements: values, .. } => values.iter_mut().try_for_each(put),
        Kind::MakeStruct { fields, .. } => fields.iter_mut().try_for_each(|(_, v)| put(v)),
        Kind::Load { place, .. } => {
            let mut base = Value::Operand(place.base);
            put(&mut base)?;
            if let Value::Operand(v) = base {
                place.base = v;
            }
            indices(place).try_for_each(put)
        }
        Kind::Store { place, value, .. } => {
            indices(place).try_for_each(&mut put)?;
            put(value)
        }
    }
}

fn indices(place: &mut Place) -> impl Iterator<Item = &mut Value> {
    place.projections.iter_mut().filter_map(|projection| match projection {
        Projection::Index(value) => Some(value),
        _ => None,
    })
}
