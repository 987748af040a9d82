//! What instructions and terminators read and define.

use std::slice;

use crate::form::*;

/// The table of what each kind defines, written once for lending and for changing: how one value, a
/// Call's list and no value become a slice.
macro_rules! dests_of {
    ($kind:expr, $one:path, $list:ident, $none:expr) => {
        match $kind {
            Kind::Call(Call { dests, .. }) => dests.$list(),
            Kind::InsertField(InsertField { dest, .. })
            | Kind::InsertTuple(InsertTuple { dest, .. })
            | Kind::Assign { dest, .. }
            | Kind::UnaryOp { dest, .. }
            | Kind::BinaryOp { dest, .. }
            | Kind::Cast { dest, .. }
            | Kind::Load { dest, .. }
            | Kind::Phi { dest, .. }
            | Kind::MakeTuple { dest, .. }
            | Kind::ExtractTupleElement { dest, .. }
            | Kind::MakeStruct { dest, .. }
            | Kind::ExtractStructField { dest, .. }
            | Kind::MakeFixedArray { dest, .. }
            | Kind::HeapAllocCells { dest, .. } => $one(dest),
            Kind::Store { .. } | Kind::Debug { .. } | Kind::Nop | Kind::AssertEq { .. } => $none,
        }
    };
}

impl Place {
    /// The base, then the Index values.
    pub fn values(&self) -> Vec<Value> {
        let index = |projection: &Projection| match projection {
            Projection::Index(value) => Some(*value),
            _ => None,
        };
        let indices = self.projections.iter().filter_map(index);
        [Value::Operand(self.base)].into_iter().chain(indices).collect()
    }
}

impl Kind {
    /// The values that stand in it; the base of a place counts, a Store's too.
    pub fn values(&self) -> Vec<Value> {
        match self {
            Kind::Nop => Vec::new(),
            Kind::Assign { source, .. }
            | Kind::UnaryOp { source, .. }
            | Kind::Cast { source, .. } => vec![*source],
            Kind::BinaryOp { left, right, .. } | Kind::AssertEq { left, right } => {
                vec![*left, *right]
            }
            Kind::Call(call) => call.args.clone(),
            Kind::Load { place, .. } => place.values(),
            Kind::Store { place, value, .. } => {
                place.values().into_iter().chain([*value]).collect()
            }
            Kind::Debug { values, .. } => values.clone(),
            Kind::Phi { sources, .. } => sources.iter().map(|(_, value)| *value).collect(),
            Kind::MakeTuple { elements, .. } | Kind::MakeFixedArray { elements, .. } => {
                elements.clone()
            }
            Kind::MakeStruct { fields, .. } => fields.iter().map(|(_, value)| *value).collect(),
            Kind::ExtractTupleElement { tuple, .. } => vec![*tuple],
            Kind::ExtractStructField { struct_val, .. } => vec![*struct_val],
            Kind::InsertField(insert) => vec![insert.struct_val, insert.new_value],
            Kind::InsertTuple(insert) => vec![insert.tuple_val, insert.new_value],
            Kind::HeapAllocCells { cells, .. } => vec![*cells],
        }
    }

    /// The values that it defines.
    pub fn dests(&self) -> &[ValueNo] {
        dests_of!(self, slice::from_ref, as_slice, &[])
    }

    /// The values that it defines, to be changed.
    pub fn dests_mut(&mut self) -> &mut [ValueNo] {
        dests_of!(self, slice::from_mut, as_mut_slice, &mut [])
    }
}

impl Terminator {
    /// The values that stand in it.
    pub fn values(&self) -> Vec<Value> {
        match self {
            Terminator::Jump(_) | Terminator::Unreachable => Vec::new(),
            Terminator::If { condition, .. } => vec![*condition],
            Terminator::BranchCmp { left, right, .. } => vec![*left, *right],
            Terminator::Return(values) => values.clone(),
        }
    }
}
