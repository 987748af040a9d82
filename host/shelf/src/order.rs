//! Reasons 2 to 5: what is read, changed and dropped where.

use std::collections::BTreeSet;

use oracle::form::*;

use crate::{operand, Dropped};

/// Reason 2: "A block reads a value that it defines there or later, phis .. aside"; Debug's values
/// "count like any other instruction's".
pub fn reads_ahead(routine: &Routine) -> bool {
    routine.blocks.iter().any(block_reads_ahead)
}

fn block_reads_ahead(block: &Block) -> bool {
    let mut ahead: BTreeSet<ValueNo> = BTreeSet::new();
    block.instructions.iter().rev().any(|instruction| {
        ahead.extend(instruction.kind.dests());
        let aside = matches!(instruction.kind, Kind::Phi { .. });
        let mut reads = instruction.kind.values().into_iter().filter_map(operand);
        !aside && reads.any(|v| ahead.contains(&v))
    })
}

/// Reason 3: "An aggregate that is a Store's base is also a build's part, an insert's new value or
/// a Store's value."
pub fn stores_into_part(routine: &Routine) -> bool {
    let parts: BTreeSet<ValueNo> =
        routine.instructions().flat_map(|i| parts(&i.kind)).filter_map(operand).collect();
    routine.instructions().any(|i| match &i.kind {
        Kind::Store { place, .. } => {
            let row = routine.row(routine.recorded_type(place.base));
            row.is_some_and(Type::is_aggregate) && parts.contains(&place.base)
        }
        _ => false,
    })
}

/// What becomes a part of another value.
fn parts(kind: &Kind) -> Vec<Value> {
    match kind {
        Kind::MakeTuple { .. } | Kind::MakeStruct { .. } | Kind::MakeFixedArray { .. } => {
            kind.values()
        }
        Kind::InsertField(insert) => vec![insert.new_value],
        Kind::InsertTuple(insert) => vec![insert.new_value],
        Kind::Store { value, .. } => vec![*value],
        _ => Vec::new(),
    }
}

/// Reason 4: "A Store of two or more projections has a dropped base".
pub fn stores_deep(routine: &Routine, dropped: &Dropped) -> bool {
    routine.instructions().any(|i| match &i.kind {
        Kind::Store { place, .. } => place.projections.len() >= 2 && dropped.contains(&place.base),
        _ => false,
    })
}

/// Reason 5: "The output reads a dropped value", in Debug too.
pub fn reads_dropped(routine: &Routine, dropped: &Dropped) -> bool {
    let kinds = routine.instructions().map(|i| &i.kind);
    let ends = routine.blocks.iter().flat_map(|block| block.terminator.values());
    let mut reads = kinds.flat_map(Kind::values).chain(ends).filter_map(operand);
    reads.any(|v| dropped.contains(&v))
}
