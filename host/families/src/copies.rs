//! The copies of a block.

use oracle::form::{Block, Kind, Routine, Type, Value, ValueNo};

/// An insert into a value, or an Assign of one at the type of an aggregate.
#[derive(Debug, Clone)]
pub struct Copy {
    /// Its place in the block.
    pub at: usize,
    pub source: ValueNo,
    pub dest: ValueNo,
    /// The kind byte of the type that an Assign names.
    pub named: Option<u8>,
}

/// All copies of a block, in order. Literals and Error are no sources.
pub fn copies(routine: &Routine, block: &Block) -> Vec<Copy> {
    let copy = |(at, kind)| {
        let (source, dest, named) = copied(routine, kind)?;
        let Value::Operand(source) = source else {
            return None;
        };
        Some(Copy { at, source, dest, named })
    };
    block.instructions.iter().map(|i| &i.kind).enumerate().filter_map(copy).collect()
}

/// What an instruction copies, where it puts it, and the kind that it names.
fn copied(routine: &Routine, kind: &Kind) -> Option<(Value, ValueNo, Option<u8>)> {
    match kind {
        Kind::InsertTuple(insert) => Some((insert.tuple_val, insert.dest, None)),
        Kind::InsertField(insert) => Some((insert.struct_val, insert.dest, None)),
        Kind::Assign { dest, source, ty } => {
            let named = routine.row(Some(*ty)).filter(|row| row.is_aggregate()).map(Type::byte);
            named.map(|kind| (*source, *dest, Some(kind)))
        }
        _ => None,
    }
}
