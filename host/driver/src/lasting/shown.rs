//! What an output of a routine with neither reason 1 nor 2 may show.

use oracle::form::*;

use super::judge::Lowered;

/// Something that an output shows, with whether edition 1 has it too.
pub struct Case {
    pub name: &'static str,
    pub first: bool,
    pub shows: fn(&Lowered) -> bool,
}

const fn case(name: &'static str, shows: fn(&Lowered) -> bool) -> Case {
    Case { name, first: true, shows }
}

/// One that edition 2 alone has.
const fn second(name: &'static str, shows: fn(&Lowered) -> bool) -> Case {
    Case { name, first: false, shows }
}

pub const CASES: [Case; 15] = [
    case("as it was", |l| l.output == l.original),
    case("changed", |l| l.output != l.original),
    case("rebuilds", |l| l.output.recorded.len() > l.original.recorded.len()),
    case("next value above 256", |l| l.output.recorded.len() > most::NEXT_VALUE),
    case("over 128 in a block", |l| {
        l.output.blocks.iter().any(|block| block.instructions.len() > most::IN_BLOCK)
    }),
    case("an empty struct rebuilt", |l| {
        fresh_kinds(l)
            .any(|kind| matches!(kind, Kind::MakeStruct { fields, .. } if fields.is_empty()))
    }),
    case("a tracked array loaded", loads_tracked_array),
    case("a block is skipped", |l| l.output != l.original && skips(&l.original)),
    case("a Debug", |l| kinds(&l.output).any(|kind| matches!(kind, Kind::Debug { .. }))),
    second("a Debug of a rebuild", |l| {
        kinds(&l.output).any(|kind| match kind {
            Kind::Debug { values, .. } => values.iter().any(|value| is_fresh(l, *value)),
            _ => false,
        })
    }),
    second("an AssertEq of rebuilds", |l| {
        kinds(&l.output).any(|kind| match kind {
            Kind::AssertEq { left, right } => is_fresh(l, *left) && is_fresh(l, *right),
            _ => false,
        })
    }),
    second("a Load of a rebuild", |l| {
        kinds(&l.output).any(|kind| match kind {
            Kind::Load { place, .. } => is_fresh(l, Value::Operand(place.base)),
            _ => false,
        })
    }),
    case("reason 3", |l| l.reason == 3),
    case("reason 4", |l| l.reason == 4),
    case("reason 5", |l| l.reason == 5),
];

fn kinds(routine: &Routine) -> impl Iterator<Item = &Kind> {
    routine.instructions().map(|i| &i.kind)
}

/// Whether the input has no such value.
fn is_fresh(lowered: &Lowered, value: Value) -> bool {
    matches!(value, Value::Operand(own) if own.index() >= lowered.original.recorded.len())
}

/// What defines fresh values.
fn fresh_kinds(lowered: &Lowered) -> impl Iterator<Item = &Kind> {
    let fresh = |dest: &ValueNo| is_fresh(lowered, Value::Operand(*dest));
    kinds(&lowered.output).filter(move |kind| kind.dests().iter().any(fresh))
}

/// A Load of an array is left out, so that it ends at a tracked one.
fn loads_tracked_array(lowered: &Lowered) -> bool {
    let dropped = shelf::dropped(&lowered.original, &lowered.output);
    kinds(&lowered.original).any(|kind| match kind {
        Kind::Load { dest, ty, .. } => {
            let row = lowered.original.row(Some(*ty));
            matches!(row, Some(Type::FixedArray { .. })) && dropped.contains(dest)
        }
        _ => false,
    })
}

/// "A block with a tuple or struct phi is skipped".
fn skips(routine: &Routine) -> bool {
    kinds(routine).any(|kind| match kind {
        Kind::Phi { dest, .. } => {
            let row = routine.row(routine.recorded_type(*dest));
            matches!(row, Some(Type::Tuple(_) | Type::Struct { .. }))
        }
        _ => false,
    })
}
