//! Well-typed routines with a twist: values read where they do not reach, blocks entered from
//! anywhere, instructions moved and left out. Types still agree, as a rule.

use oracle::form::*;

use crate::debugs::phis;
use crate::rng::Rng;
use crate::tables::{BOOL, FELT, U32};

/// Changes a typed routine in a few places.
pub fn twist(rng: &mut Rng, routine: &mut Routine) {
    for _ in 0..rng.within(1, 4) {
        match rng.below(10) {
            0..=3 => read_another(rng, routine),
            4..=5 => go_elsewhere(rng, routine),
            6 => leave_out(rng, routine),
            7 => exchange(rng, routine),
            8 => show(rng, routine),
            _ => routine.entry = any_block(rng, routine),
        }
    }
}

fn any_block(rng: &mut Rng, routine: &Routine) -> BlockNo {
    BlockNo(rng.below(routine.blocks.len()) as u16)
}

/// Some instruction behind the phis of its block, by block and place.
fn some_instruction(rng: &mut Rng, routine: &Routine) -> Option<(usize, usize)> {
    let block = any_block(rng, routine).index();
    let instructions = &routine.blocks[block].instructions;
    let phis = phis(&routine.blocks[block]);
    (phis < instructions.len()).then(|| (block, rng.within(phis, instructions.len() - 1)))
}

/// Any value that is recorded at `ty`, defined or not.
fn alike(rng: &mut Rng, routine: &Routine, ty: Option<TypeNo>) -> Option<ValueNo> {
    let same = |(_, own): &(usize, &Option<TypeNo>)| **own == ty && ty.is_some();
    let values: Vec<usize> =
        routine.recorded.iter().enumerate().filter(same).map(|(v, _)| v).collect();
    rng.pick_some(&values).map(|v| ValueNo(v as u16))
}

/// Another operand of the same type in place of one.
fn read_another(rng: &mut Rng, routine: &mut Routine) {
    let block = any_block(rng, routine).index();
    let mut values = 0;
    each_operand(&mut routine.blocks[block], &mut |_| values += 1);
    if values == 0 {
        return;
    }
    let (chosen, mut at, mut old) = (rng.below(values), 0, None);
    each_operand(&mut routine.blocks[block], &mut |v| {
        if at == chosen {
            old = Some(*v);
        }
        at += 1;
    });
    let ty = old.and_then(|v| routine.recorded_type(v));
    let Some(new) = alike(rng, routine, ty) else {
        return;
    };
    at = 0;
    each_operand(&mut routine.blocks[block], &mut |v| {
        if at == chosen {
            *v = new;
        }
        at += 1;
    });
}

fn go_elsewhere(rng: &mut Rng, routine: &mut Routine) {
    let target = any_block(rng, routine);
    let block = any_block(rng, routine).index();
    match &mut routine.blocks[block].terminator {
        Terminator::Jump(to) => *to = target,
        Terminator::If { then_target, .. } | Terminator::BranchCmp { then_target, .. } => {
            *then_target = target;
        }
        other => *other = Terminator::Jump(target),
    }
}

/// Nothing in place of an instruction: what it defined stays unwritten.
fn leave_out(rng: &mut Rng, routine: &mut Routine) {
    if let Some((block, at)) = some_instruction(rng, routine) {
        routine.blocks[block].instructions[at].kind = Kind::Nop;
    }
}

/// Two instructions exchanged, of two blocks or of one.
fn exchange(rng: &mut Rng, routine: &mut Routine) {
    let places = (some_instruction(rng, routine), some_instruction(rng, routine));
    if let (Some((a, i)), Some((b, k))) = places {
        let first = routine.blocks[a].instructions[i].clone();
        let second = std::mem::replace(&mut routine.blocks[b].instructions[k], first);
        routine.blocks[a].instructions[i] = second;
    }
}

/// A Call with some values in place of an instruction that defines nothing or a scalar.
fn show(rng: &mut Rng, routine: &mut Routine) {
    let Some((block, at)) = some_instruction(rng, routine) else {
        return;
    };
    let scalar = [FELT, BOOL, U32].map(Some);
    let dests = routine.blocks[block].instructions[at].kind.dests().to_vec();
    if dests.iter().any(|v| !scalar.contains(&routine.recorded_type(*v))) {
        return;
    }
    let count = rng.within(1, 3);
    let shown = (0..count).map(|_| ValueNo(rng.below(routine.recorded.len().max(1)) as u16));
    let shown: Vec<(Value, TypeNo)> =
        shown.filter_map(|v| routine.recorded_type(v).map(|ty| (Value::Operand(v), ty))).collect();
    let (args, param_types) = shown.into_iter().unzip();
    let return_types = dests.iter().filter_map(|v| routine.recorded_type(*v)).collect();
    let call = Call { dests, callee: 9, args, param_types, return_types };
    routine.blocks[block].instructions[at].kind = Kind::Call(call);
}

/// Calls `change` with each operand of a block, in order; phis and the terminator too.
fn each_operand(block: &mut Block, change: &mut impl FnMut(&mut ValueNo)) {
    for instruction in &mut block.instructions {
        each_in_kind(&mut instruction.kind, change);
    }
    match &mut block.terminator {
        Terminator::If { condition, .. } => each_in([condition], change),
        Terminator::BranchCmp { left, right, .. } => each_in([left, right], change),
        Terminator::Return(values) => each_in(values, change),
        Terminator::Jump(_) | Terminator::Unreachable => {}
    }
}

fn each_in<'v>(
    values: impl IntoIterator<Item = &'v mut Value>,
    change: &mut impl FnMut(&mut ValueNo),
) {
    for value in values {
        if let Value::Operand(v) = value {
            change(v);
        }
    }
}

fn each_in_place(place: &mut Place, change: &mut impl FnMut(&mut ValueNo)) {
    change(&mut place.base);
    for projection in &mut place.projections {
        if let Projection::Index(value) = projection {
            each_in([value], change);
        }
    }
}

fn each_in_kind(kind: &mut Kind, change: &mut impl FnMut(&mut ValueNo)) {
    match kind {
        Kind::Nop => {}
        Kind::Assign { source, .. }
        | Kind::UnaryOp { source, .. }
        | Kind::Cast { source, .. }
        | Kind::ExtractTupleElement { tuple: source, .. }
        | Kind::ExtractStructField { struct_val: source, .. }
        | Kind::HeapAllocCells { cells: source, .. } => each_in([source], change),
        Kind::BinaryOp { left, right, .. } | Kind::AssertEq { left, right } => {
            each_in([left, right], change);
        }
        Kind::Call(call) => each_in(&mut call.args, change),
        Kind::Load { place, .. } => each_in_place(place, change),
        Kind::Store { place, value, .. } => {
            each_in_place(place, change);
            each_in([value], change);
        }
        Kind::Debug { values, .. } => each_in(values, change),
        Kind::Phi { sources, .. } => each_in(sources.iter_mut().map(|(_, v)| v), change),
        Kind::MakeTuple { elements, .. } | Kind::MakeFixedArray { elements, .. } => {
            each_in(elements, change);
        }
        Kind::MakeStruct { fields, .. } => each_in(fields.iter_mut().map(|(_, v)| v), change),
        Kind::InsertField(insert) => {
            each_in([&mut insert.struct_val, &mut insert.new_value], change);
        }
        Kind::InsertTuple(insert) => {
            each_in([&mut insert.tuple_val, &mut insert.new_value], change);
        }
    }
}
