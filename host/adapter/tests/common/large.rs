//! Functions for which the byte form has no room.

use adapter::What;
use mir::{BasicBlockId, ValueId};
use mir::{Instruction, MirFunction, MirType, Place, Projection, SimpleSpan, Terminator, Value};

use super::{felt, of, Draft};

/// Each with what of it is too much.
pub fn too_large() -> Vec<(What, MirFunction)> {
    vec![
        (What::Blocks, blocks(33)),
        (What::Values, values(257)),
        (What::InBlock, instructions(&[129])),
        (What::InAll, instructions(&[100, 100, 57])),
        (What::InList, listed(17)),
        (What::Projections, projected(9)),
        (What::Types, types(65)),
        (What::Types, deep_type(65)),
        (What::Types, deep_type(500)),
        (What::InList, wide_type(17)),
        (What::Number, indexed(1 << 32)),
        (What::Number, spanned(1 << 32)),
        (What::Number, sized(1 << 32)),
        (What::Number, read(ValueId::new(1 << 16))),
        (What::Number, jumping(BasicBlockId::from_raw(1 << 16))),
    ]
}

/// Each at its most.
pub fn just_fitting() -> Vec<MirFunction> {
    vec![
        blocks(32),
        values(256),
        instructions(&[128]),
        instructions(&[100, 100, 56]),
        listed(16),
        projected(8),
        types(64),
        deep_type(64),
        wide_type(16),
        indexed(u32::MAX as usize),
        spanned(u32::MAX as usize),
        sized(u32::MAX as usize),
    ]
}

/// One block with some instructions.
fn block_of(draft: Draft, instructions: Vec<Instruction>) -> MirFunction {
    let mut draft = draft;
    let entry = draft.function.entry_block;
    draft.fill(entry, instructions, Terminator::return_void());
    draft.function
}

fn blocks(count: usize) -> MirFunction {
    let mut draft = Draft::new("blocks");
    for _ in 1..count {
        draft.block();
    }
    draft.function
}

fn values(count: usize) -> MirFunction {
    let mut draft = Draft::new("values");
    for _ in 0..count {
        draft.value(&felt());
    }
    draft.function
}

fn instructions(counts: &[usize]) -> MirFunction {
    let mut function = blocks(counts.len());
    for (block, count) in (&mut function.basic_blocks).into_iter().zip(counts) {
        block.instructions = vec![Instruction::nop(); *count];
    }
    function
}

fn listed(count: usize) -> MirFunction {
    let mut draft = Draft::new("listed");
    let dest = draft.value(&felt());
    block_of(draft, vec![Instruction::make_tuple(dest, vec![Value::unit(); count])])
}

fn projected(count: usize) -> MirFunction {
    let mut draft = Draft::new("projected");
    let [dest, base] = [(); 2].map(|()| draft.value(&felt()));
    let place = Place { base, projections: vec![Projection::Tuple(0); count] };
    block_of(draft, vec![Instruction::load(dest, place, felt())])
}

/// So many structs without fields.
fn types(count: usize) -> MirFunction {
    let mut draft = Draft::new("types");
    for name in 0..count {
        draft.value(&MirType::simple_struct_type(format!("S{name}")));
    }
    draft.function
}

/// A Felt in tuples of one, so many types in all.
fn deep_type(count: usize) -> MirFunction {
    let mut draft = Draft::new("deep_type");
    draft.value(&(1..count).fold(felt(), |ty, _| MirType::tuple(vec![ty])));
    draft.function
}

fn wide_type(count: usize) -> MirFunction {
    let mut draft = Draft::new("wide_type");
    draft.value(&MirType::tuple(vec![felt(); count]));
    draft.function
}

fn indexed(index: usize) -> MirFunction {
    let mut draft = Draft::new("indexed");
    let [dest, tuple] = [(); 2].map(|()| draft.value(&felt()));
    block_of(draft, vec![Instruction::extract_tuple_element(dest, of(tuple), index, felt())])
}

fn spanned(end: usize) -> MirFunction {
    let nop = Instruction::nop().with_span(SimpleSpan { start: 0, end });
    block_of(Draft::new("spanned"), vec![nop])
}

fn sized(size: usize) -> MirFunction {
    let mut draft = Draft::new("sized");
    draft.value(&MirType::FixedArray { element_type: Box::new(felt()), size });
    draft.function
}

fn read(value: ValueId) -> MirFunction {
    let mut draft = Draft::new("read");
    let dest = draft.value(&felt());
    block_of(draft, vec![Instruction::assign(dest, of(value), felt())])
}

fn jumping(target: BasicBlockId) -> MirFunction {
    let mut draft = Draft::new("jumping");
    let entry = draft.function.entry_block;
    draft.fill(entry, Vec::new(), Terminator::jump(target));
    draft.function
}
