//! Damage that bytes alone seldom make: a routine with a thing wrong in its structure.

use oracle::form::*;

use crate::rng::Rng;

/// Does one thing, where the routine has room for it.
pub fn damage(rng: &mut Rng, routine: &mut Routine) {
    let all: [fn(&mut Rng, &mut Routine); 14] = [
        repeat_type,
        repeat_type,
        repeat_field_name,
        forward_part,
        too_many_types,
        too_many_values,
        too_many_blocks,
        too_many_in_block,
        too_many_in_all,
        long_list,
        many_projections,
        define_twice,
        late_phi,
        call_counts,
    ];
    rng.pick(&all)(rng, routine);
}

/// A type equal to an earlier one, in the table or at its end.
fn repeat_type(rng: &mut Rng, routine: &mut Routine) {
    if routine.types.is_empty() {
        return;
    }
    let from = rng.below(routine.types.len());
    let row = routine.types[from].clone();
    if rng.chance(50) {
        routine.types.push(row);
    } else {
        let to = rng.within(from, routine.types.len() - 1);
        routine.types[to] = row;
    }
}

/// A field name twice in a struct.
fn repeat_field_name(rng: &mut Rng, routine: &mut Routine) {
    for ty in &mut routine.types {
        if let Type::Struct { fields, .. } = ty {
            if fields.len() > 1 && rng.chance(60) {
                let (from, to) = (rng.below(fields.len()), rng.below(fields.len()));
                fields[to].0 = fields[from].0;
                return;
            }
        }
    }
}

/// A part that is not above its row.
fn forward_part(rng: &mut Rng, routine: &mut Routine) {
    if routine.types.is_empty() {
        return;
    }
    let own = rng.below(routine.types.len());
    let part = TypeNo((own + rng.below(2)) as u16);
    match &mut routine.types[own] {
        Type::Tuple(parts) => parts.push(part),
        Type::Struct { fields, .. } => fields.push((NameNo(900), part)),
        Type::FixedArray { element, .. } | Type::Pointer(element) => *element = part,
        Type::Function { result, .. } => *result = part,
        _ => {}
    }
}

fn too_many_types(_: &mut Rng, routine: &mut Routine) {
    let mut name = 1000;
    while routine.types.len() <= most::TYPES {
        routine.types.push(Type::Struct { name: NameNo(name), fields: Vec::new() });
        name += 1;
    }
}

fn too_many_values(_: &mut Rng, routine: &mut Routine) {
    routine.recorded.resize(most::NEXT_VALUE + 1, None);
}

fn too_many_blocks(_: &mut Rng, routine: &mut Routine) {
    let empty = Block { instructions: Vec::new(), terminator: Terminator::Unreachable };
    routine.blocks.resize(most::BLOCKS + 1, empty);
}

fn too_many_in_block(rng: &mut Rng, routine: &mut Routine) {
    let nop = Instruction::plain(Kind::Nop);
    some_block(rng, routine).instructions.resize(most::IN_BLOCK + 1, nop);
}

/// Blocks of 100 until the sum passes 256.
fn too_many_in_all(_: &mut Rng, routine: &mut Routine) {
    for block in &mut routine.blocks {
        let count = block.instructions.len().max(100);
        block.instructions.resize(count, Instruction::plain(Kind::Nop));
    }
    while routine.blocks.len() < 3 {
        let last = routine.blocks.last().expect("a routine has a block").terminator.clone();
        let instructions = vec![Instruction::plain(Kind::Nop); 100];
        routine.blocks.push(Block { instructions, terminator: last });
    }
}

/// One value more than a list may hold.
fn long_list(rng: &mut Rng, routine: &mut Routine) {
    let long = vec![Value::Unit; most::LIST + 1];
    let block = some_block(rng, routine);
    let at = rng.below(block.instructions.len() + 1);
    match block.instructions.get_mut(at).map(|i| &mut i.kind) {
        Some(Kind::MakeTuple { elements, .. } | Kind::MakeFixedArray { elements, .. }) => {
            *elements = long;
        }
        Some(Kind::MakeStruct { fields, .. }) => {
            *fields = vec![(NameNo(1), Value::Unit); most::LIST + 1];
        }
        Some(Kind::Call(call)) => call.args = long,
        Some(Kind::Debug { values, .. }) => *values = long,
        Some(Kind::Phi { sources, .. }) => {
            *sources = vec![(BlockNo(0), Value::Unit); most::LIST + 1];
        }
        _ => block.terminator = Terminator::Return(long),
    }
}

fn many_projections(rng: &mut Rng, routine: &mut Routine) {
    let count = rng.within(most::PROJECTIONS, most::PROJECTIONS + 1);
    for instruction in routine.blocks.iter_mut().flat_map(|b| &mut b.instructions) {
        if let Kind::Load { place, .. } | Kind::Store { place, .. } = &mut instruction.kind {
            place.projections = vec![Projection::Tuple(1); count];
            return;
        }
    }
}

/// Gives one definition the value of another.
fn define_twice(rng: &mut Rng, routine: &mut Routine) {
    let mut values: Vec<ValueNo> = routine.parameters.clone();
    let mut places: Vec<&mut ValueNo> = routine.parameters.iter_mut().collect();
    for instruction in routine.blocks.iter_mut().flat_map(|b| &mut b.instructions) {
        for dest in instruction.kind.dests_mut() {
            values.push(*dest);
            places.push(dest);
        }
    }
    if values.len() > 1 {
        let (from, to) = (rng.below(values.len()), rng.below(values.len()));
        *places[to] = values[from];
    }
}

/// A phi after another kind.
fn late_phi(rng: &mut Rng, routine: &mut Routine) {
    if routine.types.is_empty() {
        return;
    }
    let dest = ValueNo(routine.recorded.len() as u16);
    routine.recorded.push(None);
    let block = some_block(rng, routine);
    let phi = Kind::Phi { dest, ty: TypeNo(0), sources: Vec::new() };
    let at = rng.below(block.instructions.len() + 1);
    block.instructions.insert(at, Instruction::plain(phi));
}

/// A Call with one dest or one return type too many.
fn call_counts(rng: &mut Rng, routine: &mut Routine) {
    for instruction in routine.blocks.iter_mut().flat_map(|b| &mut b.instructions) {
        if let Kind::Call(call) = &mut instruction.kind {
            match rng.below(3) {
                0 => call.return_types.push(TypeNo(0)),
                1 => drop(call.return_types.pop()),
                _ => drop(call.dests.pop()),
            }
            return;
        }
    }
}

fn some_block<'a>(rng: &mut Rng, routine: &'a mut Routine) -> &'a mut Block {
    let at = rng.below(routine.blocks.len());
    &mut routine.blocks[at]
}
