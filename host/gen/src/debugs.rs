//! Debugs put into a routine: of values that are there to be read, and of others.

use oracle::form::*;

use crate::rng::Rng;

/// Puts some Debugs between the instructions of a routine, as many as it has room for. In every other
/// routine all of them show what is there to be read, in the others some do.
pub fn put(rng: &mut Rng, routine: &mut Routine) {
    let all_careful = rng.chance(50);
    for _ in 0..rng.within(1, 5) {
        let block = rng.below(routine.blocks.len());
        let here = routine.blocks[block].instructions.len();
        if here >= most::IN_BLOCK || routine.instructions().count() >= most::IN_ALL {
            continue;
        }
        let at = rng.within(phis(&routine.blocks[block]), here);
        let careful = all_careful || rng.chance(40);
        let values = shown(rng, routine, (block, at), careful);
        let debug = Kind::Debug { message: rng.number(), values };
        routine.blocks[block].instructions.insert(at, Instruction::plain(debug));
    }
}

/// How many phis stand in front of a block.
pub fn phis(block: &Block) -> usize {
    block.instructions.iter().take_while(|i| matches!(i.kind, Kind::Phi { .. })).count()
}

/// What a Debug at that place shows: literals and scalars that are written there, else anything.
fn shown(
    rng: &mut Rng,
    routine: &Routine,
    (block, at): (usize, usize),
    careful: bool,
) -> Vec<Value> {
    let earlier = &routine.blocks[block].instructions[..at];
    let defined = earlier.iter().flat_map(|i| i.kind.dests());
    let is_scalar =
        |v: &ValueNo| routine.row(routine.recorded_type(*v)).is_some_and(|row| !row.is_aggregate());
    let readable: Vec<ValueNo> = routine.parameters.iter().chain(defined).copied().collect();
    let scalars: Vec<ValueNo> = readable.iter().filter(|v| is_scalar(v)).copied().collect();
    let count = if rng.chance(2) { most::LIST } else { rng.below(4) };
    let mut one = || {
        let choice = rng.below(100);
        match (careful, choice) {
            (true, 0..=79) if !scalars.is_empty() => Value::Operand(rng.pick_late(&scalars)),
            (false, 0..=59) if !readable.is_empty() => Value::Operand(rng.pick_late(&readable)),
            (false, 60..=89) if !routine.recorded.is_empty() => {
                Value::Operand(ValueNo(rng.below(routine.recorded.len()) as u16))
            }
            (false, 97..=99) => Value::Error,
            _ => literal(rng),
        }
    };
    (0..count).map(|_| one()).collect()
}

fn literal(rng: &mut Rng) -> Value {
    match rng.below(4) {
        0 => Value::Boolean(rng.chance(50)),
        1 => Value::Unit,
        _ => Value::Integer(rng.number()),
    }
}
