//! Routines at and just below every most.

use oracle::form::*;

use crate::rng::Rng;
use crate::tables;
use crate::wild::{self, Scale};

/// A routine with some of its counts at their most, or one below.
pub fn routine(rng: &mut Rng) -> Routine {
    match rng.below(30) {
        0 => largest(),
        1..=2 => swelling(rng),
        _ => wide(rng),
    }
}

/// A wild routine near some of its mosts.
fn wide(rng: &mut Rng) -> Routine {
    let rows = near_or(rng, most::TYPES, 10);
    let types = match rng.below(4) {
        0 => {
            let width = rng.pick(&[most::LIST - 1, most::LIST]);
            tables::deep(rows, width)
        }
        1 => tables::any(rng, rows, true),
        _ => tables::any(rng, rows, false),
    };
    let next = near_or(rng, most::NEXT_VALUE, 40);
    let in_block = blocks(rng);
    let wide = rng.chance(40);
    wild::routine(rng, Scale { types, next, in_block, wide })
}

/// The most or one below, or else a small number.
fn near_or(rng: &mut Rng, most: usize, small: usize) -> usize {
    match rng.below(4) {
        0 => most,
        1 => most - 1,
        _ => rng.within(1, small),
    }
}

/// Instruction counts: a block at its most, many blocks, or all instructions there can be.
fn blocks(rng: &mut Rng) -> Vec<usize> {
    let half = most::IN_BLOCK;
    match rng.below(7) {
        0 => vec![half],
        1 => vec![half, half],
        2 => vec![half - 1, half, 1],
        3 => vec![most::IN_ALL / most::BLOCKS; most::BLOCKS],
        4 => vec![0; most::BLOCKS],
        5 => vec![1; most::BLOCKS - 1],
        _ => (0..rng.within(1, most::BLOCKS)).map(|_| rng.below(8)).collect(),
    }
}

/// The routine of the most bytes: structs of 16 fields, every value recorded, and in each of 32
/// blocks eight Calls of 16 literals, with span, expression id and comment.
pub fn largest() -> Routine {
    let row = |own: u16| {
        let width = if own == 0 { 0 } else { most::LIST as u16 };
        let fields = (0..width).map(|name| (NameNo(name), TypeNo(own - 1))).collect();
        Type::Struct { name: NameNo(own), fields }
    };
    let last = TypeNo(most::TYPES as u16 - 1);
    let literals = vec![Value::Integer(u32::MAX); most::LIST];
    let beside = Meta {
        span: Some((u32::MAX, u32::MAX)),
        expression: Some((u32::MAX, u64::MAX)),
        comment: Some(u32::MAX),
    };
    let call = |value: usize| Instruction {
        meta: beside,
        kind: Kind::Call(Call {
            dests: vec![ValueNo(value as u16)],
            callee: u16::MAX,
            args: literals.clone(),
            param_types: vec![last; most::LIST],
            return_types: vec![last],
        }),
    };
    let values: Vec<usize> = (0..most::IN_ALL).collect();
    let block = |values: &[usize]| Block {
        instructions: values.iter().map(|v| call(*v)).collect(),
        terminator: Terminator::Return(literals.clone()),
    };
    Routine {
        types: (0..most::TYPES as u16).map(row).collect(),
        entry: BlockNo(most::BLOCKS as u16 - 1),
        parameters: Vec::new(),
        recorded: vec![Some(last); most::NEXT_VALUE],
        blocks: values.chunks(most::IN_ALL / most::BLOCKS).map(block).collect(),
    }
}

/// Calls that each need a tracked tuple many times: the output is far larger than the input.
fn swelling(rng: &mut Rng) -> Routine {
    let width = rng.within(1, 8);
    let args = rng.within(most::LIST - 1, most::LIST);
    let calls = rng.pick(&[20, most::IN_BLOCK - 2, most::IN_BLOCK - 1]);
    let tuple = TypeNo(1);
    let block = |dest: ValueNo| {
        let build = Kind::MakeTuple { dest, elements: vec![Value::Integer(dest.0.into()); width] };
        let call = Kind::Call(Call {
            dests: Vec::new(),
            callee: 0,
            args: vec![Value::Operand(dest); args],
            param_types: vec![tuple; args],
            return_types: Vec::new(),
        });
        let kinds = [build].into_iter().chain(vec![call; calls]);
        Block {
            instructions: kinds.map(Instruction::plain).collect(),
            terminator: Terminator::Return(vec![Value::Operand(dest); most::LIST]),
        }
    };
    Routine {
        types: vec![Type::Felt, Type::Tuple(vec![TypeNo(0); width])],
        entry: BlockNo(0),
        parameters: Vec::new(),
        recorded: vec![Some(tuple); 2],
        blocks: vec![block(ValueNo(0)), block(ValueNo(1))],
    }
}

#[cfg(test)]
mod tests {
    use super::*;
    use oracle::{read, run_oracle, write, Outcome, Settings, LENT};

    /// 4,841 bytes of types and values, 256 Calls of 148, 32 counts and Returns of 84.
    #[test]
    fn the_largest_is_read() {
        let bytes = write(&largest());
        assert_eq!(bytes.len(), 4_841 + 256 * 148 + 32 * 84);
        assert_eq!(read(&bytes), Ok(largest()));
    }

    /// "The output may pass these", and the lent length too.
    #[test]
    fn swelling_routines_pass_what_the_program_lends() {
        let bytes: Vec<Vec<u8>> = (0..40).map(|n| write(&swelling(&mut Rng::new(n)))).collect();
        let outcomes = bytes.iter().map(|b| run_oracle(b, Settings::default(), LENT));
        let refused = outcomes.filter(|o| matches!(o, Outcome::Refused(r) if r.number == 11));
        assert!(refused.count() > 5);
    }
}
