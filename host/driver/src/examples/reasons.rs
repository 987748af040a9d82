//! Routines that do not pass the shelf test, one for each reason; reason 5 has two, and three fail by
//! a Debug.

use oracle::form::*;

use super::draft::*;
use super::passed::{pair, pair_with_debug};

/// The pair with `true` for its second part, which is a Felt.
pub fn other_type() -> Routine {
    let kinds = vec![tuple(0, vec![Value::Integer(7), Value::Boolean(true)]), part(1, 0, 1, FELT)];
    routine(pair_types(), &[PAIR, FELT], vec![block(kinds, returned(1))])
}

/// The pair with its two instructions changed about: the part is read before the build.
pub fn read_ahead() -> Routine {
    let mut routine = pair();
    routine.blocks[0].instructions.reverse();
    routine
}

/// `let rows = [n]; let row = [1, 2]; rows[0] = row; row[0] = 9; rows[0][0]`, which is 1: what is
/// stored is a copy. The pass finds the 9.
pub fn stored_into_part() -> Routine {
    let (row, rows) = (TypeNo(1), TypeNo(2));
    let types = vec![
        Type::Felt,
        Type::FixedArray { element: FELT, size: 2 },
        Type::FixedArray { element: row, size: 1 },
    ];
    let kinds = vec![
        array(1, vec![value(0)], row),
        array(2, integers([1, 2]), FELT),
        store(place(1, vec![element(0)]), value(2), row),
        store(place(2, vec![element(0)]), Value::Integer(9), FELT),
        load(3, place(1, vec![element(0), element(0)])),
    ];
    of_n(types, &[row, rows, row, FELT], vec![block(kinds, returned(3))])
}

/// `let pair = (1, 2); let pairs = [pair, pair]; pairs[0].1 = 9; pairs[1].1`, which is 2. The pass
/// has one pair for both, and finds the 9.
pub fn stored_deep() -> Routine {
    let pairs = TypeNo(2);
    let types = [pair_types(), vec![Type::FixedArray { element: PAIR, size: 2 }]].concat();
    let second = |index| vec![element(index), Projection::Tuple(1)];
    let kinds = vec![
        tuple(0, integers([1, 2])),
        array(1, vec![value(0), value(0)], PAIR),
        store(place(1, second(0)), Value::Integer(9), FELT),
        load(2, place(1, second(1))),
    ];
    routine(types, &[PAIR, pairs, FELT], vec![block(kinds, returned(2))])
}

/// The pair, and an AssertEq of it with itself, for which nothing is built again.
pub fn asserted() -> Routine {
    let mut routine = pair();
    let equal = Kind::AssertEq { left: value(0), right: value(0) };
    routine.blocks[0].instructions.push(Instruction::plain(equal));
    routine
}

/// `let inner = (1, 2); (inner, 3)`: what is built again for the Return reads a dropped value.
pub fn returned_nest() -> Routine {
    let types = [pair_types(), vec![Type::Tuple(vec![PAIR, FELT])]].concat();
    let kinds = vec![tuple(0, integers([1, 2])), tuple(1, vec![value(0), Value::Integer(3)])];
    routine(types, &[PAIR, TypeNo(2)], vec![block(kinds, returned(1))])
}

/// A Debug of the part and of Error.
pub fn debugged_error() -> Routine {
    pair_with_debug(2, vec![value(1), Value::Error])
}

/// A Debug of the part that stands before the part is taken.
pub fn debugged_ahead() -> Routine {
    pair_with_debug(1, vec![value(1)])
}

/// A Debug of the pair, for which nothing is built again.
pub fn debugged_dropped() -> Routine {
    pair_with_debug(2, vec![value(0)])
}
