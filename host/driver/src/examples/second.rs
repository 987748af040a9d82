//! Routines of which edition 2 makes something else than edition 1.

use oracle::form::*;

use super::draft::*;

/// `let pair = (1, 2); (pair, pair)`: the pair is built again for each time that it is read.
pub fn returned_twice() -> Routine {
    let types = [pair_types(), vec![Type::Tuple(vec![PAIR, PAIR])]].concat();
    let kinds = vec![tuple(0, integers([1, 2])), tuple(1, vec![value(0), value(0)])];
    routine(types, &[PAIR, TypeNo(2)], vec![block(kinds, returned(1))])
}

/// The pair, loaded whole: a Load without steps is not forwarded, and reads its base.
pub fn loaded_whole() -> Routine {
    let whole = Kind::Load { dest: ValueNo(1), place: place(0, Vec::new()), ty: PAIR };
    let kinds = vec![tuple(0, integers([7, 8])), whole];
    routine(pair_types(), &[PAIR, PAIR], vec![block(kinds, returned(1))])
}

/// A pair is stored over another, whole: a Store without steps is not forwarded. What it stores is built
/// again, its base is not.
pub fn stored_whole() -> Routine {
    let kinds = vec![
        tuple(0, integers([7, 8])),
        tuple(1, integers([9, 10])),
        store(place(0, Vec::new()), value(1), PAIR),
    ];
    routine(pair_types(), &[PAIR, PAIR], vec![block(kinds, Terminator::Return(Vec::new()))])
}

/// `let one = (one,); one`.
pub fn its_own_part() -> Routine {
    let types = vec![Type::Felt, Type::Tuple(vec![FELT])];
    routine(types, &[TypeNo(1)], vec![block(vec![tuple(0, vec![value(0)])], returned(0))])
}
