//! Routines for what made ones seldom show.

use oracle::form::*;

use crate::examples::draft::*;

pub fn all() -> [(&'static str, Routine); 3] {
    [
        ("an array that is loaded", array_loaded()),
        ("an empty struct", empty_returned()),
        ("a skipped block", skipped()),
    ]
}

/// `let rows = [row]; rows[0] = [1, 2]; rows[0]`: the Load ends at the array that was stored.
fn array_loaded() -> Routine {
    let [row, rows] = [1, 2].map(TypeNo);
    let types = vec![
        Type::Felt,
        Type::FixedArray { element: FELT, size: 2 },
        Type::FixedArray { element: row, size: 1 },
    ];
    let first = || place(1, vec![element(0)]);
    let kinds = vec![
        array(1, vec![value(0)], row),
        array(2, integers([1, 2]), FELT),
        store(first(), value(2), row),
        Kind::Load { dest: ValueNo(3), place: first(), ty: row },
    ];
    of_n(types, &[row, rows, row, row], vec![block(kinds, returned(3))])
}

/// `Empty {}`
fn empty_returned() -> Routine {
    let empty = TypeNo(0);
    let build = Kind::MakeStruct { dest: ValueNo(0), fields: Vec::new(), struct_ty: empty };
    let types = vec![Type::Struct { name: NameNo(0), fields: Vec::new() }];
    routine(types, &[empty], vec![block(vec![build], returned(0))])
}

/// A block that takes a pair apart, and one that would but has a phi of a pair.
fn skipped() -> Routine {
    let apart = |own| vec![tuple(own, integers([1, 2])), part(own + 1, own, 1, FELT)];
    let sources = vec![(BlockNo(0), value(0))];
    let phi = Kind::Phi { dest: ValueNo(3), ty: PAIR, sources };
    let blocks = vec![
        block(apart(1), Terminator::Jump(BlockNo(1))),
        block([vec![phi], apart(4)].concat(), returned(5)),
    ];
    of_n(pair_types(), &[PAIR, PAIR, FELT, PAIR, PAIR, FELT], blocks)
}
