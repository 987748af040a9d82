//! Routines for the families of their builds; and one without a build.

use oracle::form::*;

use super::draft::*;

fn assign(dest: u16, source: u16, ty: TypeNo) -> Kind {
    Kind::Assign { dest: ValueNo(dest), source: value(source), ty }
}

/// A first block, and a second that returns the value `number`; all values are pairs.
fn returned_elsewhere(kinds: Vec<Kind>, number: u16) -> Routine {
    let recorded = vec![PAIR; kinds.len()];
    let first = block(kinds, Terminator::Jump(BlockNo(1)));
    routine(pair_types(), &recorded, vec![first, block(Vec::new(), returned(number))])
}

/// `let copy = pair; let pair = (7, 8);`, and then `copy`.
pub fn backwards() -> Routine {
    returned_elsewhere(vec![assign(1, 0, PAIR), tuple(0, integers([7, 8]))], 1)
}

/// `let last = changed; let changed = copy with part 0 = 5; let copy = pair; let pair = (7, 8);`, and
/// then `last`.
pub fn backwards_chain() -> Routine {
    let insert = InsertTuple {
        dest: ValueNo(2),
        tuple_val: value(1),
        index: 0,
        new_value: Value::Integer(5),
        tuple_ty: PAIR,
    };
    let kinds = vec![
        assign(3, 2, PAIR),
        Kind::InsertTuple(insert),
        assign(1, 0, PAIR),
        tuple(0, integers([7, 8])),
    ];
    returned_elsewhere(kinds, 3)
}

/// `let pair = (7, 8); let point: Point = pair;`
pub fn other_kind() -> Routine {
    let fields = vec![(NameNo(1), FELT), (NameNo(2), FELT)];
    let types = [pair_types(), vec![Type::Struct { name: NameNo(9), fields }]].concat();
    let point = TypeNo(2);
    let kinds = vec![tuple(0, integers([7, 8])), assign(1, 0, point)];
    routine(types, &[PAIR, point], vec![block(kinds, Terminator::Return(Vec::new()))])
}

/// `n + n`
pub fn scalars() -> Routine {
    of_n(vec![Type::Felt], &[FELT, FELT], vec![block(vec![sum(1, 0, 0)], returned(1))])
}
