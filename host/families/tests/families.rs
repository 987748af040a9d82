//! Families of small routines, by hand; and what holds of the families of made ones.

use std::collections::{BTreeMap, BTreeSet};

use families::{families, Family};
use gen::{of_sort, Rng, Sort};
use oracle::form::*;
use oracle::{from_hex, read};

fn routine(hex: &str) -> Routine {
    read(&from_hex(hex).expect("it is hexadecimal")).expect("it is a routine")
}

/// Block, instruction, dest, members, turns and flag of each build.
type Row = (usize, usize, u16, Vec<u16>, usize, bool);

fn rows(routine: &Routine) -> Vec<Row> {
    let row = |family: &Family| {
        let members = family.members.iter().map(|v| v.0).collect();
        let Family { block, instruction, dest, dynamic, .. } = *family;
        (block, instruction, dest.0, members, family.turns(), dynamic)
    };
    families(routine).iter().map(row).collect()
}

/// "Copy before its source, read in another block".
#[test]
fn a_copy_before_its_source_is_a_member() {
    let routine = routine(concat!(
        "0200000302000000000200020000000003010001000200000001000300000100000a0000020007000000",
        "000800000000010000000301030100"
    ));
    assert_eq!(rows(&routine), [(0, 1, 0, vec![0, 1], 3, false)]);
    assert!(families(&routine)[0].backwards);
}

/// "Array whose copy stands before it and is looked into by an operand".
#[test]
fn a_copy_is_looked_into() {
    let routine = routine(concat!(
        "020000050000020000000400010000000102000f01000100000000000300000001000300000100001000",
        "0002000700000000080000000000000503000100010003020000000301030300"
    ));
    assert_eq!(rows(&routine), [(0, 1, 0, vec![0, 1], 3, true)]);
}

/// "A chain wholly backwards (3 from 2 from 1 from 0)".
#[test]
fn a_chain_backwards_is_one_family() {
    let routine = routine(concat!(
        "020000030200000000040002000000000f01000100010001000400000003000302000100000f02000301",
        "000000000000050000000100000001000300000100000a00000200070000000008000000000100000003",
        "01030300"
    ));
    assert_eq!(rows(&routine), [(0, 3, 0, vec![0, 1, 2, 3], 7, false)]);
}

/// "A copy that names another kind" is looked at, and makes no member.
#[test]
fn a_copy_at_another_kind_takes_a_turn() {
    let routine = routine(concat!(
        "0300000302000000000409000201000000020000000200010000000003010002000200000a0000020007",
        "00000000080000000000010003000002000300"
    ));
    assert_eq!(rows(&routine), [(0, 0, 0, vec![0], 2, false)]);
}

const FELT: TypeNo = TypeNo(0);
const PAIR: TypeNo = TypeNo(1);
const ROW: TypeNo = TypeNo(2);

fn built(dest: u16) -> Kind {
    Kind::MakeTuple { dest: ValueNo(dest), elements: Vec::new() }
}

fn assign(dest: u16, source: Value, ty: TypeNo) -> Kind {
    Kind::Assign { dest: ValueNo(dest), source, ty }
}

fn insert(dest: u16, into: Value, new_value: Value) -> Kind {
    let (tuple_val, index, tuple_ty) = (into, 0, PAIR);
    Kind::InsertTuple(InsertTuple { dest: ValueNo(dest), tuple_val, index, new_value, tuple_ty })
}

fn operand(value: u16) -> Value {
    Value::Operand(ValueNo(value))
}

/// A routine of such blocks, in which every value is recorded at `ty`.
fn blocks(blocks: Vec<Vec<Kind>>, ty: Option<TypeNo>) -> Routine {
    let tuple = Type::Tuple(vec![FELT; 2]);
    let types = vec![Type::Felt, tuple, Type::FixedArray { element: FELT, size: 2 }];
    let block = |kinds: Vec<Kind>| Block {
        instructions: kinds.into_iter().map(Instruction::plain).collect(),
        terminator: Terminator::Unreachable,
    };
    let blocks = blocks.into_iter().map(block).collect();
    let recorded = vec![ty; most::NEXT_VALUE];
    Routine { types, entry: BlockNo(0), parameters: vec![ValueNo(9)], recorded, blocks }
}

#[test]
fn nothing_is_found_where_nothing_is_built() {
    let kinds = vec![assign(1, operand(2), PAIR), assign(2, operand(1), PAIR), Kind::Nop];
    assert_eq!(rows(&blocks(vec![kinds, Vec::new()], Some(PAIR))), []);
}

/// Phis count; each build has its own family, and copies of another block are none of its own.
#[test]
fn builds_stand_in_order() {
    let phi = Kind::Phi { dest: ValueNo(5), ty: PAIR, sources: Vec::new() };
    let first = vec![phi, built(0), Kind::Nop, built(1), insert(2, operand(1), operand(0))];
    let second = vec![insert(3, operand(2), operand(1)), built(4)];
    let routine = blocks(vec![first, second], Some(PAIR));
    let expected = [
        (0, 1, 0, vec![0], 1, false),
        (0, 3, 1, vec![1, 2], 3, false),
        (1, 1, 4, vec![4], 1, false),
    ];
    assert_eq!(rows(&routine), expected);
}

/// What is no copy of a member: a literal's, a scalar's, a parameter's, a ring's, a copy of itself.
#[test]
fn other_copies_make_no_member() {
    let kinds = vec![
        assign(2, operand(3), PAIR),
        assign(3, operand(2), PAIR),
        assign(4, operand(4), PAIR),
        insert(5, Value::Integer(0), operand(0)),
        assign(6, Value::Error, PAIR),
        assign(7, operand(0), FELT),
        insert(8, operand(9), operand(0)),
        built(0),
    ];
    assert_eq!(rows(&blocks(vec![kinds], Some(PAIR))), [(0, 7, 0, vec![0], 1, false)]);
}

/// The recorded type of the root decides: without one, or at a Felt, an Assign makes no member, but
/// an insert does.
#[test]
fn the_root_is_asked_for_its_type() {
    let kinds = || {
        vec![
            built(0),
            assign(1, operand(0), PAIR),
            assign(2, operand(0), ROW),
            insert(3, operand(0), operand(1)),
            insert(4, operand(3), operand(1)),
        ]
    };
    let members = [
        (Some(PAIR), vec![0, 1, 3, 4], 8),
        (Some(ROW), vec![0, 2, 3, 4], 8),
        (Some(FELT), vec![0, 3, 4], 7),
        (None, vec![0, 3, 4], 7),
    ];
    for (ty, members, turns) in members {
        assert_eq!(rows(&blocks(vec![kinds()], ty)), [(0, 0, 0, members, turns, false)]);
    }
}

/// The first projection decides, and any value but an Integer; a place of another block does not.
#[test]
fn the_first_projection_is_looked_at() {
    let [integer, other, boolean, unit, error] =
        [Value::Integer(1), operand(5), Value::Boolean(true), Value::Unit, Value::Error]
            .map(Projection::Index);
    let (tuple, field) = (Projection::Tuple(0), Projection::Field(NameNo(0)));
    let projections = [
        (vec![], false),
        (vec![integer], false),
        (vec![integer, other], false),
        (vec![tuple, other], false),
        (vec![field, other], false),
        (vec![other], true),
        (vec![boolean, integer], true),
        (vec![unit], true),
        (vec![error], true),
    ];
    for (projections, dynamic) in projections {
        let place = || Place { base: ValueNo(1), projections: projections.clone() };
        let load = Kind::Load { dest: ValueNo(2), place: place(), ty: FELT };
        let store = Kind::Store { place: place(), value: Value::Unit, ty: FELT };
        for kind in [load, store] {
            let kinds = vec![kind.clone(), built(0), insert(1, operand(0), Value::Unit)];
            let here = rows(&blocks(vec![kinds], Some(PAIR)));
            assert_eq!(here, [(0, 1, 0, vec![0, 1], 3, dynamic)]);
            let kinds = vec![built(0), insert(1, operand(0), Value::Unit)];
            let there = rows(&blocks(vec![kinds, vec![kind]], Some(PAIR)));
            assert_eq!(there, [(0, 0, 0, vec![0, 1], 3, false)]);
        }
    }
}

/// What each value of a block is a copy of, where that copy makes members for a root of that type.
fn sources(routine: &Routine, block: &Block, root: Option<&Type>) -> BTreeMap<ValueNo, ValueNo> {
    let alike = |ty: TypeNo| match root {
        Some(Type::Tuple(_)) => matches!(routine.types[ty.index()], Type::Tuple(_)),
        Some(Type::Struct { .. }) => matches!(routine.types[ty.index()], Type::Struct { .. }),
        Some(Type::FixedArray { .. }) => {
            matches!(routine.types[ty.index()], Type::FixedArray { .. })
        }
        _ => false,
    };
    let one = |kind: &Kind| match kind {
        Kind::Assign { dest, source: Value::Operand(v), ty } if alike(*ty) => Some((*dest, *v)),
        Kind::InsertTuple(InsertTuple { dest, tuple_val: Value::Operand(v), .. })
        | Kind::InsertField(InsertField { dest, struct_val: Value::Operand(v), .. }) => {
            Some((*dest, *v))
        }
        _ => None,
    };
    block.instructions.iter().filter_map(|i| one(&i.kind)).collect()
}

/// Every value is defined once, so that going back from it, copy by copy, finds the root or does not.
#[test]
fn members_are_what_goes_back_to_the_root() {
    for sort in [Sort::Copies, Sort::Typed, Sort::Wild] {
        for number in 0..1000 {
            let bytes = of_sort(&mut Rng::of(21, number), sort);
            let routine = read(&bytes).expect("the sort has routines");
            for family in families(&routine) {
                let block = &routine.blocks[family.block];
                let root = routine.row(routine.recorded_type(family.dest));
                let sources = sources(&routine, block, root);
                let reaches = |value: &ValueNo| {
                    let back = |v: &ValueNo| sources.get(v).copied();
                    let path = std::iter::successors(Some(*value), back);
                    path.take(most::IN_BLOCK + 1).any(|v| v == family.dest)
                };
                let all = (0..routine.recorded.len() as u16).map(ValueNo);
                let expected: BTreeSet<ValueNo> = all.filter(reaches).collect();
                assert_eq!(family.members, expected, "{} {number}", sort.name());
            }
        }
    }
}

/// "The families of a routine are disjoint", so that all turns of a block are at most twice its
/// instructions.
#[test]
fn families_are_disjoint() {
    for number in 0..1000 {
        let routine = read(&of_sort(&mut Rng::of(22, number), Sort::Copies)).expect("a routine");
        let mut seen = BTreeSet::new();
        for family in families(&routine) {
            assert!(family.members.iter().all(|member| seen.insert(*member)));
        }
        for (at, block) in routine.blocks.iter().enumerate() {
            let of_block = families(&routine).into_iter().filter(|family| family.block == at);
            let turns: usize = of_block.map(|family| family.turns()).sum();
            assert!(turns <= 2 * block.instructions.len());
        }
    }
}
