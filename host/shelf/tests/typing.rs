//! Reason 1, its sentences one by one.

mod common;

use common::*;
use oracle::form::*;

/// The reason for one instruction whose dest is recorded at `ty`.
fn of_kind(ty: u16, kind: Kind) -> u8 {
    reason_of(&routine(&[ty], vec![kind], Terminator::Unreachable))
}

/// Asserts that the first are passed and the others have reason 1.
fn judge(ty: u16, passed: Vec<Kind>, others: Vec<Kind>) {
    for kind in passed {
        assert_eq!(of_kind(ty, kind.clone()), 0, "{kind:?}");
    }
    for kind in others {
        assert_eq!(of_kind(ty, kind.clone()), 1, "{kind:?}");
    }
}

#[test]
fn literals_fit_their_types() {
    let copy = |source, ty| assign(D, source, ty);
    judge(
        FELT,
        vec![copy(int(1), FELT), copy(v(FELT), FELT)],
        vec![copy(int(1), U32), copy(v(U32), FELT)],
    );
    judge(
        U32,
        vec![copy(int(1), U32)],
        vec![copy(Value::Boolean(true), U32), copy(Value::Error, U32)],
    );
    judge(
        BOOL,
        vec![copy(Value::Boolean(true), BOOL)],
        vec![copy(int(1), BOOL), copy(Value::Unit, BOOL)],
    );
    judge(UNIT, vec![copy(Value::Unit, UNIT)], vec![copy(int(0), UNIT)]);
    judge(EMPTY, vec![copy(v(EMPTY), EMPTY)], vec![copy(Value::Unit, EMPTY)]);
    judge(UNKNOWN, vec![copy(v(UNKNOWN), UNKNOWN)], vec![copy(int(0), UNKNOWN)]);
}

#[test]
fn builds_have_their_types_parts() {
    let one = int(1);
    let others = vec![tuple(D, &[one]), tuple(D, &[one, v(U32)]), array(D, &[one, one], FELT)];
    judge(PAIR, vec![tuple(D, &[one, v(FELT)])], others);
    let others = vec![array(D, &[one], FELT), array(D, &[one, one], U32), tuple(D, &[one, one])];
    judge(ROW, vec![array(D, &[one, one], FELT)], others);
    let build = |fields: &[(u16, Value)], ty: u16| {
        let fields = fields.iter().map(|(name, value)| (NameNo(*name), *value)).collect();
        Kind::MakeStruct { dest: DEST, fields, struct_ty: TypeNo(ty) }
    };
    let yes = Value::Boolean(true);
    let others = vec![
        build(&[(5, one)], POINT),
        build(&[(5, one), (5, one)], POINT),
        build(&[(5, one), (4, yes), (4, yes)], POINT),
        build(&[(5, yes), (4, one)], POINT),
        build(&[(5, one), (4, yes)], PAIR),
    ];
    judge(POINT, vec![build(&[(4, yes), (5, one)], POINT)], others);
}

#[test]
fn extracts_name_what_is_there() {
    let part = |tuple, index, ty| Kind::ExtractTupleElement {
        dest: DEST,
        tuple,
        index,
        element_ty: TypeNo(ty),
    };
    let others = vec![
        part(v(PAIR), 2, FELT),
        part(v(PAIR), 0, U32),
        part(v(ROW), 0, FELT),
        part(int(1), 0, FELT),
    ];
    judge(FELT, vec![part(v(PAIR), 1, FELT)], others);
    let field = |struct_val, name, ty| Kind::ExtractStructField {
        dest: DEST,
        struct_val,
        field_name: NameNo(name),
        field_ty: TypeNo(ty),
    };
    let others = vec![field(v(POINT), 3, FELT), field(v(POINT), 4, FELT), field(v(PAIR), 5, FELT)];
    judge(FELT, vec![field(v(POINT), 5, FELT)], others);
}

#[test]
fn inserts_name_what_is_there() {
    let put = |tuple_val, index, new_value, ty| {
        Kind::InsertTuple(InsertTuple {
            dest: DEST,
            tuple_val,
            index,
            new_value,
            tuple_ty: TypeNo(ty),
        })
    };
    let others = vec![
        put(v(PAIR), 2, int(1), PAIR),
        put(v(PAIR), 1, v(BOOL), PAIR),
        put(v(OUTER), 0, int(1), PAIR),
        put(v(ROW), 0, int(1), ROW),
    ];
    judge(PAIR, vec![put(v(PAIR), 1, int(1), PAIR)], others);
    let set = |struct_val, name, new_value| {
        let (field_name, struct_ty) = (NameNo(name), TypeNo(POINT));
        Kind::InsertField(InsertField { dest: DEST, struct_val, field_name, new_value, struct_ty })
    };
    judge(
        POINT,
        vec![set(v(POINT), 5, int(1))],
        vec![set(v(POINT), 3, int(1)), set(v(POINT), 4, int(1)), set(v(PAIR), 5, int(1))],
    );
}

#[test]
fn places_walk_their_types() {
    let step = Projection::Tuple(1);
    let passed = vec![
        load(place(ROW, &[index(9)]), FELT),
        load(place(ROW, &[Projection::Index(v(U32))]), FELT),
        load(place(PLACE, &[index(9), step]), FELT),
        load(place(PAIRS, &[index(0), step]), FELT),
    ];
    let others = vec![
        load(place(ROW, &[Projection::Index(v(BOOL))]), FELT),
        load(place(ROW, &[Projection::Index(Value::Boolean(true))]), FELT),
        load(place(PLACE, &[Projection::Index(v(BOOL)), step]), FELT),
        load(place(ROW, &[step]), FELT),
        load(place(PAIR, &[index(0)]), FELT),
        load(place(PAIR, &[Projection::Tuple(2)]), FELT),
        load(place(POINT, &[Projection::Field(NameNo(3))]), FELT),
        load(place(ROW, &[index(0)]), U32),
        load(place(FELT, &[]), FELT),
        load(place(PLACE, &[step]), FELT),
    ];
    judge(FELT, passed, others);
    judge(PLACE, vec![load(place(FAR, &[index(0)]), PLACE)], vec![load(place(PLACE, &[]), PLACE)]);
    judge(
        PAIR,
        vec![load(place(PAIR, &[]), PAIR)],
        vec![load(place(FAR, &[index(0), index(0)]), PAIR)],
    );
    let passed =
        vec![store(place(ROW, &[index(0)]), int(1), FELT), store(place(PAIR, &[]), v(D), PAIR)];
    let others = vec![
        store(place(ROW, &[index(0)]), int(1), U32),
        store(place(ROW, &[index(0)]), v(BOOL), FELT),
    ];
    judge(PAIR, passed, others);
}

#[test]
fn calls_and_phis_name_recorded_types() {
    let call = |args: &[Value], params: &[u16], result: u16| {
        let param_types = params.iter().map(|ty| TypeNo(*ty)).collect();
        let (args, return_types) = (args.to_vec(), vec![TypeNo(result)]);
        Kind::Call(Call { dests: vec![DEST], callee: 0, args, param_types, return_types })
    };
    let others = vec![
        call(&[], &[FELT], FELT),
        call(&[int(1)], &[], FELT),
        call(&[v(U32)], &[FELT], FELT),
        call(&[], &[], U32),
    ];
    judge(FELT, vec![call(&[int(1)], &[FELT], FELT), call(&[v(PAIR)], &[PAIR], FELT)], others);
    let phi =
        |value, ty| Kind::Phi { dest: DEST, ty: TypeNo(ty), sources: vec![(BlockNo(0), value)] };
    judge(
        FELT,
        vec![phi(int(1), FELT), phi(v(D), FELT)],
        vec![phi(int(1), U32), phi(v(U32), FELT), phi(Value::Error, FELT)],
    );
}

#[test]
fn operations_take_and_give_scalars() {
    let binary = |left, right| Kind::BinaryOp { op: 0, dest: DEST, left, right };
    let unary = |source| Kind::UnaryOp { op: 0, dest: DEST, source };
    let alloc = |cells| Kind::HeapAllocCells { dest: DEST, cells };
    let cast = |source| Kind::Cast {
        dest: DEST,
        source,
        source_type: TypeNo(PAIR),
        target_type: TypeNo(ROW),
    };
    let passed =
        vec![binary(v(BOOL), v(PLACE)), unary(v(UNKNOWN)), alloc(Value::Unit), cast(int(1))];
    let others = vec![
        binary(v(BOOL), v(PAIR)),
        unary(v(ROW)),
        alloc(v(POINT)),
        cast(v(EMPTY)),
        unary(Value::Error),
    ];
    judge(FELT, passed.clone(), others);
    judge(PAIR, vec![], passed);
}

#[test]
fn sides_have_equal_types() {
    let equal = |left, right| Kind::AssertEq { left, right };
    let passed = vec![
        equal(int(1), int(2)),
        equal(int(1), v(U32)),
        equal(v(D), v(PAIR)),
        equal(Value::Unit, Value::Unit),
    ];
    let others = vec![
        equal(int(1), Value::Unit),
        equal(v(FELT), v(U32)),
        equal(v(BOOL), int(1)),
        equal(v(PAIR), v(ROW)),
    ];
    judge(PAIR, passed, others);
}

#[test]
fn terminators_are_judged() {
    let (then_target, else_target) = (BlockNo(0), BlockNo(0));
    let test = |condition| Terminator::If { condition, then_target, else_target };
    let compare =
        |right| Terminator::BranchCmp { op: 4, left: int(1), right, then_target, else_target };
    let returns = |value| Terminator::Return(vec![value]);
    let passed = [
        test(Value::Boolean(true)),
        test(v(BOOL)),
        compare(v(BOOL)),
        returns(v(PAIR)),
        returns(int(1)),
    ];
    let others = [
        test(int(1)),
        test(v(FELT)),
        compare(v(PAIR)),
        compare(Value::Error),
        returns(Value::Error),
        returns(v(D)),
    ];
    for (terminators, expected) in [(&passed[..], 0), (&others[..], 1)] {
        for terminator in terminators {
            let mut routine = routine(&[FELT], vec![], terminator.clone());
            routine.recorded[DEST.index()] = None;
            assert_eq!(reason_of(&routine), expected, "{terminator:?}");
        }
    }
}

/// "a value read or defined .. lacks a recorded type, or Error stands as a value", in Debug too; a
/// parameter is defined.
#[test]
fn every_value_has_a_recorded_type() {
    let without = |value: u16, kind: Kind| {
        let mut routine = routine(&[FELT], vec![kind], Terminator::Unreachable);
        routine.recorded[usize::from(value)] = None;
        reason_of(&routine)
    };
    assert_eq!(without(D, Kind::Nop), 0);
    assert_eq!(without(PLACE, Kind::Nop), 1);
    let op = Kind::UnaryOp { op: 0, dest: DEST, source: int(1) };
    assert_eq!(without(D, op), 1);
    assert_eq!(without(D, store(place(D, &[]), int(1), FELT)), 1);
    let debug = |values| Kind::Debug { message: 0, values };
    assert_eq!(without(D, debug(vec![])), 0);
    assert_eq!(without(D, debug(vec![v(PAIR), int(1), Value::Boolean(true), Value::Unit])), 0);
    assert_eq!(without(D, debug(vec![v(PAIR), v(D)])), 1);
    assert_eq!(without(D, debug(vec![int(1), Value::Error])), 1);
}
