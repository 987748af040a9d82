//! Reasons 2 to 5, each with a small routine.

mod common;

use common::*;
use oracle::form::*;
use oracle::{from_hex, read};

/// Reason 2: the reading instruction itself counts, and Debug; phis do not.
#[test]
fn reading_ahead_is_two() {
    let ends =
        |kinds| reason_of(&routine(&[FELT, FELT], kinds, Terminator::Return(vec![v(D + 1)])));
    let first = assign(D, int(1), FELT);
    let second = assign(D + 1, v(D), FELT);
    assert_eq!(ends(vec![first.clone(), second.clone()]), 0);
    assert_eq!(ends(vec![second.clone(), first.clone()]), 2);
    assert_eq!(ends(vec![assign(D, v(D), FELT)]), 2);
    let debug = Kind::Debug { message: 0, values: vec![v(D)] };
    assert_eq!(ends(vec![first.clone(), debug.clone(), second.clone()]), 0);
    assert_eq!(ends(vec![debug, first.clone()]), 2);
    let phi =
        Kind::Phi { dest: ValueNo(D + 1), ty: TypeNo(FELT), sources: vec![(BlockNo(0), v(D))] };
    assert_eq!(ends(vec![phi, first]), 0);
    let ahead = [load(place(ROW, &[Projection::Index(v(D))]), FELT)];
    assert_eq!(reason_of(&routine(&[FELT], ahead.to_vec(), Terminator::Unreachable)), 2);
}

/// Reason 3: a base that is also a part, in any order and any block; a Store into itself too.
#[test]
fn storing_into_a_part_is_three() {
    let ends =
        |recorded: &[u16], kinds| reason_of(&routine(recorded, kinds, Terminator::Unreachable));
    let part = tuple(D, &[v(ROW)]);
    let change = store(place(ROW, &[index(0)]), int(1), FELT);
    assert_eq!(ends(&[HOLDER], vec![part.clone()]), 0);
    assert_eq!(ends(&[HOLDER], vec![part.clone(), change.clone()]), 3);
    assert_eq!(ends(&[HOLDER], vec![change.clone(), part]), 3);
    assert_eq!(ends(&[], vec![store(place(ROW, &[]), v(ROW), ROW)]), 3);
    let new_value = v(ROW);
    let (tuple_val, tuple_ty) = (v(HOLDER), TypeNo(HOLDER));
    let insert = InsertTuple { dest: DEST, tuple_val, index: 0, new_value, tuple_ty };
    assert_eq!(ends(&[HOLDER], vec![Kind::InsertTuple(insert), change.clone()]), 3);
    assert_eq!(ends(&[ROW], vec![assign(D, v(ROW), ROW), change]), 0);
}

/// Reason 4: an array of tuples, taken apart, with a Store into a part's part.
#[test]
fn a_deep_store_into_a_dropped_base_is_four() {
    let build = [tuple(D, &[int(1), int(2)]), array(D + 1, &[v(D)], PAIR)];
    let into = |steps: &[Projection], value, ty| {
        let change = store(place(D + 1, steps), value, ty);
        let kinds = build.iter().cloned().chain([change]).collect();
        reason_of(&routine(&[PAIR, PAIRS], kinds, Terminator::Unreachable))
    };
    assert_eq!(into(&[index(0), Projection::Tuple(1)], int(7), FELT), 4);
    assert_eq!(into(&[index(0)], v(PAIR), PAIR), 0);
}

/// Reason 5: "Returning a tuple of a tracked tuple leaves a read of a dropped value"; a kept Store
/// reads its base; Debug's reads count.
#[test]
fn reading_a_dropped_value_is_five() {
    let build = vec![tuple(D, &[int(1), int(2)]), tuple(D + 1, &[v(D)])];
    let ends = |kinds, terminator| reason_of(&routine(&[PAIR, OUTER], kinds, terminator));
    assert_eq!(ends(build.clone(), Terminator::Return(vec![v(D + 1)])), 5);
    assert_eq!(ends(build.clone(), Terminator::Return(vec![v(D)])), 0);
    let first = build[..1].to_vec();
    let with = |kind| first.iter().cloned().chain([kind]).collect();
    let debug = Kind::Debug { message: 0, values: vec![v(D)] };
    assert_eq!(ends(with(debug), Terminator::Unreachable), 5);
    let other = Kind::Debug { message: 0, values: vec![v(PAIR)] };
    assert_eq!(ends(with(other), Terminator::Unreachable), 0);
    let all = store(place(D, &[]), v(PAIR), PAIR);
    assert_eq!(ends(with(all), Terminator::Unreachable), 5);
    let equal = Kind::AssertEq { left: v(D), right: v(PAIR) };
    assert_eq!(ends(with(equal), Terminator::Unreachable), 5);
}

/// The lowest that holds is given; the stored row of an unwritten part passes.
#[test]
fn the_lowest_is_given() {
    let kinds = vec![tuple(D + 1, &[v(D)]), tuple(D, &[int(1), int(2)])];
    let ends = |terminator| reason_of(&routine(&[PAIR, OUTER], kinds.clone(), terminator));
    assert_eq!(ends(Terminator::Return(vec![v(D + 1)])), 2);
    assert_eq!(ends(Terminator::Return(vec![Value::Error])), 1);
    let hex = "020000030100000200010000000003000001000100000a0100010300000300";
    let stored = read(&from_hex(hex).expect("hexadecimal")).expect("a routine");
    assert_eq!(reason_of(&stored), 0);
}
