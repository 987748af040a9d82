//! Reasons 1 and 2 apart from one another and from the others, of inputs and of outputs.

mod common;

use common::*;
use oracle::form::*;
use oracle::{run_routine, Settings};
use shelf::{reads_ahead, types_disagree, without_debugs};

/// Whether reason 1 holds, and whether reason 2 does.
fn first_two(routine: &Routine) -> [bool; 2] {
    [types_disagree(routine), reads_ahead(routine)]
}

fn of(kinds: Vec<Kind>) -> Routine {
    routine(&[FELT, FELT], kinds, Terminator::Unreachable)
}

/// Neither, each alone, and both, of which `reason` says the lower one.
#[test]
fn one_does_not_hide_the_other() {
    let (good, bad) = (assign(D, int(1), FELT), assign(D, Value::Boolean(true), FELT));
    let reader = assign(D + 1, v(D), FELT);
    for (kinds, expected, reason) in [
        ([good.clone(), reader.clone()], [false, false], 0),
        ([bad.clone(), reader.clone()], [true, false], 1),
        ([reader.clone(), good], [false, true], 2),
        ([reader, bad], [true, true], 1),
    ] {
        let routine = of(kinds.to_vec());
        assert_eq!((first_two(&routine), reason_of(&routine)), (expected, reason));
    }
}

/// What has reason 3 has neither.
#[test]
fn the_others_do_not_count() {
    let change = store(place(ROW, &[index(0)]), int(1), FELT);
    let routine = routine(&[HOLDER], vec![tuple(D, &[v(ROW)]), change], Terminator::Unreachable);
    assert_eq!((first_two(&routine), reason_of(&routine)), ([false, false], 3));
}

/// A Debug alone may be why either holds.
#[test]
fn debugs_count_unless_they_are_left_out() {
    let debug = |value| Kind::Debug { message: 0, values: vec![value] };
    let first = assign(D, int(1), FELT);
    let error = of(vec![debug(Value::Error), first.clone()]);
    let ahead = of(vec![debug(v(D)), first]);
    assert_eq!([&error, &ahead].map(first_two), [[true, false], [false, true]]);
    for routine in [error, ahead] {
        assert_eq!(first_two(&without_debugs(&routine)), [false, false]);
    }
}

/// An output is judged by its own recorded types, the fresh value's too, and in its own order.
#[test]
fn an_output_is_judged_as_an_input_is() {
    let returned = Terminator::Return(vec![v(D)]);
    let input = routine(&[PAIR], vec![tuple(D, &[int(1), int(2)])], returned);
    let output = run_routine(input, Settings::default()).expect("it is accepted").routine;
    assert_eq!((output.recorded.len(), first_two(&output)), (usize::from(D) + 2, [false, false]));
    let mut unrecorded = output.clone();
    *unrecorded.recorded.last_mut().expect("it has one") = None;
    let mut other_type = output.clone();
    *other_type.recorded.last_mut().expect("it has one") = Some(TypeNo(ROW));
    for routine in [unrecorded, other_type] {
        assert_eq!(first_two(&routine), [true, false]);
    }
    let mut behind = output;
    let fresh = Value::Operand(ValueNo(D + 1));
    let read = Kind::AssertEq { left: fresh, right: v(PAIR) };
    behind.blocks[0].instructions.insert(0, Instruction::plain(read));
    assert_eq!(first_two(&behind), [false, true]);
}
