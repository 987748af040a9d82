//! Document 02: Debug's "values, Error too, count like any other instruction's in shelf reasons 1, 2
//! and 5".

mod common;

use common::*;
use oracle::form::*;
use oracle::rows::DEBUGS;
use oracle::{from_hex, read, run_routine, Settings};

fn debug(values: Vec<Value>) -> Kind {
    Kind::Debug { message: 0, values }
}

fn pair(dest: u16) -> Kind {
    tuple(dest, &[int(1), int(2)])
}

/// The reason of one block that builds a pair and then has these kinds.
fn behind_pair(kinds: Vec<Kind>) -> u8 {
    let kinds = [vec![pair(D)], kinds].concat();
    reason_of(&routine(&[PAIR, FELT], kinds, Terminator::Unreachable))
}

/// The stored rows have their reasons, and pass without their Debugs.
#[test]
fn stored_debugs_have_their_reasons() {
    for row in &DEBUGS {
        let routine = read(&from_hex(row.hex).expect("hexadecimal")).expect("a routine");
        assert_eq!(reason_of(&routine), row.reason, "{}", row.hex);
        assert_eq!(reason_of(&shelf::without_debugs(&routine)), 0, "{}", row.hex);
    }
}

/// No values, and each of sixteen.
#[test]
fn every_value_of_a_debug_counts() {
    assert_eq!(behind_pair(vec![debug(vec![])]), 0);
    let sixteen = |at: usize, value: Value| {
        let mut values = vec![v(FELT); 16];
        values[at] = value;
        behind_pair(vec![debug(values), assign(D + 1, int(1), FELT)])
    };
    for at in [0, 7, 15] {
        assert_eq!(sixteen(at, v(PAIR)), 0);
        assert_eq!(sixteen(at, Value::Error), 1);
        assert_eq!(sixteen(at, v(D + 1)), 2);
        assert_eq!(sixteen(at, v(D)), 5);
    }
}

/// A Debug that reads the dest of a phi of its block does not read ahead.
#[test]
fn what_a_phi_defines_may_be_shown() {
    let phi = Kind::Phi { dest: DEST, ty: TypeNo(FELT), sources: vec![(BlockNo(0), int(1))] };
    let kinds = vec![phi, debug(vec![v(D)])];
    assert_eq!(reason_of(&routine(&[FELT], kinds, Terminator::Unreachable)), 0);
}

/// A dropped value shown in another block: in one that nothing reaches, and in one that the pass
/// skips for a phi of a tuple.
#[test]
fn debugs_of_every_block_count() {
    let shown = |front: Vec<Kind>| {
        let mut routine = routine(&[PAIR, PAIR], vec![pair(D)], Terminator::Unreachable);
        let kinds = [front, vec![debug(vec![v(D)])]].concat();
        let instructions = kinds.into_iter().map(Instruction::plain).collect();
        routine.blocks.push(Block { instructions, terminator: Terminator::Unreachable });
        reason_of(&routine)
    };
    assert_eq!(shown(vec![]), 5);
    let sources = vec![(BlockNo(0), v(PAIR))];
    assert_eq!(shown(vec![Kind::Phi { dest: ValueNo(D + 1), ty: TypeNo(PAIR), sources }]), 5);
}

/// A value that is built again for a Call is not built again for a Debug.
#[test]
fn a_rebuild_for_a_call_does_not_help_debug() {
    let call = Kind::Call(Call {
        dests: vec![],
        callee: 0,
        args: vec![v(D)],
        param_types: vec![TypeNo(PAIR)],
        return_types: vec![],
    });
    assert_eq!(behind_pair(vec![call.clone()]), 0);
    assert_eq!(behind_pair(vec![call, debug(vec![v(D)])]), 5);
}

/// A build that the settings keep may be shown.
#[test]
fn what_is_kept_may_be_shown() {
    let kinds = vec![pair(D), debug(vec![v(D)])];
    let routine = routine(&[PAIR], kinds, Terminator::Unreachable);
    let reason = |settings: Settings| {
        let lowered = run_routine(routine.clone(), settings).expect("no array clashes").routine;
        shelf::reason(&routine, &lowered, &shelf::dropped(&routine, &lowered))
    };
    let usual = Settings::default();
    assert_eq!(reason(usual), 5);
    assert_eq!(reason(Settings { enable_structs: 0, ..usual }), 5);
    assert_eq!(reason(Settings { enable_tuples: 0, ..usual }), 0);
    assert_eq!(reason(Settings { max_aggregate_size: 1, ..usual }), 0);
}
