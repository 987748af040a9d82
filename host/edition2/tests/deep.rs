//! Deep routines meet each turn of edition 2.

use std::collections::{BTreeMap, BTreeSet};

use edition2::{rewrite, Edition, Fault};
use gen::{of_sort, Rng, Sort};
use oracle::form::*;
use oracle::{read, Settings};

/// How often each thing is met.
type Met = BTreeMap<String, usize>;

fn meet(met: &mut Met, what: impl Into<String>) {
    *met.entry(what.into()).or_default() += 1;
}

/// What a rewriting shows beside edition 1's.
fn one(met: &mut Met, original: &Routine) {
    let second = match rewrite(original, Settings::default(), Edition::Second) {
        Ok(second) => second,
        Err(Fault(number)) => return meet(met, format!("refused {number}")),
    };
    if let Ok(first) = rewrite(original, Settings::default(), Edition::First) {
        if first.counts[..4] != second.counts[..4] {
            meet(met, "a later Boolean Index");
        }
    }
    let next = original.recorded.len();
    let fresh = |value: &Value| matches!(value, Value::Operand(v) if v.index() >= next);
    let defined: BTreeSet<ValueNo> = defined(&second.routine);
    let was_defined = self::defined(original);
    let left_out = |v: ValueNo| was_defined.contains(&v) && !defined.contains(&v);
    let stays = |value: &Value| matches!(value, Value::Operand(v) if left_out(*v));
    let mut depth: BTreeMap<ValueNo, usize> = BTreeMap::new();
    for block in &second.routine.blocks {
        for Instruction { kind, .. } in &block.instructions {
            let own = kind.dests().first().copied();
            let values = kind.values();
            let deep = values.iter().filter_map(|value| match value {
                Value::Operand(v) => depth.get(v),
                _ => None,
            });
            let deep = deep.max().copied().unwrap_or(0);
            match own.filter(|own| own.index() >= next) {
                Some(own) => {
                    depth.insert(own, deep + 1);
                    if values.iter().any(stays) {
                        meet(met, "a part that stays");
                    }
                    meet(met, format!("a rebuild of kind {}", kind.byte()));
                    if deep >= 3 {
                        meet(met, "four deep");
                    }
                }
                None if values.iter().any(fresh) => {
                    meet(met, format!("read by kind {}", kind.byte()));
                }
                None => {}
            }
            if matches!(kind, Kind::Store { place, .. } if left_out(place.base)) {
                meet(met, "a kept Store's base");
            }
            if matches!(kind, Kind::Load { place, .. } if place.base.index() >= next) {
                meet(met, "a kept Load's base");
            }
        }
        if let Terminator::Return(values) = &block.terminator {
            if values.iter().any(fresh) {
                meet(met, "a Return");
            }
            if values.iter().any(stays) {
                meet(met, "a returned value that stays");
            }
        }
    }
}

fn defined(routine: &Routine) -> BTreeSet<ValueNo> {
    let dests = routine.instructions().flat_map(|i| i.kind.dests());
    routine.parameters.iter().chain(dests).copied().collect()
}

#[test]
fn each_turn_is_met() {
    let mut met = Met::new();
    for number in 0..3000 {
        let bytes = of_sort(&mut Rng::of(5, number), Sort::Deep);
        one(&mut met, &read(&bytes).expect("a routine"));
    }
    // All kinds that read something; a phi never does, and Nop has nothing to read.
    let readers =
        (0..19).filter(|kind| ![8, 9].contains(kind)).map(|kind| format!("read by kind {kind}"));
    let rebuilt = [10, 12, 16].map(|kind| format!("a rebuild of kind {kind}"));
    let others = [
        "refused 10",
        "refused 14",
        "a later Boolean Index",
        "a part that stays",
        "a returned value that stays",
        "four deep",
        "a kept Store's base",
        "a kept Load's base",
        "a Return",
    ];
    for what in readers.chain(rebuilt).chain(others.map(String::from)) {
        assert!(met.get(&what).is_some_and(|times| *times > 0), "{what}: {met:#?}");
    }
}
