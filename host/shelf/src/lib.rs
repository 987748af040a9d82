//! Document 01's shelf test, Debug's values counted as document 02 has it: why a rewritten routine is
//! kept off the shelf, by number.

mod order;
mod typing;

use std::collections::BTreeSet;

use oracle::form::{Kind, Routine, Value, ValueNo};

/// The values whose definition the pass left out.
pub type Dropped = BTreeSet<ValueNo>;

/// What the input defines and the output does not.
pub fn dropped(original: &Routine, rewritten: &Routine) -> Dropped {
    &defined(original) - &defined(rewritten)
}

fn defined(routine: &Routine) -> BTreeSet<ValueNo> {
    routine.instructions().flat_map(|i| i.kind.dests()).copied().collect()
}

/// Reason 1 of any routine, an output too: it looks at no rewriting.
pub fn types_disagree(routine: &Routine) -> bool {
    typing::disagree(routine)
}

/// Reason 2 of any routine, whatever reason 1 says.
pub fn reads_ahead(routine: &Routine) -> bool {
    order::reads_ahead(routine)
}

/// "Reason 0 is passed; else the lowest that holds".
pub fn reason(original: &Routine, rewritten: &Routine, dropped: &Dropped) -> u8 {
    if types_disagree(original) {
        1
    } else if reads_ahead(original) {
        2
    } else if order::stores_into_part(original) {
        3
    } else if order::stores_deep(original, dropped) {
        4
    } else if order::reads_dropped(rewritten, dropped) {
        5
    } else {
        0
    }
}

/// The routine with its Debugs left out: what they do not decide is judged of it.
pub fn without_debugs(routine: &Routine) -> Routine {
    let mut routine = routine.clone();
    for block in &mut routine.blocks {
        block.instructions.retain(|i| !matches!(i.kind, Kind::Debug { .. }));
    }
    routine
}

/// The value that an operand reads.
fn operand(value: Value) -> Option<ValueNo> {
    match value {
        Value::Operand(v) => Some(v),
        _ => None,
    }
}
