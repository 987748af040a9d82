//! A smaller routine that still shows what a large one showed.

use oracle::form::*;

/// Takes out instructions, list elements and ends of blocks, for as long as `shows` holds of what
/// is left.
pub fn smaller(routine: &Routine, shows: impl Fn(&Routine) -> bool) -> Routine {
    let mut best = routine.clone();
    loop {
        let before = best.clone();
        for block in 0..best.blocks.len() {
            without_instructions(&mut best, block, &shows);
            with_plain_end(&mut best, block, &shows);
            with_short_lists(&mut best, block, &shows);
        }
        if best == before {
            return best;
        }
    }
}

/// Keeps a changed routine where it still shows.
fn keep(best: &mut Routine, tried: Routine, shows: &impl Fn(&Routine) -> bool) -> bool {
    let fine = shows(&tried);
    if fine {
        *best = tried;
    }
    fine
}

fn without_instructions(best: &mut Routine, block: usize, shows: &impl Fn(&Routine) -> bool) {
    for at in (0..best.blocks[block].instructions.len()).rev() {
        let mut tried = best.clone();
        tried.blocks[block].instructions.remove(at);
        keep(best, tried, shows);
    }
}

fn with_plain_end(best: &mut Routine, block: usize, shows: &impl Fn(&Routine) -> bool) {
    let targets = match best.blocks[block].terminator {
        Terminator::If { then_target, else_target, .. }
        | Terminator::BranchCmp { then_target, else_target, .. } => vec![then_target, else_target],
        _ => Vec::new(),
    };
    let ends = targets.into_iter().map(Terminator::Jump).chain([Terminator::Unreachable]);
    for end in ends {
        if best.blocks[block].terminator != end {
            let mut tried = best.clone();
            tried.blocks[block].terminator = end;
            if keep(best, tried, shows) {
                return;
            }
        }
    }
}

/// Takes values out of a Return and arguments out of Calls.
fn with_short_lists(best: &mut Routine, block: usize, shows: &impl Fn(&Routine) -> bool) {
    if let Terminator::Return(values) = &best.blocks[block].terminator {
        for at in (0..values.len()).rev() {
            let mut tried = best.clone();
            if let Terminator::Return(values) = &mut tried.blocks[block].terminator {
                values.remove(at);
            }
            keep(best, tried, shows);
        }
    }
    for at in 0..best.blocks[block].instructions.len() {
        let count = match &best.blocks[block].instructions[at].kind {
            Kind::Call(call) => call.args.len().min(call.param_types.len()),
            _ => 0,
        };
        for arg in (0..count).rev() {
            let mut tried = best.clone();
            if let Kind::Call(call) = &mut tried.blocks[block].instructions[at].kind {
                call.args.remove(arg);
                call.param_types.remove(arg);
            }
            keep(best, tried, shows);
        }
    }
}

#[cfg(test)]
mod tests {
    use super::*;
    use crate::{churn, Rng};

    #[test]
    fn one_store_is_left_of_many_instructions() {
        let stores = |routine: &Routine| {
            routine.instructions().any(|i| matches!(i.kind, Kind::Store { .. }))
        };
        let made = (0..50).map(|n| churn::routine(&mut Rng::of(1, n), 40, false)).find(stores);
        let small = smaller(&made.expect("some routine stores"), stores);
        assert_eq!(small.instructions().count(), 1);
        assert!(small.blocks.iter().all(|b| b.terminator == Terminator::Unreachable));
    }
}
