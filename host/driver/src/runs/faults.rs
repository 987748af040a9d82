//! Wrong rewritings, planted to see that the comparison finds them.

use edition2::Edition;
use oracle::form::*;
use oracle::Settings;
use shelf::Dropped;

use super::case::rewritten_by;

#[derive(Debug, Clone, Copy, PartialEq, Eq)]
pub enum Fault {
    /// Nothing is planted.
    None,
    /// An insert leaves the part as it was: a stale part.
    Stale,
    /// A Store into a value taken apart is forgotten.
    LostStore,
    /// A rebuild has its first two parts exchanged.
    Swapped,
    /// A Call that gives nothing is left out of a changed block.
    LostCall,
    /// An Assign that stands for an extract takes the part that another extract took.
    OtherPart,
    /// A Debug is left out.
    LostDebug,
    /// A Debug shows its first two values exchanged.
    OtherDebug,
}

pub const FAULTS: [(&str, Fault); 7] = [
    ("stale", Fault::Stale),
    ("lost-store", Fault::LostStore),
    ("swapped", Fault::Swapped),
    ("lost-call", Fault::LostCall),
    ("other-part", Fault::OtherPart),
    ("lost-debug", Fault::LostDebug),
    ("other-debug", Fault::OtherDebug),
];

impl Fault {
    /// The rewritten routine with the fault in it.
    pub fn plant(
        self,
        original: &Routine,
        rewritten: Routine,
        (settings, edition): (Settings, Edition),
        dropped: &Dropped,
    ) -> Routine {
        let rewrite = |misread: Routine| {
            let lowered = rewritten_by(&misread, settings, edition).ok()?;
            Some(lowered.routine)
        };
        match self {
            Fault::None => rewritten,
            Fault::Stale => misread(original, rewritten, rewrite, stale),
            Fault::LostStore => {
                misread(original, rewritten, rewrite, |kind| lost_store(kind, dropped))
            }
            Fault::Swapped => {
                let fresh = original.recorded.len();
                each_kind(rewritten, |kind| swapped(kind, fresh))
            }
            Fault::LostCall => each_kind(rewritten, lost_call),
            Fault::OtherPart => other_part(original, rewritten),
            Fault::LostDebug => each_kind(rewritten, lost_debug),
            Fault::OtherDebug => each_kind(rewritten, other_debug),
        }
    }
}

fn each_kind(mut routine: Routine, change: impl Fn(&mut Kind)) -> Routine {
    for block in &mut routine.blocks {
        block.instructions.iter_mut().for_each(|i| change(&mut i.kind));
    }
    routine
}

/// What becomes of the routine with some kinds changed; the right one where that is refused.
fn misread(
    original: &Routine,
    rewritten: Routine,
    rewrite: impl Fn(Routine) -> Option<Routine>,
    change: impl Fn(&mut Kind),
) -> Routine {
    rewrite(each_kind(original.clone(), change)).unwrap_or(rewritten)
}

fn stale(kind: &mut Kind) {
    let copy = match kind {
        Kind::InsertTuple(i) => Kind::Assign { dest: i.dest, source: i.tuple_val, ty: i.tuple_ty },
        Kind::InsertField(i) => {
            Kind::Assign { dest: i.dest, source: i.struct_val, ty: i.struct_ty }
        }
        _ => return,
    };
    *kind = copy;
}

fn lost_store(kind: &mut Kind, dropped: &Dropped) {
    if matches!(kind, Kind::Store { place, .. } if dropped.contains(&place.base)) {
        *kind = Kind::Nop;
    }
}

fn swapped(kind: &mut Kind, fresh: usize) {
    match kind {
        Kind::MakeTuple { dest, elements } | Kind::MakeFixedArray { dest, elements, .. }
            if dest.index() >= fresh && elements.len() > 1 =>
        {
            elements.swap(0, 1);
        }
        _ => {}
    }
}

fn lost_call(kind: &mut Kind) {
    if matches!(kind, Kind::Call(call) if call.dests.is_empty()) {
        *kind = Kind::Nop;
    }
}

fn lost_debug(kind: &mut Kind) {
    if matches!(kind, Kind::Debug { .. }) {
        *kind = Kind::Nop;
    }
}

fn other_debug(kind: &mut Kind) {
    if let Kind::Debug { values, .. } = kind {
        if values.len() > 1 {
            values.swap(0, 1);
        }
    }
}

/// The Assigns that the original has as extracts or Loads get one another's sources.
fn other_part(original: &Routine, mut rewritten: Routine) -> Routine {
    for (before, after) in original.blocks.iter().zip(&mut rewritten.blocks) {
        let was: Vec<ValueNo> = before
            .instructions
            .iter()
            .filter(|i| {
                matches!(i.kind, Kind::ExtractTupleElement { .. } | Kind::ExtractStructField { .. })
            })
            .flat_map(|i| i.kind.dests())
            .copied()
            .collect();
        let mut last = None;
        for instruction in &mut after.instructions {
            if let Kind::Assign { dest, source, ty } = &mut instruction.kind {
                if was.contains(dest) {
                    match last.replace((*source, *ty)) {
                        Some((old, same)) if same == *ty => *source = old,
                        _ => {}
                    }
                }
            }
        }
    }
    rewritten
}
