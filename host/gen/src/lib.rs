//! Routines from a seed: well typed, wild, near every most, damaged, full of Debugs, dense in copies,
//! and plain bytes.

mod churn;
mod copies;
mod damage;
mod damage_routine;
mod debugs;
mod deep;
mod deep_steps;
mod draft;
mod fields;
mod near;
mod rng;
mod shrink;
mod shrink_routine;
mod tables;
pub mod tower;
mod twist;
mod typed;
mod typed_steps;
mod wild;
mod wild_nest;
mod wild_steps;
mod work;

use oracle::form::Routine;

pub use rng::Rng;
pub use shrink::smallest;
pub use shrink_routine::smaller;
pub use work::{Work, WORKS};

/// What sort of input is made.
#[derive(Debug, Clone, Copy, PartialEq, Eq)]
pub enum Sort {
    /// A well-typed routine.
    Typed,
    /// A routine of valid bytes whose types disagree.
    Wild,
    /// A routine at or just below a most.
    Near,
    /// A routine with something wrong.
    Damaged,
    /// Bytes that are no routine but by chance.
    Bytes,
    /// A routine, typed as a rule, with Debugs put into it.
    Debugs,
    /// A routine whose blocks are dense in copies, in any order.
    Copies,
    /// A routine whose values nest and are read whole, some by odd types and of themselves.
    Deep,
    /// A routine of which edition 2 makes about as many rebuilds as there are numbers.
    Tower,
}

/// The sorts that a mix has.
pub const SORTS: [Sort; 7] =
    [Sort::Typed, Sort::Wild, Sort::Near, Sort::Damaged, Sort::Bytes, Sort::Debugs, Sort::Copies];

/// All sorts: those of the mix, and such as must be asked for.
pub const ALL_SORTS: [Sort; 9] = [
    Sort::Typed,
    Sort::Wild,
    Sort::Near,
    Sort::Damaged,
    Sort::Bytes,
    Sort::Debugs,
    Sort::Copies,
    Sort::Deep,
    Sort::Tower,
];

impl Sort {
    pub fn name(self) -> &'static str {
        match self {
            Sort::Typed => "typed",
            Sort::Wild => "wild",
            Sort::Near => "near",
            Sort::Damaged => "damaged",
            Sort::Bytes => "bytes",
            Sort::Debugs => "debugs",
            Sort::Copies => "copies",
            Sort::Deep => "deep",
            Sort::Tower => "tower",
        }
    }
}

/// Input `number` under `seed`, with its sort: the one asked for, or a mix of all.
pub fn input(seed: u64, number: u64, only: Option<Sort>) -> (Sort, Vec<u8>) {
    let mut rng = Rng::of(seed, number);
    let mixed = match rng.below(100) {
        0..=24 => Sort::Typed,
        25..=44 => Sort::Wild,
        45..=46 => Sort::Near,
        47..=87 => Sort::Damaged,
        88..=91 => Sort::Copies,
        92..=96 => Sort::Bytes,
        _ => Sort::Debugs,
    };
    let sort = only.unwrap_or(mixed);
    (sort, of_sort(&mut rng, sort))
}

/// An input of that sort.
pub fn of_sort(rng: &mut Rng, sort: Sort) -> Vec<u8> {
    match sort {
        Sort::Typed | Sort::Wild | Sort::Near => oracle::write(&routine(rng, sort)),
        Sort::Damaged => {
            let whole = match rng.below(50) {
                0 => Sort::Near,
                1..=25 => Sort::Wild,
                _ => Sort::Typed,
            };
            let routine = routine(rng, whole);
            damage::damaged(rng, routine)
        }
        Sort::Bytes => bytes(rng),
        Sort::Debugs => with_debugs(rng),
        Sort::Copies => oracle::write(&copies::routine(rng)),
        Sort::Deep => {
            let odd = if rng.chance(40) { 0 } else { rng.pick(&[1, 3, 8, 20]) };
            deep_of(rng, odd)
        }
        Sort::Tower => oracle::write(&tower::routine(rng)),
    }
}

/// A valid routine; damaged ones and bytes count as wild.
fn routine(rng: &mut Rng, sort: Sort) -> Routine {
    match sort {
        Sort::Typed => {
            let size = if rng.chance(90) { rng.within(1, 30) } else { rng.within(30, 120) };
            typed::routine(rng, size)
        }
        Sort::Near => near::routine(rng),
        _ => {
            let scale = wild::Scale::small(rng);
            wild::routine(rng, scale)
        }
    }
}

/// A well-typed routine of about `size` instructions, for measuring.
pub fn sized(rng: &mut Rng, size: usize) -> Vec<u8> {
    oracle::write(&typed::routine(rng, size))
}

/// A well-typed routine with a twist: types agree as a rule, but values are read where they do not
/// reach, and blocks entered from anywhere.
pub fn twisted(rng: &mut Rng) -> Vec<u8> {
    oracle::write(&twisted_routine(rng))
}

fn twisted_routine(rng: &mut Rng) -> Routine {
    let mut routine = routine(rng, Sort::Typed);
    twist::twist(rng, &mut routine);
    routine
}

/// A well-typed routine that changes a few aggregates again and again, and then shows them.
pub fn churned(rng: &mut Rng) -> Vec<u8> {
    let size = rng.within(3, 40);
    oracle::write(&churn::routine(rng, size, false))
}

/// The same with some Stores into a part of a part, which keeps a routine off the shelf.
pub fn churned_deep(rng: &mut Rng) -> Vec<u8> {
    let size = rng.within(3, 40);
    oracle::write(&churn::routine(rng, size, true))
}

/// A deep routine; `odd` of a hundred choices are such that types disagree.
pub fn deep_of(rng: &mut Rng, odd: usize) -> Vec<u8> {
    let size = rng.within(3, 60);
    oracle::write(&deep::routine(rng, size, odd))
}

/// A routine of some sort, with Debugs put into it.
fn with_debugs(rng: &mut Rng) -> Vec<u8> {
    let size = rng.within(3, 40);
    let mut routine = match rng.below(100) {
        0..=29 => routine(rng, Sort::Typed),
        30..=54 => churn::routine(rng, size, false),
        55..=59 => churn::routine(rng, size, true),
        60..=84 => twisted_routine(rng),
        _ => routine(rng, Sort::Wild),
    };
    debugs::put(rng, &mut routine);
    oracle::write(&routine)
}

/// Short rows of bytes, small ones more often, at times behind the beginning of a routine.
fn bytes(rng: &mut Rng) -> Vec<u8> {
    let mut bytes = Vec::new();
    if rng.chance(60) {
        bytes = of_sort(rng, Sort::Wild);
        let kept = rng.below(bytes.len() + 1);
        bytes.truncate(kept);
    }
    let length = rng.below(40);
    let small = [0, 0, 0, 0, 1, 1, 2, 3, 4, 9, 16];
    let any = rng.chance(30);
    bytes.extend((0..length).map(|_| if any { rng.word() as u8 } else { rng.pick(&small) }));
    bytes
}
