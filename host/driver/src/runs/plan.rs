//! How a run is made: outside lists, meanings, numbers of blocks.

use gen::Rng;
use machine::{run, Datum, Hashed, Meaning, Outside, Plain, Silent};
use oracle::form::*;

/// How a list came about.
#[derive(Debug, Clone, Copy, PartialEq, Eq)]
pub enum ListSort {
    /// Each value of the type that is asked for.
    Right,
    /// One value of another kind.
    Wrong,
    /// Some values missing at the end.
    Short,
}

pub const LIST_SORTS: [&str; 3] = ["right", "one value wrong", "too short"];
pub const MEANINGS: [&str; 4] =
    ["arithmetic", "drawn", "drawn, some stop", "arithmetic, Debug unrecorded"];

/// The meanings of a routine's runs, in turn.
const TURNS: [usize; 6] = [0, 1, 2, 0, 1, 3];

pub struct Plan {
    /// The place in [`MEANINGS`].
    pub meant: usize,
    pub meaning: Box<dyn Meaning>,
    pub sort: ListSort,
    pub list: Vec<Datum>,
    pub blocks: usize,
}

/// Some runs of a routine.
pub fn plans(rng: &mut Rng, routine: &Routine, count: usize) -> Vec<Plan> {
    (0..count).map(|at| plan(rng, routine, at)).collect()
}

fn plan(rng: &mut Rng, routine: &Routine, at: usize) -> Plan {
    let meant = TURNS[at % TURNS.len()];
    let meaning: Box<dyn Meaning> = match meant {
        0 => Box::new(Plain),
        3 => Box::new(Silent(Plain)),
        _ => Box::new(Hashed { seed: rng.word(), stops: meant == 2 }),
    };
    let blocks = if rng.chance(70) { rng.within(8, 40) } else { rng.below(8) };
    let mut maker = Maker { rng: &mut *rng, routine, given: Vec::new() };
    run(routine, &*meaning, &mut maker, blocks);
    let mut list = maker.given;
    let sort = spoil(rng, &mut list);
    Plan { meant, meaning, sort, list, blocks }
}

/// Makes a list wrong or too short, at times.
fn spoil(rng: &mut Rng, list: &mut Vec<Datum>) -> ListSort {
    match rng.below(6) {
        0 if !list.is_empty() => {
            let at = rng.below(list.len());
            list[at] = another(rng, &list[at]);
            ListSort::Wrong
        }
        1 if !list.is_empty() => {
            list.truncate(rng.below(list.len()));
            ListSort::Short
        }
        _ => {
            list.extend((0..rng.below(3)).map(|_| scalar(rng)));
            ListSort::Right
        }
    }
}

/// A value of another kind: another scalar, a part more or less, or a part of another kind.
fn another(rng: &mut Rng, datum: &Datum) -> Datum {
    let Datum::Parts(parts) = datum else {
        return match datum {
            Datum::Unit => Datum::parts(vec![]),
            _ if rng.chance(30) => Datum::parts(vec![datum.clone()]),
            _ => Datum::Unit,
        };
    };
    let mut parts = parts.to_vec();
    match rng.below(3) {
        0 if !parts.is_empty() => drop(parts.pop()),
        1 if !parts.is_empty() => {
            let at = rng.below(parts.len());
            parts[at] = another(rng, &parts[at]);
        }
        _ => parts.push(scalar(rng)),
    }
    Datum::parts(parts)
}

fn scalar(rng: &mut Rng) -> Datum {
    let n = small(rng);
    match rng.below(5) {
        0 => Datum::Truth(n & 1 == 1),
        1 => Datum::Unit,
        2 => Datum::Address(n),
        3 => Datum::Code(n),
        _ => Datum::Number(n),
    }
}

/// Few numbers, so that equal sides and indices in range are met.
fn small(rng: &mut Rng) -> u32 {
    if rng.chance(5) {
        rng.word() as u32
    } else {
        rng.below(4) as u32
    }
}

/// Makes what a run asks for, and remembers it as a list.
struct Maker<'a> {
    rng: &'a mut Rng,
    routine: &'a Routine,
    given: Vec<Datum>,
}

/// The most parts that one reply is made of.
const LARGEST: usize = 2000;

impl Outside for Maker<'_> {
    fn next(&mut self, dest: ValueNo) -> Option<Datum> {
        let mut left = LARGEST;
        let made = of_type(self.rng, self.routine, self.routine.recorded_type(dest), &mut left);
        // A type without values, or with too large ones, gets some scalar, which is none of it.
        let made = made.unwrap_or_else(|| scalar(self.rng));
        self.given.push(made.clone());
        Some(made)
    }
}

/// A value of the type, where there is one of at most `left` parts.
fn of_type(
    rng: &mut Rng,
    routine: &Routine,
    ty: Option<TypeNo>,
    left: &mut usize,
) -> Option<Datum> {
    *left = left.checked_sub(1)?;
    let row = routine.row(ty)?;
    let n = small(rng);
    Some(match row {
        Type::Felt | Type::U32 => Datum::Number(n),
        Type::Bool => Datum::Truth(n & 1 == 1),
        Type::Unit => Datum::Unit,
        Type::Pointer(_) => Datum::Address(n),
        Type::Function { .. } => Datum::Code(n),
        Type::Error | Type::Unknown => return None,
        Type::Tuple(_) | Type::Struct { .. } | Type::FixedArray { .. } => {
            let count = row.count()?;
            let parts: Option<Vec<Datum>> =
                (0..count).map(|at| of_type(rng, routine, row.part(at), left)).collect();
            Datum::parts(parts?)
        }
    })
}
