//! The families of a routine's builds, from what a family is: the least set of values that has the
//! build's value and is closed under the copies of its block.

mod copies;

use std::collections::{BTreeMap, BTreeSet};

use oracle::form::{Block, Kind, Projection, Routine, Type, Value, ValueNo};

use copies::{copies, Copy};

/// The family of one build.
#[derive(Debug, Clone, PartialEq, Eq)]
pub struct Family {
    pub block: usize,
    /// The build's place in its block, phis counted.
    pub instruction: usize,
    pub dest: ValueNo,
    pub members: BTreeSet<ValueNo>,
    /// How many of the block's copies are of a member; one at another kind of type makes none.
    pub copies: usize,
    /// Whether a member is looked into, by a Load or a Store, at an Index that is no Integer.
    pub dynamic: bool,
    /// Whether a copy that makes a member stands before what it copies.
    pub backwards: bool,
}

impl Family {
    /// "One turn for each member and one for each of its copies."
    pub fn turns(&self) -> usize {
        self.members.len() + self.copies
    }
}

/// The family of each build, in the order of the builds.
pub fn families(routine: &Routine) -> Vec<Family> {
    let of_block = |(at, block)| of_block(routine, at, block);
    routine.blocks.iter().enumerate().flat_map(of_block).collect()
}

fn of_block(routine: &Routine, at: usize, block: &Block) -> Vec<Family> {
    let copies = copies(routine, block);
    let looked_into = looked_into(block);
    let kinds = block.instructions.iter().map(|i| &i.kind).enumerate();
    let builds = kinds.filter_map(|(place, kind)| Some((place, built(kind)?)));
    let family = |(instruction, dest)| {
        let making = making(routine, dest, &copies);
        let members = closed(dest, &making);
        Family {
            block: at,
            instruction,
            dest,
            copies: copies.iter().filter(|copy| members.contains(&copy.source)).count(),
            dynamic: !members.is_disjoint(&looked_into),
            backwards: stands_before((dest, instruction), &making, &members),
            members,
        }
    };
    builds.map(family).collect()
}

/// The value that a build defines.
fn built(kind: &Kind) -> Option<ValueNo> {
    match kind {
        Kind::MakeTuple { dest, .. }
        | Kind::MakeStruct { dest, .. }
        | Kind::MakeFixedArray { dest, .. } => Some(*dest),
        _ => None,
    }
}

/// The copies that make members for this root: an insert does for any, an Assign where the type that
/// it names and the root's recorded type are both Tuple, both Struct or both FixedArray.
fn making<'c>(routine: &Routine, root: ValueNo, copies: &'c [Copy]) -> Vec<&'c Copy> {
    let kind = routine.row(routine.recorded_type(root)).map(Type::byte);
    copies.iter().filter(|copy| copy.named.is_none() || copy.named == kind).collect()
}

/// The least set that has the root, and with the source of a copy its dest.
fn closed(root: ValueNo, copies: &[&Copy]) -> BTreeSet<ValueNo> {
    let mut set = BTreeSet::from([root]);
    loop {
        let reached = copies.iter().filter(|copy| set.contains(&copy.source));
        let larger: BTreeSet<ValueNo> = reached.map(|copy| copy.dest).chain([root]).collect();
        if larger.len() == set.len() {
            return set;
        }
        set = larger;
    }
}

/// Whether a copy that makes a member stands before its source, itself a member.
fn stands_before(root: (ValueNo, usize), making: &[&Copy], members: &BTreeSet<ValueNo>) -> bool {
    let made = making.iter().map(|copy| (copy.dest, copy.at));
    let places: BTreeMap<ValueNo, usize> = made.chain([root]).collect();
    let mut of_members = making.iter().filter(|copy| members.contains(&copy.source));
    of_members.any(|copy| copy.at < places[&copy.source])
}

/// The values that a block looks into at an Index that is no Integer, by the first projection.
fn looked_into(block: &Block) -> BTreeSet<ValueNo> {
    let base = |kind: &Kind| {
        let (Kind::Load { place, .. } | Kind::Store { place, .. }) = kind else {
            return None;
        };
        match place.projections.first() {
            Some(Projection::Index(Value::Integer(_))) => None,
            Some(Projection::Index(_)) => Some(place.base),
            _ => None,
        }
    };
    block.instructions.iter().filter_map(|i| base(&i.kind)).collect()
}
