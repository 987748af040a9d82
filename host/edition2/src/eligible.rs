//! Which builds are folded, and which blocks are skipped: the same in both editions.

use std::collections::BTreeSet;

use families::Family;
use oracle::form::*;
use oracle::Settings;

pub struct Eligible<'a> {
    routine: &'a Routine,
    settings: Settings,
    /// Members of a family that is used in another block than its own.
    elsewhere: BTreeSet<ValueNo>,
    /// Builds whose family is looked into at an Index that is no Integer.
    dynamic: BTreeSet<ValueNo>,
}

/// A build: its value, and what stands in it, in order.
struct Build {
    dest: ValueNo,
    parts: Vec<Value>,
}

fn build(kind: &Kind) -> Option<Build> {
    match kind {
        Kind::MakeTuple { dest, .. }
        | Kind::MakeStruct { dest, .. }
        | Kind::MakeFixedArray { dest, .. } => Some(Build { dest: *dest, parts: kind.values() }),
        _ => None,
    }
}

/// A first projection that leads into an aggregate's own value: none, or an Integer.
fn walks_in(place: &Place) -> bool {
    matches!(place.projections.first(), None | Some(Projection::Index(Value::Integer(_))))
}

impl<'a> Eligible<'a> {
    pub fn new(routine: &'a Routine, settings: Settings) -> Self {
        let mut new =
            Self { routine, settings, elsewhere: BTreeSet::new(), dynamic: BTreeSet::new() };
        let used: Vec<BTreeSet<ValueNo>> = routine.blocks.iter().map(used).collect();
        for Family { block, dest, members, dynamic, .. } in families::families(routine) {
            let mut others = used.iter().enumerate().filter(|(at, _)| *at != block);
            if new.small(new.recorded(dest)) && others.any(|(_, used)| !used.is_disjoint(&members))
            {
                new.elsewhere.extend(members);
            }
            if dynamic {
                new.dynamic.insert(dest);
            }
        }
        new
    }

    fn recorded(&self, value: ValueNo) -> Option<&Type> {
        self.routine.row(self.routine.recorded_type(value))
    }

    /// An aggregate of few enough parts, whose kind is turned on.
    fn small(&self, row: Option<&Type>) -> bool {
        let on = match row {
            Some(Type::Struct { .. }) => self.settings.enable_structs != 0,
            _ => self.settings.enable_tuples != 0,
        };
        let count = row.and_then(Type::count);
        on && count.is_some_and(|n| n as u64 <= self.settings.max_aggregate_size)
    }

    /// "A block with a tuple or struct phi is skipped", by the recorded type of its dest.
    pub fn skipped(&self, block: &Block) -> bool {
        block.instructions.iter().any(|i| match i.kind {
            Kind::Phi { dest, .. } => {
                matches!(self.recorded(dest), Some(Type::Tuple(_) | Type::Struct { .. }))
            }
            _ => false,
        })
    }

    /// The parts of a build that is folded, in its type's order.
    pub fn folded(&self, block: &Block, kind: &Kind) -> Option<Vec<Value>> {
        let Build { dest, parts } = build(kind)?;
        let (tuples, structs) =
            (self.settings.enable_tuples != 0, self.settings.enable_structs != 0);
        let folds = match kind {
            Kind::MakeTuple { .. } => {
                tuples && self.may_fold(kind) && self.tuple_parents_climb(block, dest)
            }
            Kind::MakeFixedArray { .. } => {
                tuples && self.climbs(block, dest) && !self.dynamic.contains(&dest)
            }
            _ => structs && self.climbs(block, dest),
        };
        folds.then(|| self.ordered(kind).unwrap_or(parts))
    }

    /// "A tuple's build looks only at MakeTuple parents", each with a visited set of its own.
    fn tuple_parents_climb(&self, block: &Block, dest: ValueNo) -> bool {
        let tuples = block.instructions.iter().filter(|i| matches!(i.kind, Kind::MakeTuple { .. }));
        let parents = tuples
            .filter_map(|i| build(&i.kind))
            .filter(|parent| parent.dest != dest && parent.parts.contains(&Value::Operand(dest)));
        parents.into_iter().all(|parent| self.climbs(block, parent.dest))
    }

    fn climbs(&self, block: &Block, dest: ValueNo) -> bool {
        self.climb(block, dest, &mut BTreeSet::new())
    }

    /// What a build asks of itself: its type, its parts, and that no other block uses its family.
    fn may_fold(&self, kind: &Kind) -> bool {
        let own = match kind {
            Kind::MakeTuple { dest, .. } => {
                let row = self.recorded(*dest);
                matches!(row, Some(Type::Tuple(_))) && self.small(row)
            }
            Kind::MakeFixedArray { dest, .. } => {
                let row = self.recorded(*dest);
                matches!(row, Some(Type::FixedArray { .. })) && self.small(row)
            }
            Kind::MakeStruct { struct_ty, .. } => {
                self.small(self.routine.row(Some(*struct_ty))) && self.ordered(kind).is_some()
            }
            _ => false,
        };
        own && build(kind).is_some_and(|b| !self.elsewhere.contains(&b.dest))
    }

    /// A struct build's parts in the order of its recorded type, or else of the one it names; none where
    /// that is no struct or a field is not given.
    fn ordered(&self, kind: &Kind) -> Option<Vec<Value>> {
        let Kind::MakeStruct { dest, fields: given, struct_ty } = kind else {
            return None;
        };
        let row = self.recorded(*dest).or(self.routine.row(Some(*struct_ty)));
        let Some(Type::Struct { fields, .. }) = row else {
            return None;
        };
        let part = |name: &NameNo| given.iter().find(|(own, _)| own == name).map(|(_, v)| *v);
        fields.iter().map(|(name, _)| part(name)).collect()
    }

    /// The climb: the build's own tests, then every use of it in the block; one visited set for all its
    /// calls.
    fn climb(&self, block: &Block, dest: ValueNo, visited: &mut BTreeSet<ValueNo>) -> bool {
        let mut kinds = block.instructions.iter().map(|i| &i.kind);
        let own = kinds.find(|kind| build(kind).is_some_and(|b| b.dest == dest));
        if !visited.insert(dest) || !own.is_some_and(|kind| self.may_fold(kind)) {
            return false;
        }
        let is_array = matches!(self.recorded(dest), Some(Type::FixedArray { .. }));
        block.instructions.iter().all(|i| match &i.kind {
            Kind::Call(call) => !call.args.contains(&Value::Operand(dest)),
            Kind::Load { place, .. } | Kind::Store { place, .. } => {
                place.base != dest || walks_in(place)
            }
            kind => match build(kind) {
                Some(parent) if parent.dest != dest => {
                    let mut uses = parent.parts.iter().filter(|v| **v == Value::Operand(dest));
                    uses.all(|_| !is_array && self.climb(block, parent.dest, visited))
                }
                _ => true,
            },
        })
    }
}

/// The values that a block uses, Debug's aside.
fn used(block: &Block) -> BTreeSet<ValueNo> {
    let kinds = block.instructions.iter().map(|i| &i.kind);
    let read = kinds.filter(|kind| !matches!(kind, Kind::Debug { .. })).flat_map(Kind::values);
    let operand = |value| match value {
        Value::Operand(v) => Some(v),
        _ => None,
    };
    read.chain(block.terminator.values()).filter_map(operand).collect()
}
