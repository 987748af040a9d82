//! Wild routines: valid bytes in which types, counts, fields and indices need not agree, with the
//! builds of a block read, changed and handed on in every way.

use oracle::form::*;

use crate::draft::Draft;
use crate::rng::Rng;
use crate::tables::list_length;
use crate::wild_steps::Wild;

/// What a wild routine is measured by.
pub struct Scale {
    pub types: Vec<Type>,
    pub next: usize,
    pub in_block: Vec<usize>,
    /// Whether lists are near their most as a rule.
    pub wide: bool,
}

impl Scale {
    /// A small routine, as a rule with values enough for its instructions.
    pub fn small(rng: &mut Rng) -> Self {
        let rows = if rng.chance(10) { rng.within(1, 3) } else { rng.within(4, 16) };
        let blocks = if rng.chance(60) { 1 } else { rng.within(1, 5) };
        let per_block = if rng.chance(90) { 12 } else { 40 };
        let in_block: Vec<usize> = (0..blocks).map(|_| rng.below(per_block)).collect();
        let enough = in_block.iter().sum::<usize>() + rng.within(1, 24);
        let next = if rng.chance(10) { rng.below(12) } else { enough };
        Self { types: crate::tables::any(rng, rows, false), next, in_block, wide: false }
    }
}

/// A wild routine of that scale.
pub fn routine(rng: &mut Rng, scale: Scale) -> Routine {
    let in_all = scale.in_block.iter().sum();
    let blocks = scale.in_block.len();
    let draft = Draft::new(rng, scale.types, in_all);
    let mut wild = Wild::new(draft, scale.next, blocks, scale.wide);
    wild.parameters();
    for count in scale.in_block {
        wild.block(count);
    }
    wild.rest();
    let entry = wild.any_block();
    wild.draft.finish(entry)
}

impl Wild<'_> {
    fn parameters(&mut self) {
        let wanted = list_length(self.draft.rng, self.wide).min(self.next / 2);
        for _ in 0..wanted {
            let ty = self.any_record();
            let value = self.draft.fresh(ty);
            self.draft.parameters.push(value);
        }
    }

    /// Values that nothing defines, some recorded.
    fn rest(&mut self) {
        while self.draft.recorded.len() < self.next {
            let ty = self.any_record();
            self.draft.fresh(ty);
        }
    }

    fn block(&mut self, count: usize) {
        self.builds.clear();
        let phis = if self.draft.rng.chance(30) { self.draft.rng.below(4).min(count) } else { 0 };
        while self.draft.open.len() < count {
            let room = count - self.draft.open.len();
            let fresh = self.next - self.draft.recorded.len();
            if self.draft.open.len() < phis && fresh > 0 {
                self.phi();
            } else if room.min(fresh) >= Self::NEST && self.draft.rng.chance(20) {
                self.nest();
            } else {
                self.step();
            }
        }
        let terminator = self.terminator();
        self.draft.close(terminator);
    }

    fn phi(&mut self) {
        // A tuple or struct phi keeps the block from being rewritten: not too often.
        let ty = if self.draft.rng.chance(70) { self.scalar_or_array() } else { self.any_type() };
        let recorded = if self.draft.rng.chance(90) { Some(ty) } else { self.any_record() };
        let dest = self.draft.fresh(recorded);
        let count = list_length(self.draft.rng, self.wide);
        let sources = (0..count).map(|_| (self.any_block(), self.value())).collect();
        self.draft.push(Kind::Phi { dest, ty, sources });
    }

    fn scalar_or_array(&mut self) -> TypeNo {
        let ty = self.any_type();
        match self.draft.row(ty) {
            Type::Tuple(_) | Type::Struct { .. } => TypeNo(0),
            _ => ty,
        }
    }

    fn terminator(&mut self) -> Terminator {
        match self.draft.rng.below(10) {
            0 => Terminator::Jump(self.any_block()),
            1 => Terminator::If {
                condition: self.value(),
                then_target: self.any_block(),
                else_target: self.any_block(),
            },
            2 => Terminator::BranchCmp {
                op: self.draft.binary_op(),
                left: self.value(),
                right: self.value(),
                then_target: self.any_block(),
                else_target: self.any_block(),
            },
            3 => Terminator::Unreachable,
            _ => {
                let count = list_length(self.draft.rng, self.wide);
                Terminator::Return((0..count).map(|_| self.aggregate()).collect())
            }
        }
    }
}
