//! Well-typed routines: branches that meet again, loops with phis, values read where they reach.

use oracle::form::*;

use crate::draft::Draft;
use crate::rng::Rng;
use crate::tables::{self, BOOL};
use crate::typed_steps::{literal_or_reaching, Typed};

/// A routine of up to `size` instructions.
pub fn routine(rng: &mut Rng, size: usize) -> Routine {
    let rows = rng.within(6, 18);
    let types = tables::buildable(rng, rows);
    routine_over(rng, types, size)
}

/// A routine over a table that begins with the rows of [`tables`].
pub fn routine_over(rng: &mut Rng, types: Vec<Type>, size: usize) -> Routine {
    let mut typed = Typed::new(Draft::new(rng, types, size.min(most::IN_ALL)));
    let parameters = typed.draft.rng.below(5);
    typed.parameters(parameters);
    let mut rounds = 0;
    while typed.wants_more() && rounds < 8 {
        typed.segment();
        rounds += 1;
    }
    typed.fill();
    typed.end();
    typed.draft.finish(BlockNo(0))
}

/// How many instructions a segment leaves for what follows it.
const RESERVE: usize = 12;

impl Typed<'_> {
    fn wants_more(&self) -> bool {
        self.draft.left > RESERVE && self.draft.blocks.len() + 4 < most::BLOCKS
    }

    /// One piece of the flow: some steps, then a jump, a branch that meets again, or a loop.
    fn segment(&mut self) {
        self.some_steps();
        match self.draft.rng.below(4) {
            0 => self.jump(),
            1 | 2 => self.branch(),
            _ => self.turn(),
        }
    }

    fn some_steps(&mut self) {
        let share = (self.draft.left / 3).clamp(2, 40);
        let wanted = self.draft.rng.within(1, share);
        let stop = self.draft.left.saturating_sub(wanted);
        while self.draft.left > stop && self.can_step() {
            self.step();
        }
    }

    /// Spends what is left in the last block.
    fn fill(&mut self) {
        while self.can_step() {
            self.step();
        }
    }

    fn jump(&mut self) {
        let next = BlockNo(self.draft.here().0 + 1);
        self.draft.close(Terminator::Jump(next));
    }

    /// A test of some sort, to `then_target` or `else_target`.
    fn fork(&mut self, then_target: BlockNo, else_target: BlockNo) {
        let terminator = if self.draft.rng.chance(60) {
            let condition = self.need(BOOL, 1);
            Terminator::If { condition, then_target, else_target }
        } else {
            let op = self.draft.rng.within(4, 9) as u8;
            let (left, right) = (self.need(tables::FELT, 1), self.need(tables::FELT, 1));
            Terminator::BranchCmp { op, left, right, then_target, else_target }
        };
        self.draft.close(terminator);
    }

    /// Two sides that meet in a block with phis of what each side has.
    fn branch(&mut self) {
        let here = self.draft.here().0;
        let [first, second, join] = [1, 2, 3].map(|n| BlockNo(here + n));
        self.fork(first, second);
        let outer = self.scope.len();
        let mut ends = Vec::new();
        for _ in 0..2 {
            self.some_steps();
            self.draft.close(Terminator::Jump(join));
            ends.push(self.scope.clone());
            self.scope.truncate(outer);
        }
        let phis = self.draft.rng.below(4);
        for _ in 0..phis {
            let ty = self.phi_type(&ends[0]);
            let sides = [first, second].into_iter().zip(&ends);
            let sources: Option<Vec<_>> = sides
                .map(|(block, scope)| {
                    literal_or_reaching(self.draft.rng, ty, scope).map(|v| (block, v))
                })
                .collect();
            if let Some(sources) = sources.filter(|_| self.draft.room() > 0) {
                self.phi(ty, sources);
            }
        }
    }

    /// A head with phis, a body that goes back to it, and the block after.
    fn turn(&mut self) {
        let here = self.draft.here();
        let [head, body, after] = [1, 2, 3].map(|n| BlockNo(here.0 + n));
        self.draft.close(Terminator::Jump(head));
        let before = self.scope.clone();
        let phis = self.draft.rng.below(3);
        let mut carried = Vec::new();
        for _ in 0..phis {
            let ty = self.phi_type(&before);
            let first =
                literal_or_reaching(self.draft.rng, ty, &before).filter(|_| self.draft.room() > 0);
            if let Some(first) = first {
                if self.phi(ty, vec![(here, first)]) {
                    carried.push(ty);
                }
            }
        }
        self.fork(body, after);
        let outer = self.scope.len();
        self.some_steps();
        let end = self.scope.clone();
        self.draft.close(Terminator::Jump(head));
        for (at, ty) in carried.into_iter().enumerate() {
            let back =
                literal_or_reaching(self.draft.rng, ty, &end).expect("the phi itself reaches");
            let phi = &mut self.draft.blocks[head.index()].instructions[at].kind;
            if let Kind::Phi { sources, .. } = phi {
                sources.push((body, back));
            }
        }
        self.scope.truncate(outer);
    }

    /// Adds a phi, where there is a value for it.
    fn phi(&mut self, ty: TypeNo, sources: Vec<(BlockNo, Value)>) -> bool {
        if !self.draft.has_values(1) {
            return false;
        }
        let dest = self.define(ty);
        self.draft.push(Kind::Phi { dest, ty, sources });
        true
    }

    fn phi_type(&mut self, scope: &[(ValueNo, TypeNo)]) -> TypeNo {
        match self.draft.rng.pick_some(scope) {
            Some((_, ty)) if self.draft.rng.chance(60) => ty,
            _ => tables::FELT,
        }
    }

    /// The last terminator: a return of what there is, as a rule.
    fn end(&mut self) {
        if self.draft.rng.chance(5) {
            return self.draft.close(Terminator::Unreachable);
        }
        let count = self.draft.rng.below(4);
        let mut values = Vec::with_capacity(count);
        for _ in 0..count {
            let value = self.draft.rng.pick_some(&self.scope);
            values.push(value.map_or(Value::Integer(0), |(v, _)| Value::Operand(v)));
        }
        self.draft.close(Terminator::Return(values));
    }
}
