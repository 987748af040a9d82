//! Blocks, and a run of some blocks.

use oracle::form::*;

use crate::datum::Datum;
use crate::event::{Cause, Standing, Trace};
use crate::meaning::Meaning;
use crate::state::{Done, Halt, Outside, State};

/// A run: what is compared of it, and the blocks that it began, in order.
#[derive(Debug, Clone, PartialEq, Eq)]
pub struct Run {
    pub trace: Trace,
    pub path: Vec<BlockNo>,
}

/// "A run of n blocks makes fewer if it ends or stops."
pub fn run(
    routine: &Routine,
    meaning: &dyn Meaning,
    outside: &mut dyn Outside,
    blocks: usize,
) -> Run {
    let mut state = State::new(routine, meaning, outside);
    let mut path = Vec::new();
    let standing = match state.go(blocks, &mut path) {
        Ok(block) => Standing::At(block),
        Err(Halt::Ended(end)) => Standing::Ended(end),
        Err(Halt::Stopped(cause)) => Standing::Stopped(cause),
    };
    Run { trace: Trace { record: state.record, standing }, path }
}

impl State<'_> {
    /// "A run starts at the entry block with nothing written but the parameters"; the block that
    /// comes next.
    fn go(&mut self, blocks: usize, path: &mut Vec<BlockNo>) -> Done<BlockNo> {
        let routine = self.routine;
        routine.parameters.iter().try_for_each(|parameter| self.take(*parameter))?;
        let (mut left, mut here) = (None, routine.entry);
        for _ in 0..blocks {
            path.push(here);
            let next = self.block(left, here)?;
            (left, here) = (Some(here), next);
        }
        Ok(here)
    }

    /// One block, coming from the block just left, if any.
    fn block(&mut self, left: Option<BlockNo>, here: BlockNo) -> Done<BlockNo> {
        let block = &self.routine.blocks[here.index()];
        let is_phi = |i: &&Instruction| matches!(i.kind, Kind::Phi { .. });
        let phis = block.instructions.iter().take_while(is_phi);
        let read: Done<Vec<(ValueNo, Datum)>> = phis.map(|phi| self.phi(left, &phi.kind)).collect();
        let read = read?;
        let behind = read.len();
        for (dest, value) in read {
            self.write(dest, value)?;
        }
        block.instructions[behind..].iter().try_for_each(|i| self.exec(&i.kind))?;
        self.terminate(&block.terminator)
    }

    /// "Phis read together, by the first source for the block just left; without one the machine
    /// stops."
    fn phi(&self, left: Option<BlockNo>, kind: &Kind) -> Done<(ValueNo, Datum)> {
        let Kind::Phi { dest, ty, sources } = kind else {
            unreachable!("only phis are asked");
        };
        let source = sources.iter().find(|(block, _)| Some(*block) == left);
        let (_, value) = source.ok_or(Halt::Stopped(Cause::NoSource))?;
        Ok((*dest, self.value(*value, self.routine.row(Some(*ty)))?))
    }
}
