//! Both editions of the lowering rule, written from documents 01 and 02 and not over the Rust: edition 1 so
//! that this frame can be compared with the Rust, edition 2 because it has no other program to be compared
//! with but the proved one.

mod block;
mod eligible;
mod reads;
mod rebuild;

use oracle::form::{Instruction, Routine};
use oracle::{admitted, cause, write, Counts, Refusal, Settings};

use block::Rewriting;

/// "Edition 2, chosen by the caller with the number 2 (any other means 1)."
#[derive(Debug, Clone, Copy, PartialEq, Eq, Hash)]
pub enum Edition {
    First,
    Second,
}

impl Edition {
    pub fn of(number: u64) -> Self {
        if number == 2 {
            Edition::Second
        } else {
            Edition::First
        }
    }
}

/// The refusals of a rebuild; 10 is the oracle's too.
pub mod fault {
    pub use oracle::cause::ARRAY_REBUILD;
    pub const LOOPED: u8 = 14;
    pub const OVERFULL: u8 = 15;
}

/// "15 when the next value or a block's instruction count would pass 65,535."
pub const MOST: usize = 65_535;

/// What stops a rewriting: 10, 14 or 15, the first met.
#[derive(Debug, Clone, Copy, PartialEq, Eq)]
pub struct Fault(pub u8);

/// Every answer of a run that is not refused.
#[derive(Debug, Clone, PartialEq, Eq)]
pub struct Lowered {
    pub result: bool,
    pub counts: Counts,
    pub reason: u8,
    pub output: Vec<u8>,
}

/// What an edition makes of an input where `room` bytes are lent: "12 is tested first; 1 to 8 go by lowest
/// offset; then 9", the first met of 10, 14 and 15, and 11 by the true length.
pub fn lower(
    input: &[u8],
    settings: Settings,
    edition: Edition,
    room: usize,
) -> Result<Lowered, Refusal> {
    let original = admitted(input, settings)?;
    let Rewritten { result, counts, routine } = rewrite(&original, settings, edition)
        .map_err(|Fault(number)| Refusal { number, offset: 0 })?;
    let output = write(&routine);
    if output.len() > room {
        return Err(Refusal { number: cause::OUTPUT_LONGER, offset: 0 });
    }
    let dropped = shelf::dropped(&original, &routine);
    let reason = shelf::reason(&original, &routine, &dropped);
    Ok(Lowered { result, counts, reason, output })
}

/// A routine rewritten: it may pass the mosts.
#[derive(Debug, Clone, PartialEq, Eq)]
pub struct Rewritten {
    pub result: bool,
    pub counts: Counts,
    pub routine: Routine,
}

/// Rewrites a routine, block by block.
pub fn rewrite(
    routine: &Routine,
    settings: Settings,
    edition: Edition,
) -> Result<Rewritten, Fault> {
    let mut rewriting = Rewriting::new(routine, settings, edition);
    let blocks: Result<_, Fault> = routine.blocks.iter().map(|b| rewriting.block(b)).collect();
    let (recorded, counts) = rewriting.ends();
    let routine = Routine { recorded, blocks: blocks?, ..routine.clone() };
    Ok(Rewritten { result: counts[count::BUILDS] > 0, counts, routine })
}

/// The counts by place, in `Stats` order.
mod count {
    pub const BUILDS: usize = 0;
    pub const EXTRACTS: usize = 1;
    pub const INSERTS: usize = 2;
    pub const ASSIGNS: usize = 3;
    pub const MATERIALIZATIONS: usize = 4;
}

/// The instructions of a block so far; the one after the last that fits is never added.
#[derive(Default)]
struct Lines(Vec<Instruction>);

impl Lines {
    fn add(&mut self, instruction: Instruction) -> Result<(), Fault> {
        if self.0.len() >= MOST {
            return Err(Fault(fault::OVERFULL));
        }
        self.0.push(instruction);
        Ok(())
    }
}
