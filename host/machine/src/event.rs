//! What a run records, and where it then stands.

use oracle::form::{BlockNo, NameNo};

use crate::datum::Datum;

/// One step of a place, an Index with its value.
#[derive(Debug, Clone, PartialEq, Eq)]
pub enum Step {
    Index(Datum),
    Field(NameNo),
    Tuple(u32),
}

/// What is recorded: "no value number, span, expression id or comment is in it".
#[derive(Debug, Clone, PartialEq, Eq)]
pub enum Event {
    Call { callee: u16, args: Vec<Datum> },
    HeapAllocCells { cells: Datum },
    Load { pointer: Datum, steps: Vec<Step> },
    Store { pointer: Datum, steps: Vec<Step>, value: Datum },
    AssertEq { left: Datum, right: Datum },
    Debug { message: u32, values: Vec<Datum> },
    Return { values: Vec<Datum> },
}

/// "has stopped (no value of its type, no source, no reply left, unwritten value, missing part)".
#[derive(Debug, Clone, Copy, PartialEq, Eq)]
pub enum Cause {
    NoValue,
    NoSource,
    NoReply,
    Unwritten,
    MissingPart,
    /// An operation that has no result for its operands, with a number of its own.
    Operation(u8),
}

/// "has ended (Return, Unreachable, unequal sides)".
#[derive(Debug, Clone, Copy, PartialEq, Eq)]
pub enum End {
    Return,
    Unreachable,
    UnequalSides,
}

/// "It then stands at its next block, or has ended .., or has stopped".
#[derive(Debug, Clone, Copy, PartialEq, Eq)]
pub enum Standing {
    At(BlockNo),
    Ended(End),
    Stopped(Cause),
}

impl Standing {
    /// Whether a claim is made about a run that stands so: the original must not have stopped at
    /// an unwritten value or a missing part.
    pub fn is_compared(self) -> bool {
        !matches!(self, Standing::Stopped(Cause::Unwritten | Cause::MissingPart))
    }
}

/// All that is compared of a run.
#[derive(Debug, Clone, PartialEq, Eq)]
pub struct Trace {
    pub record: Vec<Event>,
    pub standing: Standing,
}
