//! What `lower` must answer: what the Rust makes of an input, or an edition, and the shelf reason.

use edition2::Edition;
use oracle::{admitted, cause, run_routine, write, Lowered, Refusal, Settings};

use crate::Answer;

/// The answer and the bytes for an output that is long enough.
pub struct Judged {
    pub numbers: Answer,
    pub output: Vec<u8>,
}

impl Judged {
    pub fn of(input: &[u8], settings: Settings) -> Self {
        match judge(input, settings) {
            Ok((Lowered { result, counts: [a, b, c, d, e], routine }, reason)) => {
                let output = write(&routine);
                let length = output.len() as u64;
                Self {
                    numbers: [0, 0, result.into(), a, b, c, d, e, reason.into(), length],
                    output,
                }
            }
            Err(refusal) => Self { numbers: refused(refusal), output: Vec::new() },
        }
    }

    /// The same of an edition as the crate `edition2` has it.
    pub fn in_edition(input: &[u8], settings: Settings, edition: Edition) -> Self {
        match edition2::lower(input, settings, edition, usize::MAX) {
            Ok(edition2::Lowered { result, counts: [a, b, c, d, e], reason, output }) => {
                let length = output.len() as u64;
                let numbers = [0, 0, result.into(), a, b, c, d, e, reason.into(), length];
                Self { numbers, output }
            }
            Err(refusal) => Self { numbers: refused(refusal), output: Vec::new() },
        }
    }

    /// The answer and the bytes where `lent` bytes are there: 11 is the last refusal.
    pub fn within(&self, lent: usize) -> (Answer, &[u8]) {
        if self.output.len() <= lent {
            return (self.numbers, &self.output);
        }
        (refused(Refusal { number: cause::OUTPUT_LONGER, offset: 0 }), &[])
    }
}

fn refused(refusal: Refusal) -> Answer {
    [refusal.number.into(), refusal.offset as u64, 0, 0, 0, 0, 0, 0, 0, 0]
}

/// The rewriting and its shelf reason, or the refusal where the output is long enough.
fn judge(input: &[u8], settings: Settings) -> Result<(Lowered, u8), Refusal> {
    let original = admitted(input, settings)?;
    let lowered = run_routine(original.clone(), settings)?;
    let dropped = shelf::dropped(&original, &lowered.routine);
    let reason = shelf::reason(&original, &lowered.routine, &dropped);
    Ok((lowered, reason))
}
