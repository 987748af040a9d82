//! One call: what comes out is judged as what goes in, by shelf reasons 1 and 2.

use std::fmt;
use std::mem::discriminant;

use edition2::Edition;
use oracle::form::{Kind, Routine};
use oracle::{read, read_output, read_second_output, Refusal, LENT};

use crate::editions::{Call, Choices};
use crate::Answer;

/// Longer than every output.
const LONGEST: usize = 8_000_000;
#[cfg(feature = "archive")]
const _: () = assert!(poelvigu::LONGEST_SECOND_OUTPUT <= LONGEST);

/// The refusal where the output is longer than what is lent.
const OUTPUT_LONGER: u64 = oracle::cause::OUTPUT_LONGER as u64;

/// Whether reason 1 holds, and whether reason 2 does.
pub type FirstTwo = [bool; 2];

/// An accepted routine, and what came of it.
pub struct Lowered {
    pub original: Routine,
    pub output: Routine,
    /// The output's bytes.
    pub bytes: Vec<u8>,
    pub reason: u8,
    /// Of the original, with its Debugs and without them.
    pub before: [FirstTwo; 2],
}

/// What is wrong with a call.
#[derive(Debug, Clone, Copy, PartialEq, Eq)]
pub enum Exception {
    /// A refusal that there is none of where so much is lent.
    Refusal(u64),
    /// The input is no routine.
    Input(Refusal),
    /// The output is none, document 01's mosts aside.
    Output(Refusal),
    /// Another shelf reason is answered than the crate `shelf` gives.
    Reason { answered: u64, own: u8 },
    /// The output has reason 1 or 2, and the input has it not; with the Debugs, or without them.
    New { reason: usize, debugs: bool },
}

impl Exception {
    /// Whether it is the same, whatever refusal or shelf reason it is about.
    pub fn is_like(&self, other: &Self) -> bool {
        match (self, other) {
            (Self::New { .. }, _) | (_, Self::New { .. }) => self == other,
            _ => discriminant(self) == discriminant(other),
        }
    }
}

impl fmt::Display for Exception {
    fn fmt(&self, f: &mut fmt::Formatter<'_>) -> fmt::Result {
        match self {
            Self::Refusal(number) => write!(f, "refused by {number}"),
            Self::Input(refusal) => write!(f, "the input is no routine: {refusal:?}"),
            Self::Output(refusal) => write!(f, "the output is no routine: {refusal:?}"),
            Self::Reason { answered, own } => {
                write!(f, "shelf reason {answered} is answered, and it is {own}")
            }
            Self::New { reason, debugs: true } => write!(f, "the output has reason {reason}"),
            Self::New { reason, debugs: false } => {
                write!(f, "without its Debugs the output has reason {reason}")
            }
        }
    }
}

/// Lowers an input, unless it is refused, and judges it and the output.
pub fn lowered(call: Call, input: &[u8], choices: Choices) -> Result<Option<Lowered>, Exception> {
    let (answer, bytes) = called(call, input, choices);
    match answer[0] {
        0 => judged(answer, input, bytes, choices.edition()).map(Some),
        1..=10 | 12..=15 => Ok(None),
        number => Err(Exception::Refusal(number)),
    }
}

/// The answer and the output's bytes.
fn called(call: Call, input: &[u8], choices: Choices) -> (Answer, Vec<u8>) {
    let within = |room: usize| {
        let mut output = vec![0; room];
        let answer = call(input, &mut output, choices);
        output.truncate(answer[9] as usize);
        (answer, output)
    };
    let first = within(LENT);
    match first.0[0] {
        OUTPUT_LONGER => within(LONGEST),
        _ => first,
    }
}

fn judged(
    answer: Answer,
    input: &[u8],
    bytes: Vec<u8>,
    edition: Edition,
) -> Result<Lowered, Exception> {
    let original = read(input).map_err(Exception::Input)?;
    let read_output = match edition {
        Edition::First => read_output,
        Edition::Second => read_second_output,
    };
    let output = read_output(&bytes).map_err(Exception::Output)?;
    let reason = shelf::reason(&original, &output, &shelf::dropped(&original, &output));
    if answer[8] != u64::from(reason) {
        return Err(Exception::Reason { answered: answer[8], own: reason });
    }
    let before = first_two(&original);
    match new_reason(before, first_two(&output)) {
        Some(new) => Err(new),
        None => Ok(Lowered { original, output, bytes, reason, before }),
    }
}

/// Reasons 1 and 2 of a routine, with its Debugs and without them.
fn first_two(routine: &Routine) -> [FirstTwo; 2] {
    let of = |routine: &Routine| [shelf::types_disagree(routine), shelf::reads_ahead(routine)];
    let with = of(routine);
    let is_debug = |kind: &Kind| matches!(kind, Kind::Debug { .. });
    match routine.instructions().any(|i| is_debug(&i.kind)) {
        true => [with, of(&shelf::without_debugs(routine))],
        false => [with; 2],
    }
}

/// The first that the output has and the input has not.
fn new_reason(before: [FirstTwo; 2], after: [FirstTwo; 2]) -> Option<Exception> {
    let mut pairs = [true, false].into_iter().zip(before.into_iter().zip(after));
    pairs.find_map(|(debugs, (before, after))| {
        let new = before.into_iter().zip(after).position(|(before, after)| after && !before)?;
        Some(Exception::New { reason: new + 1, debugs })
    })
}

#[cfg(test)]
mod tests {
    use super::*;

    /// Of the sixteen that there are before and after, these are new.
    #[test]
    fn what_is_new() {
        let all = [[false, false], [false, true], [true, false], [true, true]];
        for before in all {
            for after in all {
                let expected = match (before, after) {
                    ([false, _], [true, _]) => Some(1),
                    ([_, false], [_, true]) => Some(2),
                    _ => None,
                };
                let of = |debugs| expected.map(|reason| Exception::New { reason, debugs });
                for same in all {
                    assert_eq!(new_reason([before, same], [after, same]), of(true));
                    assert_eq!(new_reason([same, before], [same, after]), of(false));
                }
            }
        }
    }
}
