//! The proved pass as a pass of the compiler.

use mir::passes::MirPass;
use mir::MirFunction;
use oracle::Misfit;
use poelvigu::{lower_with, Choices, Counts, Lowered, Refusal};

use crate::encoded::Encoded;

/// What became of a function.
#[derive(Debug, Clone, Copy, PartialEq, Eq)]
pub enum Outcome {
    /// The pass took it: what was done, and whether anybody can tell. Where something was rewritten
    /// it was put back.
    Lowered(Lowered),
    /// The same for a function that was rewritten, but stays as it was, as it did not pass the
    /// shelf test and [`ProvedSroa::only_passed`] asks for that.
    KeptOff(Lowered),
    /// The pass refused it; offsets are those of the function's bytes.
    Refused(Refusal),
    /// The byte form has no room for it.
    NoRoom(Misfit),
    /// What came back is no rewriting of it: the archive is another than this crate is made
    /// for.
    Foreign,
}

/// The scalar replacement of aggregates, proved: each function goes through the byte form.
///
/// ```
/// use adapter::{Outcome, ProvedSroa};
/// use mir::passes::MirPass;
/// use mir::{Instruction, MirFunction, MirType, Terminator, Value};
///
/// // let pair = (7, 8); pair.1
/// let felt = MirType::felt();
/// let mut function = MirFunction::new("second".to_string());
/// let pair = function.new_typed_value_id(MirType::tuple(vec![felt.clone(), felt.clone()]));
/// let part = function.new_typed_value_id(felt.clone());
/// let entry = function.entry_block;
/// let block = function.get_basic_block_mut(entry).unwrap();
/// let parts = vec![Value::integer(7), Value::integer(8)];
/// let extract = Instruction::extract_tuple_element(part, Value::operand(pair), 1, felt.clone());
/// block.push_instruction(Instruction::make_tuple(pair, parts));
/// block.push_instruction(extract);
/// block.set_terminator(Terminator::return_value(Value::operand(part)));
///
/// let mut pass = ProvedSroa::new();
/// assert!(pass.run(&mut function));
/// // The build is gone, and the extract is an Assign of 8.
/// let left = &function.basic_blocks[entry].instructions;
/// assert_eq!(left[..], [Instruction::assign(part, Value::integer(8), felt)]);
/// // Nobody can tell the function from the original.
/// assert!(matches!(pass.outcome(), Some(Outcome::Lowered(done)) if done.reason.passed()));
/// assert_eq!(pass.counts().extracts_rewritten, 1);
/// ```
#[derive(Debug, Default)]
pub struct ProvedSroa {
    choices: Choices,
    only_passed: bool,
    counts: Counts,
    outcome: Option<Outcome>,
}

impl ProvedSroa {
    /// The pass under the usual settings, edition 1.
    pub fn new() -> Self {
        Self::default()
    }

    /// The pass under other choices, or under other settings, which are edition 1.
    pub fn with_choices(choices: impl Into<Choices>) -> Self {
        Self { choices: choices.into(), ..Self::default() }
    }

    /// Puts back only what passed the shelf test: what nobody can tell from the original.
    pub fn only_passed(mut self) -> Self {
        self.only_passed = true;
        self
    }

    /// How often it did what, in all functions that were put back.
    pub fn counts(&self) -> Counts {
        self.counts
    }

    /// What became of the last function; nothing before the first.
    pub fn outcome(&self) -> Option<&Outcome> {
        self.outcome.as_ref()
    }

    /// Why the last function was refused, if it was.
    pub fn last_refusal(&self) -> Option<Refusal> {
        match self.outcome {
            Some(Outcome::Refused(refusal)) => Some(refusal),
            _ => None,
        }
    }

    /// Rewrites a function, or leaves it exactly as it was.
    fn rewrite(&self, function: &mut MirFunction) -> Outcome {
        let encoded = match Encoded::of(function) {
            Ok(encoded) => encoded,
            Err(misfit) => return Outcome::NoRoom(misfit),
        };
        let (lowered, output, _) = match lower_with(encoded.bytes(), &self.choices) {
            Ok(answer) => answer,
            Err(refusal) => return Outcome::Refused(refusal),
        };
        if lowered.changed {
            if self.only_passed && !lowered.reason.passed() {
                return Outcome::KeptOff(lowered);
            }
            if encoded.put_back(&output, function).is_err() {
                return Outcome::Foreign;
            }
        }
        Outcome::Lowered(lowered)
    }
}

impl MirPass for ProvedSroa {
    /// Whether the function was changed; [`outcome`](ProvedSroa::outcome) tells why not.
    fn run(&mut self, function: &mut MirFunction) -> bool {
        let outcome = self.rewrite(function);
        self.outcome = Some(outcome);
        match outcome {
            Outcome::Lowered(lowered) => {
                self.counts += lowered.counts;
                lowered.changed
            }
            _ => false,
        }
    }

    fn name(&self) -> &'static str {
        "ProvedSroa"
    }
}
