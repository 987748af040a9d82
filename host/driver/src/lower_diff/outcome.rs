//! What a call must answer and leave, and what it did.

use std::fmt;

use gen::Rng;
use oracle::{Settings, LENT};

use super::settings::Triple;
use crate::judged::Judged;
use crate::Answer;

/// The two sides of a comparison under settings of some sort.
#[derive(Clone, Copy)]
pub struct Sides<S> {
    /// Who knows, in a word.
    pub judge: &'static str,
    /// What a call must answer.
    pub expected: fn(&[u8], S) -> Judged,
    /// The call.
    pub call: fn(&[u8], &mut [u8], S) -> Answer,
}

impl Sides<Triple> {
    /// The Rust and an entry.
    pub fn rust(call: crate::Lower) -> Self {
        let expected = |input: &[u8], settings| Judged::of(input, settings_of(settings));
        Self { judge: "Rust", expected, call }
    }
}

/// What one call got wrong.
pub struct Difference<S> {
    judge: &'static str,
    settings: S,
    lent: usize,
    pub expected: Answer,
    got: Answer,
    /// The first byte of the output that is another than it must be.
    byte: Option<usize>,
}

impl<S: fmt::Debug> fmt::Display for Difference<S> {
    fn fmt(&self, f: &mut fmt::Formatter<'_>) -> fmt::Result {
        let Self { judge, settings, lent, expected, got, byte } = self;
        let said = format!("{judge} {expected:?}, lower {got:?}");
        write!(f, "settings {settings:?}, {lent} bytes lent: {said}")?;
        match byte {
            Some(at) => write!(f, "; output differs at byte {at}"),
            None => Ok(()),
        }
    }
}

/// How an input is tried.
#[derive(Debug, Clone, Copy, PartialEq, Eq)]
pub enum Calls {
    /// With outputs of several lengths, the others drawn for its number.
    Many(u64),
    /// With one output that is long enough.
    One,
}

/// Makes the calls, and gives the first difference from what they must answer, which goes to `met`.
pub fn differs<S: Copy>(
    sides: Sides<S>,
    input: &[u8],
    settings: S,
    calls: Calls,
    mut met: impl FnMut(&Answer),
) -> Option<Difference<S>> {
    let judged = (sides.expected)(input, settings);
    lengths(calls, input, &judged).into_iter().find_map(|lent| {
        met(&judged.within(lent).0);
        compare(sides, input, settings, lent, &judged)
    })
}

pub fn settings_of([enable_tuples, enable_structs, max_aggregate_size]: Triple) -> Settings {
    Settings { enable_tuples, enable_structs, max_aggregate_size }
}

/// Output lengths. Many are just enough, one byte less, more; for a refusal, some.
fn lengths(calls: Calls, input: &[u8], judged: &Judged) -> Vec<usize> {
    let exact = judged.output.len();
    let Calls::Many(number) = calls else {
        return vec![exact + 64];
    };
    let mut rng = Rng::of(number, input.len() as u64);
    if exact == 0 {
        return vec![rng.below(400)];
    }
    let mut lengths = vec![exact, exact - 1, exact + rng.within(1, 300)];
    match rng.below(20) {
        0 => lengths.push(LENT),
        1 => lengths.push(0),
        2 => lengths.push(rng.below(exact)),
        _ => {}
    }
    lengths
}

/// One call, with every byte of the output looked at.
fn compare<S: Copy>(
    sides: Sides<S>,
    input: &[u8],
    settings: S,
    lent: usize,
    judged: &Judged,
) -> Option<Difference<S>> {
    let (expected, bytes) = judged.within(lent);
    let mut left: Vec<u8> = (0..lent).map(|at| (at * 37 + 11) as u8).collect();
    let mut output = left.clone();
    let got = (sides.call)(input, &mut output, settings);
    left[..bytes.len()].copy_from_slice(bytes);
    let byte = (0..lent).find(|at| output[*at] != left[*at]);
    let differs = got != expected || byte.is_some();
    let judge = sides.judge;
    differs.then_some(Difference { judge, settings, lent, expected, got, byte })
}
