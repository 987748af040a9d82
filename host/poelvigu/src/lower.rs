//! The pass, bytes to bytes.

use crate::entries::{lower_numbers, ANSWER};
use crate::{Cause, Counts, Lowered, Refusal, Settings, ShelfReason};

/// How many bytes the longest routine has that is accepted: 4,841 of types and values, 256 Calls of
/// 148, 32 instruction counts and Returns of 84.
pub(crate) const LONGEST_INPUT: usize = 45_417;

/// The most numbers that the pass adds: each of 256 instructions and of 32 Returns has at most 16
/// values that are rebuilt for it.
const MOST_FRESH: usize = (256 + 32) * 16;

/// What one number adds at most: a MakeStruct of 16 fields of 7 bytes, and its recorded type.
pub(crate) const MOST_ADDED: usize = (7 + 16 * 7) + 2;

/// No output is longer. What is no rebuild is an instruction of the input, or one in its place that
/// is not longer; the bits that say which values have a type make up the rest.
pub const LONGEST_OUTPUT: usize = LONGEST_INPUT + MOST_FRESH * MOST_ADDED + MOST_FRESH / 8;

/// Rewrites the routine in `input` into `output`.
///
/// The rewritten routine stands from the first byte of `output` on, and the bytes behind it are as
/// they were; where the input is refused, all of them are. Refused are bytes that are no routine
/// (numbers 1 to 9), a routine with an array that cannot be rebuilt (10), a routine whose output is
/// longer than `output` (11) and a setting that is too high (12).
///
/// A routine with neither shelf reason 1 nor 2 comes out with neither, whatever else its reason is,
/// and one without reason 1 comes out without it, so that a second run, over what came out, answers
/// neither where the first did not. That it keeps shelf reason 0 is not promised, and it refuses what
/// has become larger than an input may be.
///
/// ```
/// use poelvigu::{lower_into, Cause, Settings};
///
/// // A routine that does nothing: no types, no values, one block that is unreachable.
/// let routine = [0, 0, 0, 0, 1, 0, 0, 0, 0, 0, 0, 4];
/// let mut output = [7; 14];
/// let lowered = lower_into(&routine, &mut output, &Settings::default())?;
/// assert_eq!((lowered.changed, lowered.length), (false, 12));
/// assert_eq!((&output[..12], &output[12..]), (&routine[..], &[7, 7][..]));
///
/// let refusal = lower_into(&routine, &mut output[..11], &Settings::default()).unwrap_err();
/// assert_eq!(refusal.cause, Cause::OutputTooLong);
/// # Ok::<(), poelvigu::Refusal>(())
/// ```
pub fn lower_into(
    input: &[u8],
    output: &mut [u8],
    settings: &Settings,
) -> Result<Lowered, Refusal> {
    let Settings { tuples, structs, most } = *settings;
    answer(lower_numbers(input, output, [tuples.into(), structs.into(), most]))
}

/// Rewrites the routine in `input`, and gives the rewritten one with what was done.
///
/// It finds a buffer that is large enough, of [`LONGEST_OUTPUT`] bytes at most, so it is refused as
/// [`lower_into`] is, but never with number 11. What that promises of the output's shelf reasons 1
/// and 2, and does not of a second run, holds here too.
///
/// ```
/// use poelvigu::{lower, Cause, Settings};
///
/// // A routine that does nothing: no types, no values, one block that is unreachable.
/// let routine = [0, 0, 0, 0, 1, 0, 0, 0, 0, 0, 0, 4];
/// let with = |most| lower(&routine, &Settings { most, ..Settings::default() });
/// assert_eq!(with(16).map(|(_, output)| output), Ok(routine.to_vec()));
/// assert_eq!(with(17).unwrap_err().cause, Cause::MostAbove16);
/// ```
pub fn lower(input: &[u8], settings: &Settings) -> Result<(Lowered, Vec<u8>), Refusal> {
    let likely = input.len().saturating_mul(2).min(LONGEST_OUTPUT);
    match lower_within(input, settings, likely) {
        Err(Refusal { cause: Cause::OutputTooLong, .. }) => {
            lower_within(input, settings, LONGEST_OUTPUT)
        }
        other => other,
    }
}

/// The same with a buffer of `room` bytes.
fn lower_within(
    input: &[u8],
    settings: &Settings,
    room: usize,
) -> Result<(Lowered, Vec<u8>), Refusal> {
    let mut output = vec![0; room];
    let lowered = lower_into(input, &mut output, settings)?;
    output.truncate(lowered.length);
    output.shrink_to_fit();
    Ok((lowered, output))
}

/// What the numbers of an answer say, of which there is no page.
pub(crate) fn answer(numbers: [u64; ANSWER]) -> Result<Lowered, Refusal> {
    let [number, offset, changed, builds, extracts, inserts, assigns, rebuilds, reason, length] =
        numbers;
    if let Some(refusal) = Refusal::of(number, offset) {
        return Err(refusal);
    }
    let counts = Counts {
        scalarized_builds: builds,
        extracts_rewritten: extracts,
        inserts_forwarded: inserts,
        assigns_forwarded: assigns,
        materializations: rebuilds,
    };
    let reason = ShelfReason::of(reason);
    Ok(Lowered { changed: changed != 0, counts, reason, length: length as usize, page: 0 })
}
