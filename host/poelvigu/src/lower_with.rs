//! The pass under choices.

use crate::entries::lower_with_numbers;
use crate::lower::{answer, LONGEST_INPUT, MOST_ADDED};
use crate::{Cause, Choices, Edition, Lowered, Refusal, LONGEST_OUTPUT};

/// No output of edition 2 is longer: no number from 65,535 on is taken, and what a number adds is what
/// it adds in edition 1.
pub const LONGEST_SECOND_OUTPUT: usize =
    LONGEST_INPUT + MOST_NUMBERS * MOST_ADDED + MOST_NUMBERS.div_ceil(8);

/// The most numbers that edition 2 adds.
const MOST_NUMBERS: usize = 65_535;

/// Rewrites the routine in `input` into `output` under choices, as
/// [`lower_into`](crate::lower_into) does under settings.
///
/// Beside what that refuses, edition 2 refuses a routine in which a value would be built again inside
/// itself (14), and one that needs more numbers or instructions than there is room for (15). `page`
/// stays as it is: no page is made yet.
///
/// In both editions a routine with neither shelf reason 1 nor 2 comes out with neither, and one
/// without reason 1 without it; that a second run, over what came out, keeps shelf reason 0 is not
/// promised.
///
/// ```
/// use poelvigu::{lower_with_into, Choices, Edition};
///
/// // A routine that does nothing: no types, no values, one block that is unreachable.
/// let routine = [0, 0, 0, 0, 1, 0, 0, 0, 0, 0, 0, 4];
/// let (mut output, mut page) = ([7; 14], [7; 3]);
/// let choices = Choices { edition: Edition::Second, ..Choices::default() };
/// let lowered = lower_with_into(&routine, &mut output, &mut page, &choices)?;
/// assert_eq!((lowered.changed, lowered.length, lowered.page), (false, 12, 0));
/// assert_eq!((&output[..12], &output[12..], page), (&routine[..], &[7, 7][..], [7; 3]));
/// # Ok::<(), poelvigu::Refusal>(())
/// ```
pub fn lower_with_into(
    input: &[u8],
    output: &mut [u8],
    page: &mut [u8],
    choices: &Choices,
) -> Result<Lowered, Refusal> {
    let [numbers @ .., page] = lower_with_numbers(input, output, page, &choices.to_numbers());
    answer(numbers).map(|lowered| Lowered { page: page as usize, ..lowered })
}

/// Rewrites the routine in `input` under choices, and gives the rewritten one with what was done, and
/// no page: none is made yet.
///
/// It finds a buffer that is large enough, of [`LONGEST_SECOND_OUTPUT`] bytes at most, so it is
/// refused as [`lower_with_into`] is, but never with number 11. What that promises of the output's
/// shelf reasons 1 and 2, and does not of a second run, holds here too.
///
/// ```
/// use poelvigu::{lower_with, Choices, Edition};
///
/// // let inner = (1, 2); (inner, 3)
/// let routine = [
///     3, 0, 0, 3, 2, 0, 0, 0, 0, 3, 2, 1, 0, 0, 0, 2, 0, 1, 0, 0, 0, 0, 3, 1, 0, 2, 0, 2, 0, 0, 10,
///     0, 0, 2, 0, 1, 0, 0, 0, 0, 2, 0, 0, 0, 0, 10, 1, 0, 2, 3, 0, 0, 0, 3, 0, 0, 0, 3, 1, 3, 1, 0,
/// ];
/// let rebuilt = |edition| {
///     lower_with(&routine, &Choices { edition, ..Choices::default() })
///         .map(|(lowered, _, _)| (lowered.counts.materializations, lowered.reason.number()))
/// };
/// // Edition 1 builds the outer tuple again, which reads the inner one, that is not there any more.
/// assert_eq!(rebuilt(Edition::First), Ok((1, 5)));
/// // Edition 2 builds the inner one again too, once for each time that it is read.
/// assert_eq!(rebuilt(Edition::Second), Ok((2, 0)));
/// ```
pub fn lower_with(
    input: &[u8],
    choices: &Choices,
) -> Result<(Lowered, Vec<u8>, Option<String>), Refusal> {
    let likely = input.len().saturating_mul(2).min(LONGEST_OUTPUT);
    let rooms: &[usize] = match choices.edition {
        Edition::First => &[likely, LONGEST_OUTPUT],
        Edition::Second => &[likely, LONGEST_OUTPUT, LONGEST_SECOND_OUTPUT],
    };
    let mut answer = Err(Refusal { cause: Cause::OutputTooLong, offset: 0 });
    for room in rooms {
        answer = lower_within(input, choices, *room);
        if !matches!(answer, Err(Refusal { cause: Cause::OutputTooLong, .. })) {
            break;
        }
    }
    answer.map(|(lowered, output)| (lowered, output, None))
}

/// The same with a buffer of `room` bytes.
fn lower_within(
    input: &[u8],
    choices: &Choices,
    room: usize,
) -> Result<(Lowered, Vec<u8>), Refusal> {
    let mut output = vec![0; room];
    let lowered = lower_with_into(input, &mut output, &mut [], choices)?;
    output.truncate(lowered.length);
    output.shrink_to_fit();
    Ok((lowered, output))
}
