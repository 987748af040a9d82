//! The proved scalar replacement of aggregates as safe functions, bytes to bytes.
//!
//! A routine in the byte form goes in; the rewritten routine comes out, with what was done and
//! whether anybody can tell the two apart, or a [`Refusal`] that says what is wrong and where. Any
//! bytes may be given. The functions are those of the archive `libpoelvigu.a`, in which they are
//! proved; this crate only hands slices and numbers over.
//!
//! ```
//! use poelvigu::{check, lower, Cause, Settings};
//!
//! // A tuple of 7 and 8 is built, and its part 1 is returned.
//! let routine = [
//!     2, 0, 0, 3, 2, 0, 0, 0, 0, 2, 0, 1, 0, 0, 0, 0, 3, 1, 0, 0, 0, 2, 0, 0, 10, 0, 0, 2, 0, 7,
//!     0, 0, 0, 0, 8, 0, 0, 0, 0, 11, 1, 0, 3, 0, 0, 1, 0, 0, 0, 0, 0, 3, 1, 3, 1, 0,
//! ];
//! let (lowered, output) = lower(&routine, &Settings::default())?;
//! assert!(lowered.changed && lowered.reason.passed());
//! assert_eq!((lowered.counts.scalarized_builds, lowered.counts.extracts_rewritten), (1, 1));
//! // The build is gone, and the extract is an Assign of 8: the output is a routine too.
//! assert_eq!(output.len(), 39);
//! check(&output)?;
//!
//! // Bytes that are no routine are refused.
//! let refusal = lower(&routine[..20], &Settings::default()).unwrap_err();
//! assert_eq!((refusal.cause, refusal.offset), (Cause::Ends, 19));
//! assert_eq!(refusal.to_string(), "the bytes end inside the field at byte 19 (refusal 1)");
//! # Ok::<(), poelvigu::Refusal>(())
//! ```
//!
//! [`lower_with`] takes [`Choices`], the edition of the lowering rule among them.
//!
//! The functions stand behind the feature `archive`, which needs that archive and is on unless it
//! is turned off; the types need nothing.

#![deny(missing_docs)]
#![deny(unsafe_code)]

mod answer;
mod choices;
#[cfg(feature = "archive")]
#[allow(unsafe_code)]
mod entries;
#[cfg(feature = "archive")]
mod lower;
#[cfg(feature = "archive")]
mod lower_with;
mod refusal;

pub use answer::{Counts, Lowered, Settings, ShelfReason};
pub use choices::{Choices, Edition};
#[cfg(feature = "archive")]
pub use entries::{check_numbers, lower_numbers, lower_with_numbers, ANSWER, ANSWER_WITH};
#[cfg(feature = "archive")]
pub use lower::{lower, lower_into, LONGEST_OUTPUT};
#[cfg(feature = "archive")]
pub use lower_with::{lower_with, lower_with_into, LONGEST_SECOND_OUTPUT};
pub use refusal::{Cause, Refusal};

/// Whether the bytes are a routine: if not, what is wrong with them (numbers 1 to 9) and where.
///
/// ```
/// use poelvigu::{check, Cause};
///
/// // A routine that does nothing: no types, no values, one block that is unreachable.
/// let routine = [0, 0, 0, 0, 1, 0, 0, 0, 0, 0, 0, 4];
/// assert_eq!(check(&routine), Ok(()));
/// assert_eq!(check(&routine[..3]).unwrap_err().cause, Cause::Ends);
/// ```
#[cfg(feature = "archive")]
pub fn check(input: &[u8]) -> Result<(), Refusal> {
    let (number, offset) = check_numbers(input);
    Refusal::of(number.into(), offset).map_or(Ok(()), Err)
}
