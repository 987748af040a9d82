//! The proved scalar replacement of aggregates as a pass over the compiler's `MirFunction`.
//!
//! A function becomes a routine in the byte form, with its types, names, callees, messages and
//! comments by number; the archive's function rewrites it; and what changed is put back. What the byte
//! form does not carry stays as it was: the function's name and locals, the names and predecessors
//! of blocks. A function for which the byte form has no room, or which is refused, is left exactly
//! as it was, and the pass tells why.
//!
//! [`Encoded`] is the way to bytes and back. The pass itself stands behind the feature `archive`,
//! which needs `libpoelvigu.a`.

#![deny(missing_docs)]
#![deny(unsafe_code)]

mod encoded;
#[cfg(feature = "archive")]
mod pass;
mod tables;

pub use encoded::{Encoded, Foreign};
pub use oracle::{Misfit, What};
#[cfg(feature = "archive")]
pub use pass::{Outcome, ProvedSroa};
pub use poelvigu::{Cause, Choices, Counts, Edition, Lowered, Refusal, Settings, ShelfReason};
