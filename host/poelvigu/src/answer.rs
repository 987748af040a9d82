//! What goes in with the bytes and comes out with them.

use std::fmt;
use std::ops::AddAssign;

/// What the pass may take apart.
///
/// ```
/// // Structs are left; tuples and arrays of up to four parts are taken apart.
/// let settings = poelvigu::Settings { structs: false, most: 4, ..Default::default() };
/// assert!(settings.tuples);
/// ```
#[derive(Debug, Clone, Copy, PartialEq, Eq, Hash)]
pub struct Settings {
    /// Whether tuples and arrays are taken apart, and Loads and Stores forwarded.
    pub tuples: bool,
    /// Whether structs are taken apart.
    pub structs: bool,
    /// The most parts that an aggregate to be taken apart has; above 16 it is refused.
    pub most: u64,
}

impl Default for Settings {
    /// Tuples and structs of up to 8 parts.
    fn default() -> Self {
        Self { tuples: true, structs: true, most: 8 }
    }
}

/// How often the pass did what.
#[derive(Debug, Clone, Copy, PartialEq, Eq, Hash, Default)]
pub struct Counts {
    /// Builds of aggregates that were left out.
    pub scalarized_builds: u64,
    /// Extracts and Loads that became Assigns of a part, or were left out.
    pub extracts_rewritten: u64,
    /// Inserts and Stores that were left out.
    pub inserts_forwarded: u64,
    /// Assigns of aggregates that were left out.
    pub assigns_forwarded: u64,
    /// Aggregates that were built again: for a Call or a Return, in edition 2 for every instruction that
    /// stays and reads one, and for a part of what is built again.
    pub materializations: u64,
}

impl AddAssign for Counts {
    /// Adds count by count, and stays at the highest number where a sum would pass it.
    fn add_assign(&mut self, other: Self) {
        let add = |count: &mut u64, more| *count = count.saturating_add(more);
        add(&mut self.scalarized_builds, other.scalarized_builds);
        add(&mut self.extracts_rewritten, other.extracts_rewritten);
        add(&mut self.inserts_forwarded, other.inserts_forwarded);
        add(&mut self.assigns_forwarded, other.assigns_forwarded);
        add(&mut self.materializations, other.materializations);
    }
}

/// Whether the rewritten routine passed the shelf test, or the lowest reason why it did not.
#[derive(Debug, Clone, Copy, PartialEq, Eq, Hash)]
#[non_exhaustive]
pub enum ShelfReason {
    /// 0: nobody can tell the rewritten routine from the original, unless the original stops at a
    /// value that was never written or at a part that is not there.
    Passed,
    /// 1: types disagree.
    TypesDisagree,
    /// 2: a block reads a value that it defines there or later.
    ReadsAhead,
    /// 3: an aggregate that is a Store's base is also a part, a new value or a stored value.
    StoresIntoPart,
    /// 4: a Store of two or more projections has a dropped base.
    StoresDeep,
    /// 5: the output reads a dropped value.
    ReadsDropped,
    /// A number that has no name here; not passed.
    Unlisted(u64),
}

impl ShelfReason {
    /// The reason of a number.
    pub fn of(number: u64) -> Self {
        match number {
            0 => Self::Passed,
            1 => Self::TypesDisagree,
            2 => Self::ReadsAhead,
            3 => Self::StoresIntoPart,
            4 => Self::StoresDeep,
            5 => Self::ReadsDropped,
            other => Self::Unlisted(other),
        }
    }

    /// Its number.
    pub fn number(self) -> u64 {
        match self {
            Self::Passed => 0,
            Self::TypesDisagree => 1,
            Self::ReadsAhead => 2,
            Self::StoresIntoPart => 3,
            Self::StoresDeep => 4,
            Self::ReadsDropped => 5,
            Self::Unlisted(number) => number,
        }
    }

    /// Whether nobody can tell the rewritten routine from the original.
    pub fn passed(self) -> bool {
        self == Self::Passed
    }
}

impl fmt::Display for ShelfReason {
    fn fmt(&self, f: &mut fmt::Formatter<'_>) -> fmt::Result {
        f.write_str(match self {
            Self::Passed => "passed: nobody can tell the rewritten routine from the original",
            Self::TypesDisagree => "types disagree",
            Self::ReadsAhead => "a block reads a value that it defines there or later",
            Self::StoresIntoPart => {
                "an aggregate that is a Store's base is also a part, a new value or a stored value"
            }
            Self::StoresDeep => "a Store of two or more projections has a dropped base",
            Self::ReadsDropped => "the output reads a dropped value",
            Self::Unlisted(_) => "a reason without a name here",
        })?;
        write!(f, " (shelf reason {})", self.number())
    }
}

/// What the pass made of a routine.
#[derive(Debug, Clone, Copy, PartialEq, Eq, Hash)]
pub struct Lowered {
    /// Whether anything was rewritten; where nothing was, the output is the input.
    pub changed: bool,
    /// How often the pass did what.
    pub counts: Counts,
    /// The shelf test's answer.
    pub reason: ShelfReason,
    /// How many bytes the output has.
    pub length: usize,
    /// How many bytes the page has: 0, no page is made yet.
    pub page: usize,
}

#[cfg(test)]
mod tests {
    use super::*;

    #[test]
    fn reasons_go_there_and_back() {
        for number in (0..=6).chain([u64::MAX]) {
            let reason = ShelfReason::of(number);
            assert_eq!(reason.number(), number);
            assert_eq!(reason.passed(), number == 0);
            assert!(reason.to_string().ends_with(&format!(" (shelf reason {number})")));
            assert_eq!(matches!(reason, ShelfReason::Unlisted(_)), number > 5);
        }
    }

    #[test]
    fn counts_are_summed() {
        let mut sum = Counts { scalarized_builds: u64::MAX, ..Counts::default() };
        let one = Counts {
            scalarized_builds: 1,
            extracts_rewritten: 2,
            inserts_forwarded: 3,
            assigns_forwarded: 4,
            materializations: 5,
        };
        sum += one;
        assert_eq!(sum, Counts { scalarized_builds: u64::MAX, ..one });
    }
}
