//! Routines of one kind of work and a given size, for measuring.

use oracle::form::{most, Routine};

use crate::rng::Rng;
use crate::{churn, tables, typed, wild};

/// What a routine has to do with.
#[derive(Debug, Clone, Copy, PartialEq, Eq)]
pub enum Work {
    /// Aggregates of all kinds.
    Mixed,
    Tuples,
    Structs,
    Arrays,
    /// No aggregate: nothing is rewritten.
    Scalars,
    /// A few aggregates, changed again and again.
    Churn,
    /// Types that disagree.
    Wild,
}

pub const WORKS: [Work; 7] = [
    Work::Mixed,
    Work::Tuples,
    Work::Structs,
    Work::Arrays,
    Work::Scalars,
    Work::Churn,
    Work::Wild,
];

impl Work {
    pub fn name(self) -> &'static str {
        match self {
            Work::Mixed => "mixed",
            Work::Tuples => "tuples",
            Work::Structs => "structs",
            Work::Arrays => "arrays",
            Work::Scalars => "scalars",
            Work::Churn => "churn",
            Work::Wild => "wild",
        }
    }

    /// A routine of up to `size` instructions.
    pub fn routine(self, rng: &mut Rng, size: usize) -> Routine {
        let rows = rng.within(6, 18);
        match self {
            Work::Mixed => typed::routine(rng, size),
            Work::Tuples => over(rng, rows, 0, size),
            Work::Structs => over(rng, rows, 4, size),
            Work::Arrays => over(rng, rows, 7, size),
            Work::Scalars => over(rng, 0, 0, size),
            Work::Churn => churn::routine(rng, size, false),
            Work::Wild => {
                let types = tables::any(rng, rows, false);
                let half = size.min(most::IN_BLOCK);
                let in_block = vec![half, (size - half).min(most::IN_BLOCK)];
                let next = (size + 16).min(most::NEXT_VALUE);
                wild::routine(rng, wild::Scale { types, next, in_block, wide: false })
            }
        }
    }
}

/// A typed routine whose aggregates are all of one kind.
fn over(rng: &mut Rng, rows: usize, kind: usize, size: usize) -> Routine {
    let types = tables::buildable_of(rng, rows, |_| kind);
    typed::routine_over(rng, types, size)
}
