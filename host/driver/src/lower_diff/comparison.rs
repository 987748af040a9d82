//! Inputs compared, in groups: what must be said of each, and what differs.

use std::fmt::Debug;

use oracle::to_hex;

use super::outcome::{differs, Calls, Difference, Sides};
use crate::Answer;

/// After so many differences a run stops.
const ENOUGH: usize = 20;

/// How many outcomes there are: accepted, and the refusals 1 to 15.
const OUTCOMES: usize = 16;

/// The outcomes that edition 1 has.
pub const FIRST: [usize; 13] = [0, 1, 2, 3, 4, 5, 6, 7, 8, 9, 10, 11, 12];

/// How many shelf reasons there are.
const REASONS: usize = 6;

pub struct Found<S> {
    from: String,
    pub input: Vec<u8>,
    difference: Difference<S>,
}

pub struct Comparison<S> {
    sides: Sides<S>,
    /// By group, then by the expected number.
    met: Vec<(&'static str, [u64; OUTCOMES])>,
    reasons: [u64; REASONS],
    pub found: Vec<Found<S>>,
}

impl<S: Copy + Debug> Comparison<S> {
    pub fn new(sides: Sides<S>, groups: impl IntoIterator<Item = &'static str>) -> Self {
        let met = groups.into_iter().map(|name| (name, [0; OUTCOMES])).collect();
        Self { sides, met, reasons: [0; REASONS], found: Vec::new() }
    }

    /// Whether what is wrong is plain by now.
    pub fn enough(&self) -> bool {
        self.found.len() >= ENOUGH
    }

    /// Compares one input of a group under settings.
    pub fn compare(
        &mut self,
        group: usize,
        from: impl Fn() -> String,
        input: &[u8],
        settings: &[S],
        calls: Calls,
    ) {
        for settings in settings {
            let (met, reasons) = (&mut self.met[group].1, &mut self.reasons);
            let first = differs(self.sides, input, *settings, calls, |answer| {
                met[answer[0] as usize] += 1;
                reasons[answer[8] as usize] += u64::from(answer[0] == 0);
            });
            if let Some(first) = first {
                if !self.enough() {
                    let (input, difference) = self.shrunk(input, *settings, calls, first);
                    self.found.push(Found { from: from(), input, difference });
                }
                return;
            }
        }
    }

    /// A smaller input with a difference, of which the same number must be said.
    fn shrunk(
        &self,
        input: &[u8],
        settings: S,
        calls: Calls,
        first: Difference<S>,
    ) -> (Vec<u8>, Difference<S>) {
        let found = |tried: &[u8]| {
            let difference = differs(self.sides, tried, settings, calls, |_: &Answer| {});
            difference.filter(|other| other.expected[0] == first.expected[0])
        };
        let small = gen::smallest(input, |tried| found(tried).is_some());
        let difference = found(&small).unwrap_or(first);
        (small, difference)
    }

    /// Prints all.
    pub fn print(&self) {
        let numbers: String = (1..OUTCOMES).map(|n| format!("{n:>9}")).collect();
        println!("{:<9}{:>9}{numbers}", "calls", "accepted");
        for (name, row) in &self.met {
            let cells: String = row.iter().map(|n| format!("{n:>9}")).collect();
            println!("{name:<9}{cells}");
        }
        let reasons = self.reasons.map(|n| n.to_string()).join(" ");
        println!("accepted by shelf reason, 0 to 5: {reasons}");
        for found in &self.found {
            println!("DIFFERENCE from {}", found.from);
            println!("  smallest input found: {}", to_hex(&found.input));
            println!("  {}", found.difference);
        }
        let calls: u64 = self.met.iter().flat_map(|(_, row)| row).sum();
        println!("{calls} calls, {} differences", self.found.len());
    }

    /// Which of these outcomes, and which shelf reasons, were never met.
    pub fn missing(&self, outcomes: &[usize]) -> Vec<String> {
        let outcomes = self.never(outcomes).map(|n| format!("outcome {n}"));
        let reasons = (0..REASONS).filter(|n| self.reasons[*n] == 0);
        outcomes.chain(reasons.map(|n| format!("shelf reason {n}"))).collect()
    }

    /// Which of these outcomes were never met.
    pub fn never<'a>(&'a self, outcomes: &'a [usize]) -> impl Iterator<Item = usize> + 'a {
        let never = |n: &usize| self.met.iter().all(|(_, row)| row[*n] == 0);
        outcomes.iter().copied().filter(never)
    }
}
