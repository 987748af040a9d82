//! The archive's `lower` against the Rust: every number of an outcome, every byte lent.

pub mod comparison;
pub mod outcome;
pub mod settings;
pub mod small;

use gen::{Rng, Sort, ALL_SORTS};
use oracle::from_hex;
use oracle::rows::{DEBUGS, ROWS};

use crate::args::Args;
use crate::Lower;
use comparison::{Comparison, FIRST};
use outcome::{Calls, Sides};
use settings::{all_settings, some_settings, Triple, USUAL};

/// One made input in so many is run under all settings.
const ALL_SETTINGS: u64 = 100;

/// Replays the stored inputs under all settings, then compares `--count` made ones; true where
/// nothing differs and every outcome was met.
pub fn command(args: &Args, lower: Lower) -> Result<bool, String> {
    args.only(&["count", "seed", "sort", "calls"])?;
    let (count, seed) = (args.number("count", 100_000)?, args.number("seed", 1)?);
    let sort = args.sort()?;
    let one = match args.text("calls") {
        None | Some("many") => false,
        Some("one") => true,
        Some(other) => return Err(format!("--calls {other} is neither many nor one")),
    };
    let mut diff = Diff::new(lower, seed);
    diff.stored();
    diff.made(count, sort, one);
    println!("lower against the Rust, seed {seed}");
    diff.comparison.print();
    let missing = diff.comparison.missing(&FIRST);
    missing.iter().for_each(|name| println!("never met: {name}"));
    Ok(diff.comparison.found.is_empty() && (sort.is_some() || one || missing.is_empty()))
}

/// Input `number` of a seed; every other typed one changes a few aggregates again and again, half
/// of these in a part of a part too, and one in four has a twist.
pub fn made(seed: u64, number: u64, only: Option<Sort>) -> (Sort, Vec<u8>) {
    let (sort, input) = gen::input(seed, number, only);
    let mut rng = Rng::of(seed, !number);
    match (sort, number % 4) {
        (Sort::Typed, 0) => (sort, gen::churned(&mut rng)),
        (Sort::Typed, 2) => (sort, gen::churned_deep(&mut rng)),
        (Sort::Typed, 1) => (sort, gen::twisted(&mut rng)),
        _ => (sort, input),
    }
}

/// The group of the stored inputs, behind the sorts.
const STORED: usize = ALL_SORTS.len();

struct Diff {
    comparison: Comparison<Triple>,
    seed: u64,
}

impl Diff {
    fn new(lower: Lower, seed: u64) -> Self {
        let groups = ALL_SORTS.iter().map(|s| s.name()).chain(["stored"]);
        Self { comparison: Comparison::new(Sides::rust(lower), groups), seed }
    }

    fn stored(&mut self) {
        let debugs = DEBUGS.iter().map(|row| row.hex);
        for hex in ROWS.iter().map(|row| row.hex).chain(debugs) {
            let input = from_hex(hex).expect("stored rows are hexadecimal");
            let from = || "a stored row".to_string();
            self.comparison.compare(STORED, from, &input, &all_settings(), Calls::Many(0));
        }
        for byte in 0..=255 {
            let from = || "one byte".to_string();
            self.comparison.compare(STORED, from, &[byte], &[USUAL], Calls::Many(0));
        }
    }

    /// Made inputs, each under several settings and with several lengths, or with one call.
    fn made(&mut self, count: u64, only: Option<Sort>, one: bool) {
        for number in 0..count {
            if self.comparison.enough() {
                return;
            }
            let (sort, input) = made(self.seed, number, only);
            let (settings, calls) = if one {
                (vec![USUAL], Calls::One)
            } else if number % ALL_SETTINGS == 0 {
                (all_settings(), Calls::Many(number))
            } else {
                (some_settings(&mut Rng::of(!self.seed, number)), Calls::Many(number))
            };
            let from = || format!("{} input {number} of seed {}", sort.name(), self.seed);
            let place = ALL_SORTS.iter().position(|s| *s == sort).expect("every sort is listed");
            self.comparison.compare(place, from, &input, &settings, calls);
        }
    }
}

#[cfg(test)]
mod tests;
