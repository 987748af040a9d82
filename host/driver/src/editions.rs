//! Both editions as the crate `edition2` has them, against the Rust (edition 1), or the archive against them: an
//! entry with choices by place.

use std::fmt;

use edition2::Edition;
use gen::{Rng, Sort, ALL_SORTS};
use oracle::Settings;

use crate::args::Args;
use crate::judged::Judged;
use crate::lower_diff;
use crate::lower_diff::comparison::{Comparison, FIRST};
use crate::lower_diff::outcome::{Calls, Sides};
use crate::lower_diff::settings::{some_settings, Triple};
use crate::{Answer, LOWER_WITH, WITHOUT};

/// How many places there are.
const PLACES: usize = 7;

/// The numbers of a call by place, and how many of them are given: tuples, structs, most and edition come first;
/// "a missing choice has its default". The others change nothing yet.
#[derive(Clone, Copy)]
pub struct Choices {
    numbers: [u64; PLACES],
    given: usize,
}

const DEFAULTS: [u64; 4] = [1, 1, 8, 1];

impl fmt::Debug for Choices {
    fn fmt(&self, f: &mut fmt::Formatter<'_>) -> fmt::Result {
        self.words().fmt(f)
    }
}

impl Choices {
    /// Settings and an edition; the others are not given.
    pub fn of([tuples, structs, most]: Triple, edition: u64) -> Self {
        Self { numbers: [tuples, structs, most, edition, 0, 0, 0], given: DEFAULTS.len() }
    }

    fn words(&self) -> &[u64] {
        &self.numbers[..self.given]
    }

    fn at(&self, place: usize) -> u64 {
        self.words().get(place).copied().unwrap_or(DEFAULTS[place])
    }

    fn settings(&self) -> Settings {
        let [enable_tuples, enable_structs, max_aggregate_size] = [0, 1, 2].map(|at| self.at(at));
        Settings { enable_tuples, enable_structs, max_aggregate_size }
    }

    pub fn edition(&self) -> Edition {
        Edition::of(self.at(3))
    }
}

/// The choices of one input's calls: the usual settings, then others; where `second` says so, edition 2 as a rule.
fn drawn(rng: &mut Rng, second: bool) -> Vec<Choices> {
    let settings = some_settings(rng);
    let choices = settings.into_iter().enumerate().map(|(at, [tuples, structs, most])| {
        let edition = match second && (at == 0 || rng.chance(60)) {
            true => 2,
            false => rng.pick(&[1, 0, 3, (1 << 32) | 2, u64::MAX]),
        };
        let given = if rng.chance(75) { 4 } else { rng.below(PLACES + 1) };
        let [sweep, joins, page] = [(); 3].map(|()| rng.pick(&[0, 0, 1, u64::MAX]));
        Choices { numbers: [tuples, structs, most, edition, sweep, joins, page], given }
    });
    choices.collect()
}

/// What the crate says.
fn expected(input: &[u8], choices: Choices) -> Judged {
    Judged::in_edition(input, choices.settings(), choices.edition())
}

/// An entry with choices: input, output, choices.
pub type Call = fn(&[u8], &mut [u8], Choices) -> Answer;

/// What it says, behind the entry's signature.
pub fn called(input: &[u8], output: &mut [u8], choices: Choices) -> Answer {
    let judged = expected(input, choices);
    let (numbers, bytes) = judged.within(output.len());
    output[..bytes.len()].copy_from_slice(bytes);
    numbers
}

/// The crate's edition 1, compared with the Rust.
const AGAINST_RUST: Sides<Choices> = Sides {
    judge: "Rust",
    expected: |input, choices| Judged::of(input, choices.settings()),
    call: called,
};

/// The archive's entry.
pub fn archive() -> Option<Call> {
    LOWER_WITH?;
    Some(|input, output, choices| {
        LOWER_WITH.expect("it was looked for")(input, output, choices.words())
    })
}

/// An entry, compared with the crate.
fn against_crate(call: Call) -> Sides<Choices> {
    Sides { judge: "crate", expected, call }
}

/// Compares `--count` inputs; true where nothing differs and every outcome was met.
pub fn command(args: &Args) -> Result<bool, String> {
    args.only(&["count", "seed", "sort", "against"])?;
    let (count, seed) = (args.number("count", 100_000)?, args.number("seed", 1)?);
    let sort = args.sort()?;
    let (sides, second) = match args.text("against") {
        Some("rust") => (AGAINST_RUST, false),
        None => (against_crate(archive().ok_or(WITHOUT)?), true),
        Some(other) => return Err(format!("--against {other}: there is only rust")),
    };
    let comparison = compared(sides, second, seed, count, sort);
    let editions = if second { "editions 1 and 2" } else { "edition 1" };
    println!("{editions}, seed {seed}");
    comparison.print();
    let missing = missing(&comparison, second);
    missing.iter().for_each(|name| println!("never met: {name}"));
    Ok(comparison.found.is_empty() && (sort.is_some() || missing.is_empty()))
}

fn missing(comparison: &Comparison<Choices>, second: bool) -> Vec<String> {
    let outcomes = if second { &[&FIRST[..], &[14, 15]].concat() } else { &FIRST[..] };
    comparison.missing(outcomes)
}

fn compared(
    sides: Sides<Choices>,
    second: bool,
    seed: u64,
    count: u64,
    only: Option<Sort>,
) -> Comparison<Choices> {
    let mut comparison = Comparison::new(sides, ALL_SORTS.iter().map(|sort| sort.name()));
    for number in 0..count {
        if comparison.enough() {
            break;
        }
        let (sort, input) = made(seed, number, only);
        let place = ALL_SORTS.iter().position(|s| *s == sort).expect("every sort is listed");
        let choices = drawn(&mut Rng::of(!seed, number), second);
        let from = || format!("{} input {number} of seed {seed}", sort.name());
        comparison.compare(place, from, &input, &choices, Calls::Many(number));
    }
    comparison
}

/// Half is the mix of `lower-diff`, the rest deep, and a few towers.
fn made(seed: u64, number: u64, only: Option<Sort>) -> (Sort, Vec<u8>) {
    let only = match (only, number % 256, number % 2) {
        (Some(_), _, _) | (None, _, 0) => only,
        (None, 7, _) => Some(Sort::Tower),
        _ => Some(Sort::Deep),
    };
    lower_diff::made(seed, number, only)
}

#[cfg(test)]
mod tests {
    use super::*;
    use crate::lower_diff::outcome::differs;

    #[test]
    fn edition_1_is_what_the_rust_does() {
        let comparison = compared(AGAINST_RUST, false, 1, 400, None);
        comparison.print();
        assert!(comparison.found.is_empty());
        assert_eq!(comparison.never(&[0, 10, 11, 12]).count(), 0);
    }

    #[test]
    fn the_crate_agrees_with_itself() {
        let sides = against_crate(called);
        for (count, sort, outcomes) in
            [(400, Some(Sort::Deep), [0, 10, 14]), (8, Some(Sort::Tower), [0, 11, 15])]
        {
            let comparison = compared(sides, true, 1, count, sort);
            assert!(comparison.found.is_empty());
            comparison.print();
            assert_eq!(comparison.never(&outcomes).count(), 0);
        }
    }

    /// A wrong entry is found in the first inputs of a sort.
    fn is_found(sort: Sort, call: Call) -> bool {
        let sides = against_crate(call);
        (0..400).any(|number| {
            let input = made(1, number, Some(sort)).1;
            let choices = drawn(&mut Rng::of(!1, number), true);
            let calls = Calls::Many(number);
            choices.iter().any(|own| differs(sides, &input, *own, calls, |_| {}).is_some())
        })
    }

    #[test]
    fn wrong_choices_are_found() {
        // Edition 2 that is edition 1.
        assert!(is_found(Sort::Deep, |input, output, mut choices| {
            choices.numbers[3] = 1;
            called(input, output, choices)
        }));
        // Any edition but 1 taken for 2.
        assert!(is_found(Sort::Deep, |input, output, mut choices| {
            choices.numbers[3] = if choices.at(3) == 1 { 1 } else { 2 };
            called(input, output, choices)
        }));
        // Choices that are not given read all the same.
        assert!(is_found(Sort::Deep, |input, output, mut choices| {
            choices.given = PLACES;
            called(input, output, choices)
        }));
    }

    #[test]
    fn wrong_refusals_are_found() {
        fn other(input: &[u8], output: &mut [u8], choices: Choices, from: u64, to: u64) -> Answer {
            let mut answer = called(input, output, choices);
            if answer[0] == from {
                answer[0] = to;
            }
            answer
        }
        assert!(is_found(Sort::Deep, |input, output, choices| other(
            input, output, choices, 14, 10
        )));
        assert!(is_found(Sort::Deep, |input, output, choices| other(
            input, output, choices, 10, 14
        )));
        assert!(is_found(Sort::Tower, |input, output, choices| other(
            input, output, choices, 15, 11
        )));
        assert!(is_found(Sort::Deep, |input, output, choices| other(
            input, output, choices, 11, 15
        )));
    }
}
