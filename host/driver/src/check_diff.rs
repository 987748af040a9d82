//! The archive's `check` against the oracle's reader.

use gen::{Sort, ALL_SORTS};
use oracle::rows::ROWS;
use oracle::{from_hex, read, to_hex};

use crate::args::Args;
use crate::Check;

/// After so many differences the run stops: what is wrong is plain by then.
const ENOUGH: usize = 20;

/// Replays the stored inputs, then compares `--count` made ones; true where nothing differs.
pub fn command(args: &Args, check: Check) -> Result<bool, String> {
    args.only(&["count", "seed", "sort"])?;
    let count = args.number("count", 1_000_000)?;
    let seed = args.number("seed", 1)?;
    let mut comparison = Comparison::new(check);
    comparison.stored();
    comparison.made(seed, count, args.sort()?);
    comparison.print(seed);
    Ok(comparison.differences.is_empty())
}

/// The oracle's answer in the form of `check`: 0 and 0, or number and offset.
fn expected(input: &[u8]) -> (u8, u64) {
    read(input).map_or_else(|r| (r.number, r.offset as u64), |_| (0, 0))
}

struct Difference {
    from: String,
    input: Vec<u8>,
}

struct Comparison {
    check: Check,
    /// By sort, then by the oracle's number; the stored inputs come last.
    met: [[u64; 10]; ALL_SORTS.len() + 1],
    differences: Vec<Difference>,
}

const STORED: usize = ALL_SORTS.len();

impl Comparison {
    fn new(check: Check) -> Self {
        Self { check, met: Default::default(), differences: Vec::new() }
    }

    /// The empty input, every input of one and two bytes, and the stored rows.
    fn stored(&mut self) {
        self.compare(STORED, || "the empty input".to_string(), &[]);
        for first in 0..=255 {
            self.compare(STORED, || "one byte".to_string(), &[first]);
            for second in 0..=255 {
                self.compare(STORED, || "two bytes".to_string(), &[first, second]);
            }
        }
        for row in &ROWS {
            let input = from_hex(row.hex).expect("stored rows are hexadecimal");
            self.compare(STORED, || "a stored row".to_string(), &input);
        }
    }

    fn made(&mut self, seed: u64, count: u64, sort: Option<Sort>) {
        for number in 0..count {
            if self.differences.len() >= ENOUGH {
                return;
            }
            let (sort, input) = gen::input(seed, number, sort);
            let from = || format!("{} input {number} of seed {seed}", sort.name());
            self.compare(place(sort), from, &input);
        }
    }

    fn compare(&mut self, group: usize, from: impl Fn() -> String, input: &[u8]) {
        let expected = expected(input);
        self.met[group][usize::from(expected.0)] += 1;
        if (self.check)(input) != expected && self.differences.len() < ENOUGH {
            let differs = |tried: &[u8]| (self.check)(tried) != self::expected(tried);
            let input = gen::smallest(input, differs);
            self.differences.push(Difference { from: from(), input });
        }
    }

    fn print(&self, seed: u64) {
        let names = ALL_SORTS.iter().map(|s| s.name()).chain(["stored"]);
        println!("check against the oracle's reader, seed {seed}");
        println!("{:<10}{:>10}{}", "sort", "accepted", numbers());
        for (name, row) in names.zip(&self.met) {
            let cells: String = row.iter().map(|n| format!("{n:>10}")).collect();
            println!("{name:<10}{cells}");
        }
        for difference in &self.differences {
            let input = &difference.input;
            let (expected, got) = (expected(input), (self.check)(input));
            println!("DIFFERENCE from {}", difference.from);
            println!("  smallest input found: {}", to_hex(input));
            println!("  oracle {} {}, check {} {}", expected.0, expected.1, got.0, got.1);
        }
        let inputs: u64 = self.met.iter().flatten().sum();
        let stopped = if self.differences.len() >= ENOUGH { " (stopped there)" } else { "" };
        println!("{inputs} inputs, {} differences{stopped}", self.differences.len());
    }
}

fn place(sort: Sort) -> usize {
    ALL_SORTS.iter().position(|s| *s == sort).expect("every sort is listed")
}

fn numbers() -> String {
    (1..=9).map(|n| format!("{n:>10}")).collect()
}

#[cfg(test)]
mod tests {
    use super::*;

    fn compared(check: Check) -> Comparison {
        let mut comparison = Comparison::new(check);
        comparison.made(1, 3000, None);
        comparison
    }

    #[test]
    fn the_reader_agrees_with_itself() {
        assert!(compared(expected).differences.is_empty());
    }

    /// A reader that takes a late phi is found out, and by a small input.
    #[test]
    fn a_planted_fault_is_found() {
        fn forgets_seven(input: &[u8]) -> (u8, u64) {
            let answer = expected(input);
            if answer.0 == 7 {
                (0, 0)
            } else {
                answer
            }
        }
        let comparison = compared(forgets_seven);
        let small = comparison.differences.iter().map(|d| d.input.len()).min();
        assert!(small.expect("the fault is found") < 40);
        for difference in &comparison.differences {
            assert_eq!(expected(&difference.input).0, 7);
        }
    }

    /// An offset that is off by one is found out.
    #[test]
    fn a_wrong_offset_is_found() {
        fn one_further(input: &[u8]) -> (u8, u64) {
            let (number, offset) = expected(input);
            (number, if number == 6 { offset + 1 } else { offset })
        }
        assert_eq!(compared(one_further).differences.len(), ENOUGH);
    }
}
