//! `lower` against the Rust on all that is near: every short input, and everything one step from
//! stored routines.

use std::path::Path;

use super::comparison::Comparison;
use super::outcome::{Calls, Sides};
use super::settings::{Triple, USUAL};
use crate::args::Args;
use crate::judged::Judged;
use crate::{stored, Lower};

/// How many routines are changed.
const ROUTINES: u64 = 60;

/// The stored answers, from this crate.
const STORED: &str = "../../crates/replay/stdin";

/// Compares every input of up to two bytes; then, of the `--routines` shortest different stored
/// inputs that the Rust takes under the usual settings, every prefix and every one with one byte
/// changed. Usual settings and an output that is long enough. True where nothing differs.
pub fn command(args: &Args, lower: Lower) -> Result<bool, String> {
    args.only(&["routines", "from"])?;
    let many = args.number("routines", ROUTINES)? as usize;
    let usual = Path::new(env!("CARGO_MANIFEST_DIR")).join(STORED);
    let from = args.text("from").map_or(usual, Into::into);
    let file = std::fs::read(&from).map_err(|e| format!("{}: {e}", from.display()))?;
    let stored = stored::inputs(&file).ok_or(format!("{} has no rows", from.display()))?;
    let routines = shortest(stored, many);
    let bytes: usize = routines.iter().map(|routine| routine.len()).sum();
    println!("lower against the Rust: inputs of up to two bytes, and");
    println!("all one step from {} stored routines of {bytes} bytes in all", routines.len());
    let mut small = Small::new(lower);
    small.short();
    routines.iter().for_each(|routine| small.steps(routine));
    small.comparison.print();
    Ok(small.comparison.found.is_empty() && routines.len() == many)
}

/// The `many` shortest inputs that are routines, none twice.
fn shortest(mut inputs: Vec<&[u8]>, many: usize) -> Vec<&[u8]> {
    inputs.sort_by_key(|input| (input.len(), *input));
    inputs.dedup();
    let taken =
        |input: &&[u8]| Judged::of(input, super::outcome::settings_of(USUAL)).numbers[0] == 0;
    inputs.into_iter().filter(taken).take(many).collect()
}

/// The groups, in the order of their names.
const GROUPS: [&str; 3] = ["short", "prefixes", "changed"];

struct Small {
    comparison: Comparison<Triple>,
}

impl Small {
    fn new(lower: Lower) -> Self {
        Self { comparison: Comparison::new(Sides::rust(lower), GROUPS) }
    }

    fn compare(&mut self, group: usize, input: &[u8]) {
        if !self.comparison.enough() {
            let from = || format!("{}, {} bytes", GROUPS[group], input.len());
            self.comparison.compare(group, from, input, &[USUAL], Calls::One);
        }
    }

    /// Every input of up to two bytes.
    fn short(&mut self) {
        self.compare(0, &[]);
        for first in 0..=255 {
            self.compare(0, &[first]);
            for second in 0..=255 {
                self.compare(0, &[first, second]);
            }
        }
    }

    /// Every prefix of a routine, the routine too, and every one with one byte changed.
    fn steps(&mut self, routine: &[u8]) {
        for length in 0..=routine.len() {
            self.compare(1, &routine[..length]);
        }
        let mut changed = routine.to_vec();
        for at in 0..routine.len() {
            for other in 1..=255 {
                changed[at] = routine[at].wrapping_add(other);
                self.compare(2, &changed);
            }
            changed[at] = routine[at];
        }
    }
}

#[cfg(test)]
mod tests {
    use super::*;
    use crate::lower_diff::tests::rust;
    use oracle::from_hex;
    use oracle::rows::EXAMPLE;

    fn compared(lower: Lower) -> Comparison<Triple> {
        let mut small = Small::new(lower);
        small.short();
        small.steps(&from_hex(EXAMPLE).expect("it is hexadecimal"));
        small.comparison
    }

    #[test]
    fn the_rust_agrees_with_itself() {
        assert!(compared(rust).found.is_empty());
    }

    /// A fault at one input of two bytes, and one at one changed byte, are found.
    #[test]
    fn a_single_wrong_answer_is_found() {
        let short: Lower = |input, output, settings| {
            let mut answer = rust(input, output, settings);
            answer[1] += u64::from(input == [3, 7]);
            answer
        };
        let changed: Lower = |input, output, settings| {
            let mut answer = rust(input, output, settings);
            answer[2] ^= u64::from(input.len() == 56 && input[34] == 200);
            answer
        };
        for (lower, length) in [(short, 2), (changed, 56)] {
            let found = compared(lower).found;
            assert_eq!(found.len(), 1);
            assert_eq!(found[0].input.len(), length);
        }
    }

    #[test]
    fn the_shortest_routines_are_taken() {
        let example = from_hex(EXAMPLE).expect("it is hexadecimal");
        let other = [&example[..], &[0]].concat();
        assert_eq!(shortest(vec![&other, &example, &[], &example], 5), [&example[..]]);
    }
}
