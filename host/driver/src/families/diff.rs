//! The program `families`, as it was built, against the definition: what it prints of made inputs.

use std::io::Write;
use std::path::Path;
use std::process::{Command, Stdio};
use std::sync::atomic::{AtomicU64, Ordering};
use std::thread;

use gen::Sort;
use oracle::to_hex;

use super::{cases, found, printed, CASES};
use crate::args::Args;
use crate::tally::Tally;

/// Runs the program `--program` on `--count` made inputs, several at once, with the word `members`
/// where it is asked for. True where it prints of each what it has to, and every case was met.
pub fn command(args: &Args) -> Result<bool, String> {
    args.only(&["count", "seed", "sort", "program", "members"])?;
    let (count, seed) = (args.number("count", 10_000)?, args.number("seed", 1)?);
    let (sort, members) = (args.sort()?, args.has("members"));
    let program = Path::new(args.text("program").ok_or("--program PATH is missing")?);
    let words: &[&str] = if members { &["members"] } else { &[] };
    let comparison = Comparison {
        members,
        input: &|number| made(seed, number, sort),
        program: &|input| run(program, words, input),
    };
    let compared = comparison.all(count)?;
    println!("families against the definition, seed {seed}");
    let missing = compared.print();
    if sort.is_none() {
        missing.iter().for_each(|name| println!("never met: {name}"));
    }
    Ok(compared.differences == 0 && (sort.is_some() || missing.is_empty()))
}

/// Input `number` of a seed; in the mix every other one is dense in copies.
fn made(seed: u64, number: u64, only: Option<Sort>) -> (Sort, Vec<u8>) {
    let dense = (number % 2 == 1).then_some(Sort::Copies);
    gen::input(seed, number, only.or(dense))
}

/// What the program prints of the bytes on its standard input, and how it ended where it failed.
fn run(program: &Path, words: &[&str], input: &[u8]) -> Result<Vec<u8>, String> {
    let failed = |e| format!("{}: {e}", program.display());
    let mut command = Command::new(program);
    command.args(words).stdin(Stdio::piped()).stdout(Stdio::piped());
    let mut child = command.spawn().map_err(failed)?;
    // A program that ends before it has read all is told by what it printed.
    let _ = child.stdin.take().expect("it is a pipe").write_all(input);
    let output = child.wait_with_output().map_err(failed)?;
    let mut said = output.stdout;
    if !output.status.success() {
        said.extend(format!("ended with {}\n", output.status).bytes());
    }
    Ok(said)
}

/// An input by its number.
type Input<'a> = dyn Fn(u64) -> (Sort, Vec<u8>) + Sync + 'a;

/// What is printed of an input, or why the program cannot be run.
type Program<'a> = dyn Fn(&[u8]) -> Result<Vec<u8>, String> + Sync + 'a;

struct Comparison<'a> {
    members: bool,
    input: &'a Input<'a>,
    program: &'a Program<'a>,
}

impl Comparison<'_> {
    /// The first `count` inputs, as many at once as there are processors.
    fn all(&self, count: u64) -> Result<Compared, String> {
        let next = AtomicU64::new(0);
        let some = || {
            let mut compared = Compared::default();
            loop {
                match next.fetch_add(1, Ordering::Relaxed) {
                    number if number < count => self.one(number, &mut compared)?,
                    _ => return Ok(compared),
                }
            }
        };
        let workers = thread::available_parallelism().map_or(1, usize::from);
        let parts: Vec<Result<Compared, String>> = thread::scope(|scope| {
            let workers: Vec<_> = (0..workers).map(|_| scope.spawn(some)).collect();
            workers.into_iter().map(|worker| worker.join().expect("none panics")).collect()
        });
        parts.into_iter().try_fold(Compared::default(), |sum, part| Ok(sum.and(part?)))
    }

    fn one(&self, number: u64, compared: &mut Compared) -> Result<(), String> {
        let (sort, input) = (self.input)(number);
        let found = found(&input);
        let (expected, got) = (printed(&found, self.members), (self.program)(&input)?);
        compared.inputs += 1;
        compared.refused += u64::from(found.is_err());
        for family in found.iter().flatten() {
            let times = compared.cases.iter_mut().zip(cases(family));
            times.for_each(|(times, is)| *times += u64::from(is));
        }
        if got != expected.as_bytes() {
            compared.differences += 1;
            let got = String::from_utf8_lossy(&got).into_owned();
            let difference = Difference { number, sort, input, expected, got };
            compared.first = earlier(compared.first.take(), Some(difference));
        }
        Ok(())
    }
}

struct Difference {
    number: u64,
    sort: Sort,
    input: Vec<u8>,
    expected: String,
    got: String,
}

/// The one of the lower number.
fn earlier(one: Option<Difference>, other: Option<Difference>) -> Option<Difference> {
    one.into_iter().chain(other).min_by_key(|difference| difference.number)
}

#[derive(Default)]
struct Compared {
    inputs: u64,
    refused: u64,
    cases: [u64; CASES.len()],
    differences: u64,
    first: Option<Difference>,
}

impl Compared {
    fn and(mut self, other: Self) -> Self {
        self.inputs += other.inputs;
        self.refused += other.refused;
        self.cases.iter_mut().zip(other.cases).for_each(|(sum, times)| *sum += times);
        self.differences += other.differences;
        self.first = earlier(self.first, other.first);
        self
    }

    /// Prints all, and gives the cases that were never met.
    fn print(&self) -> Vec<String> {
        let mut tally = Tally::new("families", ["refused inputs"].into_iter().chain(CASES));
        let times = [self.refused].into_iter().chain(self.cases);
        times.enumerate().for_each(|(at, times)| tally.add(at, times));
        print!("{tally}");
        if let Some(first) = &self.first {
            let Difference { number, sort, input, expected, got } = first;
            println!("DIFFERENCE, the first: {} input {number}, {}", sort.name(), to_hex(input));
            print!("has to print:\n{expected}printed:\n{got}");
        }
        println!("{} inputs, {} differences", self.inputs, self.differences);
        tally.missing()
    }
}

#[cfg(test)]
mod tests {
    use super::*;

    type Prints = dyn Fn(&[u8]) -> String + Sync;

    fn compared(members: bool, program: &Prints) -> Compared {
        let program = |input: &[u8]| Ok(program(input).into_bytes());
        let input = |number| made(1, number, None);
        Comparison { members, input: &input, program: &program }.all(600).expect("all can be run")
    }

    #[test]
    fn the_definition_agrees_with_itself() {
        for members in [false, true] {
            let compared = compared(members, &move |input| printed(&found(input), members));
            assert_eq!((compared.inputs, compared.differences), (600, 0));
            assert_eq!(compared.print(), Vec::<String>::new());
        }
    }

    /// Wrong in one way each: members where none are asked for, a flag that is never 1, a number of
    /// turns by a formula, and a search that finds only what stands behind its source.
    #[test]
    fn wrong_programs_are_found() {
        let changed = |change: fn(&mut families::Family)| {
            move |input: &[u8]| {
                let mut found = found(input);
                found.iter_mut().flatten().for_each(change);
                printed(&found, false)
            }
        };
        let wrong: [&Prints; 4] = [
            &|input| printed(&found(input), true),
            &changed(|family| family.dynamic = false),
            &changed(|family| family.copies = family.members.len() - 1),
            &changed(|family| {
                if family.backwards {
                    family.members = [family.dest].into();
                }
            }),
        ];
        for program in wrong {
            let compared = compared(false, program);
            let first = compared.first.expect("a difference is found");
            assert!(compared.differences > 0 && first.got != first.expected);
            let earlier = (0..first.number).map(|number| made(1, number, None).1);
            assert!(earlier.into_iter().all(|i| program(&i) == printed(&found(&i), false)));
        }
    }

    /// The bytes go to the program's standard input, the words behind its name.
    #[test]
    fn a_program_is_run() {
        let bytes: Vec<u8> = (0..60_000).map(|n| (n % 251) as u8).collect();
        assert_eq!(run(Path::new("cat"), &[], &bytes), Ok(bytes));
        let told = run(Path::new("echo"), &["members"], &[]);
        assert_eq!(told, Ok(b"members\n".to_vec()));
        let failed = run(Path::new("false"), &[], &[]).expect("it can be run");
        assert!(failed.starts_with(b"ended with "));
        assert!(run(Path::new("./no-such-program"), &[], &[]).is_err());
    }
}
