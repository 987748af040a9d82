//! What comes out is judged as what goes in: no shelf reason 1 or 2 is new. And outputs of shelf reason 0 are
//! lowered again, of which nothing is promised but that.

mod judge;
mod met;
mod shown;
mod written;

use gen::{Rng, Sort, ALL_SORTS};
use oracle::rows::{DEBUGS, ROWS};
use oracle::{from_hex, read, to_hex, write};

use crate::args::Args;
use crate::editions::{archive, called, Call, Choices};
use crate::lower_diff::settings::{some_settings, USUAL};
use crate::{examples, lower_diff, WITHOUT};
use judge::{lowered, Exception};
use met::{Met, ACCEPTED, AGAIN, REFUSED, STORED};

/// So many exceptions are enough.
const ENOUGH: usize = 5;

/// Judges `--count` inputs in both editions; true where no reason is new and every case was met.
pub fn command(args: &Args) -> Result<bool, String> {
    args.only(&["count", "seed", "sort", "by"])?;
    let (count, seed) = (args.number("count", 100_000)?, args.number("seed", 1)?);
    let sort = args.sort()?;
    let call = match args.text("by") {
        Some("crate") => called,
        None => archive().ok_or(WITHOUT)?,
        Some(other) => return Err(format!("--by {other}: there is only crate")),
    };
    let mut comparison = Comparison::new(call, seed);
    comparison.stored();
    comparison.made(count, sort);
    println!(
        "outputs judged by shelf reasons 1 and 2: {count} inputs, three settings each, seed {seed}"
    );
    comparison.print();
    let missing = comparison.missing();
    missing.iter().for_each(|name| println!("never met: {name}"));
    Ok(comparison.found.is_empty() && (sort.is_some() || missing.is_empty()))
}

struct Found {
    from: String,
    choices: Choices,
    input: Vec<u8>,
    exception: Exception,
}

struct Comparison {
    call: Call,
    seed: u64,
    /// After so many exceptions the run stops.
    enough: usize,
    /// Edition 1, and edition 2.
    editions: [Met; 2],
    found: Vec<Found>,
}

impl Comparison {
    fn new(call: Call, seed: u64) -> Self {
        let editions = [1, 2].map(Met::new);
        Self { call, seed, enough: ENOUGH, editions, found: Vec::new() }
    }

    /// The stored rows, the examples and the written routines, under the usual settings.
    fn stored(&mut self) {
        let hex = ROWS.iter().map(|row| row.hex).chain(DEBUGS.iter().map(|row| row.hex));
        let rows = hex.map(|hex| from_hex(hex).expect("stored rows are hexadecimal"));
        let rows = rows.map(|bytes| ("a stored row", bytes));
        let written = written::all().map(|(name, routine)| (name, write(&routine)));
        for (name, input) in rows.chain(examples::all()).chain(written) {
            self.both(STORED, || name.to_string(), &input, &[USUAL]);
        }
    }

    fn made(&mut self, count: u64, only: Option<Sort>) {
        for number in 0..count {
            if self.found.len() >= self.enough {
                return;
            }
            let (sort, input) = made(self.seed, number, only);
            let group = ALL_SORTS.iter().position(|s| *s == sort).expect("every sort is listed");
            let settings = some_settings(&mut Rng::of(!self.seed, number));
            let from = || format!("{} input {number}", sort.name());
            self.both(group, from, &input, &settings);
        }
    }

    /// Both editions of one input under settings, up to the first exception.
    fn both(
        &mut self,
        group: usize,
        from: impl Fn() -> String,
        input: &[u8],
        settings: &[[u64; 3]],
    ) {
        for settings in settings {
            for edition in [1, 2] {
                let choices = Choices::of(*settings, edition);
                if let Err(exception) = self.one(group, input, choices) {
                    let (input, exception) = self.shrunk(input, choices, exception);
                    self.found.push(Found { from: from(), choices, input, exception });
                    return;
                }
            }
        }
    }

    /// One call, and a second one over an output of reason 0.
    fn one(&mut self, group: usize, input: &[u8], choices: Choices) -> Result<(), Exception> {
        let met = &mut self.editions[choices.edition() as usize];
        match lowered(self.call, input, choices)? {
            Some(first) => {
                met.add(group, &first);
                if first.reason == 0 {
                    met.add_again(group, lowered(self.call, &first.bytes, choices)?.as_ref());
                }
            }
            None => met.rows[group][REFUSED] += 1,
        }
        Ok(())
    }

    /// A smaller input with such an exception, in its first run or its second: first of a smaller routine,
    /// then of fewer bytes.
    fn shrunk(&self, input: &[u8], choices: Choices, first: Exception) -> (Vec<u8>, Exception) {
        let found = |tried: &[u8]| {
            let exception = twice(self.call, tried, choices).err();
            exception.filter(|other| other.is_like(&first))
        };
        let shows = |tried: &[u8]| found(tried).is_some();
        let smaller = read(input).map(|routine| gen::smaller(&routine, |r| shows(&write(r))));
        let input = smaller.map_or(input.to_vec(), |routine| write(&routine));
        let small = gen::smallest(&input, shows);
        let exception = found(&small).unwrap_or(first);
        (small, exception)
    }

    fn print(&self) {
        self.editions.iter().for_each(Met::print);
        for found in &self.found {
            println!("EXCEPTION from {} of seed {}: {}", found.from, self.seed, found.exception);
            println!("  smallest input found: {}", to_hex(&found.input));
            println!("  choices {:?}", found.choices);
        }
        let [judged, again] =
            [ACCEPTED, AGAIN].map(|at| self.editions.iter().map(|met| met.sums()[at]).sum::<u64>());
        println!(
            "{judged} outputs and {again} second ones judged, {} exceptions",
            self.found.len()
        );
    }

    fn missing(&self) -> Vec<String> {
        self.editions.iter().flat_map(Met::missing).collect()
    }
}

/// One run, and a second one over an output of reason 0.
fn twice(call: Call, input: &[u8], choices: Choices) -> Result<(), Exception> {
    let first = lowered(call, input, choices)?;
    match first.filter(|first| first.reason == 0) {
        Some(first) => lowered(call, &first.bytes, choices).map(drop),
        None => Ok(()),
    }
}

/// One in so many is a tower.
const TOWERS: u64 = 1024;

/// Input `number` of a seed: of every sort, most of such as types agree in.
fn made(seed: u64, number: u64, only: Option<Sort>) -> (Sort, Vec<u8>) {
    let sort = match Rng::of(seed, !number).below(100) {
        _ if number % TOWERS == TOWERS - 1 => Sort::Tower,
        0..=39 => Sort::Typed,
        40..=69 => Sort::Deep,
        70..=79 => Sort::Debugs,
        80..=86 => Sort::Copies,
        87..=93 => Sort::Wild,
        94..=95 => Sort::Near,
        96..=98 => Sort::Damaged,
        _ => Sort::Bytes,
    };
    lower_diff::made(seed, number, only.or(Some(sort)))
}

#[cfg(test)]
mod tests;
