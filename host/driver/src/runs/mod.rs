//! Original and rewritten routine on the machine: record and standing must be the same.

mod case;
mod faults;
mod plan;

use edition2::Edition;
use machine::{Cause, End, Event, Run, Standing};
use oracle::form::Routine;
use oracle::{read, to_hex, write, Settings, COUNT_NAMES};

use crate::args::Args;
use crate::tally::Tally;
use case::{Aside, Case, Wanted};
use faults::{Fault, FAULTS};
use plan::{Plan, LIST_SORTS, MEANINGS};

/// So many differences are enough.
const ENOUGH: usize = 5;

/// Compares runs of `--count` routines; true where nothing differs and every end, stop and event
/// was met. With a planted fault, or of another reason than 0, true where a difference is found.
pub fn command(args: &Args) -> Result<bool, String> {
    args.only(&["count", "seed", "fault", "reason", "edition"])?;
    let (count, seed) = (args.number("count", 100_000)?, args.number("seed", 1)?);
    let fault = match args.text("fault") {
        Some(name) => FAULTS.iter().find(|(own, _)| *own == name).ok_or("no such fault")?.1,
        None => Fault::None,
    };
    let reason = args.number("reason", 0)?;
    let reason = u8::try_from(reason).ok().filter(|n| *n <= 5).ok_or("no such reason")?;
    let edition = Edition::of(args.number("edition", 1)?);
    let wanted = Wanted { reason, fault, edition };
    let mut comparison = Comparison::new(seed, wanted);
    comparison.made(count);
    let missing = comparison.print();
    let alike = comparison.differences.is_empty();
    let right = wanted == Wanted { edition, ..RIGHT };
    Ok(if right { alike && missing.is_empty() } else { !alike })
}

/// What may go on the shelf, rewritten rightly.
const RIGHT: Wanted = Wanted { reason: 0, fault: Fault::None, edition: Edition::First };

struct Comparison {
    seed: u64,
    wanted: Wanted,
    /// After so many differences the run stops.
    enough: usize,
    routines: Tally,
    kept: Tally,
    counts: Tally,
    lists: Tally,
    meanings: Tally,
    standings: Tally,
    aside: Tally,
    events: Tally,
    /// Compared runs of changed routines, and those that went through a changed block.
    changed: [u64; 2],
    /// Compared runs whose record has a Debug.
    debugs: u64,
    compared: u64,
    differences: Vec<Difference>,
}

struct Difference {
    number: u64,
    settings: Settings,
    routine: Routine,
}

const STANDINGS: [&str; 8] = [
    "next block",
    "ended: Return",
    "ended: Unreachable",
    "ended: unequal sides",
    "stopped: no value of type",
    "stopped: no source",
    "stopped: no reply left",
    "stopped: operation",
];

/// The refusals of a rebuild.
const REFUSED: [u8; 3] = [10, 14, 15];

const EVENTS: [&str; 7] =
    ["Call", "HeapAllocCells", "Load", "Store", "AssertEq", "Return", "Debug"];

impl Comparison {
    fn new(seed: u64, wanted: Wanted) -> Self {
        let refused = REFUSED.map(|n| format!("refused {n}"));
        let reasons = (0..=5).map(|n| format!("reason {n}")).chain(refused);
        Self {
            seed,
            wanted,
            enough: ENOUGH,
            routines: Tally::new("routines", reasons),
            kept: Tally::new("routines compared", ["unchanged", "changed"]),
            counts: Tally::new("of these, with a count raised", COUNT_NAMES),
            lists: Tally::new("compared runs, by outside list", LIST_SORTS),
            meanings: Tally::new("compared runs, by meaning of operations", MEANINGS),
            standings: Tally::new("compared runs, by standing", STANDINGS),
            aside: Tally::new("runs not compared", ["unwritten value", "missing part"]),
            events: Tally::new("events of compared runs", EVENTS),
            changed: [0; 2],
            debugs: 0,
            compared: 0,
            differences: Vec::new(),
        }
    }

    fn made(&mut self, count: u64) {
        for number in 0..count {
            if self.differences.len() >= self.enough {
                return;
            }
            let (input, settings) = case::input(self.seed, number, self.wanted.edition);
            let original = read(&input).expect("made routines are valid");
            self.routine(number, original, settings);
        }
    }

    fn routine(&mut self, number: u64, original: Routine, settings: Settings) {
        let case = match Case::of(original, settings, &self.wanted) {
            Ok(case) => case,
            Err(Aside::Refused(number)) => {
                let at = REFUSED.iter().position(|own| *own == number).expect("no other");
                return self.routines.add(6 + at, 1);
            }
            Err(Aside::Reason(reason)) => return self.routines.add(reason.into(), 1),
        };
        self.routines.add(self.wanted.reason.into(), 1);
        self.kept.add(case.changed.into(), 1);
        for (at, count) in case.counts.into_iter().enumerate() {
            self.counts.add(at, u64::from(count > 0));
        }
        let alike = case.plans(self.seed, number).iter().all(|plan| self.alike(&case, plan));
        if !alike {
            let routine = self.shrunk(&case.original, settings, number);
            self.differences.push(Difference { number, settings, routine });
        }
    }

    /// Takes out what does not matter, first of the routine and then of its bytes.
    fn shrunk(&self, routine: &Routine, settings: Settings, number: u64) -> Routine {
        let differs = |tried: &Routine| {
            case::difference(tried, settings, &self.wanted, self.seed, number).is_some()
        };
        let small = gen::smaller(routine, differs);
        let bytes = gen::smallest(&write(&small), |tried| read(tried).is_ok_and(|r| differs(&r)));
        read(&bytes).unwrap_or(small)
    }

    /// Counts a run, and tells whether the rewritten routine's is the same.
    fn alike(&mut self, case: &Case, plan: &Plan) -> bool {
        let first = case.first(plan);
        let standing = match place(first.trace.standing) {
            Ok(standing) => standing,
            Err(aside) => {
                self.aside.add(aside, 1);
                return true;
            }
        };
        self.compared += 1;
        self.standings.add(standing, 1);
        self.lists.add(plan.sort as usize, 1);
        self.meanings.add(plan.meant, 1);
        self.changed[0] += u64::from(case.changed);
        self.changed[1] += u64::from(case.meets_change(&first));
        self.events(&first);
        first.trace == case.second(plan)
    }

    fn events(&mut self, run: &Run) {
        let is_debug = |event: &Event| matches!(event, Event::Debug { .. });
        self.debugs += u64::from(run.trace.record.iter().any(is_debug));
        for event in &run.trace.record {
            let at = match event {
                Event::Call { .. } => 0,
                Event::HeapAllocCells { .. } => 1,
                Event::Load { .. } => 2,
                Event::Store { .. } => 3,
                Event::AssertEq { .. } => 4,
                Event::Return { .. } => 5,
                Event::Debug { .. } => 6,
            };
            self.events.add(at, 1);
        }
    }

    /// Prints all, and gives the cases that were never met.
    fn print(&self) -> Vec<String> {
        let tallies = [
            &self.routines,
            &self.kept,
            &self.counts,
            &self.lists,
            &self.meanings,
            &self.standings,
            &self.aside,
            &self.events,
        ];
        tallies.iter().for_each(|tally| print!("{tally}"));
        let [changed, through] = self.changed;
        let (compared, differences) = (self.compared, self.differences.len());
        println!("{compared} compared runs, {changed} of changed routines");
        println!("{through} compared runs went through a changed block");
        println!("{} compared runs have a Debug in their record", self.debugs);
        println!("{differences} differences");
        self.differences.iter().for_each(|difference| self.show(difference));
        let met = [&self.lists, &self.meanings, &self.standings, &self.aside, &self.events];
        let missing: Vec<String> = met.iter().flat_map(|tally| tally.missing()).collect();
        missing.iter().for_each(|name| println!("never met: {name}"));
        missing
    }

    fn show(&self, difference: &Difference) {
        let Difference { number, settings, routine } = difference;
        println!("DIFFERENCE from routine {number} of seed {}, {settings:?}", self.seed);
        println!("  smallest routine found: {}", to_hex(&write(routine)));
        let found = case::difference(routine, *settings, &self.wanted, self.seed, *number);
        let (case, plan) = found.expect("it was found before");
        println!(
            "  {} blocks, meaning: {}, list {:?}",
            plan.blocks, MEANINGS[plan.meant], plan.list
        );
        println!("  original  {:?}", case.first(&plan).trace);
        println!("  rewritten {:?}", case.second(&plan));
    }
}

/// The place of a compared standing in [`STANDINGS`], or of the cause that sets a run aside.
fn place(standing: Standing) -> Result<usize, usize> {
    Ok(match standing {
        Standing::At(_) => 0,
        Standing::Ended(End::Return) => 1,
        Standing::Ended(End::Unreachable) => 2,
        Standing::Ended(End::UnequalSides) => 3,
        Standing::Stopped(Cause::NoValue) => 4,
        Standing::Stopped(Cause::NoSource) => 5,
        Standing::Stopped(Cause::NoReply) => 6,
        Standing::Stopped(Cause::Operation(_)) => 7,
        Standing::Stopped(Cause::Unwritten) => return Err(0),
        Standing::Stopped(Cause::MissingPart) => return Err(1),
    })
}

#[cfg(test)]
mod tests {
    use super::*;

    const SECOND: Wanted = Wanted { edition: Edition::Second, ..RIGHT };

    fn compared(wanted: Wanted, count: u64) -> Comparison {
        let mut comparison = Comparison::new(1, wanted);
        comparison.enough = 1;
        comparison.made(count);
        comparison
    }

    #[test]
    fn runs_are_alike() {
        let comparison = compared(RIGHT, 1500);
        assert!(comparison.differences.is_empty());
        assert!(comparison.compared > 2500);
        assert!(comparison.changed[1] > 1000);
        assert!(comparison.debugs > 500);
    }

    #[test]
    fn runs_are_alike_in_edition_2() {
        let comparison = compared(SECOND, 1500);
        assert!(comparison.differences.is_empty());
        assert!(comparison.compared > 2500);
        assert!(comparison.changed[1] > 1000);
        let swapped = compared(Wanted { fault: Fault::Swapped, ..SECOND }, 1500);
        assert!(!swapped.differences.is_empty());
    }

    /// Each planted fault is found, and by a small routine.
    #[test]
    fn planted_faults_are_found() {
        for (name, fault) in FAULTS {
            let comparison = compared(Wanted { fault, ..RIGHT }, 1500);
            let small = comparison.differences.iter().map(|d| write(&d.routine).len()).min();
            assert!(small.is_some_and(|length| length < 200), "{name}: {small:?}");
        }
    }

    /// Routines that may not go on the shelf do not all run alike.
    #[test]
    fn a_read_of_a_dropped_value_is_found() {
        let comparison = compared(Wanted { reason: 5, ..RIGHT }, 1500);
        assert!(!comparison.differences.is_empty());
    }
}
