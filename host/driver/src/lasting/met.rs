//! What was met in one edition, counted.

use gen::ALL_SORTS;

use super::judge::Lowered;
use super::shown::CASES;
use crate::tally::Tally;

/// What is counted of calls: those refused; accepted, without reason 1, with neither 1 nor 2, of reason 0;
/// and of the second runs of these, those refused, accepted, and of another reason.
const COLUMNS: [&str; 8] =
    ["refused", "accepted", "not 1", "nor 2", "reason 0", "not again", "again", "not 0"];
pub const REFUSED: usize = 0;
pub const ACCEPTED: usize = 1;
const REFUSED_AGAIN: usize = 5;
pub const AGAIN: usize = 6;
const LEFT: usize = 7;

/// The group of the stored inputs, behind the sorts.
pub const STORED: usize = ALL_SORTS.len();

/// What was met in one edition.
pub struct Met {
    edition: u64,
    /// By group.
    pub rows: [[u64; COLUMNS.len()]; STORED + 1],
    /// Without reason 1, and with neither, where Debugs are left out.
    aside: [u64; 2],
    /// Of second runs, by shelf reason.
    reasons: [u64; 6],
    cases: Tally,
}

impl Met {
    pub fn new(edition: u64) -> Self {
        let cases = CASES.iter().filter(|case| edition == 2 || case.first).map(|case| case.name);
        let cases = Tally::new("outputs that have neither, by what they show", cases);
        Self { edition, rows: Default::default(), aside: [0; 2], reasons: [0; 6], cases }
    }

    /// Counts an accepted call.
    pub fn add(&mut self, group: usize, lowered: &Lowered) {
        let [with, without] = lowered.before.map(|[first, second]| [!first, !first && !second]);
        let passed = lowered.reason == 0;
        let row = &mut self.rows[group];
        for (at, holds) in [true, with[0], with[1], passed].into_iter().enumerate() {
            row[ACCEPTED + at] += u64::from(holds);
        }
        for (at, holds) in without.into_iter().enumerate() {
            self.aside[at] += u64::from(holds);
        }
        if with[1] {
            let edition = self.edition;
            let cases = CASES.iter().filter(|case| edition == 2 || case.first);
            for (at, case) in cases.enumerate() {
                self.cases.add(at, u64::from((case.shows)(lowered)));
            }
        }
    }

    /// Counts a second run of an output of reason 0.
    pub fn add_again(&mut self, group: usize, again: Option<&Lowered>) {
        let row = &mut self.rows[group];
        match again {
            Some(again) => {
                row[AGAIN] += 1;
                row[LEFT] += u64::from(again.reason != 0);
                self.reasons[usize::from(again.reason)] += 1;
            }
            None => row[REFUSED_AGAIN] += 1,
        }
    }

    pub fn sums(&self) -> [u64; COLUMNS.len()] {
        let column = |at: usize| self.rows.iter().map(|row| row[at]).sum();
        std::array::from_fn(column)
    }

    pub fn print(&self) {
        let line = |cells: [String; COLUMNS.len()]| -> String {
            cells.iter().map(|cell| format!("{cell:>10}")).collect()
        };
        println!("edition {}{}", self.edition, line(COLUMNS.map(|name| name.to_string())));
        let names = ALL_SORTS.iter().map(|sort| sort.name()).chain(["stored"]);
        for (name, row) in names.zip(self.rows).chain([("all", self.sums())]) {
            println!("{name:<9}{}", line(row.map(|n| n.to_string())));
        }
        let [first, second] = self.aside;
        println!("Debugs left out, {first} have not reason 1, {second} neither it nor 2");
        let reasons = self.reasons.map(|n| n.to_string()).join(" ");
        println!("second runs of outputs of reason 0 by shelf reason, 0 to 5: {reasons}");
        print!("{}", self.cases);
    }

    /// What was never met.
    pub fn missing(&self) -> Vec<String> {
        let none = self.sums().into_iter().zip(COLUMNS).enumerate();
        let columns = none.filter(|(at, (n, _))| *n == 0 && *at != REFUSED_AGAIN);
        let columns = columns.map(|(_, (_, name))| name.to_string());
        let all = columns.chain(self.cases.missing());
        all.map(|name| format!("edition {}: {name}", self.edition)).collect()
    }
}
