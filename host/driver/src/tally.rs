//! Named counts, printed in the order in which they were named.

use std::fmt;

/// How often each of some named things was met.
pub struct Tally {
    title: &'static str,
    names: Vec<String>,
    times: Vec<u64>,
}

impl Tally {
    pub fn new<S: ToString>(title: &'static str, names: impl IntoIterator<Item = S>) -> Self {
        let names: Vec<String> = names.into_iter().map(|n| n.to_string()).collect();
        let times = vec![0; names.len()];
        Self { title, names, times }
    }

    pub fn add(&mut self, at: usize, times: u64) {
        self.times[at] += times;
    }

    /// The names that were never met.
    pub fn missing(&self) -> Vec<String> {
        let none = self.names.iter().zip(&self.times).filter(|(_, times)| **times == 0);
        none.map(|(name, _)| format!("{}: {name}", self.title)).collect()
    }
}

impl fmt::Display for Tally {
    fn fmt(&self, f: &mut fmt::Formatter<'_>) -> fmt::Result {
        writeln!(f, "{}", self.title)?;
        for (name, times) in self.names.iter().zip(&self.times) {
            writeln!(f, "  {name:<24} {times:>12}")?;
        }
        Ok(())
    }
}
