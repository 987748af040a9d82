//! The words after a command: names with values, and some without.

use std::collections::BTreeMap;

use gen::{Sort, ALL_SORTS};

/// Names that stand without a value.
const ALONE: [&str; 1] = ["members"];

pub struct Args {
    values: BTreeMap<String, String>,
}

impl Args {
    /// Reads `--name value` pairs, and names that stand alone.
    pub fn of(mut words: impl Iterator<Item = String>) -> Result<Self, String> {
        let mut values = BTreeMap::new();
        while let Some(word) = words.next() {
            let name = word.strip_prefix("--").ok_or(format!("`{word}` is no --name"))?;
            let alone = ALONE.contains(&name).then(String::new);
            let value = alone.or_else(|| words.next()).ok_or(format!("--{name} has no value"))?;
            values.insert(name.to_string(), value);
        }
        Ok(Self { values })
    }

    /// Refuses names that the command does not take.
    pub fn only(&self, names: &[&str]) -> Result<(), String> {
        match self.values.keys().find(|name| !names.contains(&name.as_str())) {
            Some(name) => Err(format!("--{name} is not taken here")),
            None => Ok(()),
        }
    }

    pub fn text(&self, name: &str) -> Option<&str> {
        self.values.get(name).map(String::as_str)
    }

    /// Whether a name that stands alone is there.
    pub fn has(&self, name: &str) -> bool {
        self.values.contains_key(name)
    }

    /// The sort of inputs that `--sort` asks for; none means a mix of all.
    pub fn sort(&self) -> Result<Option<Sort>, String> {
        let Some(name) = self.text("sort") else {
            return Ok(None);
        };
        let sort = ALL_SORTS.into_iter().find(|sort| sort.name() == name);
        sort.map(Some).ok_or(format!("--sort {name} is none of the sorts"))
    }

    pub fn number(&self, name: &str, or: u64) -> Result<u64, String> {
        match self.text(name) {
            Some(text) => text.parse().map_err(|_| format!("--{name} {text} is no number")),
            None => Ok(or),
        }
    }
}

#[cfg(test)]
mod tests {
    use super::*;

    fn of(words: &[&str]) -> Result<Args, String> {
        Args::of(words.iter().map(|w| w.to_string()))
    }

    #[test]
    fn pairs_are_read_and_others_refused() {
        let args = of(&["--count", "5", "--hex", "00"]).unwrap();
        assert_eq!(args.number("count", 1), Ok(5));
        assert_eq!(args.number("seed", 1), Ok(1));
        assert!(args.number("hex", 1).is_ok());
        assert!(args.only(&["count"]).is_err());
        assert!(of(&["count"]).is_err());
        assert!(of(&["--count"]).is_err());
        assert!(of(&["--count", "x"]).unwrap().number("count", 1).is_err());
    }

    #[test]
    fn some_names_stand_alone() {
        let args = of(&["--members", "--count", "5"]).unwrap();
        assert!(args.has("members") && !args.has("hex"));
        assert_eq!(args.number("count", 1), Ok(5));
        assert!(!of(&[]).unwrap().has("members"));
    }

    #[test]
    fn sorts_have_names() {
        assert_eq!(of(&[]).unwrap().sort(), Ok(None));
        assert_eq!(of(&["--sort", "wild"]).unwrap().sort(), Ok(Some(Sort::Wild)));
        assert_eq!(of(&["--sort", "tower"]).unwrap().sort(), Ok(Some(Sort::Tower)));
        assert!(of(&["--sort", "other"]).unwrap().sort().is_err());
    }
}
