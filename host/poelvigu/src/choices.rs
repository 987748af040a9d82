//! What [`lower_with`](crate::lower_with) is told beside the bytes.

use crate::Settings;

/// Which lowering rule.
#[derive(Debug, Clone, Copy, PartialEq, Eq, Hash, Default)]
pub enum Edition {
    /// The Rust's: aggregates are built again for Calls, Stores and Returns.
    #[default]
    First,
    /// They are built again for each instruction that stays and reads one, and so are the parts of
    /// what is built again.
    Second,
}

impl Edition {
    /// Its number.
    pub fn number(self) -> u64 {
        match self {
            Self::First => 1,
            Self::Second => 2,
        }
    }
}

/// All that can be chosen. [`sweep`](Self::sweep), [`joins`](Self::joins) and [`page`](Self::page)
/// change nothing yet.
///
/// ```
/// use poelvigu::{Choices, Edition, Settings};
///
/// let choices = Choices { edition: Edition::Second, most: 4, ..Choices::default() };
/// assert_eq!(choices.to_numbers(), [1, 1, 4, 2, 0, 0, 0]);
/// // Settings are edition 1.
/// assert_eq!(Choices::from(Settings::default()), Choices::default());
/// ```
#[derive(Debug, Clone, Copy, PartialEq, Eq, Hash)]
pub struct Choices {
    /// Whether tuples and arrays are taken apart, and Loads and Stores forwarded.
    pub tuples: bool,
    /// Whether structs are taken apart.
    pub structs: bool,
    /// The most parts that an aggregate to be taken apart has; above 16 it is refused.
    pub most: u64,
    /// Which lowering rule.
    pub edition: Edition,
    /// Not read yet.
    pub sweep: bool,
    /// Not read yet.
    pub joins: bool,
    /// Not read yet.
    pub page: bool,
}

impl Default for Choices {
    /// The usual settings, edition 1.
    fn default() -> Self {
        Settings::default().into()
    }
}

impl From<Settings> for Choices {
    /// Edition 1, which is what [`lower`](crate::lower) does.
    fn from(settings: Settings) -> Self {
        let Settings { tuples, structs, most } = settings;
        let edition = Edition::First;
        Self { tuples, structs, most, edition, sweep: false, joins: false, page: false }
    }
}

impl Choices {
    /// The numbers by their places.
    pub fn to_numbers(&self) -> [u64; 7] {
        let Self { tuples, structs, most, edition, sweep, joins, page } = *self;
        let flags = [sweep, joins, page].map(u64::from);
        [tuples.into(), structs.into(), most, edition.number(), flags[0], flags[1], flags[2]]
    }
}

#[cfg(test)]
mod tests {
    use super::*;

    /// Each choice has a place of its own.
    #[test]
    fn places_are_apart() {
        let usual = Choices::default();
        assert_eq!(usual.to_numbers(), [1, 1, 8, 1, 0, 0, 0]);
        let others = [
            Choices { tuples: false, ..usual },
            Choices { structs: false, ..usual },
            Choices { most: u64::MAX, ..usual },
            Choices { edition: Edition::Second, ..usual },
            Choices { sweep: true, ..usual },
            Choices { joins: true, ..usual },
            Choices { page: true, ..usual },
        ];
        for (place, (choices, number)) in
            others.iter().zip([0, 0, u64::MAX, 2, 1, 1, 1]).enumerate()
        {
            let mut expected = usual.to_numbers();
            expected[place] = number;
            assert_eq!(choices.to_numbers(), expected);
        }
    }
}
