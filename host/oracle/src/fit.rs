//! What of a `MirFunction` the byte form has no room for.

use std::fmt;

/// What a count counts; a number counts nothing, but its field has a width.
#[derive(Debug, Clone, Copy, PartialEq, Eq, Hash)]
pub enum What {
    /// Different types, parts of types included.
    Types,
    /// Values: the function's next value number.
    Values,
    /// Basic blocks.
    Blocks,
    /// Instructions in one block.
    InBlock,
    /// Instructions in all blocks.
    InAll,
    /// Elements of one list: parameters, parts, fields, arguments, sources, returned values.
    InList,
    /// Projections of one place.
    Projections,
    /// A number in a field of 16 or 32 bits.
    Number,
}

/// A count or number that is higher than the byte form holds.
#[derive(Debug, Clone, Copy, PartialEq, Eq, Hash)]
pub struct Misfit {
    /// What there is too much of.
    pub what: What,
    /// How much there is, or the number itself.
    pub found: usize,
    /// The most that the byte form holds.
    pub most: usize,
}

impl fmt::Display for Misfit {
    fn fmt(&self, f: &mut fmt::Formatter<'_>) -> fmt::Result {
        let what = match self.what {
            What::Types => "types",
            What::Values => "values",
            What::Blocks => "blocks",
            What::InBlock => "instructions in a block",
            What::InAll => "instructions in all",
            What::InList => "elements in a list",
            What::Projections => "projections in a place",
            What::Number => return write!(f, "the number {} (most {})", self.found, self.most),
        };
        write!(f, "{} {what} (most {})", self.found, self.most)
    }
}

impl std::error::Error for Misfit {}

/// What fits, or what does not.
pub type Fits<T> = Result<T, Misfit>;

/// Holds a count to its most.
pub fn hold(what: What, found: usize, most: usize) -> Fits<()> {
    if found > most {
        return Err(Misfit { what, found, most });
    }
    Ok(())
}

/// A number in a field of 16 bits.
pub fn short(number: usize) -> Fits<u16> {
    let most = usize::from(u16::MAX);
    u16::try_from(number).map_err(|_| Misfit { what: What::Number, found: number, most })
}

/// A number in a field of 32 bits.
pub fn long(number: usize) -> Fits<u32> {
    let most = u32::MAX as usize;
    u32::try_from(number).map_err(|_| Misfit { what: What::Number, found: number, most })
}
