//! What document 01 leaves open: "Scalar operations have any fixed meaning."

use oracle::form::Type;

use crate::datum::Datum;

/// A literal of the routine.
#[derive(Debug, Clone, Copy, PartialEq, Eq)]
pub enum Literal {
    Integer(u32),
    Boolean(bool),
    Unit,
}

/// A value, or a number of its own where an operation has none for its operands.
pub type Answer = Result<Datum, u8>;

/// A fixed meaning of literals and operations.
pub trait Meaning {
    /// A literal, where it stands at a type. An Integer that stands at none is its number.
    fn literal(&self, literal: Literal, at: Option<&Type>) -> Datum;

    /// By the operation and the dest's type.
    fn unary(&self, op: u8, dest: Option<&Type>, source: &Datum) -> Answer;

    fn binary(&self, op: u8, dest: Option<&Type>, left: &Datum, right: &Datum) -> Answer;

    /// By the two named types.
    fn cast(&self, from: Option<&Type>, to: Option<&Type>, source: &Datum) -> Answer;

    /// Whether an If goes to its first target.
    fn truth(&self, condition: &Datum) -> bool;

    /// Whether a BranchCmp does.
    fn compare(&self, op: u8, left: &Datum, right: &Datum) -> Result<bool, u8> {
        self.binary(op, None, left, right).map(|answer| self.truth(&answer))
    }

    /// Whether Debug is "a recorded event of the machine"; else it does nothing.
    fn records_debug(&self) -> bool {
        true
    }
}

/// A literal that is what it is at every type.
pub fn as_it_is(literal: Literal) -> Datum {
    match literal {
        Literal::Integer(n) => Datum::Number(n),
        Literal::Boolean(b) => Datum::Truth(b),
        Literal::Unit => Datum::Unit,
    }
}
