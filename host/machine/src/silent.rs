//! A meaning without the Debug record.

use oracle::form::Type;

use crate::datum::Datum;
use crate::meaning::{Answer, Literal, Meaning};

/// Another meaning, on a machine on which Debug does nothing.
pub struct Silent<M>(pub M);

impl<M: Meaning> Meaning for Silent<M> {
    fn literal(&self, literal: Literal, at: Option<&Type>) -> Datum {
        self.0.literal(literal, at)
    }

    fn unary(&self, op: u8, dest: Option<&Type>, source: &Datum) -> Answer {
        self.0.unary(op, dest, source)
    }

    fn binary(&self, op: u8, dest: Option<&Type>, left: &Datum, right: &Datum) -> Answer {
        self.0.binary(op, dest, left, right)
    }

    fn cast(&self, from: Option<&Type>, to: Option<&Type>, source: &Datum) -> Answer {
        self.0.cast(from, to, source)
    }

    fn truth(&self, condition: &Datum) -> bool {
        self.0.truth(condition)
    }

    fn compare(&self, op: u8, left: &Datum, right: &Datum) -> Result<bool, u8> {
        self.0.compare(op, left, right)
    }

    fn records_debug(&self) -> bool {
        false
    }
}
