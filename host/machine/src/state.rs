//! The state of a run: the values written, the outside world, the record.

use oracle::form::*;

use crate::datum::Datum;
use crate::event::{Cause, End, Event};
use crate::meaning::{Literal, Meaning};

/// "The outside world is any list of values".
pub trait Outside {
    /// The next value of the list, which goes to `dest`.
    fn next(&mut self, dest: ValueNo) -> Option<Datum>;
}

/// The list itself.
pub struct List<'a>(pub &'a [Datum]);

impl Outside for List<'_> {
    fn next(&mut self, _dest: ValueNo) -> Option<Datum> {
        let (first, rest) = self.0.split_first()?;
        self.0 = rest;
        Some(first.clone())
    }
}

/// Why a run goes no further.
#[derive(Debug, Clone, Copy, PartialEq, Eq)]
pub enum Halt {
    Ended(End),
    Stopped(Cause),
}

/// What a step of the machine gives.
pub type Done<T> = Result<T, Halt>;

pub fn stop<T>(cause: Cause) -> Done<T> {
    Err(Halt::Stopped(cause))
}

/// A part that must be there.
pub fn there<T>(part: Option<T>) -> Done<T> {
    part.ok_or(Halt::Stopped(Cause::MissingPart))
}

pub struct State<'a> {
    pub routine: &'a Routine,
    pub meaning: &'a dyn Meaning,
    outside: &'a mut dyn Outside,
    written: Vec<Option<Datum>>,
    pub record: Vec<Event>,
}

impl<'a> State<'a> {
    /// "nothing written".
    pub fn new(
        routine: &'a Routine,
        meaning: &'a dyn Meaning,
        outside: &'a mut dyn Outside,
    ) -> Self {
        let written = vec![None; routine.recorded.len()];
        Self { routine, meaning, outside, written, record: Vec::new() }
    }

    /// The recorded row of a value.
    pub fn row(&self, value: ValueNo) -> Option<&'a Type> {
        self.routine.row(self.routine.recorded_type(value))
    }

    /// The recorded row of an operand; a literal has none.
    pub fn operand_row(&self, value: Value) -> Option<&'a Type> {
        match value {
            Value::Operand(v) => self.row(v),
            _ => None,
        }
    }

    /// "The machine stops at an unwritten value".
    pub fn operand(&self, value: ValueNo) -> Done<Datum> {
        self.written[value.index()].clone().ok_or(Halt::Stopped(Cause::Unwritten))
    }

    /// A value that stands at a row, if at any. Error stops like an unwritten value.
    pub fn value(&self, value: Value, at: Option<&Type>) -> Done<Datum> {
        let literal = match value {
            Value::Operand(v) => return self.operand(v),
            Value::Error => return stop(Cause::Unwritten),
            Value::Integer(n) => Literal::Integer(n),
            Value::Boolean(b) => Literal::Boolean(b),
            Value::Unit => Literal::Unit,
        };
        Ok(self.meaning.literal(literal, at))
    }

    /// Values, each at the row of its own place in the list.
    pub fn values<'r>(
        &self,
        values: impl IntoIterator<Item = &'r Value>,
        at: impl Fn(usize) -> Option<&'r Type>,
    ) -> Done<Vec<Datum>> {
        values.into_iter().enumerate().map(|(k, value)| self.value(*value, at(k))).collect()
    }

    pub fn write(&mut self, dest: ValueNo, datum: Datum) -> Done<()> {
        self.written[dest.index()] = Some(datum);
        Ok(())
    }

    /// A written value, to be changed.
    pub fn written_mut(&mut self, value: ValueNo) -> Done<&mut Datum> {
        self.written[value.index()].as_mut().ok_or(Halt::Stopped(Cause::Unwritten))
    }

    /// Takes a reply or parameter: "no value of its recorded type .. stops the run"; "where none
    /// is left the machine stops".
    pub fn take(&mut self, dest: ValueNo) -> Done<()> {
        let Some(reply) = self.outside.next(dest) else {
            return stop(Cause::NoReply);
        };
        if !reply.is_of(self.routine.recorded_type(dest), &self.routine.types) {
            return stop(Cause::NoValue);
        }
        self.write(dest, reply)
    }
}
