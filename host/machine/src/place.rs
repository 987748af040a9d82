//! Places: their steps with values, the part that they lead to.

use oracle::form::*;

use crate::datum::Datum;
use crate::event::Step;
use crate::state::{there, Done, State};

impl<'a> State<'a> {
    /// The steps of a place, each Index with its value, which stands at no type.
    pub fn steps(&self, place: &Place) -> Done<Vec<Step>> {
        let step = |projection: &Projection| {
            Ok(match *projection {
                Projection::Index(value) => Step::Index(self.value(value, None)?),
                Projection::Field(name) => Step::Field(name),
                Projection::Tuple(index) => Step::Tuple(index),
            })
        };
        place.projections.iter().map(step).collect()
    }

    /// "Load or Store on a Pointer base", by the base's recorded type.
    pub fn is_outside(&self, place: &Place) -> bool {
        matches!(self.row(place.base), Some(Type::Pointer(_)))
    }

    /// The positions that the steps name, from a value recorded at `row` on.
    fn positions(&self, mut row: Option<&'a Type>, steps: &[Step]) -> Option<Vec<usize>> {
        let mut positions = Vec::with_capacity(steps.len());
        for step in steps {
            let at = match step {
                Step::Index(index) => index.position()?,
                Step::Field(name) => row?.position(*name)?,
                Step::Tuple(index) => *index as usize,
            };
            row = self.routine.row(row.and_then(|row| row.part(at)));
            positions.push(at);
        }
        Some(positions)
    }

    /// The part that the steps lead to; with no step, the value itself.
    pub fn part_at(&self, base: ValueNo, steps: &[Step]) -> Done<Datum> {
        let whole = self.operand(base)?;
        let positions = there(self.positions(self.row(base), steps))?;
        let mut part = &whole;
        for at in positions {
            part = there(part.part(at))?;
        }
        Ok(part.clone())
    }

    /// "a Store into an aggregate base changes that value's part, or with no projection all of it,
    /// once it is written".
    pub fn change(&mut self, base: ValueNo, steps: &[Step], value: Datum) -> Done<()> {
        let positions = self.positions(self.row(base), steps);
        let mut part = self.written_mut(base)?;
        for at in there(positions)? {
            part = there(part.part_mut(at))?;
        }
        *part = value;
        Ok(())
    }
}
