//! Rebuilds: of a tracked value alone, or with the tracked parts that it keeps.

use oracle::form::*;

use crate::block::{Rewriting, Tracked};
use crate::{fault, Fault, Lines, MOST};

impl Rewriting<'_> {
    /// Rebuilds parts as one value of type `ty`; "a tuple rebuilt at a longer type gets Unit parts, at a
    /// shorter one loses its last". A type that is no aggregate takes a number, but no instruction.
    pub fn rebuild(
        &mut self,
        lines: &mut Lines,
        parts: &[Value],
        ty: TypeNo,
    ) -> Result<ValueNo, Fault> {
        let row = &self.routine.types[ty.index()];
        self.fits(row, parts)?;
        let dest = self.number(ty)?;
        let part = |at: usize| parts.get(at).copied().unwrap_or(Value::Unit);
        let kind = match row {
            Type::Tuple(types) => {
                Kind::MakeTuple { dest, elements: (0..types.len()).map(part).collect() }
            }
            Type::Struct { fields, .. } => {
                let named = fields.iter().enumerate().map(|(at, (name, _))| (*name, part(at)));
                Kind::MakeStruct { dest, fields: named.collect(), struct_ty: ty }
            }
            Type::FixedArray { element, .. } => Kind::MakeFixedArray {
                dest,
                elements: parts.to_vec(),
                element_ty: *element,
                is_const: false,
            },
            _ => return Ok(dest),
        };
        lines.add(Instruction::plain(kind))?;
        Ok(dest)
    }

    /// "An array rebuild meets another count": 10.
    fn fits(&self, row: &Type, parts: &[Value]) -> Result<(), Fault> {
        match row {
            Type::FixedArray { size, .. } if *size as usize != parts.len() => {
                Err(Fault(fault::ARRAY_REBUILD))
            }
            _ => Ok(()),
        }
    }

    /// The next value number, recorded at `ty`; 65,535 is never taken, as the next value would pass it.
    fn number(&mut self, ty: TypeNo) -> Result<ValueNo, Fault> {
        if self.recorded.len() >= MOST {
            return Err(Fault(fault::OVERFULL));
        }
        self.recorded.push(Some(ty));
        Ok(ValueNo(self.recorded.len() as u16 - 1))
    }

    /// Edition 2's reading of `value`: a tracked value of a recorded aggregate type is rebuilt "at its
    /// recorded type, the tracked parts it keeps before the whole", and read as rebuilt; else it stays.
    /// `path` has the values whose own rebuild has begun and not ended; each rebuild is counted.
    pub fn read_anew(
        &mut self,
        lines: &mut Lines,
        tracked: &Tracked,
        path: &mut Vec<ValueNo>,
        value: Value,
    ) -> Result<Value, Fault> {
        let Value::Operand(own) = value else {
            return Ok(value);
        };
        let (Some(parts), Some(ty)) = (tracked.get(&own), self.routine.recorded_type(own)) else {
            return Ok(value);
        };
        let row = &self.routine.types[ty.index()];
        let Some(count) = row.count() else {
            return Ok(value);
        };
        if path.contains(&own) {
            return Err(Fault(fault::LOOPED));
        }
        self.fits(row, parts)?;
        path.push(own);
        let kept = parts.iter().take(count);
        let anew: Result<Vec<Value>, Fault> =
            kept.map(|part| self.read_anew(lines, tracked, path, *part)).collect();
        let anew = anew?;
        path.pop();
        let whole = self.rebuild(lines, &anew, ty)?;
        self.counts[crate::count::MATERIALIZATIONS] += 1;
        Ok(Value::Operand(whole))
    }
}
