//! One block after the other: what is left out, rewritten, or kept, and behind which rebuilds.

use std::collections::BTreeMap;

use oracle::form::*;
use oracle::{Counts, Settings};

use crate::eligible::Eligible;
use crate::{count, reads, Edition, Fault, Lines};

/// The parts of the values whose definition is left out.
pub type Tracked = BTreeMap<ValueNo, Vec<Value>>;

pub struct Rewriting<'a> {
    pub routine: &'a Routine,
    settings: Settings,
    edition: Edition,
    eligible: Eligible<'a>,
    /// The recorded types, with those of fresh values; its length is the next value.
    pub recorded: Vec<Option<TypeNo>>,
    pub counts: Counts,
}

/// A block on the way.
#[derive(Default)]
struct Open {
    lines: Lines,
    tracked: Tracked,
}

impl<'a> Rewriting<'a> {
    pub fn new(routine: &'a Routine, settings: Settings, edition: Edition) -> Self {
        let eligible = Eligible::new(routine, settings);
        let recorded = routine.recorded.clone();
        Self { routine, settings, edition, eligible, recorded, counts: [0; 5] }
    }

    pub fn ends(self) -> (Vec<Option<TypeNo>>, Counts) {
        (self.recorded, self.counts)
    }

    pub fn block(&mut self, block: &Block) -> Result<Block, Fault> {
        if self.eligible.skipped(block) {
            return Ok(block.clone());
        }
        let mut open = Open::default();
        for instruction in &block.instructions {
            if !self.leaves_out(block, &mut open, &instruction.kind)? {
                self.keep(&mut open, instruction.clone())?;
            }
        }
        let terminator = match &block.terminator {
            Terminator::Return(values) => Terminator::Return(self.returned(&mut open, values)?),
            other => other.clone(),
        };
        Ok(Block { instructions: open.lines.0, terminator })
    }

    fn row(&self, ty: TypeNo) -> &'a Type {
        &self.routine.types[ty.index()]
    }

    fn tuples(&self) -> bool {
        self.settings.enable_tuples != 0
    }

    fn structs(&self) -> bool {
        self.settings.enable_structs != 0
    }

    /// Leaves an instruction out, or puts an Assign for it; false where it is kept.
    fn leaves_out(&mut self, block: &Block, open: &mut Open, kind: &Kind) -> Result<bool, Fault> {
        match kind {
            Kind::MakeTuple { dest, .. }
            | Kind::MakeStruct { dest, .. }
            | Kind::MakeFixedArray { dest, .. } => {
                let parts = self.eligible.folded(block, kind);
                Ok(self.tracks(open, *dest, parts, count::BUILDS))
            }
            Kind::InsertTuple(insert) if self.tuples() => {
                let at = Some(insert.index as usize);
                let parts = changed(open, insert.tuple_val, at, insert.new_value);
                Ok(self.tracks(open, insert.dest, parts, count::INSERTS))
            }
            Kind::InsertField(insert) if self.structs() => {
                let at = self.row(insert.struct_ty).position(insert.field_name);
                let parts = changed(open, insert.struct_val, at, insert.new_value);
                Ok(self.tracks(open, insert.dest, parts, count::INSERTS))
            }
            Kind::ExtractTupleElement { dest, tuple, index, element_ty } if self.tuples() => {
                let part = part(open, *tuple, Some(*index as usize));
                self.hands_on(open, *dest, part, *element_ty, true)
            }
            Kind::ExtractStructField { dest, struct_val, field_name, field_ty }
                if self.structs() =>
            {
                let part = part(open, *struct_val, self.position(*struct_val, *field_name));
                self.hands_on(open, *dest, part, *field_ty, true)
            }
            Kind::Load { dest, place, ty } if self.tuples() => {
                let part = self.walked(open, place, place.projections.len()).map(|(_, _, v)| v);
                self.hands_on(open, *dest, part, *ty, self.row(*ty).is_aggregate())
            }
            Kind::Store { place, value, .. } if self.tuples() => {
                let Some((holder, at, _)) = self.walked(open, place, place.projections.len())
                else {
                    return Ok(false);
                };
                open.tracked.get_mut(&holder).expect("it was walked")[at] = *value;
                self.counts[count::INSERTS] += 1;
                Ok(true)
            }
            Kind::Assign { dest, source, ty } if self.row(*ty).is_aggregate() => {
                let parts = parts(open, *source).cloned();
                Ok(self.tracks(open, *dest, parts, count::ASSIGNS))
            }
            _ => Ok(false),
        }
    }

    /// Where there are parts, they are those of `dest` from now on.
    fn tracks(
        &mut self,
        open: &mut Open,
        dest: ValueNo,
        parts: Option<Vec<Value>>,
        counted: usize,
    ) -> bool {
        let Some(parts) = parts else {
            return false;
        };
        open.tracked.insert(dest, parts);
        self.counts[counted] += 1;
        true
    }

    /// A part that was found: tracked itself, `dest` has its parts, where it may; else an Assign stands,
    /// without span, expression id and comment.
    fn hands_on(
        &mut self,
        open: &mut Open,
        dest: ValueNo,
        part: Option<Value>,
        ty: TypeNo,
        tracked: bool,
    ) -> Result<bool, Fault> {
        let Some(part) = part else {
            return Ok(false);
        };
        self.counts[count::EXTRACTS] += 1;
        match parts(open, part).cloned().filter(|_| tracked) {
            Some(parts) => drop(open.tracked.insert(dest, parts)),
            None => {
                let assign = Kind::Assign { dest, source: part, ty };
                open.lines.add(Instruction::plain(assign))?;
            }
        }
        Ok(true)
    }

    /// Where the recorded type of an operand has the field.
    fn position(&self, of: Value, field: NameNo) -> Option<usize> {
        let Value::Operand(own) = of else {
            return None;
        };
        self.routine.row(self.routine.recorded_type(own))?.position(field)
    }

    /// The last part that a place leads to through tracked values, with the value that holds it and its
    /// position there. The first projection is an Integer literal; in edition 2 "a later Boolean Index is
    /// treated as an operand", and so leads nowhere.
    fn walked(&self, open: &Open, place: &Place, steps: usize) -> Option<(ValueNo, usize, Value)> {
        let last = place.projections[..steps].last()?;
        let from = match steps {
            1 if !matches!(last, Projection::Index(Value::Integer(_))) => return None,
            1 => Value::Operand(place.base),
            _ => self.walked(open, place, steps - 1)?.2,
        };
        let at = match last {
            Projection::Index(Value::Integer(n)) => *n as usize,
            Projection::Index(Value::Boolean(b)) if self.edition == Edition::First => {
                usize::from(*b)
            }
            Projection::Index(_) => return None,
            Projection::Tuple(index) => *index as usize,
            Projection::Field(name) => self.position(from, *name)?,
        };
        let Value::Operand(holder) = from else {
            return None;
        };
        Some((holder, at, part(open, from, Some(at))?))
    }

    fn keep(&mut self, open: &mut Open, mut instruction: Instruction) -> Result<(), Fault> {
        match self.edition {
            Edition::First => self.keep_first(open, &mut instruction)?,
            Edition::Second => {
                let Open { lines, tracked } = open;
                let anew = |value| self.read_anew(lines, tracked, &mut Vec::new(), value);
                reads::each(&mut instruction.kind, anew)?;
            }
        }
        open.lines.add(instruction)
    }

    /// Edition 1: a Call's arguments are rebuilt at parameter types, and it loses span, expression id and
    /// comment; a Store's value at the type that it names, which raises no count.
    fn keep_first(&mut self, open: &mut Open, instruction: &mut Instruction) -> Result<(), Fault> {
        match &mut instruction.kind {
            Kind::Call(call) => {
                for (arg, ty) in call.args.iter_mut().zip(&call.param_types) {
                    if self.row(*ty).is_aggregate() && self.replaced(open, arg, *ty)? {
                        instruction.meta = Meta::default();
                        self.counts[count::MATERIALIZATIONS] += 1;
                    }
                }
            }
            Kind::Store { value, ty, .. } if self.tuples() && self.row(*ty).is_aggregate() => {
                self.replaced(open, value, *ty)?;
            }
            _ => {}
        }
        Ok(())
    }

    /// Rebuilds a tracked value, alone, and puts the fresh one in its place.
    fn replaced(&mut self, open: &mut Open, value: &mut Value, ty: TypeNo) -> Result<bool, Fault> {
        let Some(parts) = parts(open, *value).cloned() else {
            return Ok(false);
        };
        *value = Value::Operand(self.rebuild(&mut open.lines, &parts, ty)?);
        Ok(true)
    }

    /// The values of a Return; edition 1 rebuilds at the recorded type, if there is one.
    fn returned(&mut self, open: &mut Open, values: &[Value]) -> Result<Vec<Value>, Fault> {
        let mut values = values.to_vec();
        for value in &mut values {
            match (self.edition, *value) {
                (Edition::First, Value::Operand(own)) => {
                    if let Some(ty) = self.routine.recorded_type(own) {
                        let rebuilt = self.replaced(open, value, ty)?;
                        self.counts[count::MATERIALIZATIONS] += u64::from(rebuilt);
                    }
                }
                (Edition::First, _) => {}
                (Edition::Second, _) => {
                    let Open { lines, tracked } = &mut *open;
                    *value = self.read_anew(lines, tracked, &mut Vec::new(), *value)?;
                }
            }
        }
        Ok(values)
    }
}

/// The parts of a tracked operand.
fn parts(open: &Open, value: Value) -> Option<&Vec<Value>> {
    match value {
        Value::Operand(own) => open.tracked.get(&own),
        _ => None,
    }
}

/// One part of a tracked operand.
fn part(open: &Open, value: Value, at: Option<usize>) -> Option<Value> {
    parts(open, value)?.get(at?).copied()
}

/// The parts of a tracked operand with another value at a place that it has.
fn changed(open: &Open, value: Value, at: Option<usize>, new: Value) -> Option<Vec<Value>> {
    let mut parts = parts(open, value)?.clone();
    *parts.get_mut(at?)? = new;
    Some(parts)
}
