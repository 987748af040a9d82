//! One instruction: its reads, then the record, then its dests in turn.

use oracle::form::*;

use crate::event::{Cause, End, Event};
use crate::meaning::Answer;
use crate::state::{stop, Done, Halt, State};

impl<'a> State<'a> {
    pub fn exec(&mut self, kind: &'a Kind) -> Done<()> {
        match kind {
            Kind::Assign { dest, source, ty } => {
                let value = self.value(*source, self.routine.row(Some(*ty)))?;
                self.write(*dest, value)
            }
            Kind::UnaryOp { op, dest, source } => {
                let source = self.value(*source, None)?;
                self.answered(*dest, self.meaning.unary(*op, self.row(*dest), &source))
            }
            Kind::BinaryOp { op, dest, left, right } => {
                let (a, b) = self.sides(*left, *right)?;
                self.answered(*dest, self.meaning.binary(*op, self.row(*dest), &a, &b))
            }
            Kind::Cast { dest, source, source_type, target_type } => {
                let source = self.value(*source, None)?;
                let row = |ty: &TypeNo| self.routine.row(Some(*ty));
                let answer = self.meaning.cast(row(source_type), row(target_type), &source);
                self.answered(*dest, answer)
            }
            Kind::Call(call) => self.call(call),
            Kind::HeapAllocCells { dest, cells } => {
                let cells = self.value(*cells, None)?;
                self.record.push(Event::HeapAllocCells { cells });
                self.take(*dest)
            }
            Kind::Load { dest, place, .. } => self.load(*dest, place),
            Kind::Store { place, value, ty } => self.store(place, *value, *ty),
            Kind::AssertEq { left, right } => self.assert_eq(*left, *right),
            Kind::Debug { message, values } => self.debug(*message, values),
            Kind::Nop => Ok(()),
            // A Phi behind another kind is refusal 7.
            Kind::Phi { .. } => stop(Cause::NoSource),
            _ => self.exec_aggregate(kind),
        }
    }

    fn exec_aggregate(&mut self, kind: &'a Kind) -> Done<()> {
        match kind {
            Kind::MakeTuple { dest, elements } | Kind::MakeFixedArray { dest, elements, .. } => {
                self.build(*dest, elements, self.row(*dest))
            }
            Kind::MakeStruct { dest, fields, struct_ty } => {
                self.build_struct(*dest, fields, *struct_ty)
            }
            Kind::ExtractTupleElement { dest, tuple, index, .. } => {
                self.extract_tuple(*dest, *tuple, *index)
            }
            Kind::ExtractStructField { dest, struct_val, field_name, .. } => {
                self.extract_field(*dest, *struct_val, *field_name)
            }
            Kind::InsertField(insert) => self.insert_field(insert),
            Kind::InsertTuple(insert) => self.insert_tuple(insert),
            _ => unreachable!("the other kinds build no aggregate"),
        }
    }

    /// An operation's result; it may have none for these operands.
    fn answered(&mut self, dest: ValueNo, answer: Answer) -> Done<()> {
        match answer {
            Ok(value) => self.write(dest, value),
            Err(own) => stop(Cause::Operation(own)),
        }
    }

    /// Two sides, a literal at the other side's type.
    fn sides(&self, left: Value, right: Value) -> Done<(crate::Datum, crate::Datum)> {
        let a = self.value(left, self.operand_row(right))?;
        let b = self.value(right, self.operand_row(left))?;
        Ok((a, b))
    }

    /// "one for each dest of an outside event, as they are met".
    fn call(&mut self, call: &'a Call) -> Done<()> {
        let routine = self.routine;
        let at = |k: usize| routine.row(call.param_types.get(k).copied());
        let args = self.values(&call.args, at)?;
        self.record.push(Event::Call { callee: call.callee, args });
        call.dests.iter().try_for_each(|dest| self.take(*dest))
    }

    fn load(&mut self, dest: ValueNo, place: &Place) -> Done<()> {
        let pointer = self.operand(place.base)?;
        let steps = self.steps(place)?;
        if self.is_outside(place) {
            self.record.push(Event::Load { pointer, steps });
            return self.take(dest);
        }
        let part = self.part_at(place.base, &steps)?;
        self.write(dest, part)
    }

    fn store(&mut self, place: &Place, value: Value, ty: TypeNo) -> Done<()> {
        let steps = self.steps(place)?;
        let value = self.value(value, self.routine.row(Some(ty)))?;
        if self.is_outside(place) {
            let pointer = self.operand(place.base)?;
            self.record.push(Event::Store { pointer, steps, value });
            return Ok(());
        }
        self.change(place.base, &steps, value)
    }

    /// "AssertEq is recorded; unequal sides end the run."
    fn assert_eq(&mut self, left: Value, right: Value) -> Done<()> {
        let (left, right) = self.sides(left, right)?;
        let equal = left == right;
        self.record.push(Event::AssertEq { left, right });
        if equal {
            Ok(())
        } else {
            Err(Halt::Ended(End::UnequalSides))
        }
    }

    /// "Debug becomes a recorded event of the machine with its message and values"; a literal stands
    /// at no type.
    fn debug(&mut self, message: u32, values: &'a [Value]) -> Done<()> {
        if self.meaning.records_debug() {
            let values = self.values(values, |_| None)?;
            self.record.push(Event::Debug { message, values });
        }
        Ok(())
    }

    /// The block that the run goes to. "Return records its values; it and Unreachable end the run."
    pub fn terminate(&mut self, terminator: &Terminator) -> Done<BlockNo> {
        match *terminator {
            Terminator::Jump(target) => Ok(target),
            Terminator::If { condition, then_target, else_target } => {
                let condition = self.value(condition, None)?;
                let holds = self.meaning.truth(&condition);
                Ok(if holds { then_target } else { else_target })
            }
            Terminator::BranchCmp { op, left, right, then_target, else_target } => {
                let (left, right) = self.sides(left, right)?;
                match self.meaning.compare(op, &left, &right) {
                    Ok(holds) => Ok(if holds { then_target } else { else_target }),
                    Err(own) => stop(Cause::Operation(own)),
                }
            }
            Terminator::Return(ref values) => {
                let values = self.values(values, |_| None)?;
                self.record.push(Event::Return { values });
                Err(Halt::Ended(End::Return))
            }
            Terminator::Unreachable => Err(Halt::Ended(End::Unreachable)),
        }
    }
}
