//! A `MirFunction` as a routine, where the byte form has room for it.

use mir::{BasicBlockId, BinaryOp, InstructionKind, Literal, MirFunction, MirType, ValueId};

use crate::fit::{hold, long, short, Fits, What};
use crate::form::*;
use crate::spelling::Numbering;

/// The routine of a function, or the first thing that passes a most.
pub fn routine_of(
    function: &MirFunction,
    numbering: &mut impl Numbering,
    mosts: &Mosts,
) -> Fits<Routine> {
    let next = function.next_value();
    hold(What::Values, next, mosts.next_value)?;
    hold(What::Blocks, function.basic_blocks.len(), most::BLOCKS)?;
    let instructions = |(_, block): (_, &mir::BasicBlock)| block.instructions.len();
    for count in function.basic_blocks().map(instructions) {
        hold(What::InBlock, count, mosts.in_block)?;
    }
    hold(What::InAll, function.basic_blocks().map(instructions).sum(), mosts.in_all)?;

    let mut from = FromMir { numbering };
    let blocks = function.basic_blocks().map(|(_, b)| from.block(b)).collect::<Fits<_>>()?;
    let recorded = |v| {
        let ty = function.value_types.get(&ValueId::new(v));
        ty.map(|ty| from.numbering.ty(ty)).transpose()
    };
    Ok(Routine {
        entry: block(function.entry_block)?,
        parameters: list(&function.parameters, value_number)?,
        recorded: (0..next).map(recorded).collect::<Fits<_>>()?,
        blocks,
        types: numbering.types(),
    })
}

fn value_number(id: &ValueId) -> Fits<ValueNo> {
    short(id.index()).map(ValueNo)
}

fn block(id: BasicBlockId) -> Fits<BlockNo> {
    short(id.index()).map(BlockNo)
}

fn op(op: BinaryOp) -> u8 {
    op as u8
}

fn value(value: &mir::Value) -> Fits<Value> {
    Ok(match value {
        mir::Value::Literal(Literal::Integer(n)) => Value::Integer(*n),
        mir::Value::Literal(Literal::Boolean(b)) => Value::Boolean(*b),
        mir::Value::Literal(Literal::Unit) => Value::Unit,
        mir::Value::Operand(id) => Value::Operand(value_number(id)?),
        mir::Value::Error => Value::Error,
    })
}

fn values(values: &[mir::Value]) -> Fits<Vec<Value>> {
    list(values, value)
}

/// A list in its order.
pub fn list<T, U>(items: &[T], item: impl FnMut(&T) -> Fits<U>) -> Fits<Vec<U>> {
    hold(What::InList, items.len(), most::LIST)?;
    items.iter().map(item).collect()
}

struct FromMir<'a, N> {
    numbering: &'a mut N,
}

impl<N: Numbering> FromMir<'_, N> {
    fn ty(&mut self, ty: &MirType) -> Fits<TypeNo> {
        self.numbering.ty(ty)
    }

    fn types(&mut self, types: &[MirType]) -> Fits<Vec<TypeNo>> {
        list(types, |ty| self.ty(ty))
    }

    fn name(&mut self, name: &str) -> Fits<NameNo> {
        self.numbering.name(name)
    }

    fn place(&mut self, place: &mir::Place) -> Fits<Place> {
        hold(What::Projections, place.projections.len(), most::PROJECTIONS)?;
        let mut projections = Vec::with_capacity(place.projections.len());
        for projection in &place.projections {
            projections.push(match projection {
                mir::Projection::Index(v) => Projection::Index(value(v)?),
                mir::Projection::Field(field) => Projection::Field(self.name(field)?),
                mir::Projection::Tuple(index) => Projection::Tuple(long(*index)?),
            });
        }
        Ok(Place { base: value_number(&place.base)?, projections })
    }

    fn block(&mut self, block: &mir::BasicBlock) -> Fits<Block> {
        let instructions = block.instructions.iter().map(|i| self.instruction(i));
        Ok(Block {
            instructions: instructions.collect::<Fits<_>>()?,
            terminator: terminator(&block.terminator)?,
        })
    }

    fn instruction(&mut self, instruction: &mir::Instruction) -> Fits<Instruction> {
        let mut meta = Meta::default();
        if let Some(span) = instruction.source_span {
            meta.span = Some((long(span.start)?, long(span.end)?));
        }
        if let Some(expression) = instruction.source_expr_id {
            meta.expression = Some((long(expression.expression_index)?, expression.file_id));
        }
        if let Some(comment) = &instruction.comment {
            meta.comment = Some(self.numbering.comment(comment)?);
        }
        Ok(Instruction { meta, kind: self.kind(&instruction.kind)? })
    }

    fn kind(&mut self, kind: &InstructionKind) -> Fits<Kind> {
        use InstructionKind as K;
        Ok(match kind {
            K::Assign { dest, source, ty } => {
                Kind::Assign { dest: value_number(dest)?, source: value(source)?, ty: self.ty(ty)? }
            }
            K::UnaryOp { op, dest, source } => {
                Kind::UnaryOp { op: op.0, dest: value_number(dest)?, source: value(source)? }
            }
            K::BinaryOp { op: operation, dest, left, right } => Kind::BinaryOp {
                op: op(*operation),
                dest: value_number(dest)?,
                left: value(left)?,
                right: value(right)?,
            },
            K::Cast { dest, source, source_type, target_type } => Kind::Cast {
                dest: value_number(dest)?,
                source: value(source)?,
                source_type: self.ty(source_type)?,
                target_type: self.ty(target_type)?,
            },
            K::Nop => Kind::Nop,
            K::AssertEq { left, right } => {
                Kind::AssertEq { left: value(left)?, right: value(right)? }
            }
            K::HeapAllocCells { dest, cells } => {
                Kind::HeapAllocCells { dest: value_number(dest)?, cells: value(cells)? }
            }
            _ => return self.outer_kind(kind),
        })
    }

    /// The kinds that have to do with other blocks, other functions and places.
    fn outer_kind(&mut self, kind: &InstructionKind) -> Fits<Kind> {
        use InstructionKind as K;
        Ok(match kind {
            K::Call { dests, callee, args, signature } => Kind::Call(Call {
                dests: list(dests, value_number)?,
                callee: self.numbering.callee(*callee)?,
                args: values(args)?,
                param_types: self.types(&signature.param_types)?,
                return_types: self.types(&signature.return_types)?,
            }),
            K::Load { dest, place, ty } => Kind::Load {
                dest: value_number(dest)?,
                place: self.place(place)?,
                ty: self.ty(ty)?,
            },
            K::Store { place, value: stored, ty } => {
                Kind::Store { place: self.place(place)?, value: value(stored)?, ty: self.ty(ty)? }
            }
            K::Debug { message, values: shown } => {
                Kind::Debug { message: self.numbering.message(message)?, values: values(shown)? }
            }
            K::Phi { dest, ty, sources } => Kind::Phi {
                dest: value_number(dest)?,
                ty: self.ty(ty)?,
                sources: list(sources, |(b, v)| Ok((block(*b)?, value(v)?)))?,
            },
            _ => return self.aggregate_kind(kind),
        })
    }

    /// The kinds that build, read and change aggregates.
    fn aggregate_kind(&mut self, kind: &InstructionKind) -> Fits<Kind> {
        use InstructionKind as K;
        Ok(match kind {
            K::MakeTuple { dest, elements } => {
                Kind::MakeTuple { dest: value_number(dest)?, elements: values(elements)? }
            }
            K::MakeStruct { dest, fields, struct_ty } => Kind::MakeStruct {
                dest: value_number(dest)?,
                fields: list(fields, |(n, v)| Ok((self.name(n)?, value(v)?)))?,
                struct_ty: self.ty(struct_ty)?,
            },
            K::MakeFixedArray { dest, elements, element_ty, is_const } => Kind::MakeFixedArray {
                dest: value_number(dest)?,
                elements: values(elements)?,
                element_ty: self.ty(element_ty)?,
                is_const: *is_const,
            },
            _ => return self.part_kind(kind),
        })
    }

    /// The kinds that read or change one part.
    fn part_kind(&mut self, kind: &InstructionKind) -> Fits<Kind> {
        use InstructionKind as K;
        Ok(match kind {
            K::ExtractTupleElement { dest, tuple, index, element_ty } => {
                Kind::ExtractTupleElement {
                    dest: value_number(dest)?,
                    tuple: value(tuple)?,
                    index: long(*index)?,
                    element_ty: self.ty(element_ty)?,
                }
            }
            K::ExtractStructField { dest, struct_val, field_name, field_ty } => {
                Kind::ExtractStructField {
                    dest: value_number(dest)?,
                    struct_val: value(struct_val)?,
                    field_name: self.name(field_name)?,
                    field_ty: self.ty(field_ty)?,
                }
            }
            K::InsertField { dest, struct_val, field_name, new_value, struct_ty } => {
                Kind::InsertField(InsertField {
                    dest: value_number(dest)?,
                    struct_val: value(struct_val)?,
                    field_name: self.name(field_name)?,
                    new_value: value(new_value)?,
                    struct_ty: self.ty(struct_ty)?,
                })
            }
            K::InsertTuple { dest, tuple_val, index, new_value, tuple_ty } => {
                Kind::InsertTuple(InsertTuple {
                    dest: value_number(dest)?,
                    tuple_val: value(tuple_val)?,
                    index: long(*index)?,
                    new_value: value(new_value)?,
                    tuple_ty: self.ty(tuple_ty)?,
                })
            }
            _ => unreachable!("the other kinds have arms above"),
        })
    }
}

fn terminator(terminator: &mir::Terminator) -> Fits<Terminator> {
    use mir::Terminator as T;
    Ok(match terminator {
        T::Jump { target } => Terminator::Jump(block(*target)?),
        T::If { condition, then_target, else_target } => Terminator::If {
            condition: value(condition)?,
            then_target: block(*then_target)?,
            else_target: block(*else_target)?,
        },
        T::BranchCmp { op: operation, left, right, then_target, else_target } => {
            Terminator::BranchCmp {
                op: op(*operation),
                left: value(left)?,
                right: value(right)?,
                then_target: block(*then_target)?,
                else_target: block(*else_target)?,
            }
        }
        T::Return { values: returned } => Terminator::Return(values(returned)?),
        T::Unreachable => Terminator::Unreachable,
    })
}

#[cfg(test)]
mod tests {
    use super::*;
    use crate::to_mir::BINARY_OPS;

    /// The byte of an operation is its place in the Rust's enum, both ways.
    #[test]
    fn operations_keep_their_bytes() {
        for (byte, operation) in BINARY_OPS.iter().enumerate() {
            assert_eq!(usize::from(op(*operation)), byte);
        }
    }
}
