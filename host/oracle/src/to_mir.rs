//! A read routine as the `MirFunction` that the pass runs on.

use mir::{
    BasicBlock, BasicBlockId, BinaryOp, CalleeSignature, InstructionKind, MirExpressionId,
    MirFunction, MirType, SimpleSpan, UnaryOp, ValueId,
};

use crate::form::*;
use crate::spelling::Spelling;

/// "`BinaryOp` is a u8 0 to 25", in the Rust's order.
pub const BINARY_OPS: [BinaryOp; kinds::BINARY_OPS as usize] = [
    BinaryOp::Add,
    BinaryOp::Sub,
    BinaryOp::Mul,
    BinaryOp::Div,
    BinaryOp::Eq,
    BinaryOp::Neq,
    BinaryOp::Less,
    BinaryOp::Greater,
    BinaryOp::LessEqual,
    BinaryOp::GreaterEqual,
    BinaryOp::And,
    BinaryOp::Or,
    BinaryOp::U32Add,
    BinaryOp::U32Sub,
    BinaryOp::U32Mul,
    BinaryOp::U32Div,
    BinaryOp::U32Rem,
    BinaryOp::U32Eq,
    BinaryOp::U32Neq,
    BinaryOp::U32Less,
    BinaryOp::U32Greater,
    BinaryOp::U32LessEqual,
    BinaryOp::U32GreaterEqual,
    BinaryOp::U32BitwiseAnd,
    BinaryOp::U32BitwiseOr,
    BinaryOp::U32BitwiseXor,
];

/// The function of a routine; "`name` and the other fields of `MirFunction` are not carried".
pub fn function_of(routine: &Routine, spelling: &impl Spelling) -> MirFunction {
    let mut function = MirFunction::new(String::new());
    let block = |block: &Block| {
        let mut made = BasicBlock::new();
        fill_block(&mut made, block, spelling);
        made
    };
    function.basic_blocks = routine.blocks.iter().map(block).collect();
    function.entry_block = block_id(routine.entry);
    function.parameters = routine.parameters.iter().map(|p| value_id(*p)).collect();
    for recorded in &routine.recorded {
        let id = function.new_value_id();
        if let Some(ty) = recorded {
            function.set_value_type(id, spelling.ty(*ty));
        }
    }
    function
}

/// Puts the instructions and the terminator of `from` into a block; what else it has stays.
pub fn fill_block(block: &mut BasicBlock, from: &Block, spelling: &impl Spelling) {
    let to = ToMir { spelling };
    block.instructions = from.instructions.iter().map(|i| to.instruction(i)).collect();
    block.terminator = terminator(&from.terminator);
}

/// The type of a row.
pub fn type_of(row: &Type, spelling: &impl Spelling) -> MirType {
    let to = ToMir { spelling };
    let boxed = |ty: &TypeNo| Box::new(spelling.ty(*ty));
    match row {
        Type::Felt => MirType::Felt,
        Type::Bool => MirType::Bool,
        Type::U32 => MirType::U32,
        Type::Tuple(parts) => MirType::Tuple(to.types(parts)),
        Type::Struct { name, fields } => {
            let field = |(name, ty): &(NameNo, TypeNo)| (spelling.name(*name), spelling.ty(*ty));
            let fields = fields.iter().map(field).collect();
            MirType::Struct { name: spelling.name(*name), fields }
        }
        Type::FixedArray { element, size } => {
            MirType::FixedArray { element_type: boxed(element), size: *size as usize }
        }
        Type::Pointer(element) => MirType::Pointer { element: boxed(element) },
        Type::Function { params, result } => {
            MirType::Function { params: to.types(params), return_type: boxed(result) }
        }
        Type::Unit => MirType::Unit,
        Type::Error => MirType::Error,
        Type::Unknown => MirType::Unknown,
    }
}

fn value_id(value: ValueNo) -> ValueId {
    ValueId::new(value.index())
}

fn block_id(block: BlockNo) -> BasicBlockId {
    BasicBlockId::from_raw(block.index())
}

fn op(op: u8) -> BinaryOp {
    BINARY_OPS[usize::from(op)]
}

fn value(value: Value) -> mir::Value {
    match value {
        Value::Integer(n) => mir::Value::integer(n),
        Value::Boolean(b) => mir::Value::boolean(b),
        Value::Unit => mir::Value::unit(),
        Value::Operand(v) => mir::Value::operand(value_id(v)),
        Value::Error => mir::Value::error(),
    }
}

fn values(values: &[Value]) -> Vec<mir::Value> {
    values.iter().map(|v| value(*v)).collect()
}

struct ToMir<'a, S> {
    spelling: &'a S,
}

impl<S: Spelling> ToMir<'_, S> {
    fn ty(&self, ty: &TypeNo) -> MirType {
        self.spelling.ty(*ty)
    }

    fn types(&self, types: &[TypeNo]) -> Vec<MirType> {
        types.iter().map(|ty| self.ty(ty)).collect()
    }

    fn place(&self, place: &Place) -> mir::Place {
        let step = |p: &Projection| match *p {
            Projection::Index(v) => mir::Projection::Index(value(v)),
            Projection::Field(field) => mir::Projection::Field(self.spelling.name(field)),
            Projection::Tuple(index) => mir::Projection::Tuple(index as usize),
        };
        mir::Place {
            base: value_id(place.base),
            projections: place.projections.iter().map(step).collect(),
        }
    }

    fn instruction(&self, instruction: &Instruction) -> mir::Instruction {
        let Meta { span, expression, comment } = instruction.meta;
        mir::Instruction {
            kind: self.kind(&instruction.kind),
            source_span: span
                .map(|(start, end)| SimpleSpan { start: start as usize, end: end as usize }),
            source_expr_id: expression.map(|(index, file_id)| MirExpressionId {
                expression_index: index as usize,
                file_id,
            }),
            comment: comment.map(|number| self.spelling.comment(number)),
        }
    }

    fn kind(&self, kind: &Kind) -> InstructionKind {
        use InstructionKind as K;
        match kind {
            Kind::Assign { dest, source, ty } => {
                K::Assign { dest: value_id(*dest), source: value(*source), ty: self.ty(ty) }
            }
            Kind::UnaryOp { op, dest, source } => {
                K::UnaryOp { op: UnaryOp(*op), dest: value_id(*dest), source: value(*source) }
            }
            Kind::BinaryOp { op: byte, dest, left, right } => K::BinaryOp {
                op: op(*byte),
                dest: value_id(*dest),
                left: value(*left),
                right: value(*right),
            },
            Kind::Cast { dest, source, source_type, target_type } => K::Cast {
                dest: value_id(*dest),
                source: value(*source),
                source_type: self.ty(source_type),
                target_type: self.ty(target_type),
            },
            Kind::Nop => K::Nop,
            Kind::AssertEq { left, right } => {
                K::AssertEq { left: value(*left), right: value(*right) }
            }
            Kind::HeapAllocCells { dest, cells } => {
                K::HeapAllocCells { dest: value_id(*dest), cells: value(*cells) }
            }
            _ => self.outer_kind(kind),
        }
    }

    /// The kinds that have to do with other blocks, other functions and places.
    fn outer_kind(&self, kind: &Kind) -> InstructionKind {
        use InstructionKind as K;
        match kind {
            Kind::Call(call) => K::Call {
                dests: call.dests.iter().map(|d| value_id(*d)).collect(),
                callee: self.spelling.callee(call.callee),
                args: values(&call.args),
                signature: CalleeSignature {
                    param_types: self.types(&call.param_types),
                    return_types: self.types(&call.return_types),
                },
            },
            Kind::Load { dest, place, ty } => {
                K::Load { dest: value_id(*dest), place: self.place(place), ty: self.ty(ty) }
            }
            Kind::Store { place, value: stored, ty } => {
                K::Store { place: self.place(place), value: value(*stored), ty: self.ty(ty) }
            }
            Kind::Debug { message, values: shown } => {
                K::Debug { message: self.spelling.message(*message), values: values(shown) }
            }
            Kind::Phi { dest, ty, sources } => K::Phi {
                dest: value_id(*dest),
                ty: self.ty(ty),
                sources: sources.iter().map(|(b, v)| (block_id(*b), value(*v))).collect(),
            },
            _ => self.aggregate_kind(kind),
        }
    }

    /// The kinds that build, read and change aggregates.
    fn aggregate_kind(&self, kind: &Kind) -> InstructionKind {
        use InstructionKind as K;
        match kind {
            Kind::MakeTuple { dest, elements } => {
                K::MakeTuple { dest: value_id(*dest), elements: values(elements) }
            }
            Kind::MakeStruct { dest, fields, struct_ty } => K::MakeStruct {
                dest: value_id(*dest),
                fields: fields
                    .iter()
                    .map(|(name, v)| (self.spelling.name(*name), value(*v)))
                    .collect(),
                struct_ty: self.ty(struct_ty),
            },
            Kind::MakeFixedArray { dest, elements, element_ty, is_const } => K::MakeFixedArray {
                dest: value_id(*dest),
                elements: values(elements),
                element_ty: self.ty(element_ty),
                is_const: *is_const,
            },
            _ => self.part_kind(kind),
        }
    }

    /// The kinds that read or change one part.
    fn part_kind(&self, kind: &Kind) -> InstructionKind {
        use InstructionKind as K;
        match kind {
            Kind::ExtractTupleElement { dest, tuple, index, element_ty } => {
                K::ExtractTupleElement {
                    dest: value_id(*dest),
                    tuple: value(*tuple),
                    index: *index as usize,
                    element_ty: self.ty(element_ty),
                }
            }
            Kind::ExtractStructField { dest, struct_val, field_name, field_ty } => {
                K::ExtractStructField {
                    dest: value_id(*dest),
                    struct_val: value(*struct_val),
                    field_name: self.spelling.name(*field_name),
                    field_ty: self.ty(field_ty),
                }
            }
            Kind::InsertField(insert) => K::InsertField {
                dest: value_id(insert.dest),
                struct_val: value(insert.struct_val),
                field_name: self.spelling.name(insert.field_name),
                new_value: value(insert.new_value),
                struct_ty: self.ty(&insert.struct_ty),
            },
            Kind::InsertTuple(insert) => K::InsertTuple {
                dest: value_id(insert.dest),
                tuple_val: value(insert.tuple_val),
                index: insert.index as usize,
                new_value: value(insert.new_value),
                tuple_ty: self.ty(&insert.tuple_ty),
            },
            _ => unreachable!("the other kinds have arms above"),
        }
    }
}

fn terminator(terminator: &Terminator) -> mir::Terminator {
    match terminator {
        Terminator::Jump(target) => mir::Terminator::jump(block_id(*target)),
        Terminator::If { condition, then_target, else_target } => mir::Terminator::branch(
            value(*condition),
            block_id(*then_target),
            block_id(*else_target),
        ),
        Terminator::BranchCmp { op: byte, left, right, then_target, else_target } => {
            mir::Terminator::branch_cmp(
                op(*byte),
                value(*left),
                value(*right),
                block_id(*then_target),
                block_id(*else_target),
            )
        }
        Terminator::Return(returned) => mir::Terminator::return_values(values(returned)),
        Terminator::Unreachable => mir::Terminator::unreachable(),
    }
}
