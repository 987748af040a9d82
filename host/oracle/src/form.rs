//! The routine that the bytes of document 01 lay out, before it is a `MirFunction`.
//!
//! Names of kinds and fields are those of the Rust, in its order.

macro_rules! number_type {
    ($(#[$note:meta])* $name:ident) => {
        $(#[$note])*
        #[derive(Debug, Clone, Copy, PartialEq, Eq, Hash, PartialOrd, Ord)]
        pub struct $name(pub u16);

        impl $name {
            pub fn index(self) -> usize {
                usize::from(self.0)
            }
        }
    };
}

number_type!(
    /// A value of the routine.
    ValueNo
);
number_type!(
    /// A block of the routine.
    BlockNo
);
number_type!(
    /// A row of the type table.
    TypeNo
);
number_type!(
    /// A name: "equal name numbers mean equal strings, others unequal ones".
    NameNo
);

/// The mosts: "64 types, next value 256, 32 blocks, 128 instructions in a block, 256 in all, 16 in
/// any list, 8 projections".
pub mod most {
    pub const TYPES: usize = 64;
    pub const NEXT_VALUE: usize = 256;
    pub const BLOCKS: usize = 32;
    pub const IN_BLOCK: usize = 128;
    pub const IN_ALL: usize = 256;
    pub const LIST: usize = 16;
    pub const PROJECTIONS: usize = 8;
}

/// The mosts that an output may pass; it keeps the others.
#[derive(Debug, Clone, Copy, PartialEq, Eq)]
pub struct Mosts {
    pub next_value: usize,
    pub in_block: usize,
    pub in_all: usize,
}

impl Mosts {
    pub const INPUT: Self =
        Self { next_value: most::NEXT_VALUE, in_block: most::IN_BLOCK, in_all: most::IN_ALL };

    /// "The output may pass these; its next value is at most 4,864." Each instruction more has a
    /// number more, so that this is a most for instructions too.
    pub const OUTPUT: Self = Self { next_value: 4864, in_block: 4864, in_all: 4864 };

    /// In edition 2 "65,535" for both; and in all, what is kept and as many as there are numbers.
    pub const SECOND_OUTPUT: Self =
        Self { next_value: 65_535, in_block: 65_535, in_all: most::IN_ALL + 65_535 };
}

/// How many kinds or operations of each sort are defined.
pub mod kinds {
    pub const TYPES: u8 = 11;
    pub const VALUES: u8 = 5;
    pub const INSTRUCTIONS: u8 = 19;
    pub const PROJECTIONS: u8 = 3;
    pub const TERMINATORS: u8 = 5;
    pub const BINARY_OPS: u8 = 26;
    pub const UNARY_OPS: u8 = 16;
}

/// The kind bytes that document 01 speaks of by number.
pub const CALL: u8 = 3;
pub const PHI: u8 = 9;
pub const MAKE_FIXED_ARRAY: u8 = 16;

/// The bits of an instruction's bit map.
pub mod bits {
    pub const SPAN: u8 = 1;
    pub const EXPRESSION: u8 = 2;
    pub const COMMENT: u8 = 4;
    pub const IS_CONST: u8 = 8;
}

/// A whole routine.
#[derive(Debug, Clone, PartialEq, Eq)]
pub struct Routine {
    pub types: Vec<Type>,
    pub entry: BlockNo,
    pub parameters: Vec<ValueNo>,
    /// The recorded type of each value; its length is the next value.
    pub recorded: Vec<Option<TypeNo>>,
    pub blocks: Vec<Block>,
}

/// A row of the type table; its parts are rows above it.
#[derive(Debug, Clone, PartialEq, Eq, Hash)]
pub enum Type {
    Felt,
    Bool,
    U32,
    Tuple(Vec<TypeNo>),
    Struct { name: NameNo, fields: Vec<(NameNo, TypeNo)> },
    FixedArray { element: TypeNo, size: u32 },
    Pointer(TypeNo),
    Function { params: Vec<TypeNo>, result: TypeNo },
    Unit,
    Error,
    Unknown,
}

#[derive(Debug, Clone, PartialEq, Eq)]
pub struct Block {
    pub instructions: Vec<Instruction>,
    pub terminator: Terminator,
}

#[derive(Debug, Clone, Copy, PartialEq, Eq)]
pub enum Value {
    Integer(u32),
    Boolean(bool),
    Unit,
    Operand(ValueNo),
    Error,
}

/// What stands beside an instruction's kind: "bit 0 span, two u32; 1 expression id, u32 and u64;
/// 2 comment, u32".
#[derive(Debug, Clone, Copy, PartialEq, Eq, Default)]
pub struct Meta {
    pub span: Option<(u32, u32)>,
    pub expression: Option<(u32, u64)>,
    pub comment: Option<u32>,
}

#[derive(Debug, Clone, PartialEq, Eq)]
pub struct Instruction {
    pub meta: Meta,
    pub kind: Kind,
}

#[derive(Debug, Clone, PartialEq, Eq)]
pub struct Place {
    pub base: ValueNo,
    pub projections: Vec<Projection>,
}

#[derive(Debug, Clone, Copy, PartialEq, Eq)]
pub enum Projection {
    Index(Value),
    Field(NameNo),
    Tuple(u32),
}

/// The kinds "in `InstructionKind` order (0 to 18)".
#[derive(Debug, Clone, PartialEq, Eq)]
pub enum Kind {
    Assign { dest: ValueNo, source: Value, ty: TypeNo },
    UnaryOp { op: u8, dest: ValueNo, source: Value },
    BinaryOp { op: u8, dest: ValueNo, left: Value, right: Value },
    Call(Call),
    Cast { dest: ValueNo, source: Value, source_type: TypeNo, target_type: TypeNo },
    Load { dest: ValueNo, place: Place, ty: TypeNo },
    Store { place: Place, value: Value, ty: TypeNo },
    Debug { message: u32, values: Vec<Value> },
    Nop,
    Phi { dest: ValueNo, ty: TypeNo, sources: Vec<(BlockNo, Value)> },
    MakeTuple { dest: ValueNo, elements: Vec<Value> },
    ExtractTupleElement { dest: ValueNo, tuple: Value, index: u32, element_ty: TypeNo },
    MakeStruct { dest: ValueNo, fields: Vec<(NameNo, Value)>, struct_ty: TypeNo },
    ExtractStructField { dest: ValueNo, struct_val: Value, field_name: NameNo, field_ty: TypeNo },
    InsertField(InsertField),
    InsertTuple(InsertTuple),
    MakeFixedArray { dest: ValueNo, elements: Vec<Value>, element_ty: TypeNo, is_const: bool },
    AssertEq { left: Value, right: Value },
    HeapAllocCells { dest: ValueNo, cells: Value },
}

#[derive(Debug, Clone, PartialEq, Eq)]
pub struct Call {
    pub dests: Vec<ValueNo>,
    pub callee: u16,
    pub args: Vec<Value>,
    pub param_types: Vec<TypeNo>,
    pub return_types: Vec<TypeNo>,
}

#[derive(Debug, Clone, PartialEq, Eq)]
pub struct InsertField {
    pub dest: ValueNo,
    pub struct_val: Value,
    pub field_name: NameNo,
    pub new_value: Value,
    pub struct_ty: TypeNo,
}

#[derive(Debug, Clone, PartialEq, Eq)]
pub struct InsertTuple {
    pub dest: ValueNo,
    pub tuple_val: Value,
    pub index: u32,
    pub new_value: Value,
    pub tuple_ty: TypeNo,
}

/// "Terminators are a u8 0 to 4 in declared order".
#[derive(Debug, Clone, PartialEq, Eq)]
pub enum Terminator {
    Jump(BlockNo),
    If { condition: Value, then_target: BlockNo, else_target: BlockNo },
    BranchCmp { op: u8, left: Value, right: Value, then_target: BlockNo, else_target: BlockNo },
    Return(Vec<Value>),
    Unreachable,
}

impl Kind {
    /// The kind byte.
    pub fn byte(&self) -> u8 {
        match self {
            Kind::Assign { .. } => 0,
            Kind::UnaryOp { .. } => 1,
            Kind::BinaryOp { .. } => 2,
            Kind::Call(_) => CALL,
            Kind::Cast { .. } => 4,
            Kind::Load { .. } => 5,
            Kind::Store { .. } => 6,
            Kind::Debug { .. } => 7,
            Kind::Nop => 8,
            Kind::Phi { .. } => PHI,
            Kind::MakeTuple { .. } => 10,
            Kind::ExtractTupleElement { .. } => 11,
            Kind::MakeStruct { .. } => 12,
            Kind::ExtractStructField { .. } => 13,
            Kind::InsertField(_) => 14,
            Kind::InsertTuple(_) => 15,
            Kind::MakeFixedArray { .. } => MAKE_FIXED_ARRAY,
            Kind::AssertEq { .. } => 17,
            Kind::HeapAllocCells { .. } => 18,
        }
    }
}

impl Type {
    /// The kind byte, "in `MirType` order (Felt 0 .. Unknown 10)".
    pub fn byte(&self) -> u8 {
        match self {
            Type::Felt => 0,
            Type::Bool => 1,
            Type::U32 => 2,
            Type::Tuple(_) => 3,
            Type::Struct { .. } => 4,
            Type::FixedArray { .. } => 5,
            Type::Pointer(_) => 6,
            Type::Function { .. } => 7,
            Type::Unit => 8,
            Type::Error => 9,
            Type::Unknown => 10,
        }
    }

    /// "Only Tuple, Struct and FixedArray can be taken apart."
    pub fn is_aggregate(&self) -> bool {
        self.count().is_some()
    }

    /// How many parts an aggregate has.
    pub fn count(&self) -> Option<usize> {
        match self {
            Type::Tuple(parts) => Some(parts.len()),
            Type::Struct { fields, .. } => Some(fields.len()),
            Type::FixedArray { size, .. } => Some(*size as usize),
            _ => None,
        }
    }

    /// The type of part `at`; an array has one for every place.
    pub fn part(&self, at: usize) -> Option<TypeNo> {
        match self {
            Type::Tuple(parts) => parts.get(at).copied(),
            Type::Struct { fields, .. } => fields.get(at).map(|(_, ty)| *ty),
            Type::FixedArray { element, .. } => Some(*element),
            _ => None,
        }
    }

    /// Where a struct has the field.
    pub fn position(&self, field: NameNo) -> Option<usize> {
        match self {
            Type::Struct { fields, .. } => fields.iter().position(|(name, _)| *name == field),
            _ => None,
        }
    }
}

impl Routine {
    /// The row of a type number, if there is one.
    pub fn row(&self, ty: Option<TypeNo>) -> Option<&Type> {
        self.types.get(ty?.index())
    }

    /// The recorded type of a value.
    pub fn recorded_type(&self, value: ValueNo) -> Option<TypeNo> {
        self.recorded.get(value.index()).copied().flatten()
    }

    /// All instructions, in order.
    pub fn instructions(&self) -> impl Iterator<Item = &Instruction> {
        self.blocks.iter().flat_map(|block| &block.instructions)
    }
}

impl Instruction {
    /// An instruction without span, expression id and comment.
    pub fn plain(kind: Kind) -> Self {
        Self { meta: Meta::default(), kind }
    }
}
