//! What the fields of a routine are, and what takes them as they are written.

/// What a field is.
#[derive(Debug, Clone, Copy, PartialEq, Eq)]
pub enum Class {
    TypeCount,
    NextValue,
    BlockCount,
    InstructionCount,
    ListCount,
    ReturnCount,
    ProjectionCount,
    TypeKind,
    ValueKind,
    InstructionKind,
    ProjectionKind,
    TerminatorKind,
    BinaryOp,
    UnaryOp,
    Boolean,
    InstructionBits,
    ValueBits,
    TypePart,
    TypeUse,
    ValueUse,
    ValueDef,
    BlockUse,
    FieldName,
    /// A number without a bound: a name, a callee, an index, a size, a literal, a span and so on.
    Plain,
}

impl Class {
    pub const ALL: [Class; 24] = [
        Class::TypeCount,
        Class::NextValue,
        Class::BlockCount,
        Class::InstructionCount,
        Class::ListCount,
        Class::ReturnCount,
        Class::ProjectionCount,
        Class::TypeKind,
        Class::ValueKind,
        Class::InstructionKind,
        Class::ProjectionKind,
        Class::TerminatorKind,
        Class::BinaryOp,
        Class::UnaryOp,
        Class::Boolean,
        Class::InstructionBits,
        Class::ValueBits,
        Class::TypePart,
        Class::TypeUse,
        Class::ValueUse,
        Class::ValueDef,
        Class::BlockUse,
        Class::FieldName,
        Class::Plain,
    ];
}

/// What takes the fields of a routine, in order.
pub trait Sink {
    /// The low `width` bytes of `number`, little-endian.
    fn put(&mut self, class: Class, number: u64, width: usize);
}

impl Sink for Vec<u8> {
    #[inline]
    fn put(&mut self, _class: Class, number: u64, width: usize) {
        self.extend_from_slice(&number.to_le_bytes()[..width]);
    }
}
