//! Stands for the parser crate: the two operator types that `instruction.rs` names.

pub mod parser {
    /// The unary operators. The enum is in no file that we have, and the pass only carries it, so
    /// the operator is its byte ("`UnaryOp` a u8 0 to 15 carried as is").
    #[derive(Debug, Clone, Copy, PartialEq, Eq, Hash)]
    pub struct UnaryOp(pub u8);

    /// The binary operators that `BinaryOp::from_parser` matches on.
    #[derive(Debug, Clone, Copy, PartialEq, Eq, Hash)]
    pub enum BinaryOp {
        Add,
        Sub,
        Mul,
        Div,
        Mod,
        Eq,
        Neq,
        Less,
        Greater,
        LessEqual,
        GreaterEqual,
        And,
        Or,
        BitwiseAnd,
        BitwiseOr,
        BitwiseXor,
    }
}
