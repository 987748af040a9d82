//! The compiler's MIR, as far as the pass needs it: the published files, unchanged, beside
//! stand-ins for what other files define.

// The published files hold much that the pass does not use, and are as they are.
#![allow(dead_code, clippy::all)]

include!(concat!(env!("OUT_DIR"), "/modules.rs"));

pub mod basic_block;
mod ids;
#[cfg(test)]
mod module;
mod next_value;
pub mod passes;
mod pretty_print;
mod value_visitor;

pub use basic_block::BasicBlock;
pub use function::MirFunction;
pub use ids::{BasicBlockId, FunctionId, ValueId};
pub use instruction::{BinaryOp, CalleeSignature, Instruction, InstructionKind, MirExpressionId};
pub use mir_types::MirType;
#[cfg(test)]
use module::MirModule;
pub use pretty_print::PrettyPrint;
use pretty_print::indent_str;
pub use terminator::Terminator;
pub use value::{Literal, Place, Projection, Value};

/// What an instruction carries from crates that other files define.
pub use cairo_m_compiler_parser::parser::UnaryOp;
pub use chumsky::span::SimpleSpan;
