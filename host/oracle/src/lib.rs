//! The oracle: document 01's byte form, read and written by itself, around the Rust's pass.

mod cursor;
mod field;
mod fit;
pub mod form;
mod from_mir;
mod hex;
mod read;
mod read_instruction;
mod reads;
pub mod rows;
mod run;
mod spelling;
mod to_mir;
mod tokens;
mod write;

pub use cursor::{cause, Refusal};
pub use field::{Class, Sink};
pub use fit::{hold, long, short, Fits, Misfit, What};
pub use from_mir::{list, routine_of};
pub use hex::{from_hex, to_hex};
pub use read::{read, read_output, read_second_output};
pub use run::{
    admitted, run_oracle, run_pass, run_routine, Counts, Lowered, Outcome, Settings, COUNT_NAMES,
    LENT,
};
pub use spelling::{Numbering, Spelling};
pub use to_mir::{fill_block, function_of, type_of};
pub use tokens::TypeTable;
pub use write::{write, write_routine};
