//! Functions to try: such as a compiler makes, such as are too large, and made routines with whole
//! types.

// Each test file takes what it needs.
#![allow(dead_code, unused_imports)]

mod large;
mod made;
mod written;

pub use large::{just_fitting, too_large};
pub use made::made_functions;
pub use written::*;
