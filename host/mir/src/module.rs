//! Stands for the crate's `module.rs`, which `testing.rs` builds.

use index_vec::IndexVec;

use crate::{FunctionId, MirFunction};

/// The functions of one compilation.
#[derive(Debug, Default)]
pub struct MirModule {
    pub functions: IndexVec<FunctionId, MirFunction>,
}

impl MirModule {
    pub fn new() -> Self {
        Self::default()
    }

    pub fn add_function(&mut self, function: MirFunction) -> FunctionId {
        self.functions.push(function)
    }
}
