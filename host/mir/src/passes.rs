//! Stands for the crate's `passes.rs`: the trait of a pass, and the one pass that we have.

use crate::MirFunction;

include!(concat!(env!("OUT_DIR"), "/passes.rs"));

/// A pass over one function; `run` answers whether it changed it.
pub trait MirPass {
    fn run(&mut self, function: &mut MirFunction) -> bool;
    fn name(&self) -> &'static str;
}
