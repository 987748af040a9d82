//! What a pass of the crate reads and `function.rs` keeps to it: ours stands outside.

use crate::MirFunction;

impl MirFunction {
    /// The number that the next new value takes.
    pub fn next_value(&self) -> usize {
        self.next_value_id as usize
    }
}
