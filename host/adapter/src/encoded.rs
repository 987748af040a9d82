//! A function in the byte form, and the way back.

use std::error::Error;
use std::fmt;

use mir::{BasicBlock, BasicBlockId, MirFunction, MirType};
use oracle::form::{Mosts, Routine};
use oracle::{fill_block, read_second_output, routine_of, write, Misfit, Spelling};

use crate::tables::{Spelled, Tables};

/// A function as bytes, with what its numbers stand for.
#[derive(Debug)]
pub struct Encoded {
    bytes: Vec<u8>,
    routine: Routine,
    tables: Tables,
}

/// Bytes that are no rewriting of the function: the archive is another than this crate is
/// made for.
#[derive(Debug, Clone, Copy, PartialEq, Eq, Hash)]
pub struct Foreign;

impl fmt::Display for Foreign {
    fn fmt(&self, f: &mut fmt::Formatter<'_>) -> fmt::Result {
        f.write_str("the bytes are no rewriting of the function")
    }
}

impl Error for Foreign {}

impl Encoded {
    /// The bytes of a function, or what of it the byte form has no room for. They need not be a
    /// routine: a value may be defined twice, a block may not be there.
    pub fn of(function: &MirFunction) -> Result<Self, Misfit> {
        let mut tables = Tables::default();
        let routine = routine_of(function, &mut tables, &Mosts::INPUT)?;
        Ok(Self { bytes: write(&routine), routine, tables })
    }

    /// The function in the byte form.
    pub fn bytes(&self) -> &[u8] {
        &self.bytes
    }

    /// Puts a rewriting of the bytes into the function that they were made of: the instructions and
    /// terminators of blocks that changed, and the fresh values with their types. All else stays,
    /// and so does the whole function where the bytes are no rewriting.
    pub fn put_back(&self, output: &[u8], function: &mut MirFunction) -> Result<(), Foreign> {
        let output = read_second_output(output).map_err(|_| Foreign)?;
        if !self.is_of(function) || !self.is_before(&output) {
            return Err(Foreign);
        }
        let spelled = Spelled::of(&self.tables);
        let changed = self.changed(&output, &spelled);
        let fresh = output.recorded[self.routine.recorded.len()..].iter();
        let fresh: Vec<Option<MirType>> = fresh.map(|ty| ty.map(|ty| spelled.ty(ty))).collect();
        if spelled.met_foreign() {
            return Err(Foreign);
        }
        for (id, made) in changed {
            if let Some(block) = function.get_basic_block_mut(id) {
                block.instructions = made.instructions;
                block.terminator = made.terminator;
            }
        }
        for ty in fresh {
            let value = function.new_value_id();
            if let Some(ty) = ty {
                function.set_value_type(value, ty);
            }
        }
        Ok(())
    }

    /// Whether the function has as many blocks and values as the one that the bytes were made of.
    fn is_of(&self, function: &MirFunction) -> bool {
        function.basic_blocks().count() == self.routine.blocks.len()
            && function.next_value() == self.routine.recorded.len()
    }

    /// Whether a routine has all that no rewriting changes.
    fn is_before(&self, output: &Routine) -> bool {
        let Routine { types, entry, parameters, recorded, blocks } = &self.routine;
        output.types == *types
            && output.entry == *entry
            && output.parameters == *parameters
            && output.recorded.starts_with(recorded)
            && output.blocks.len() == blocks.len()
    }

    /// The blocks that are others than before.
    fn changed(&self, output: &Routine, spelled: &Spelled) -> Vec<(BasicBlockId, BasicBlock)> {
        let pairs = self.routine.blocks.iter().zip(&output.blocks).enumerate();
        let changed = pairs.filter(|(_, (before, after))| before != after);
        let made = |(at, (_, after))| {
            let mut block = BasicBlock::new();
            fill_block(&mut block, after, spelled);
            (BasicBlockId::from_raw(at), block)
        };
        changed.map(made).collect()
    }
}
