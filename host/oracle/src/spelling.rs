//! What the numbers of the byte form are in a `MirFunction`: types, names, callees, messages,
//! comments.
//!
//! Where nothing else is said, a string spells its number.

use mir::{FunctionId, MirType};

use crate::fit::{short, Fits};
use crate::form::{NameNo, Type, TypeNo};

/// What numbers stand for.
pub trait Spelling {
    fn ty(&self, ty: TypeNo) -> MirType;

    fn name(&self, name: NameNo) -> String {
        spell('n', u32::from(name.0))
    }

    fn callee(&self, callee: u16) -> FunctionId {
        FunctionId::from_raw(usize::from(callee))
    }

    fn message(&self, message: u32) -> String {
        spell('m', message)
    }

    fn comment(&self, comment: u32) -> String {
        spell('c', comment)
    }
}

/// The numbers of what stands in a function.
pub trait Numbering {
    fn ty(&mut self, ty: &MirType) -> Fits<TypeNo>;

    /// The rows of the type table, once all types have their numbers.
    fn types(&mut self) -> Vec<Type>;

    fn name(&mut self, name: &str) -> Fits<NameNo> {
        Ok(NameNo(number_of(name) as u16))
    }

    fn callee(&mut self, callee: FunctionId) -> Fits<u16> {
        short(callee.index())
    }

    fn message(&mut self, message: &str) -> Fits<u32> {
        Ok(number_of(message))
    }

    fn comment(&mut self, comment: &str) -> Fits<u32> {
        Ok(number_of(comment))
    }
}

/// The string of a number, in a space of its own for each letter.
pub fn spell(letter: char, number: u32) -> String {
    format!("{letter}{number}")
}

/// The number of a string that [`spell`] made.
pub fn number_of(text: &str) -> u32 {
    text[1..].parse().expect("the pass hands strings on as they are")
}
