//! The rows of a type table as types of the Rust, one level deep.
//!
//! The pass looks at a type's own kind, its counts and its field names, and compares no types. The
//! only part that it ever takes out is an array's element type, which it carries into the rebuild
//! without looking at it. So a type becomes its row with a token for each part: as no row stands
//! twice (refusal 5), equal numbers are equal types, and deep tables stay small.

use std::collections::HashMap;

use mir::MirType;

use crate::fit::Fits;
use crate::form::{Type, TypeNo};
use crate::spelling::{number_of, spell, Numbering, Spelling};
use crate::to_mir::type_of;

/// The rows of a routine's type table as types of the Rust.
pub struct TypeTable {
    types: Vec<Type>,
    rows: Vec<MirType>,
    numbers: HashMap<MirType, TypeNo>,
}

impl TypeTable {
    pub fn new(types: Vec<Type>) -> Self {
        let rows: Vec<MirType> = types.iter().map(|row| type_of(row, &Tokens)).collect();
        let number = |(i, row): (usize, &MirType)| (row.clone(), TypeNo(i as u16));
        let numbers = rows.iter().enumerate().map(number).collect();
        Self { types, rows, numbers }
    }
}

impl Spelling for TypeTable {
    fn ty(&self, ty: TypeNo) -> MirType {
        self.rows[ty.index()].clone()
    }
}

impl Numbering for TypeTable {
    /// The number of a type that the pass handed on: a row, or the token of an element type.
    fn ty(&mut self, ty: &MirType) -> Fits<TypeNo> {
        Ok(match ty {
            MirType::Struct { name, .. } if name.starts_with(TOKEN) => {
                TypeNo(number_of(name) as u16)
            }
            row => self.numbers[row],
        })
    }

    /// The table is the input's, as no pass makes a type.
    fn types(&mut self) -> Vec<Type> {
        std::mem::take(&mut self.types)
    }
}

/// The letter of a token's name; names of the routine have another.
const TOKEN: char = 't';

/// What stands for a part: a struct without fields, with a name that no struct of a routine has.
struct Tokens;

impl Spelling for Tokens {
    fn ty(&self, ty: TypeNo) -> MirType {
        MirType::simple_struct_type(spell(TOKEN, u32::from(ty.0)))
    }
}
