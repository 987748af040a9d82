//! The machine's values.

use std::rc::Rc;

use oracle::form::{Type, TypeNo};

/// A value: "An aggregate is a list of parts, a struct's in its type's field order."
#[derive(Debug, Clone, PartialEq, Eq)]
pub enum Datum {
    /// Of Felt and of U32.
    Number(u32),
    /// Of Bool.
    Truth(bool),
    /// Of Unit.
    Unit,
    /// Of a Pointer.
    Address(u32),
    /// Of a Function.
    Code(u32),
    /// Of a Tuple, Struct or FixedArray; copies share the list until one is changed.
    Parts(Rc<Vec<Datum>>),
}

impl Datum {
    pub fn parts(parts: Vec<Datum>) -> Self {
        Datum::Parts(Rc::new(parts))
    }

    /// Part `at`; a scalar has none.
    pub fn part(&self, at: usize) -> Option<&Datum> {
        match self {
            Datum::Parts(parts) => parts.get(at),
            _ => None,
        }
    }

    /// Part `at`, to be changed in this value alone.
    pub fn part_mut(&mut self, at: usize) -> Option<&mut Datum> {
        match self {
            Datum::Parts(parts) => Rc::make_mut(parts).get_mut(at),
            _ => None,
        }
    }

    /// The part that it names as an Index.
    pub fn position(&self) -> Option<usize> {
        match self {
            Datum::Number(n) => Some(*n as usize),
            Datum::Truth(b) => Some(usize::from(*b)),
            _ => None,
        }
    }

    /// Whether it is a value of the type: "Error, Unknown and no type have none".
    pub fn is_of(&self, ty: Option<TypeNo>, types: &[Type]) -> bool {
        let Some(row) = ty.and_then(|ty| types.get(ty.index())) else {
            return false;
        };
        match (row, self) {
            (Type::Felt | Type::U32, Datum::Number(_))
            | (Type::Bool, Datum::Truth(_))
            | (Type::Unit, Datum::Unit)
            | (Type::Pointer(_), Datum::Address(_))
            | (Type::Function { .. }, Datum::Code(_)) => true,
            (_, Datum::Parts(parts)) => {
                let fits = |(at, part): (usize, &Datum)| part.is_of(row.part(at), types);
                row.count() == Some(parts.len()) && parts.iter().enumerate().all(fits)
            }
            _ => false,
        }
    }
}
