//! Numbers for what the byte form numbers: each type, name, callee, message and comment of one
//! function gets the next number when it is first met.

use std::borrow::Borrow;
use std::cell::Cell;
use std::hash::Hash;

use mir::{FunctionId, MirType};
use oracle::form::{most, NameNo, Type, TypeNo};
use oracle::{hold, list, long, short, Fits, Numbering, Spelling, What};
use rustc_hash::FxHashMap;

/// Things by number, each once.
#[derive(Debug)]
struct Numbered<T> {
    things: Vec<T>,
    numbers: FxHashMap<T, usize>,
}

impl<T> Default for Numbered<T> {
    fn default() -> Self {
        Self { things: Vec::new(), numbers: FxHashMap::default() }
    }
}

impl<T: Clone + Eq + Hash> Numbered<T> {
    /// The number of a thing, which may be new.
    fn number<Q>(&mut self, thing: &Q) -> usize
    where
        T: Borrow<Q>,
        Q: Eq + Hash + ToOwned<Owned = T> + ?Sized,
    {
        if let Some(number) = self.numbers.get(thing) {
            return *number;
        }
        let number = self.things.len();
        self.things.push(thing.to_owned());
        self.numbers.insert(thing.to_owned(), number);
        number
    }
}

/// The tables of one function.
#[derive(Debug, Default)]
pub struct Tables {
    /// Whole types: equal ones have one number.
    types: Numbered<MirType>,
    /// The row of each.
    rows: Vec<Type>,
    names: Numbered<String>,
    callees: Numbered<FunctionId>,
    messages: Numbered<String>,
    comments: Numbered<String>,
}

impl Tables {
    /// The number of a type, whose parts have lower ones.
    fn nested(&mut self, ty: &MirType) -> Fits<TypeNo> {
        if let Some(number) = self.types.numbers.get(ty) {
            return short(*number).map(TypeNo);
        }
        let row = self.row(ty)?;
        hold(What::Types, self.rows.len() + 1, most::TYPES)?;
        self.rows.push(row);
        short(self.types.number(ty)).map(TypeNo)
    }

    fn row(&mut self, ty: &MirType) -> Fits<Type> {
        Ok(match ty {
            MirType::Felt => Type::Felt,
            MirType::Bool => Type::Bool,
            MirType::U32 => Type::U32,
            MirType::Tuple(parts) => Type::Tuple(list(parts, |part| self.nested(part))?),
            MirType::Struct { name, fields } => Type::Struct {
                name: self.name(name)?,
                fields: list(fields, |(name, part)| Ok((self.name(name)?, self.nested(part)?)))?,
            },
            MirType::FixedArray { element_type, size } => {
                Type::FixedArray { element: self.nested(element_type)?, size: long(*size)? }
            }
            MirType::Pointer { element } => Type::Pointer(self.nested(element)?),
            MirType::Function { params, return_type } => Type::Function {
                params: list(params, |part| self.nested(part))?,
                result: self.nested(return_type)?,
            },
            MirType::Unit => Type::Unit,
            MirType::Error => Type::Error,
            MirType::Unknown => Type::Unknown,
        })
    }
}

impl Numbering for Tables {
    fn ty(&mut self, ty: &MirType) -> Fits<TypeNo> {
        // Each type on the way down is another one, and has a row of its own.
        hold(What::Types, depth(ty, most::TYPES), most::TYPES)?;
        self.nested(ty)
    }

    fn types(&mut self) -> Vec<Type> {
        self.rows.clone()
    }

    fn name(&mut self, name: &str) -> Fits<NameNo> {
        short(self.names.number(name)).map(NameNo)
    }

    fn callee(&mut self, callee: FunctionId) -> Fits<u16> {
        short(self.callees.number(&callee))
    }

    fn message(&mut self, message: &str) -> Fits<u32> {
        long(self.messages.number(message))
    }

    fn comment(&mut self, comment: &str) -> Fits<u32> {
        long(self.comments.number(comment))
    }
}

/// How many types stand in one another; not more than one above the `most`, however deep it is.
fn depth(ty: &MirType, most: usize) -> usize {
    let Some(most) = most.checked_sub(1) else {
        return 1;
    };
    let deepest = |parts: &[MirType]| parts.iter().map(|part| depth(part, most)).max();
    let parts = match ty {
        MirType::Tuple(parts) => deepest(parts),
        MirType::Struct { fields, .. } => fields.iter().map(|(_, part)| depth(part, most)).max(),
        MirType::FixedArray { element_type: part, .. } | MirType::Pointer { element: part } => {
            Some(depth(part, most))
        }
        MirType::Function { params, return_type } => {
            deepest(params).max(Some(depth(return_type, most)))
        }
        _ => None,
    };
    1 + parts.unwrap_or(0)
}

/// The tables read back; a number that is in none of them is marked.
pub struct Spelled<'a> {
    tables: &'a Tables,
    foreign: Cell<bool>,
}

impl<'a> Spelled<'a> {
    pub fn of(tables: &'a Tables) -> Self {
        Self { tables, foreign: Cell::new(false) }
    }

    /// Whether a number was asked for that the tables do not have.
    pub fn met_foreign(&self) -> bool {
        self.foreign.get()
    }

    fn thing<T: Clone>(&self, things: &[T], number: usize, otherwise: impl FnOnce() -> T) -> T {
        things.get(number).cloned().unwrap_or_else(|| {
            self.foreign.set(true);
            otherwise()
        })
    }
}

impl Spelling for Spelled<'_> {
    fn ty(&self, ty: TypeNo) -> MirType {
        self.thing(&self.tables.types.things, ty.index(), MirType::error)
    }

    fn name(&self, name: NameNo) -> String {
        self.thing(&self.tables.names.things, name.index(), String::new)
    }

    fn callee(&self, callee: u16) -> FunctionId {
        let number = usize::from(callee);
        self.thing(&self.tables.callees.things, number, || FunctionId::from_raw(number))
    }

    fn message(&self, message: u32) -> String {
        self.thing(&self.tables.messages.things, message as usize, String::new)
    }

    fn comment(&self, comment: u32) -> String {
        self.thing(&self.tables.comments.things, comment as usize, String::new)
    }
}
