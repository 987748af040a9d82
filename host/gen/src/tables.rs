//! Type tables: no row twice, parts above, few parts and many.

use oracle::form::{most, NameNo, Type, TypeNo};

use crate::rng::Rng;

/// The rows that every typed routine starts with, by number.
pub const FELT: TypeNo = TypeNo(0);
pub const BOOL: TypeNo = TypeNo(1);
pub const U32: TypeNo = TypeNo(2);
pub const UNIT: TypeNo = TypeNo(3);

/// A table whose aggregates can all be built: small counts, array sizes that a list can hold.
pub fn buildable(rng: &mut Rng, rows: usize) -> Vec<Type> {
    buildable_of(rng, rows, |rng| rng.below(10))
}

/// The same with kinds chosen by `kind`: to 3 a tuple, to 6 a struct, to 8 an array, 9 a pointer.
pub fn buildable_of(rng: &mut Rng, rows: usize, kind: impl Fn(&mut Rng) -> usize) -> Vec<Type> {
    let mut types = vec![Type::Felt, Type::Bool, Type::U32, Type::Unit];
    grow(rng, &mut types, rows, |rng, own| {
        let width = if rng.chance(6) { rng.pick(&[7, 8, 9, 16]) } else { rng.below(5) };
        let part = |rng: &mut Rng| {
            TypeNo(if rng.chance(50) { rng.below(3) } else { rng.below(own) } as u16)
        };
        match kind(rng) {
            0..=3 => Type::Tuple((0..width).map(|_| part(rng)).collect()),
            4..=6 => structure(rng, width, part),
            7..=8 => Type::FixedArray { element: part(rng), size: width as u32 },
            _ => Type::Pointer(part(rng)),
        }
    });
    types
}

/// A table of any rows; `wide` makes long lists the rule. As a rule the first rows are a small
/// aggregate of each kind.
pub fn any(rng: &mut Rng, rows: usize, wide: bool) -> Vec<Type> {
    let mut types = vec![rng.pick(&SCALARS).clone()];
    if rows >= 4 && rng.chance(85) {
        let [parts, fields, size] = [(); 3].map(|()| rng.within(1, 4));
        let part = |_: &mut Rng| TypeNo(0);
        types.push(Type::Tuple(vec![TypeNo(0); parts]));
        types.push(structure(rng, fields, part));
        types.push(Type::FixedArray { element: TypeNo(1), size: size as u32 });
    }
    grow(rng, &mut types, rows, |rng, own| {
        let width = list_length(rng, wide);
        let part = |rng: &mut Rng| TypeNo(rng.below(own) as u16);
        match rng.below(13) {
            0..=2 => rng.pick(&SCALARS).clone(),
            3 => Type::Pointer(part(rng)),
            4 => Type::Function {
                params: (0..width).map(|_| part(rng)).collect(),
                result: part(rng),
            },
            5..=7 => Type::Tuple((0..width).map(|_| part(rng)).collect()),
            8..=9 => structure(rng, width, part),
            _ => Type::FixedArray { element: part(rng), size: size(rng, width) },
        }
    });
    types
}

/// A table in which each row is a tuple of many of the row above: as trees, larger than memory.
pub fn deep(rows: usize, width: usize) -> Vec<Type> {
    let row = |own: usize| match own {
        0 => Type::Felt,
        _ => Type::Tuple(vec![TypeNo(own as u16 - 1); width]),
    };
    (0..rows).map(row).collect()
}

const SCALARS: [&Type; 6] =
    [&Type::Felt, &Type::Bool, &Type::U32, &Type::Unit, &Type::Error, &Type::Unknown];

/// Adds rows that no earlier row equals, until there are `rows`.
fn grow(
    rng: &mut Rng,
    types: &mut Vec<Type>,
    rows: usize,
    mut row: impl FnMut(&mut Rng, usize) -> Type,
) {
    while types.len() < rows {
        let next = row(rng, types.len());
        if !types.contains(&next) {
            types.push(next);
        }
    }
}

/// A struct of `width` fields with names of its own.
fn structure(rng: &mut Rng, width: usize, mut part: impl FnMut(&mut Rng) -> TypeNo) -> Type {
    let first = if rng.chance(90) { rng.below(4) } else { usize::from(u16::MAX) - width };
    let mut fields: Vec<(NameNo, TypeNo)> =
        (0..width).map(|i| (NameNo((first + i) as u16), part(rng))).collect();
    if width > 1 && rng.chance(30) {
        let (a, b) = (rng.below(width), rng.below(width));
        fields.swap(a, b);
    }
    let name = NameNo(if rng.chance(95) { rng.below(6) as u16 } else { rng.word() as u16 });
    Type::Struct { name, fields }
}

/// A FixedArray's size is no count: it may be any u32.
fn size(rng: &mut Rng, width: usize) -> u32 {
    match rng.below(10) {
        0 => rng.number(),
        1 => 17,
        _ => width as u32,
    }
}

/// A length for a list: short as a rule, or near its most.
pub fn list_length(rng: &mut Rng, wide: bool) -> usize {
    match rng.below(10) {
        _ if wide => rng.pick(&[0, most::LIST - 1, most::LIST, most::LIST]),
        0 => rng.pick(&[7, 8, 9, 10]),
        1 => rng.pick(&[most::LIST - 1, most::LIST]),
        _ => rng.below(5),
    }
}
