//! Damaged inputs: a valid routine with one to three things wrong, in its fields or its bytes.

use oracle::form::{kinds, most, Routine};
use oracle::Class;

use crate::damage_routine;
use crate::fields::{Field, Marked};
use crate::rng::Rng;

/// The bytes of a damaged routine.
pub fn damaged(rng: &mut Rng, mut routine: Routine) -> Vec<u8> {
    if rng.chance(40) {
        damage_routine::damage(rng, &mut routine);
        if rng.chance(70) {
            return oracle::write(&routine);
        }
    }
    let mut marked = Marked::of(&routine);
    let times = if rng.chance(80) { 1 } else { rng.within(2, 3) };
    for _ in 0..times {
        damage_field(rng, &mut marked);
    }
    let mut bytes = marked.bytes;
    if rng.chance(30) {
        damage_bytes(rng, &mut bytes);
    }
    bytes
}

/// Puts another number into one field.
fn damage_field(rng: &mut Rng, marked: &mut Marked) {
    let field = some_field(rng, marked);
    let number = match rng.below(6) {
        0 => same_class(rng, marked, field.class).map_or(0, |other| marked.get(other)),
        1 => swap(rng, marked, field),
        2 => marked.get(field) ^ (1 << rng.below(8 * field.width)),
        _ => edge(rng, field.class),
    };
    marked.set(field, number);
}

/// A field: any one, or one of a class, so that rare classes are met too.
fn some_field(rng: &mut Rng, marked: &Marked) -> Field {
    let any = rng.pick(&marked.fields);
    if rng.chance(40) {
        return any;
    }
    let class = rng.pick(&Class::ALL);
    same_class(rng, marked, class).unwrap_or(any)
}

fn same_class(rng: &mut Rng, marked: &Marked, class: Class) -> Option<Field> {
    let fields: Vec<Field> = marked.fields.iter().filter(|f| f.class == class).copied().collect();
    rng.pick_some(&fields)
}

/// Gives the number of another field of the class, and puts this field's number there.
fn swap(rng: &mut Rng, marked: &mut Marked, field: Field) -> u64 {
    let own = marked.get(field);
    match same_class(rng, marked, field.class).filter(|other| other.width == field.width) {
        Some(other) => {
            let number = marked.get(other);
            marked.set(other, own);
            number
        }
        None => own,
    }
}

/// A number at the edge of what the class takes: the last that is good, or the first that is not.
fn edge(rng: &mut Rng, class: Class) -> u64 {
    let limit = match class {
        Class::TypeCount => most::TYPES + 1,
        Class::NextValue => most::NEXT_VALUE + 1,
        Class::BlockCount => most::BLOCKS + 1,
        Class::InstructionCount => most::IN_BLOCK + 1,
        Class::ListCount | Class::ReturnCount => most::LIST + 1,
        Class::ProjectionCount => most::PROJECTIONS + 1,
        Class::TypeKind => usize::from(kinds::TYPES),
        Class::ValueKind => usize::from(kinds::VALUES),
        Class::InstructionKind => usize::from(kinds::INSTRUCTIONS),
        Class::ProjectionKind => usize::from(kinds::PROJECTIONS),
        Class::TerminatorKind => usize::from(kinds::TERMINATORS),
        Class::BinaryOp => usize::from(kinds::BINARY_OPS),
        Class::UnaryOp => usize::from(kinds::UNARY_OPS),
        Class::Boolean => 2,
        Class::InstructionBits => 16,
        Class::ValueBits => return rng.word() & 0xff,
        Class::TypePart | Class::TypeUse | Class::ValueUse | Class::ValueDef => 64,
        Class::BlockUse => most::BLOCKS,
        Class::FieldName | Class::Plain => 4,
    } as u64;
    match rng.below(6) {
        0 => limit - 1,
        1 => rng.below(limit as usize) as u64,
        2 => u64::MAX,
        3 => rng.word(),
        _ => limit,
    }
}

/// Changes bytes without looking at fields.
fn damage_bytes(rng: &mut Rng, bytes: &mut Vec<u8>) {
    let at = rng.below(bytes.len() + 1);
    match rng.below(6) {
        0..=1 => bytes.truncate(at),
        2 => bytes.insert(at, rng.word() as u8),
        3 => {
            let end = (at + rng.within(1, 4)).min(bytes.len());
            bytes.drain(at..end);
        }
        4 => {
            let extra = rng.within(1, 4);
            bytes.extend((0..extra).map(|_| rng.word() as u8));
        }
        _ => {
            if let Some(byte) = bytes.get_mut(at) {
                *byte = rng.word() as u8;
            }
        }
    }
}
