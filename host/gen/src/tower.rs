//! Towers: each level holds the one below twice, so that edition 2 makes 2^n - 1 rebuilds for one reading of
//! level n. With a few readings a wanted number of rebuilds is made exactly, next to the mosts.

use oracle::form::*;

use crate::draft::Draft;
use crate::rng::Rng;

/// What a tower comes to.
#[derive(Debug, Clone, Copy, PartialEq, Eq)]
pub enum Case {
    /// This next value.
    Next(usize),
    /// So many instructions in the block.
    Lines(usize),
    /// This next value, in a second block.
    LaterNext(usize),
    /// So many instructions in a second block.
    LaterLines(usize),
    /// More than there can be, with a loop or an array of another count before it or behind it.
    Faulty,
}

/// The most of both.
const MOST: usize = 65_535;

/// How many levels there are as a rule.
const LEVELS: usize = 12;

pub fn routine(rng: &mut Rng) -> Routine {
    let near = MOST - 1 + rng.below(3);
    let case = match rng.below(6) {
        0 => Case::Next(near),
        1 => Case::Lines(near),
        2 => Case::LaterNext(near),
        3 => Case::LaterLines(near),
        _ => Case::Faulty,
    };
    of(rng, case)
}

/// A tower that comes to exactly that.
pub fn of(rng: &mut Rng, case: Case) -> Routine {
    let levels = rng.within(LEVELS - 1, LEVELS + 1);
    let mut draft = Draft::new(rng, types(levels), most::IN_ALL);
    let two = matches!(case, Case::LaterNext(_) | Case::LaterLines(_));
    let mut before = 0;
    if two {
        let tower = tower(&mut draft, levels);
        before = if matches!(case, Case::LaterNext(_)) {
            draft.rng.below(60_000)
        } else {
            draft.rng.below(8)
        };
        debugs(&mut draft, shares(&readings(&tower, before)));
        draft.close(Terminator::Jump(BlockNo(1)));
    }
    let tower = tower(&mut draft, levels);
    let fault = (case == Case::Faulty).then(|| faulty(&mut draft));
    let mut nops = 0;
    let last = match case {
        Case::Next(next) | Case::LaterNext(next) => next - draft.recorded.len() - before,
        Case::Faulty => MOST + 1 - draft.recorded.len() + draft.rng.below(100),
        Case::Lines(lines) | Case::LaterLines(lines) => {
            // As many Nops as there are values, and some more, so that the lines are full first.
            nops = draft.rng.within(draft.recorded.len() + before + 2, 80);
            lines - nops - DEBUGS
        }
    };
    let shown = readings(&tower, last);
    let first = draft.rng.below(nops + 1);
    (0..first).for_each(|_| draft.push(Kind::Nop));
    let returned = show(&mut draft, &shown, fault);
    (first..nops).for_each(|_| draft.push(Kind::Nop));
    draft.close(Terminator::Return(returned));
    draft.finish(BlockNo(0))
}

/// Felt; the levels, by turns tuples, structs and arrays; a tuple of one Felt and an array of two.
fn types(levels: usize) -> Vec<Type> {
    let level = |at: usize| {
        let part = TypeNo(at as u16);
        match at % 4 {
            1 => {
                Type::Struct { name: NameNo(0), fields: vec![(NameNo(1), part), (NameNo(2), part)] }
            }
            2 => Type::FixedArray { element: part, size: 2 },
            _ => Type::Tuple(vec![part, part]),
        }
    };
    let ends = [Type::Tuple(vec![TypeNo(0)]), Type::FixedArray { element: TypeNo(0), size: 2 }];
    [Type::Felt].into_iter().chain((0..levels).map(level)).chain(ends).collect()
}

/// The values of the levels, from the first: a build, then an insert or, of an array, a copy, which is no
/// parent.
fn tower(draft: &mut Draft, levels: usize) -> Vec<ValueNo> {
    let mut tower = Vec::new();
    let mut below = Value::Integer(7);
    for ty in (1..=levels as u16).map(TypeNo) {
        let [build, dest] = [(); 2].map(|()| draft.fresh(Some(ty)));
        let whole = Value::Operand(build);
        let (first, second) = match draft.row(ty).clone() {
            Type::Struct { fields, .. } => {
                let given = fields.iter().map(|(name, _)| (*name, below)).collect();
                let (field_name, struct_ty) = (fields[1].0, ty);
                let insert = InsertField {
                    dest,
                    struct_val: whole,
                    field_name,
                    new_value: below,
                    struct_ty,
                };
                (
                    Kind::MakeStruct { dest: build, fields: given, struct_ty: ty },
                    Kind::InsertField(insert),
                )
            }
            Type::FixedArray { element, .. } => {
                let elements = vec![below; 2];
                (
                    Kind::MakeFixedArray {
                        dest: build,
                        elements,
                        element_ty: element,
                        is_const: true,
                    },
                    Kind::Assign { dest, source: whole, ty },
                )
            }
            _ => {
                let insert = InsertTuple {
                    dest,
                    tuple_val: whole,
                    index: 1,
                    new_value: below,
                    tuple_ty: ty,
                };
                (
                    Kind::MakeTuple { dest: build, elements: vec![below; 2] },
                    Kind::InsertTuple(insert),
                )
            }
        };
        draft.push(first);
        draft.push(second);
        tower.push(dest);
        below = Value::Operand(dest);
    }
    tower
}

/// Readings of levels that make so many rebuilds in all, the highest first.
fn readings(tower: &[ValueNo], rebuilds: usize) -> Vec<Value> {
    let mut left = rebuilds;
    let mut readings = Vec::new();
    for (at, value) in tower.iter().enumerate().rev() {
        let own = (2 << at) - 1;
        readings.extend(vec![Value::Operand(*value); left / own]);
        left %= own;
    }
    readings
}

/// A value that is part of itself, or an array of another count; at times as a part of a tuple.
fn faulty(draft: &mut Draft) -> Value {
    let last = draft.types.len() as u16;
    let (one, array) = (TypeNo(last - 2), TypeNo(last - 1));
    let fault = if draft.rng.chance(50) {
        let dest = draft.fresh(Some(one));
        draft.push(Kind::MakeTuple { dest, elements: vec![Value::Operand(dest)] });
        dest
    } else {
        let dest = draft.fresh(Some(array));
        let elements = vec![Value::Integer(1); 3];
        draft.push(Kind::MakeFixedArray { dest, elements, element_ty: TypeNo(0), is_const: false });
        dest
    };
    let fault = Value::Operand(fault);
    if draft.rng.chance(50) {
        return fault;
    }
    let [build, dest] = [(); 2].map(|()| draft.fresh(Some(one)));
    draft.push(Kind::MakeTuple { dest: build, elements: vec![Value::Unit] });
    let tuple_val = Value::Operand(build);
    let insert = InsertTuple { dest, tuple_val, index: 0, new_value: fault, tuple_ty: one };
    draft.push(Kind::InsertTuple(insert));
    Value::Operand(dest)
}

/// So many Debugs take all readings.
const DEBUGS: usize = 4;

/// The readings, about as many for each Debug.
fn shares(readings: &[Value]) -> Vec<Vec<Value>> {
    let share = |debug: usize| readings.len() * debug / DEBUGS;
    (0..DEBUGS).map(|debug| readings[share(debug)..share(debug + 1)].to_vec()).collect()
}

fn debugs(draft: &mut Draft, values: Vec<Vec<Value>>) {
    for values in values {
        draft.push(Kind::Debug { message: 0, values });
    }
}

/// Debugs of the readings, and one of another value somewhere between them; at times the last of the readings
/// are to be returned, and their Debug is empty.
fn show(draft: &mut Draft, readings: &[Value], other: Option<Value>) -> Vec<Value> {
    let mut values = shares(readings);
    let last = values.last_mut().filter(|_| draft.rng.chance(50));
    let returned = last.map(std::mem::take).unwrap_or_default();
    if let Some(other) = other {
        let at = draft.rng.below(values.len() + 1);
        values.insert(at, vec![other]);
    }
    debugs(draft, values);
    returned
}

/// Sixteen levels over parameters, and one Debug: 33 instructions, and more rebuilds than there are numbers.
pub fn sixteen() -> Routine {
    let mut rng = Rng::new(0);
    let types: Vec<Type> = (0..=16)
        .map(|at| match at {
            0 => Type::Felt,
            _ => Type::Tuple(vec![TypeNo(at - 1); 2]),
        })
        .collect();
    let mut draft = Draft::new(&mut rng, types, most::IN_ALL);
    draft.parameters = (0..16).map(|at| draft.fresh(Some(TypeNo(at)))).collect();
    let mut kinds = Vec::new();
    let mut below = Value::Integer(7);
    for level in 0..16 {
        let ty = TypeNo(level + 1);
        let [build, dest] = [(); 2].map(|()| draft.fresh(Some(ty)));
        let elements = vec![below, Value::Operand(ValueNo(level))];
        kinds.push(Kind::MakeTuple { dest: build, elements });
        let tuple_val = Value::Operand(build);
        let insert = InsertTuple { dest, tuple_val, index: 1, new_value: below, tuple_ty: ty };
        kinds.push(Kind::InsertTuple(insert));
        below = Value::Operand(dest);
    }
    kinds.push(Kind::Debug { message: 0, values: vec![below] });
    draft.open = kinds.into_iter().map(Instruction::plain).collect();
    draft.close(Terminator::Return(Vec::new()));
    draft.finish(BlockNo(0))
}
