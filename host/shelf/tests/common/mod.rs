//! Small routines: a parameter of each type, and kinds behind them.

#![allow(dead_code)]

use oracle::form::*;
use oracle::{run_routine, Settings};
use shelf::{dropped, reason};

pub const FELT: u16 = 0;
pub const BOOL: u16 = 1;
pub const U32: u16 = 2;
pub const UNIT: u16 = 3;
pub const PAIR: u16 = 4;
pub const POINT: u16 = 5;
pub const ROW: u16 = 6;
pub const PLACE: u16 = 7;
pub const UNKNOWN: u16 = 8;
pub const EMPTY: u16 = 9;
pub const FAR: u16 = 10;
pub const PAIRS: u16 = 11;
pub const OUTER: u16 = 12;
pub const HOLDER: u16 = 13;

pub fn types() -> Vec<Type> {
    let [felt, bool, pair, row] = [FELT, BOOL, PAIR, ROW].map(TypeNo);
    vec![
        Type::Felt,
        Type::Bool,
        Type::U32,
        Type::Unit,
        Type::Tuple(vec![felt, felt]),
        Type::Struct { name: NameNo(0), fields: vec![(NameNo(5), felt), (NameNo(4), bool)] },
        Type::FixedArray { element: felt, size: 2 },
        Type::Pointer(pair),
        Type::Unknown,
        Type::Tuple(vec![]),
        Type::Pointer(TypeNo(PLACE)),
        Type::FixedArray { element: pair, size: 1 },
        Type::Tuple(vec![pair]),
        Type::Tuple(vec![row]),
    ]
}

pub fn v(n: u16) -> Value {
    Value::Operand(ValueNo(n))
}

pub fn int(n: u32) -> Value {
    Value::Integer(n)
}

/// The first number behind the parameters, of which there is one for each type, in order.
pub const D: u16 = 14;
pub const DEST: ValueNo = ValueNo(D);

/// A routine of one block with the parameters, and `recorded` for the values behind them.
pub fn routine(recorded: &[u16], kinds: Vec<Kind>, terminator: Terminator) -> Routine {
    let values = (0..D).chain(recorded.iter().copied());
    let instructions = kinds.into_iter().map(Instruction::plain).collect();
    Routine {
        types: types(),
        entry: BlockNo(0),
        parameters: (0..D).map(ValueNo).collect(),
        recorded: values.map(|ty| Some(TypeNo(ty))).collect(),
        blocks: vec![Block { instructions, terminator }],
    }
}

pub fn reason_of(routine: &Routine) -> u8 {
    let lowered = run_routine(routine.clone(), Settings::default()).expect("no array clashes");
    reason(routine, &lowered.routine, &dropped(routine, &lowered.routine))
}

pub fn place(base: u16, projections: &[Projection]) -> Place {
    Place { base: ValueNo(base), projections: projections.to_vec() }
}

pub fn index(n: u32) -> Projection {
    Projection::Index(int(n))
}

pub fn tuple(dest: u16, elements: &[Value]) -> Kind {
    Kind::MakeTuple { dest: ValueNo(dest), elements: elements.to_vec() }
}

pub fn array(dest: u16, elements: &[Value], element_ty: u16) -> Kind {
    let elements = elements.to_vec();
    let (dest, element_ty) = (ValueNo(dest), TypeNo(element_ty));
    Kind::MakeFixedArray { dest, elements, element_ty, is_const: false }
}

pub fn assign(dest: u16, source: Value, ty: u16) -> Kind {
    Kind::Assign { dest: ValueNo(dest), source, ty: TypeNo(ty) }
}

pub fn load(place: Place, ty: u16) -> Kind {
    Kind::Load { dest: DEST, place, ty: TypeNo(ty) }
}

pub fn store(place: Place, value: Value, ty: u16) -> Kind {
    Kind::Store { place, value, ty: TypeNo(ty) }
}
