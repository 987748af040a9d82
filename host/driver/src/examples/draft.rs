//! What the examples are made of: a few types, instructions and whole routines.

use oracle::form::*;

pub const FELT: TypeNo = TypeNo(0);

/// Two Felts, where a table begins with [`pair_types`].
pub const PAIR: TypeNo = TypeNo(1);

pub fn pair_types() -> Vec<Type> {
    vec![Type::Felt, Type::Tuple(vec![FELT, FELT])]
}

pub fn value(number: u16) -> Value {
    Value::Operand(ValueNo(number))
}

pub fn integers<const N: usize>(numbers: [u32; N]) -> Vec<Value> {
    numbers.map(Value::Integer).to_vec()
}

pub fn tuple(dest: u16, elements: Vec<Value>) -> Kind {
    Kind::MakeTuple { dest: ValueNo(dest), elements }
}

/// A part of a tuple.
pub fn part(dest: u16, tuple: u16, index: u32, element_ty: TypeNo) -> Kind {
    Kind::ExtractTupleElement { dest: ValueNo(dest), tuple: value(tuple), index, element_ty }
}

pub fn sum(dest: u16, left: u16, right: u16) -> Kind {
    Kind::BinaryOp { op: 0, dest: ValueNo(dest), left: value(left), right: value(right) }
}

pub fn array(dest: u16, elements: Vec<Value>, element_ty: TypeNo) -> Kind {
    Kind::MakeFixedArray { dest: ValueNo(dest), elements, element_ty, is_const: false }
}

pub fn element(index: u32) -> Projection {
    Projection::Index(Value::Integer(index))
}

pub fn place(base: u16, projections: Vec<Projection>) -> Place {
    Place { base: ValueNo(base), projections }
}

pub fn load(dest: u16, place: Place) -> Kind {
    Kind::Load { dest: ValueNo(dest), place, ty: FELT }
}

pub fn store(place: Place, value: Value, ty: TypeNo) -> Kind {
    Kind::Store { place, value, ty }
}

pub fn returned(number: u16) -> Terminator {
    Terminator::Return(vec![value(number)])
}

pub fn block(kinds: Vec<Kind>, terminator: Terminator) -> Block {
    Block { instructions: kinds.into_iter().map(Instruction::plain).collect(), terminator }
}

/// A routine without parameters, and the recorded type of each value.
pub fn routine(types: Vec<Type>, recorded: &[TypeNo], blocks: Vec<Block>) -> Routine {
    let recorded = recorded.iter().map(|ty| Some(*ty)).collect();
    Routine { types, entry: BlockNo(0), parameters: Vec::new(), recorded, blocks }
}

/// The same with value 0, which is `n`, as its parameter.
pub fn of_n(types: Vec<Type>, recorded: &[TypeNo], blocks: Vec<Block>) -> Routine {
    Routine { parameters: vec![ValueNo(0)], ..routine(types, recorded, blocks) }
}
