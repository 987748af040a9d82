//! The pass's own families, and what it asks of them, against the crate `families`.

use std::collections::BTreeSet;

use families::{Family, families};
use inputs::Sort;
use oracle::form::{self, Kind, Routine, Type, ValueNo};

use super::*;
use crate::Place;

fn id(value: ValueNo) -> ValueId {
    ValueId::new(value.index())
}

fn value(value: &form::Value) -> Value {
    match *value {
        form::Value::Integer(n) => Value::integer(n),
        form::Value::Boolean(b) => Value::boolean(b),
        form::Value::Unit => Value::unit(),
        form::Value::Operand(v) => Value::operand(id(v)),
        form::Value::Error => Value::error(),
    }
}

fn values(values: &[form::Value]) -> Vec<Value> {
    values.iter().map(value).collect()
}

/// A type by its kind and its count.
fn ty(row: &Type) -> MirType {
    let felts = |count| vec![MirType::Felt; count];
    match row {
        Type::Tuple(parts) => MirType::Tuple(felts(parts.len())),
        Type::Struct { fields, .. } => {
            let fields = felts(fields.len()).into_iter().map(|ty| (String::new(), ty)).collect();
            MirType::Struct { name: String::new(), fields }
        }
        Type::FixedArray { size, .. } => {
            MirType::FixedArray { element_type: Box::new(MirType::Felt), size: *size as usize }
        }
        _ => MirType::Felt,
    }
}

fn place(place: &form::Place) -> Place {
    let step = |projection: &form::Projection| match projection {
        form::Projection::Index(v) => Projection::Index(value(v)),
        form::Projection::Field(_) => Projection::Field(String::new()),
        form::Projection::Tuple(at) => Projection::Tuple(*at as usize),
    };
    Place { base: id(place.base), projections: place.projections.iter().map(step).collect() }
}

/// An instruction that has the same to do with families: most kinds as a Call that reads the same.
fn kind(routine: &Routine, kind: &Kind) -> InstructionKind {
    use InstructionKind as K;
    let named = |number: &form::TypeNo| ty(&routine.types[number.index()]);
    match kind {
        Kind::Assign { dest, source, ty } => {
            K::Assign { dest: id(*dest), source: value(source), ty: named(ty) }
        }
        Kind::InsertTuple(insert) => K::InsertTuple {
            dest: id(insert.dest),
            tuple_val: value(&insert.tuple_val),
            index: insert.index as usize,
            new_value: value(&insert.new_value),
            tuple_ty: named(&insert.tuple_ty),
        },
        Kind::InsertField(insert) => K::InsertField {
            dest: id(insert.dest),
            struct_val: value(&insert.struct_val),
            field_name: String::new(),
            new_value: value(&insert.new_value),
            struct_ty: named(&insert.struct_ty),
        },
        Kind::MakeTuple { dest, elements } => {
            K::MakeTuple { dest: id(*dest), elements: values(elements) }
        }
        Kind::MakeStruct { dest, fields, struct_ty } => K::MakeStruct {
            dest: id(*dest),
            fields: fields.iter().map(|(_, v)| (String::new(), value(v))).collect(),
            struct_ty: named(struct_ty),
        },
        Kind::MakeFixedArray { dest, elements, element_ty, is_const } => K::MakeFixedArray {
            dest: id(*dest),
            elements: values(elements),
            element_ty: named(element_ty),
            is_const: *is_const,
        },
        Kind::Load { dest, place: from, ty } => {
            K::Load { dest: id(*dest), place: place(from), ty: named(ty) }
        }
        Kind::Store { place: to, value: stored, ty } => {
            K::Store { place: place(to), value: value(stored), ty: named(ty) }
        }
        Kind::Debug { values: shown, .. } => {
            K::Debug { message: String::new(), values: values(shown) }
        }
        other => K::Call {
            dests: other.dests().iter().map(|v| id(*v)).collect(),
            callee: crate::FunctionId::new(0),
            args: values(&other.values()),
            signature: crate::CalleeSignature { param_types: Vec::new(), return_types: Vec::new() },
        },
    }
}

/// A function whose families are those of the routine.
fn function(routine: &Routine) -> MirFunction {
    let instruction = |i: &form::Instruction| Instruction {
        kind: kind(routine, &i.kind),
        source_span: None,
        source_expr_id: None,
        comment: None,
    };
    let block = |block: &form::Block| {
        let mut made = crate::BasicBlock::new();
        made.instructions = block.instructions.iter().map(instruction).collect();
        made.terminator = crate::Terminator::return_values(values(&block.terminator.values()));
        made
    };
    let mut function = MirFunction::new(String::new());
    function.basic_blocks = routine.blocks.iter().map(block).collect();
    for recorded in &routine.recorded {
        let id = function.new_value_id();
        if let Some(row) = routine.row(*recorded) {
            function.set_value_type(id, ty(row));
        }
    }
    function
}

/// The members of families that the pass keeps for being read in another block: of builds that it
/// could take apart by their recorded types. A Debug is no read.
fn crossing(routine: &Routine, families: &[Family]) -> BTreeSet<ValueNo> {
    let read = |block: &form::Block| -> Vec<form::Value> {
        let kinds = block.instructions.iter().map(|i| &i.kind);
        let kinds = kinds.filter(|kind| !matches!(kind, Kind::Debug { .. }));
        kinds.flat_map(Kind::values).chain(block.terminator.values()).collect()
    };
    let reads: Vec<Vec<form::Value>> = routine.blocks.iter().map(read).collect();
    let is_small = |family: &&Family| {
        let row = routine.row(routine.recorded_type(family.dest));
        row.and_then(Type::count).is_some_and(|count| count <= 8)
    };
    let is_read = |family: &&Family| {
        let others = reads.iter().enumerate().filter(|(at, _)| *at != family.block);
        let is_member = |value: &form::Value| match value {
            form::Value::Operand(v) => family.members.contains(v),
            _ => false,
        };
        others.flat_map(|(_, values)| values).any(is_member)
    };
    let crossing = families.iter().filter(is_small).filter(is_read);
    crossing.flat_map(|family| &family.members).copied().collect()
}

fn sorted(values: FxHashSet<ValueId>) -> Vec<usize> {
    let mut values: Vec<usize> = values.into_iter().map(ValueId::index).collect();
    values.sort_unstable();
    values
}

fn indices(values: &BTreeSet<ValueNo>) -> Vec<usize> {
    values.iter().map(|v| v.index()).collect()
}

/// Members, dynamic uses and members read in other blocks are what the pass finds.
#[test]
fn families_are_those_of_the_pass() {
    let pass = ScalarReplacementOfAggregates::new();
    for (sort, count) in [(Sort::Copies, 1500), (Sort::Typed, 500), (Sort::Wild, 1500)] {
        for number in 0..count {
            let bytes = inputs::of_sort(&mut inputs::Rng::of(31, number), sort);
            let routine = oracle::read(&bytes).expect("the sort has routines");
            let (families, function) = (families(&routine), function(&routine));
            let from = format!("{} {number}", sort.name());
            for family in &families {
                let block = BasicBlockId::from_raw(family.block);
                let instructions = &function.basic_blocks[block].instructions;
                let root = id(family.dest);
                let members = pass.build_aggregate_family(root, instructions, &function);
                assert_eq!(indices(&family.members), sorted(members), "{from}");
                let dynamic =
                    pass.array_family_has_dynamic_index_use(root, instructions, &function);
                assert_eq!(family.dynamic, dynamic, "{from}");
            }
            let cross = pass.find_cross_block_aggregates(&function);
            assert_eq!(indices(&crossing(&routine, &families)), sorted(cross), "{from}");
        }
    }
}
