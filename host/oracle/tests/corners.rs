//! Corners of the Rust that the oracle must carry through: tokens for types, the one panic that is
//! a refusal, the settings.

use oracle::form::*;
use oracle::{read, run_oracle, write, Counts, Outcome, Settings, LENT};

const FELT: TypeNo = TypeNo(0);

/// A routine of one block that returns `returned`.
fn routine(types: Vec<Type>, recorded: &[u16], kinds: Vec<Kind>, returned: u16) -> Routine {
    Routine {
        types,
        entry: BlockNo(0),
        parameters: Vec::new(),
        recorded: recorded.iter().map(|ty| Some(TypeNo(*ty))).collect(),
        blocks: vec![Block {
            instructions: kinds.into_iter().map(Instruction::plain).collect(),
            terminator: Terminator::Return(vec![Value::Operand(ValueNo(returned))]),
        }],
    }
}

fn run(routine: &Routine, settings: Settings) -> Outcome {
    run_oracle(&write(routine), settings, LENT)
}

fn lowered(routine: &Routine, settings: Settings) -> (bool, Counts, Routine) {
    match run(routine, settings) {
        Outcome::Lowered { result, counts, output } => {
            (result, counts, read(&output).expect("a small output can be read"))
        }
        Outcome::Refused(refusal) => panic!("{refusal}"),
    }
}

fn array_of(count: usize, size: u32) -> Routine {
    let types =
        vec![Type::Felt, Type::Tuple(vec![FELT]), Type::FixedArray { element: TypeNo(1), size }];
    let elements = vec![Value::Integer(7); count];
    let build =
        Kind::MakeFixedArray { dest: ValueNo(0), elements, element_ty: TypeNo(1), is_const: true };
    routine(types, &[2], vec![build], 0)
}

/// "An array of another count panics: refusal 10."
#[test]
fn an_array_of_another_count_is_ten() {
    for count in [1, 3] {
        let Outcome::Refused(refusal) = run(&array_of(count, 2), Settings::default()) else {
            panic!("{count} is not 2");
        };
        assert_eq!(refusal.to_string(), "refused 10 0");
    }
}

/// "A rebuilt array has is_const false"; its element type is the type's, by number.
#[test]
fn a_rebuilt_array_names_its_element_type() {
    let (result, counts, after) = lowered(&array_of(2, 2), Settings::default());
    assert!(result);
    assert_eq!(counts, [1, 0, 0, 0, 1]);
    assert_eq!(after.recorded, [Some(TypeNo(2)); 2]);
    let rebuilt = Kind::MakeFixedArray {
        dest: ValueNo(1),
        elements: vec![Value::Integer(7); 2],
        element_ty: TypeNo(1),
        is_const: false,
    };
    assert_eq!(after.blocks[0].instructions, [Instruction::plain(rebuilt)]);
}

/// "A returned value recorded at a type that is no aggregate takes a number and a count, but no
/// instruction."
#[test]
fn a_return_at_no_aggregate_takes_a_number_alone() {
    let types = vec![Type::Felt, Type::Tuple(vec![FELT])];
    let build = Kind::MakeTuple { dest: ValueNo(0), elements: vec![Value::Unit] };
    let source = Value::Operand(ValueNo(0));
    let copy = Kind::Assign { dest: ValueNo(1), source, ty: TypeNo(1) };
    let before = routine(types, &[1, 0], vec![build, copy], 1);
    let (_, counts, after) = lowered(&before, Settings::default());
    assert_eq!(counts, [1, 0, 0, 1, 1]);
    assert_eq!(after.recorded, [Some(TypeNo(1)), Some(FELT), Some(FELT)]);
    assert_eq!(after.blocks[0].instructions, []);
    let returned = Terminator::Return(vec![Value::Operand(ValueNo(2))]);
    assert_eq!(after.blocks[0].terminator, returned);
}

/// A table that is larger than memory as trees goes through.
#[test]
fn deep_types_go_through() {
    let row = |own: u16| match own {
        0 => Type::Felt,
        own => Type::Tuple(vec![TypeNo(own - 1); most::LIST]),
    };
    let types: Vec<Type> = (0..most::TYPES as u16).map(row).collect();
    let last = types.len() as u16 - 1;
    let build = Kind::MakeTuple { dest: ValueNo(0), elements: vec![Value::Unit; most::LIST] };
    let before = routine(types.clone(), &[last], vec![build], 0);
    let wide = Settings { max_aggregate_size: 16, ..Settings::default() };
    let (_, counts, after) = lowered(&before, wide);
    assert_eq!(counts, [1, 0, 0, 0, 1]);
    assert_eq!(after.types, types);
    assert_eq!(after.recorded, [Some(TypeNo(last)); 2]);
    assert!(!lowered(&before, Settings::default()).0);
}

/// "A flag is on when its number is not 0"; "a false result means an unchanged routine".
#[test]
fn flags_are_on_when_not_zero() {
    let before = array_of(2, 2);
    let with = |enable_tuples| Settings { enable_tuples, ..Settings::default() };
    let (result, counts, after) = lowered(&before, with(0));
    assert_eq!((result, counts), (false, [0; 5]));
    assert_eq!(after, before);
    assert!(lowered(&before, with(u64::MAX)).0);
}
