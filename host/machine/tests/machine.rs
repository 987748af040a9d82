//! Document 01's sentences about the machine, one small routine each.

use machine::{run, Cause, Datum, End, Event, Hashed, List, Literal, Meaning};
use machine::{Plain, Silent, Standing, Step, Trace};
use oracle::form::*;

const FELT: TypeNo = TypeNo(0);
const PAIR: TypeNo = TypeNo(1);
const POINT: TypeNo = TypeNo(2);
const ROW: TypeNo = TypeNo(3);
const PLACE: TypeNo = TypeNo(4);
const BOOL: TypeNo = TypeNo(5);

/// Felt, a pair of it, a struct of the fields 5 and 4, an array of two pairs, a pointer, Bool.
fn types() -> Vec<Type> {
    let fields = vec![(NameNo(5), FELT), (NameNo(4), FELT)];
    vec![
        Type::Felt,
        Type::Tuple(vec![FELT, FELT]),
        Type::Struct { name: NameNo(0), fields },
        Type::FixedArray { element: PAIR, size: 2 },
        Type::Pointer(FELT),
        Type::Bool,
        Type::Unknown,
    ]
}

fn block(kinds: Vec<Kind>, terminator: Terminator) -> Block {
    Block { instructions: kinds.into_iter().map(Instruction::plain).collect(), terminator }
}

fn routine(recorded: &[TypeNo], parameters: &[u16], blocks: Vec<Block>) -> Routine {
    Routine {
        types: types(),
        entry: BlockNo(0),
        parameters: parameters.iter().map(|p| ValueNo(*p)).collect(),
        recorded: recorded.iter().map(|ty| Some(*ty)).collect(),
        blocks,
    }
}

/// One block that returns `returned`, with all its blocks run.
fn one(recorded: &[TypeNo], kinds: Vec<Kind>, returned: &[Value], list: &[Datum]) -> Trace {
    traced(&routine(recorded, &[], vec![block(kinds, returns(returned))]), list, 9)
}

fn traced(routine: &Routine, list: &[Datum], blocks: usize) -> Trace {
    run(routine, &Plain, &mut List(list), blocks).trace
}

fn returns(values: &[Value]) -> Terminator {
    Terminator::Return(values.to_vec())
}

fn v(n: u16) -> Value {
    Value::Operand(ValueNo(n))
}

fn int(n: u32) -> Value {
    Value::Integer(n)
}

fn num(n: u32) -> Datum {
    Datum::Number(n)
}

fn pair(a: u32, b: u32) -> Datum {
    Datum::parts(vec![num(a), num(b)])
}

fn tuple(dest: u16, elements: &[Value]) -> Kind {
    Kind::MakeTuple { dest: ValueNo(dest), elements: elements.to_vec() }
}

fn array(dest: u16, elements: &[Value]) -> Kind {
    let elements = elements.to_vec();
    Kind::MakeFixedArray { dest: ValueNo(dest), elements, element_ty: PAIR, is_const: false }
}

fn place(base: u16, projections: &[Projection]) -> Place {
    Place { base: ValueNo(base), projections: projections.to_vec() }
}

fn load(dest: u16, place: Place) -> Kind {
    Kind::Load { dest: ValueNo(dest), place, ty: FELT }
}

fn store(place: Place, value: Value) -> Kind {
    Kind::Store { place, value, ty: FELT }
}

fn phi(dest: u16, sources: &[(u16, Value)]) -> Kind {
    let sources = sources.iter().map(|(block, value)| (BlockNo(*block), *value)).collect();
    Kind::Phi { dest: ValueNo(dest), ty: FELT, sources }
}

fn returned(trace: &Trace) -> &[Datum] {
    assert_eq!(trace.standing, Standing::Ended(End::Return));
    match trace.record.last() {
        Some(Event::Return { values }) => values,
        other => panic!("{other:?}"),
    }
}

fn stopped(cause: Cause) -> Standing {
    Standing::Stopped(cause)
}

/// "a struct's in its type's field order", whatever order the build has.
#[test]
fn structs_go_by_their_types_order() {
    let build = Kind::MakeStruct {
        dest: ValueNo(0),
        fields: vec![(NameNo(4), int(1)), (NameNo(5), int(2))],
        struct_ty: POINT,
    };
    let extract = Kind::ExtractStructField {
        dest: ValueNo(1),
        struct_val: v(0),
        field_name: NameNo(4),
        field_ty: FELT,
    };
    let insert = Kind::InsertField(InsertField {
        dest: ValueNo(2),
        struct_val: v(0),
        field_name: NameNo(5),
        new_value: int(9),
        struct_ty: POINT,
    });
    let trace = one(&[POINT, FELT, POINT], vec![build, extract, insert], &[v(0), v(1), v(2)], &[]);
    assert_eq!(returned(&trace), [pair(2, 1), num(1), pair(9, 1)]);
}

/// Builds, copies and inserts copy; a Store changes the one value.
#[test]
fn a_store_changes_one_value_alone() {
    let first = Projection::Index(int(0));
    let kinds = vec![
        tuple(0, &[int(1), int(2)]),
        array(1, &[v(0), v(0)]),
        Kind::Assign { dest: ValueNo(2), source: v(1), ty: ROW },
        store(place(1, &[first, Projection::Tuple(1)]), int(7)),
        load(3, place(1, &[first])),
        store(place(0, &[]), v(3)),
    ];
    let trace = one(&[PAIR, ROW, ROW, PAIR], kinds, &[v(0), v(1), v(2)], &[]);
    let old = Datum::parts(vec![pair(1, 2), pair(1, 2)]);
    let new = Datum::parts(vec![pair(1, 7), pair(1, 2)]);
    assert_eq!(returned(&trace), [pair(1, 7), new, old]);
}

/// "their kind, callee, place steps and values are recorded, the reply comes from outside".
#[test]
fn outside_events_are_recorded_and_replied_to() {
    let steps = [Projection::Index(v(1)), Projection::Field(NameNo(5)), Projection::Tuple(3)];
    let call = Kind::Call(Call {
        dests: vec![ValueNo(1), ValueNo(2)],
        callee: 6,
        args: vec![v(0)],
        param_types: vec![PLACE],
        return_types: vec![FELT, PAIR],
    });
    let kinds = vec![
        Kind::HeapAllocCells { dest: ValueNo(0), cells: int(3) },
        call,
        load(3, place(0, &steps)),
        store(place(0, &[]), v(3)),
    ];
    let list = [Datum::Address(8), num(2), pair(1, 1), num(5)];
    let trace = one(&[PLACE, FELT, PAIR, FELT], kinds, &[], &list);
    let pointer = Datum::Address(8);
    let walked = vec![Step::Index(num(2)), Step::Field(NameNo(5)), Step::Tuple(3)];
    let expected = [
        Event::HeapAllocCells { cells: num(3) },
        Event::Call { callee: 6, args: vec![pointer.clone()] },
        Event::Load { pointer: pointer.clone(), steps: walked },
        Event::Store { pointer, steps: vec![], value: num(5) },
        Event::Return { values: vec![] },
    ];
    assert_eq!(trace.record, expected);
    assert_eq!(trace.standing, Standing::Ended(End::Return));
}

/// An event whose reply is missing or of another type is recorded, and then the run stops.
#[test]
fn a_bad_reply_stops_after_the_record() {
    let alloc = |ty| {
        one(&[ty], vec![Kind::HeapAllocCells { dest: ValueNo(0), cells: int(1) }], &[], &[num(1)])
    };
    assert_eq!(alloc(FELT).standing, Standing::Ended(End::Return));
    assert_eq!(alloc(PLACE).standing, stopped(Cause::NoValue));
    assert_eq!(alloc(TypeNo(6)).standing, stopped(Cause::NoValue));
    assert_eq!(alloc(PLACE).record, [Event::HeapAllocCells { cells: num(1) }]);
    let short =
        one(&[PLACE], vec![Kind::HeapAllocCells { dest: ValueNo(0), cells: int(1) }], &[], &[]);
    assert_eq!(short.standing, stopped(Cause::NoReply));
    assert_eq!(short.record.len(), 1);
}

/// A bad parameter has stopped the run at no block; an aggregate has its type's count of parts.
#[test]
fn parameters_come_first() {
    let given = |list: &[Datum]| {
        let routine = routine(&[PAIR], &[0], vec![block(vec![], returns(&[v(0)]))]);
        traced(&routine, list, 0)
    };
    assert_eq!(given(&[pair(1, 2)]).standing, Standing::At(BlockNo(0)));
    assert_eq!(given(&[]).standing, stopped(Cause::NoReply));
    assert_eq!(given(&[num(1)]).standing, stopped(Cause::NoValue));
    assert_eq!(given(&[Datum::parts(vec![num(1)])]).standing, stopped(Cause::NoValue));
    assert_eq!(given(&[Datum::parts(vec![num(1), Datum::Unit])]).standing, stopped(Cause::NoValue));
}

/// "AssertEq is recorded; unequal sides end the run."
#[test]
fn unequal_sides_end_the_run() {
    let equal = |right| one(&[], vec![Kind::AssertEq { left: int(1), right }], &[], &[]);
    assert_eq!(equal(int(1)).standing, Standing::Ended(End::Return));
    assert_eq!(equal(int(2)).standing, Standing::Ended(End::UnequalSides));
    assert_eq!(equal(int(2)).record, [Event::AssertEq { left: num(1), right: num(2) }]);
}

/// "The machine stops at an unwritten value or missing part".
#[test]
fn unwritten_values_and_missing_parts_stop() {
    let third = Projection::Tuple(2);
    let pair_first = tuple(0, &[int(1), int(2)]);
    let cases = [
        (vec![tuple(0, &[v(1), int(1)])], Cause::Unwritten),
        (vec![store(place(0, &[]), int(1))], Cause::Unwritten),
        (vec![tuple(0, &[Value::Error, int(1)])], Cause::Unwritten),
        (vec![pair_first.clone(), load(1, place(0, &[third]))], Cause::MissingPart),
        (vec![pair_first.clone(), store(place(0, &[third]), int(1))], Cause::MissingPart),
        (vec![pair_first, load(1, place(0, &[Projection::Field(NameNo(5))]))], Cause::MissingPart),
    ];
    for (kinds, cause) in cases {
        assert_eq!(one(&[PAIR, FELT], kinds, &[], &[]).standing, stopped(cause));
    }
    assert_eq!(one(&[FELT], vec![Kind::Nop], &[], &[]).record.len(), 1);
}

/// "Debug becomes a recorded event of the machine with its message and values": it reads first, and
/// an unwritten value or Error stops the run before anything of it is recorded.
#[test]
fn debug_is_recorded() {
    let debug = |values: &[Value]| Kind::Debug { message: 7, values: values.to_vec() };
    let shown = |values: &[Value]| {
        let kinds = vec![tuple(0, &[int(1), int(2)]), debug(values)];
        one(&[PAIR, FELT], kinds, &[], &[])
    };
    let event = |values: &[Datum]| Event::Debug { message: 7, values: values.to_vec() };
    let ended = Event::Return { values: Vec::new() };
    let both = shown(&[v(0), int(5), v(0)]);
    assert_eq!(both.record, [event(&[pair(1, 2), num(5), pair(1, 2)]), ended.clone()]);
    assert_eq!(shown(&[]).record, [event(&[]), ended]);
    for value in [v(1), Value::Error] {
        let trace = shown(&[v(0), value]);
        assert_eq!((trace.record, trace.standing), (Vec::new(), stopped(Cause::Unwritten)));
    }
}

/// A literal in Debug stands at no type.
#[test]
fn a_literal_in_debug_stands_at_no_type() {
    let meaning = Hashed { seed: 3, stops: false };
    let kinds = vec![Kind::Debug { message: 0, values: vec![int(5), Value::Boolean(true)] }];
    let routine = routine(&[], &[], vec![block(kinds, returns(&[]))]);
    let trace = run(&routine, &meaning, &mut List(&[]), 9).trace;
    let values = [Literal::Integer(5), Literal::Boolean(true)].map(|l| meaning.literal(l, None));
    assert_eq!(trace.record[0], Event::Debug { message: 0, values: values.to_vec() });
}

/// On a machine that does not record Debug it does nothing: it does not even read.
#[test]
fn an_unrecorded_debug_does_nothing() {
    let kinds = vec![Kind::Debug { message: 0, values: vec![v(0), Value::Error] }];
    let routine = routine(&[FELT], &[], vec![block(kinds, returns(&[]))]);
    let trace = run(&routine, &Silent(Plain), &mut List(&[]), 9).trace;
    assert_eq!(trace.record, [Event::Return { values: Vec::new() }]);
    assert_eq!(trace.standing, Standing::Ended(End::Return));
}

/// A loop that exchanges two values: "Phis read together, by the first source for the block just
/// left".
#[test]
fn phis_read_together() {
    let head =
        vec![phi(0, &[(0, int(1)), (0, int(8)), (1, v(1))]), phi(1, &[(0, int(2)), (1, v(0))])];
    let call = Kind::Call(Call {
        dests: vec![],
        callee: 0,
        args: vec![v(0), v(1)],
        param_types: vec![],
        return_types: vec![],
    });
    let blocks = vec![
        block(vec![], Terminator::Jump(BlockNo(1))),
        block(head.into_iter().chain([call]).collect(), Terminator::Jump(BlockNo(1))),
    ];
    let routine = routine(&[FELT, FELT], &[], blocks);
    let trace = traced(&routine, &[], 3);
    let called = |a, b| Event::Call { callee: 0, args: vec![num(a), num(b)] };
    assert_eq!(trace.record, [called(1, 2), called(2, 1)]);
    assert_eq!(trace.standing, Standing::At(BlockNo(1)));
    assert_eq!(run(&routine, &Plain, &mut List(&[]), 3).path, [0, 1, 1].map(BlockNo));
}

/// "without one the machine stops", at the start of a run too.
#[test]
fn no_source_stops() {
    let blocks = vec![block(vec![phi(0, &[(0, int(1))])], Terminator::Jump(BlockNo(0)))];
    let routine = routine(&[FELT], &[], blocks);
    assert_eq!(traced(&routine, &[], 0).standing, Standing::At(BlockNo(0)));
    assert_eq!(traced(&routine, &[], 1).standing, stopped(Cause::NoSource));
}

/// A run of n blocks stands at its next block; If and BranchCmp go by the meaning.
#[test]
fn runs_stand_at_their_next_block() {
    let to = |then_target: u16, else_target: u16| (BlockNo(then_target), BlockNo(else_target));
    let (then_target, else_target) = to(2, 1);
    let condition = v(0);
    let less =
        Terminator::BranchCmp { op: 6, left: int(1), right: int(2), then_target, else_target };
    let blocks = vec![
        block(vec![], Terminator::If { condition, then_target, else_target }),
        block(vec![], less),
        block(vec![], Terminator::Unreachable),
    ];
    let routine = routine(&[BOOL], &[0], blocks);
    let no = [Datum::Truth(false)];
    assert_eq!(traced(&routine, &no, 1).standing, Standing::At(BlockNo(1)));
    assert_eq!(traced(&routine, &no, 2).standing, Standing::At(BlockNo(2)));
    assert_eq!(traced(&routine, &no, 3).standing, Standing::Ended(End::Unreachable));
    assert_eq!(traced(&routine, &[Datum::Truth(true)], 1).standing, Standing::At(BlockNo(2)));
}

/// A meaning may stop, with a cause of its own.
#[test]
fn an_operation_may_have_no_result() {
    let standing = |seed, stops| {
        let add = Kind::BinaryOp { op: 0, dest: ValueNo(0), left: int(1), right: int(2) };
        let routine = routine(&[FELT], &[], vec![block(vec![add], Terminator::Unreachable)]);
        run(&routine, &Hashed { seed, stops }, &mut List(&[]), 1).trace.standing
    };
    let own = |standing: &Standing| matches!(standing, Standing::Stopped(Cause::Operation(_)));
    assert!((0..100).any(|seed| own(&standing(seed, true))));
    assert!(!(0..100).any(|seed| own(&standing(seed, false))));
}
