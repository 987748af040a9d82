//! Routines that pass the shelf test.

use oracle::form::*;

use super::draft::*;

/// `let pair = (7, 8); pair.1`: document 01's example.
pub fn pair() -> Routine {
    let kinds = vec![tuple(0, integers([7, 8])), part(1, 0, 1, FELT)];
    routine(pair_types(), &[PAIR, FELT], vec![block(kinds, returned(1))])
}

/// `let line = Line { start: Point { x: n, y: 2 }, end: Point { x: 3, y: n } };
/// line.start.x + line.end.y`
pub fn nested_struct() -> Routine {
    let [x, y, start, end] = [1, 2, 4, 5].map(NameNo);
    let (point, line) = (TypeNo(1), TypeNo(2));
    let types = vec![
        Type::Felt,
        Type::Struct { name: NameNo(0), fields: vec![(x, FELT), (y, FELT)] },
        Type::Struct { name: NameNo(3), fields: vec![(start, point), (end, point)] },
    ];
    let make = |dest, fields: [(NameNo, Value); 2], struct_ty| Kind::MakeStruct {
        dest: ValueNo(dest),
        fields: fields.to_vec(),
        struct_ty,
    };
    let take = |dest, from, field_name, field_ty| Kind::ExtractStructField {
        dest: ValueNo(dest),
        struct_val: value(from),
        field_name,
        field_ty,
    };
    let kinds = vec![
        make(1, [(x, value(0)), (y, Value::Integer(2))], point),
        make(2, [(x, Value::Integer(3)), (y, value(0))], point),
        make(3, [(start, value(1)), (end, value(2))], line),
        take(4, 3, start, point),
        take(5, 4, x, FELT),
        take(6, 3, end, point),
        take(7, 6, y, FELT),
        sum(8, 5, 7),
    ];
    let recorded = [FELT, point, point, line, point, FELT, point, FELT, FELT];
    of_n(types, &recorded, vec![block(kinds, returned(8))])
}

/// `let i = 0; while i < n { let step = (i, 1); i = step.0 + step.1; } (i, n)`
pub fn counting_loop() -> Routine {
    let [head, body, exit] = [1, 2, 3].map(BlockNo);
    let sources = vec![(BlockNo(0), Value::Integer(0)), (body, value(5))];
    let phi = Kind::Phi { dest: ValueNo(1), ty: FELT, sources };
    let less = Terminator::BranchCmp {
        op: 6,
        left: value(1),
        right: value(0),
        then_target: body,
        else_target: exit,
    };
    let step = vec![
        tuple(2, vec![value(1), Value::Integer(1)]),
        part(3, 2, 0, FELT),
        part(4, 2, 1, FELT),
        sum(5, 3, 4),
    ];
    let blocks = vec![
        block(Vec::new(), Terminator::Jump(head)),
        block(vec![phi], less),
        block(step, Terminator::Jump(head)),
        block(vec![tuple(6, vec![value(1), value(0)])], returned(6)),
    ];
    of_n(pair_types(), &[FELT, FELT, PAIR, FELT, FELT, FELT, PAIR], blocks)
}

/// `let pair = (7, n); let copy = pair; copy with part 0 = copy.1`: each count is 1.
pub fn every_count() -> Routine {
    let insert = InsertTuple {
        dest: ValueNo(4),
        tuple_val: value(2),
        index: 0,
        new_value: value(3),
        tuple_ty: PAIR,
    };
    let kinds = vec![
        tuple(1, vec![Value::Integer(7), value(0)]),
        Kind::Assign { dest: ValueNo(2), source: value(1), ty: PAIR },
        part(3, 2, 1, FELT),
        Kind::InsertTuple(insert),
    ];
    of_n(pair_types(), &[FELT, PAIR, PAIR, FELT, PAIR], vec![block(kinds, returned(4))])
}

/// The pair with a Debug at a place of its block.
pub fn pair_with_debug(at: usize, values: Vec<Value>) -> Routine {
    let mut routine = pair();
    let debug = Kind::Debug { message: 3, values };
    routine.blocks[0].instructions.insert(at, Instruction::plain(debug));
    routine
}

/// The pair, and a Debug of its part 1 and of 9.
pub fn debugged() -> Routine {
    pair_with_debug(2, vec![value(1), Value::Integer(9)])
}

/// `let one = (x,);` where `x` is never written: the original stops there, the rewritten routine has
/// no such build any more.
pub fn unwritten() -> Routine {
    let types = vec![Type::Felt, Type::Tuple(vec![FELT])];
    let kinds = vec![tuple(1, vec![value(0)])];
    routine(types, &[FELT, TypeNo(1)], vec![block(kinds, Terminator::Return(Vec::new()))])
}

/// `let t = (1, 2, 3, 4, 5, 6, 7, 8);`, then so many Calls of 16 times `t`.
pub fn calls(count: usize) -> Routine {
    let types = vec![Type::Felt, Type::Tuple(vec![FELT; 8])];
    let tuple_ty = TypeNo(1);
    let call = Kind::Call(Call {
        dests: Vec::new(),
        callee: 0,
        args: vec![value(0); most::LIST],
        param_types: vec![tuple_ty; most::LIST],
        return_types: Vec::new(),
    });
    let build = tuple(0, integers([1, 2, 3, 4, 5, 6, 7, 8]));
    let kinds = [vec![build], vec![call; count]].concat();
    routine(types, &[tuple_ty], vec![block(kinds, Terminator::Return(Vec::new()))])
}

/// Six Calls of them: the rewritten routine has more than 4,500 bytes.
pub fn long_line() -> Routine {
    calls(6)
}

/// `let one = (7,); let nest = (one,); let part = nest.0; let both = Both { left: nest, right: nest };`, and
/// `one` is stored over `part`, whole. The tuple that stands twice in `both` keeps `one` from being taken
/// apart. Both are gone from the output, of which `one` is taken apart and with it its copy `part`: a kept
/// Store's base, which is not built again.
pub fn passed_once() -> Routine {
    let [one, nest, both] = [1, 2, 3].map(TypeNo);
    let [left, right] = [1, 2].map(NameNo);
    let types = vec![
        Type::Felt,
        Type::Tuple(vec![FELT]),
        Type::Tuple(vec![one]),
        Type::Struct { name: NameNo(5), fields: vec![(left, nest), (right, nest)] },
    ];
    let kinds = vec![
        tuple(0, integers([7])),
        tuple(1, vec![value(0)]),
        part(2, 1, 0, one),
        Kind::MakeStruct {
            dest: ValueNo(3),
            fields: vec![(left, value(1)), (right, value(1))],
            struct_ty: both,
        },
        store(place(2, Vec::new()), value(0), one),
    ];
    let blocks = vec![block(kinds, Terminator::Return(Vec::new()))];
    routine(types, &[one, nest, one, both], blocks)
}
