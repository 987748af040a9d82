//! Functions such as a compiler makes.

use mir::{
    BasicBlockId, CalleeSignature, FunctionId, Instruction, MirExpressionId, MirFunction, MirType,
    SimpleSpan, Terminator, Value, ValueId,
};

/// All of them.
pub fn written() -> [MirFunction; 5] {
    [pair(), nested_struct(), counting_loop(), rebuilding_call(), returned_nest()]
}

/// A function under construction.
pub struct Draft {
    pub function: MirFunction,
}

impl Draft {
    pub fn new(name: &str) -> Self {
        Self { function: MirFunction::new(name.to_string()) }
    }

    pub fn value(&mut self, ty: &MirType) -> ValueId {
        self.function.new_typed_value_id(ty.clone())
    }

    pub fn parameter(&mut self, ty: &MirType) -> ValueId {
        let value = self.value(ty);
        self.function.parameters.push(value);
        value
    }

    pub fn block(&mut self) -> BasicBlockId {
        self.function.add_basic_block()
    }

    pub fn fill(&mut self, at: BasicBlockId, instructions: Vec<Instruction>, end: Terminator) {
        let block = self.function.get_basic_block_mut(at).expect("the block is there");
        block.instructions = instructions;
        block.terminator = end;
    }
}

pub fn of(value: ValueId) -> Value {
    Value::operand(value)
}

pub fn felt() -> MirType {
    MirType::felt()
}

/// Where an instruction comes from, in all three ways.
pub fn noted(mut instruction: Instruction, at: usize) -> Instruction {
    instruction.source_span = Some(SimpleSpan { start: at, end: at + 7 });
    instruction.source_expr_id = Some(MirExpressionId { expression_index: at, file_id: 1 << 40 });
    instruction.comment = Some(format!("line {at}"));
    instruction
}

/// `let pair = (a, 8); let copy = pair; copy.0 + copy.1`
pub fn pair() -> MirFunction {
    let mut draft = Draft::new("pair");
    let ty = MirType::tuple(vec![felt(), felt()]);
    let a = draft.parameter(&felt());
    let [pair, copy] = [draft.value(&ty), draft.value(&ty)];
    let [left, right, sum] = [(); 3].map(|()| draft.value(&felt()));
    let entry = draft.function.entry_block;
    let instructions = vec![
        noted(Instruction::make_tuple(pair, vec![of(a), Value::integer(8)]), 10),
        noted(Instruction::assign(copy, of(pair), ty), 20),
        noted(Instruction::extract_tuple_element(left, of(copy), 0, felt()), 30),
        noted(Instruction::extract_tuple_element(right, of(copy), 1, felt()), 40),
        noted(Instruction::debug("the parts".to_string(), vec![of(left), of(right)]), 45),
        noted(Instruction::binary_op(mir::BinaryOp::Add, sum, of(left), of(right)), 50),
    ];
    draft.fill(entry, instructions, Terminator::return_value(of(sum)));
    draft.function
}

pub fn point() -> MirType {
    let fields = vec![("x".to_string(), felt()), ("y".to_string(), MirType::u32())];
    MirType::struct_type("Point".to_string(), fields)
}

fn line() -> MirType {
    let fields = vec![("start".to_string(), point()), ("end".to_string(), point())];
    MirType::struct_type("Line".to_string(), fields)
}

/// `let line = Line { start: Point { x, y: 2 }, end: Point { y: 3, x: 1 } }; line.end.x = x;
/// line.end.x + line.start.x`
pub fn nested_struct() -> MirFunction {
    let mut draft = Draft::new("nested_struct");
    let x = draft.parameter(&felt());
    let [start, end, moved, last, first] = [(); 5].map(|()| draft.value(&point()));
    let [whole, changed] = [(); 2].map(|()| draft.value(&line()));
    let [left, right, sum] = [(); 3].map(|()| draft.value(&felt()));
    let field = |name: &str, value| (name.to_string(), value);
    let make =
        |dest, x, y| Instruction::make_struct(dest, vec![field("y", y), field("x", x)], point());
    let take = |dest, from, name: &str, ty| {
        Instruction::extract_struct_field(dest, of(from), name.to_string(), ty)
    };
    let ends = vec![field("start", of(start)), field("end", of(end))];
    let insert = |dest, into, name: &str, new, ty| {
        Instruction::insert_field(dest, of(into), name.to_string(), of(new), ty)
    };
    let instructions = vec![
        make(start, of(x), Value::integer(2)),
        make(end, Value::integer(1), Value::integer(3)),
        Instruction::make_struct(whole, ends, line()),
        insert(moved, end, "x", x, point()),
        insert(changed, whole, "end", moved, line()),
        take(last, changed, "end", point()),
        take(first, changed, "start", point()),
        take(left, last, "x", felt()),
        take(right, first, "x", felt()),
        Instruction::binary_op(mir::BinaryOp::Add, sum, of(left), of(right)),
    ];
    let entry = draft.function.entry_block;
    draft.fill(entry, instructions, Terminator::return_value(of(sum)));
    draft.function
}

/// `let i = 0; while i < n { let step = (i, 1); i = step.0 + step.1; } (i, n)`
pub fn counting_loop() -> MirFunction {
    let mut draft = Draft::new("counting_loop");
    let ty = MirType::tuple(vec![felt(), felt()]);
    let n = draft.parameter(&felt());
    let [i, left, right, next] = [(); 4].map(|()| draft.value(&felt()));
    let [step, both] = [(); 2].map(|()| draft.value(&ty));
    let entry = draft.function.entry_block;
    let [head, body, exit] = [(); 3].map(|()| draft.block());
    for (from, to) in [(entry, head), (body, head), (head, body), (head, exit)] {
        draft.function.connect(from, to);
    }
    draft.fill(entry, Vec::new(), Terminator::jump(head));
    let sources = vec![(entry, Value::integer(0)), (body, of(next))];
    let less = Terminator::branch_cmp(mir::BinaryOp::Less, of(i), of(n), body, exit);
    draft.fill(head, vec![Instruction::phi(i, felt(), sources)], less);
    let instructions = vec![
        Instruction::make_tuple(step, vec![of(i), Value::integer(1)]),
        Instruction::extract_tuple_element(left, of(step), 0, felt()),
        Instruction::extract_tuple_element(right, of(step), 1, felt()),
        Instruction::binary_op(mir::BinaryOp::Add, next, of(left), of(right)),
    ];
    draft.fill(body, instructions, Terminator::jump(head));
    let instructions = vec![Instruction::make_tuple(both, vec![of(i), of(n)])];
    draft.fill(exit, instructions, Terminator::return_value(of(both)));
    draft.function
}

/// `let point = Point { x, y: 2 }; let copy = point; norm(copy, [x, x])`
pub fn rebuilding_call() -> MirFunction {
    let mut draft = Draft::new("rebuilding_call");
    let array = MirType::FixedArray { element_type: Box::new(felt()), size: 2 };
    let x = draft.parameter(&felt());
    let [made, copy] = [(); 2].map(|()| draft.value(&point()));
    let row = draft.value(&array);
    let norm = draft.value(&felt());
    let fields = vec![("x".to_string(), of(x)), ("y".to_string(), Value::integer(2))];
    let signature =
        CalleeSignature { param_types: vec![point(), array], return_types: vec![felt()] };
    let callee = FunctionId::from_raw(70_000);
    let call = Instruction::call(vec![norm], callee, vec![of(copy), of(row)], signature);
    let instructions = vec![
        noted(Instruction::make_struct(made, fields, point()), 1),
        noted(Instruction::assign(copy, of(made), point()), 2),
        noted(Instruction::make_fixed_array(row, vec![of(x), of(x)], felt()), 3),
        noted(call, 4),
    ];
    let entry = draft.function.entry_block;
    draft.fill(entry, instructions, Terminator::return_value(of(norm)));
    draft.function
}

/// `let inner = (1, 2); (inner, 3)`: a part that is not rebuilt.
pub fn returned_nest() -> MirFunction {
    let mut draft = Draft::new("returned_nest");
    let flat = MirType::tuple(vec![felt(), felt()]);
    let nest = MirType::tuple(vec![flat.clone(), felt()]);
    let (inner, outer) = (draft.value(&flat), draft.value(&nest));
    let instructions = vec![
        Instruction::make_tuple(inner, vec![Value::integer(1), Value::integer(2)]),
        Instruction::make_tuple(outer, vec![of(inner), Value::integer(3)]),
    ];
    let entry = draft.function.entry_block;
    draft.fill(entry, instructions, Terminator::return_value(of(outer)));
    draft.function
}
