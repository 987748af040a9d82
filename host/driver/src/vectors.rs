//! Small routines that show a sentence of edition 2 each, and a file of what both editions make of them.

use edition2::{lower, Edition};
use oracle::form::*;
use oracle::{from_hex, to_hex, write, Settings};

use crate::args::Args;
use crate::examples::draft::*;

mod judged;

/// Writes the lines to the file `--to`.
pub fn command(args: &Args) -> Result<bool, String> {
    args.only(&["to"])?;
    let to = args.text("to").ok_or("--to FILE is missing")?;
    std::fs::write(to, lines()).map_err(|e| format!("{to}: {e}"))?;
    Ok(true)
}

const HEAD: &str = "\
# What both editions make of small routines; from the crate `edition2`, by the command
#     cargo run -p driver -- vectors --to edition2/vectors/small.txt
# in the folder host. Behind a line with a name stand lines of: enable_tuples, enable_structs, max_aggregate_size, edition, the input, `->`, and then
# result, five counts, shelf reason and output, or the refusal and its offset.
";

/// The file's text.
pub fn lines() -> String {
    let of_one = |Vector { name, settings, input }: Vector| {
        let answers = [1, 2].map(|edition| {
            let Settings { enable_tuples, enable_structs, max_aggregate_size } = settings;
            let answer = answer(&input, settings, Edition::of(edition));
            let input = to_hex(&input);
            format!("{enable_tuples} {enable_structs} {max_aggregate_size} {edition} {input} -> {answer}\n")
        });
        format!("# {name}\n{}", answers.concat())
    };
    HEAD.to_string() + &all().into_iter().map(of_one).collect::<String>()
}

/// Result, counts, reason and output, or the refusal.
fn answer(input: &[u8], settings: Settings, edition: Edition) -> String {
    match lower(input, settings, edition, usize::MAX) {
        Ok(lowered) => {
            let counts = lowered.counts.map(|n| n.to_string()).join(" ");
            let (result, output) = (u8::from(lowered.result), to_hex(&lowered.output));
            format!("{result} {counts} {} {output}", lowered.reason)
        }
        Err(refusal) => refusal.to_string(),
    }
}

struct Vector {
    name: &'static str,
    settings: Settings,
    input: Vec<u8>,
}

impl Vector {
    fn of(name: &'static str, routine: Routine) -> Self {
        Self { name, settings: Settings::default(), input: write(&routine) }
    }

    fn hex(name: &'static str, hex: &str) -> Self {
        let input = from_hex(hex).expect("it is hexadecimal");
        Self { name, settings: Settings::default(), input }
    }

    fn under(mut self, enable_tuples: u64, enable_structs: u64, max_aggregate_size: u64) -> Self {
        self.settings = Settings { enable_tuples, enable_structs, max_aggregate_size };
        self
    }
}

/// Those with disagreeing types stand as bytes.
fn all() -> Vec<Vector> {
    let mut all = typed();
    all.extend(settings());
    all.extend(looser());
    all.extend(judged::all());
    all
}

/// A pair, and a pair of it and a Felt.
const NEST: TypeNo = TypeNo(2);
/// A struct of a pair and a Felt.
const RECORD: TypeNo = TypeNo(3);
/// An array of two pairs, and a pointer to the nest.
const ROWS: TypeNo = TypeNo(4);
const POINTER: TypeNo = TypeNo(5);
const EMPTY: TypeNo = TypeNo(6);
const NOTHING: TypeNo = TypeNo(7);
const DEEPER: TypeNo = TypeNo(8);

const FIRST: NameNo = NameNo(1);
const SECOND: NameNo = NameNo(2);

fn types() -> Vec<Type> {
    let record = Type::Struct { name: NameNo(0), fields: vec![(FIRST, PAIR), (SECOND, FELT)] };
    let nest = Type::Tuple(vec![PAIR, FELT]);
    let rows = Type::FixedArray { element: PAIR, size: 2 };
    let rest = [
        nest,
        record,
        rows,
        Type::Pointer(NEST),
        Type::Tuple(vec![]),
        Type::Struct { name: NameNo(9), fields: vec![] },
        Type::Tuple(vec![NEST, NEST]),
    ];
    [pair_types(), rest.to_vec()].concat()
}

/// Value 0 is `(7, 8)`, value 1 is `(%0, 9)`; then come the others, and the end.
fn nest(recorded: &[TypeNo], kinds: Vec<Kind>, end: Terminator) -> Routine {
    let first = vec![tuple(0, integers([7, 8])), tuple(1, vec![value(0), Value::Integer(9)])];
    let recorded = [&[PAIR, NEST], recorded].concat();
    routine(types(), &recorded, vec![block([first, kinds].concat(), end)])
}

fn record(dest: u16, fields: Vec<(NameNo, Value)>) -> Kind {
    Kind::MakeStruct { dest: ValueNo(dest), fields, struct_ty: RECORD }
}

fn debug(values: Vec<Value>) -> Kind {
    Kind::Debug { message: 0, values }
}

fn call(args: Vec<Value>, param_types: Vec<TypeNo>) -> Kind {
    let (dests, return_types) = (Vec::new(), Vec::new());
    Kind::Call(Call { dests, callee: 1, args, param_types, return_types })
}

fn nothing() -> Terminator {
    Terminator::Return(Vec::new())
}

/// Shelf reason 0 to 5 with types that agree.
fn typed() -> Vec<Vector> {
    let nine = Value::Integer(9);
    let mut spanned = nest(&[], vec![call(vec![value(1)], vec![NEST])], nothing());
    spanned.blocks[0].instructions[2].meta =
        Meta { span: Some((1, 2)), expression: Some((3, 4)), comment: Some(5) };
    let insert = InsertTuple {
        dest: ValueNo(3),
        tuple_val: value(2),
        index: 0,
        new_value: value(0),
        tuple_ty: NEST,
    };
    let mut of_parameter = nest(&[NEST, NEST], vec![Kind::InsertTuple(insert)], returned(3));
    of_parameter.parameters = vec![ValueNo(2)];
    let mut into_pointer =
        nest(&[POINTER], vec![store(place(2, vec![element(0)]), value(1), NEST)], nothing());
    into_pointer.parameters = vec![ValueNo(2)];
    let condition =
        Terminator::If { condition: value(0), then_target: BlockNo(0), else_target: BlockNo(0) };
    let record_of = record(2, vec![(SECOND, nine), (FIRST, value(0))]);
    let empties = vec![
        tuple(2, vec![]),
        Kind::MakeStruct { dest: ValueNo(3), fields: vec![], struct_ty: NOTHING },
        debug(vec![value(2), value(3)]),
    ];
    let mut blocks = nest(&[PAIR], vec![debug(vec![value(1)])], Terminator::Jump(BlockNo(1)));
    blocks.blocks.push(block(vec![tuple(2, integers([1, 2]))], returned(2)));
    let first_step = vec![Projection::Tuple(0)];
    let diamond =
        vec![tuple(2, vec![value(0), Value::Integer(10)]), tuple(3, vec![value(1), value(2)])];
    let both = vec![tuple(2, vec![value(1), value(1)])];
    vec![
        Vector::of("a tuple of a tuple, returned", nest(&[], vec![], returned(1))),
        Vector::of(
            "returned twice, and its part",
            nest(&[], vec![], Terminator::Return(vec![value(1), value(0), value(1)])),
        ),
        Vector::of("Debug of it", nest(&[], vec![debug(vec![value(1), value(0)])], nothing())),
        Vector::of(
            "AssertEq with both sides the same",
            nest(&[], vec![Kind::AssertEq { left: value(0), right: value(0) }], nothing()),
        ),
        Vector::of("a Call with span, expression id and comment", spanned),
        Vector::of(
            "the base of a kept Load",
            nest(
                &[PAIR],
                vec![Kind::Load {
                    dest: ValueNo(2),
                    place: place(1, first_step.clone()),
                    ty: PAIR,
                }],
                returned(2),
            ),
        ),
        Vector::of(
            "the base of a kept Store, and its value",
            nest(
                &[PAIR],
                vec![tuple(2, integers([1, 2])), store(place(1, first_step), value(2), PAIR)],
                nothing(),
            ),
        ),
        Vector::of("a Store's value, into a pointer", into_pointer),
        Vector::of("a part that stands twice", nest(&[DEEPER], both, returned(2))),
        Vector::of("a diamond of parts", nest(&[NEST, DEEPER], diamond, returned(3))),
        Vector::of(
            "a struct, built in another order",
            nest(&[RECORD], vec![record_of], returned(2)),
        ),
        Vector::of(
            "an array of pairs",
            nest(&[ROWS], vec![array(2, vec![value(0), value(0)], PAIR)], returned(2)),
        ),
        Vector::of("a kept insert's new value", of_parameter),
        Vector::of(
            "an empty tuple and an empty struct",
            nest(&[EMPTY, NOTHING], empties, nothing()),
        ),
        Vector::of("two blocks", blocks),
        Vector::of("the condition of an If", nest(&[], vec![], condition)),
    ]
}

/// One kind turned off and the other tracked, and long tuples.
fn settings() -> Vec<Vector> {
    let nine = Value::Integer(9);
    let record_of = |dest| record(dest, vec![(FIRST, value(0)), (SECOND, nine)]);
    let into = vec![
        record_of(2),
        array(3, vec![value(0), value(0)], PAIR),
        debug(vec![value(2), value(3)]),
    ];
    let wide = Type::Tuple(vec![FELT; 16]);
    let types = vec![Type::Felt, wide, Type::Tuple(vec![TypeNo(1), FELT])];
    let parts = (0..16).map(Value::Integer).collect();
    let kinds = vec![tuple(0, parts), tuple(1, vec![value(0), nine])];
    let wide = routine(types, &[TypeNo(1), TypeNo(2)], vec![block(kinds, returned(1))]);
    let builds = nest(&[RECORD, ROWS], into, Terminator::Return(vec![value(2)]));
    vec![
        Vector::of("structs off", builds.clone()).under(1, 0, 8),
        Vector::of("tuples off", builds.clone()).under(0, 1, 8),
        Vector::of("at most 1 part", builds).under(1, 1, 1),
        Vector::of("a tuple of 16, at most 16", wide.clone()).under(1, 1, 16),
        Vector::of("a tuple of 16, at most 8", wide).under(1, 1, 8),
    ]
}

/// Types that disagree.
fn looser() -> Vec<Vector> {
    let pair_at = |ty| {
        routine(
            vec![Type::Felt, ty],
            &[TypeNo(1)],
            vec![block(vec![tuple(0, integers([7, 8]))], returned(0))],
        )
    };
    let short = Type::Tuple(vec![FELT]);
    // Value 1 is (9, %0), recorded at a tuple of one; %0 is an array of another count.
    let lost = vec![tuple(0, vec![value(0)]), tuple(1, vec![Value::Integer(9), value(0)])];
    let lost =
        routine(vec![Type::Felt, short.clone()], &[PAIR, PAIR], vec![block(lost, returned(1))]);
    let scalar = Kind::Load { dest: ValueNo(2), place: place(1, vec![element(0)]), ty: FELT };
    let untyped = vec![
        tuple(0, integers([7, 8])),
        Kind::Assign { dest: ValueNo(1), source: value(0), ty: PAIR },
        tuple(2, vec![value(0), Value::Integer(9)]),
        Kind::InsertTuple(InsertTuple {
            dest: ValueNo(3),
            tuple_val: value(2),
            index: 0,
            new_value: value(1),
            tuple_ty: NEST,
        }),
    ];
    let mut untyped =
        routine(types(), &[PAIR, PAIR, NEST, NEST], vec![block(untyped, returned(3))]);
    untyped.recorded[1] = None;
    vec![
        Vector::of("a tuple at a longer type", pair_at(Type::Tuple(vec![FELT; 3]))),
        Vector::of("a tuple at a shorter type", pair_at(short)),
        Vector::of("a part that is lost, a loop", lost),
        Vector::of("a Load that ends at a tracked value, named a Felt", nest(&[FELT], vec![scalar], returned(2))),
        Vector::of("a part without a recorded type", untyped),
        Vector::hex("a tracked value copied to a Felt, returned", "0300000302000000000302010001000200010000000003010000000200000a000002000700000000080000000000010003000001000301030100"),
        Vector::hex("a Call at a parameter type that is no aggregate", "030000030200000000030201000100010001000000000101000200000a00000200070000000008000000000300010001030000010000000300"),
        Vector::hex("a later Boolean Index", "03000005000002000000050100020000000400010000000103000f0100020000000000040000100000020001000000000200000000000010010002000300000000040000000100000601000100000000000003000001000005020001000200000000000000010100000300"),
        Vector::hex("14, itself a part", "02000003010000010001000000000101000100000a0000010300000301030000"),
        Vector::hex("the same, read by nothing", "02000003010000010001000000000101000100000a0000010300000300"),
        Vector::hex("14 by inserts, two deep", "03000003020000000003020100010003000100000000070100010001000300000a00000200070000000008000000000f0100030000000000000302000100000f02000300000000000003010001000301030100"),
        Vector::hex("10 before a part's 14", "03000003010000050100040000000200010000000003010002000200000a000001030000001001000103000001000301030100"),
        Vector::hex("10 before 14", "03000003020000000005000002000000040001000000000f01000200010001000400000a00000200070000000008000000001001000100010000000000000f0200030000000000000301000100000f03000302000100000003030001000301030300"),
        Vector::hex("14 before 10", "03000003020000000005000002000000040001000000000f01000200010001000400000a00000200070000000008000000001001000100010000000000000f0200030000010000000301000100000f03000302000000000003030001000301030300"),
        Vector::of("15: sixteen levels, and one Debug", gen::tower::sixteen()),
    ]
}

#[cfg(test)]
mod tests {
    use super::*;

    /// The file is what is made.
    #[test]
    fn the_file_is_what_is_made() {
        assert_eq!(include_str!("../../edition2/vectors/small.txt"), lines());
    }
}
