//! Routines whose types agree and whose reads stand in order, one for each thing that becomes of an instruction or a Return.
//! What comes out of them is judged again (document 02, "still well typed").

use edition2::Edition;
use oracle::form::*;
use oracle::Settings;

use super::{call, nest, nothing, record, Vector, FIRST, NEST, RECORD, SECOND};
use crate::examples::draft::*;

/// As document 02's plan has it: a value is kept at the first run, since its whole reads it twice, and folded at the second.
const TWICE: &str = "0400000301000003010100040500020100020002000200040001000000000f01000200010003000500000a0000010007000000000a010001030000000b0200030100000000000100000c030002010003010002000301000300000602000003000001000300";

/// Shelf reasons 0, 3 and 5.
pub fn all() -> Vec<Vector> {
    let nine = Value::Integer(9);
    let mut of_parameter = nest(&[NEST, PAIR], vec![part(3, 2, 0, PAIR)], returned(3));
    of_parameter.parameters = vec![ValueNo(2)];
    let taken = vec![
        record(2, vec![(SECOND, nine), (FIRST, value(0))]),
        Kind::ExtractStructField {
            dest: ValueNo(3),
            struct_val: value(2),
            field_name: FIRST,
            field_ty: PAIR,
        },
        part(4, 3, 1, FELT),
    ];
    let equal =
        vec![tuple(2, integers([7, 8])), Kind::AssertEq { left: value(0), right: value(2) }];
    let into_part = store(place(0, vec![Projection::Tuple(0)]), nine, FELT);
    let twice = Vector::hex("a part that the second run folds", TWICE);
    let again = Vector { name: "the second run of it", input: outcome(&twice), ..twice };
    vec![
        Vector::of("a part of a parameter, returned", of_parameter),
        Vector::of("a tuple of a tuple, read by nothing", nest(&[], vec![], nothing())),
        Vector::of(
            "a part of a struct's part, returned",
            nest(&[RECORD, PAIR, FELT], taken, returned(4)),
        ),
        Vector::of("a Call", nest(&[], vec![call(vec![value(0)], vec![PAIR])], nothing())),
        Vector::of("AssertEq of two tuples", nest(&[PAIR], equal, nothing())),
        Vector::of("a block that is skipped", skipped()),
        Vector::of("a Store's base that is a part", nest(&[], vec![into_part], returned(1))),
        twice,
        again,
    ]
}

/// What edition 2 makes of it.
fn outcome(vector: &Vector) -> Vec<u8> {
    let lowered = edition2::lower(&vector.input, Settings::default(), Edition::Second, usize::MAX);
    lowered.expect("it is not refused").output
}

/// A tuple's phi in front of the second block.
fn skipped() -> Routine {
    let mut routine = nest(&[PAIR, PAIR, PAIR], vec![], Terminator::Jump(BlockNo(1)));
    routine.parameters = vec![ValueNo(2)];
    let phi = Kind::Phi { dest: ValueNo(3), ty: PAIR, sources: vec![(BlockNo(0), value(2))] };
    routine.blocks.push(block(vec![phi, tuple(4, integers([1, 2]))], returned(4)));
    routine
}
