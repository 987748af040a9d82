//! Stands where `function.rs` names its tests: the fields that document 01 says a rebuild changes.

use super::*;
use crate::testing::{TestMirBuilder, values};

/// "A rebuilt value takes the next value number, which rises by one, and its type is recorded."
#[test]
fn a_new_value_takes_the_next_number_and_its_type() {
    let mut function = MirFunction::new("f".to_string());
    let first = function.new_value_id();
    let second = function.new_typed_value_id(MirType::felt());
    assert_eq!((first.index(), second.index()), (0, 1));
    assert_eq!(function.get_value_type(first), None);
    assert_eq!(function.get_value_type(second), Some(&MirType::Felt));
    assert_eq!(function.next_value_id, 2);
}

#[test]
fn the_builder_of_testing_rs_makes_a_valid_function() {
    let mut module = TestMirBuilder::new();
    let mut function = module.function("f");
    let mut block = function.block();
    let sum = block.assign(values::int(3));
    block.return_value(values::operand(sum));
    let id = function.build();
    let module = module.build();
    assert_eq!(module.functions[id].validate(), Ok(()));
}
