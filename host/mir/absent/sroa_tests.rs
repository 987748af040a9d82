//! Stands where `sroa.rs` names its tests: corners of document 01 that need the pass's own view.

use super::*;
use crate::BasicBlockId;

#[path = "sroa_families.rs"]
mod sroa_families;

/// One block that builds a tuple of `count` and extracts part 0 of it.
fn tuple_of(count: usize) -> MirFunction {
    let mut function = MirFunction::new("f".to_string());
    let tuple = function.new_typed_value_id(MirType::tuple(vec![MirType::Felt; count]));
    let part = function.new_typed_value_id(MirType::Felt);
    let block = function.get_basic_block_mut(BasicBlockId::from_raw(0)).unwrap();
    block.push_instruction(Instruction::make_tuple(tuple, vec![Value::integer(7); count]));
    block.push_instruction(Instruction::extract_tuple_element(
        part,
        Value::operand(tuple),
        0,
        MirType::Felt,
    ));
    function
}

/// "Limit 8: a tuple of 8 is tracked, of 9 kept."
#[test]
fn the_limit_is_eight() {
    for (count, tracked) in [(1, true), (8, true), (9, false)] {
        let mut pass = ScalarReplacementOfAggregates::new();
        assert_eq!(pass.run(&mut tuple_of(count)), tracked, "a tuple of {count}");
        assert_eq!(pass.stats.scalarized_builds, usize::from(tracked));
        assert_eq!(pass.stats.extracts_rewritten, usize::from(tracked));
    }
}

/// "`as_const_integer` reads Integer n as n and Boolean as 0 or 1; Unit, Error and operands as none."
#[test]
fn constant_integers() {
    assert_eq!(Value::integer(9).as_const_integer(), Some(9));
    assert_eq!(Value::boolean(true).as_const_integer(), Some(1));
    assert_eq!(Value::boolean(false).as_const_integer(), Some(0));
    for none in [Value::unit(), Value::Error, Value::operand(ValueId::new(0))] {
        assert_eq!(none.as_const_integer(), None);
    }
}
