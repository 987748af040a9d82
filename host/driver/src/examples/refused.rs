//! Bytes that are refused. 1 to 9 are the pair with one thing changed.

use oracle::form::*;
use oracle::write;

use super::draft::*;
use super::passed::{calls, pair};

/// The pair's bytes with another byte at a place.
fn changed(at: usize, byte: u8) -> Vec<u8> {
    let mut bytes = write(&pair());
    bytes[at] = byte;
    bytes
}

/// 1: the last byte is cut off, and with it half of the returned value's number.
pub fn cut_off() -> Vec<u8> {
    let mut bytes = write(&pair());
    bytes.pop();
    bytes
}

/// 2: the tuple is built of 17 parts.
pub fn long_list() -> Vec<u8> {
    changed(27, 17)
}

/// 3: the first instruction has kind 19.
pub fn unknown_kind() -> Vec<u8> {
    changed(24, 19)
}

/// 4: value 2 is returned.
pub fn high_value() -> Vec<u8> {
    changed(54, 2)
}

/// 5: the second type is a Felt too.
pub fn type_twice() -> Vec<u8> {
    changed(3, Type::Felt.byte())
}

/// 6: the extract defines value 0, as the build does.
pub fn value_twice() -> Vec<u8> {
    changed(40, 0)
}

/// 7: the second instruction is a Phi.
pub fn late_phi() -> Vec<u8> {
    changed(39, PHI)
}

/// 8: in the extract's place stands a Call that defines value 1 and has no return type.
pub fn other_counts() -> Vec<u8> {
    let mut routine = pair();
    routine.blocks[0].instructions[1] = Instruction::plain(Kind::Call(Call {
        dests: vec![ValueNo(1)],
        callee: 0,
        args: vec![value(0)],
        param_types: vec![PAIR],
        return_types: Vec::new(),
    }));
    write(&routine)
}

/// 9: a byte more.
pub fn byte_more() -> Vec<u8> {
    [write(&pair()), vec![0]].concat()
}

/// 10: an array of two that is built of three is returned, so that it would be built again.
pub fn other_array() -> Vec<u8> {
    let types = vec![Type::Felt, Type::FixedArray { element: FELT, size: 2 }];
    let build = array(0, integers([7, 8, 9]), FELT);
    write(&routine(types, &[TypeNo(1)], vec![block(vec![build], returned(0))]))
}

/// So many Calls are enough for 11.
const CALLS: usize = 78;

/// 11: a tuple of eight is handed to each of many Calls 16 times, and is built again each time.
pub fn long_output() -> Vec<u8> {
    write(&calls(CALLS))
}

#[cfg(test)]
mod tests {
    use super::*;
    use crate::judged::Judged;
    use oracle::{Settings, LENT};

    /// Refused for its length alone: it passes the shelf test, and one Call less has room.
    #[test]
    fn the_long_output_is_refused_for_its_length_alone() {
        let long = Judged::of(&long_output(), Settings::default());
        let materializations = (most::LIST * CALLS) as u64;
        let length = long.output.len();
        assert_eq!(long.numbers, [0, 0, 1, 1, 0, 0, 0, materializations, 0, length as u64]);
        assert_eq!(long.within(LENT).0[0], 11);
        let less = Judged::of(&write(&calls(CALLS - 1)), Settings::default());
        assert_eq!(less.within(LENT).0[0], 0);
    }
}
