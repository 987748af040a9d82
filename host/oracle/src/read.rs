//! The reader of document 01's byte form, for the head of a routine: types, values, blocks.
//!
//! It reads in order and stops at the first cause, which is the lowest offset.

use crate::cursor::{cause, refuse, Cursor, Read};
use crate::form::*;
use crate::read_instruction::Reader;

/// Reads a whole routine, or the refusal 1 to 9.
pub fn read(input: &[u8]) -> Read<Routine> {
    read_within(input, &Mosts::INPUT)
}

/// Reads a routine that may be as large as the pass can make one.
pub fn read_output(output: &[u8]) -> Read<Routine> {
    read_within(output, &Mosts::OUTPUT)
}

/// Reads a routine that may be as large as edition 2 can make one.
pub fn read_second_output(output: &[u8]) -> Read<Routine> {
    read_within(output, &Mosts::SECOND_OUTPUT)
}

fn read_within(input: &[u8], mosts: &Mosts) -> Read<Routine> {
    let mut cursor = Cursor::new(input);
    let types = read_types(&mut cursor)?;
    let next = cursor.long_count(mosts.next_value)?;
    let block_count = cursor.long_count(most::BLOCKS)?;
    let entry = BlockNo(cursor.below(block_count)?);

    let mut reader = Reader::new(cursor, types.len(), next, block_count);
    let parameters = reader.list(Reader::dest)?;
    let recorded = reader.recorded(next)?;
    let blocks = read_blocks(&mut reader, block_count, mosts)?;

    let cursor = reader.cursor;
    if cursor.left() > 0 {
        return refuse(cause::BYTES_LEFT, cursor.at);
    }
    Ok(Routine { types, entry, parameters, recorded, blocks })
}

/// "u16 type count, types"; "a type equal to an earlier one: 5, offset of the type".
fn read_types(cursor: &mut Cursor) -> Read<Vec<Type>> {
    let count = cursor.long_count(most::TYPES)?;
    let mut types = Vec::with_capacity(count);
    for own in 0..count {
        let at = cursor.at;
        let ty = read_type(cursor, own)?;
        if types.contains(&ty) {
            return refuse(cause::TWICE_TYPE, at);
        }
        types.push(ty);
    }
    Ok(types)
}

/// One row; "type number not below its own (in the table): 4".
fn read_type(cursor: &mut Cursor, own: usize) -> Read<Type> {
    Ok(match cursor.tag(kinds::TYPES)? {
        0 => Type::Felt,
        1 => Type::Bool,
        2 => Type::U32,
        3 => Type::Tuple(read_parts(cursor, own)?),
        4 => Type::Struct { name: NameNo(cursor.u16()?), fields: read_fields(cursor, own)? },
        5 => Type::FixedArray { element: TypeNo(cursor.below(own)?), size: cursor.u32()? },
        6 => Type::Pointer(TypeNo(cursor.below(own)?)),
        7 => {
            Type::Function { params: read_parts(cursor, own)?, result: TypeNo(cursor.below(own)?) }
        }
        8 => Type::Unit,
        9 => Type::Error,
        _ => Type::Unknown,
    })
}

/// "u8 count, u16 types".
fn read_parts(cursor: &mut Cursor, own: usize) -> Read<Vec<TypeNo>> {
    let count = cursor.count(most::LIST)?;
    (0..count).map(|_| cursor.below(own).map(TypeNo)).collect()
}

/// "u8 count, pairs of u16 name, u16 type"; "a field name twice in a struct: 5, offset of the
/// second name".
fn read_fields(cursor: &mut Cursor, own: usize) -> Read<Vec<(NameNo, TypeNo)>> {
    let count = cursor.count(most::LIST)?;
    let mut fields: Vec<(NameNo, TypeNo)> = Vec::with_capacity(count);
    for _ in 0..count {
        let at = cursor.at;
        let name = NameNo(cursor.u16()?);
        if fields.iter().any(|(earlier, _)| *earlier == name) {
            return refuse(cause::TWICE_TYPE, at);
        }
        fields.push((name, TypeNo(cursor.below(own)?)));
    }
    Ok(fields)
}

/// "then the blocks: u16 instruction count, instructions, terminator"; the count that carries the
/// sum past 256 passes its most.
fn read_blocks(reader: &mut Reader, count: usize, mosts: &Mosts) -> Read<Vec<Block>> {
    let mut blocks = Vec::with_capacity(count);
    let mut in_all = 0;
    for _ in 0..count {
        let room = mosts.in_block.min(mosts.in_all - in_all);
        let instruction_count = reader.cursor.long_count(room)?;
        in_all += instruction_count;
        blocks.push(read_block(reader, instruction_count)?);
    }
    Ok(blocks)
}

fn read_block(reader: &mut Reader, count: usize) -> Read<Block> {
    let mut instructions = Vec::with_capacity(count);
    let mut phis_only = true;
    for _ in 0..count {
        let instruction = reader.instruction(phis_only)?;
        phis_only &= matches!(instruction.kind, Kind::Phi { .. });
        instructions.push(instruction);
    }
    Ok(Block { instructions, terminator: reader.terminator()? })
}
