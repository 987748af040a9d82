//! The reader of document 01's byte form, for what stands in a block.

use crate::cursor::{cause, refuse, Cursor, Read};
use crate::form::*;

/// Where the reading stands, with the counts that numbers are held against and the values that
/// have a definition.
pub struct Reader<'a> {
    pub cursor: Cursor<'a>,
    types: usize,
    next: usize,
    blocks: usize,
    /// A bit for each value.
    defined: Vec<u8>,
}

impl<'a> Reader<'a> {
    pub fn new(cursor: Cursor<'a>, types: usize, next: usize, blocks: usize) -> Self {
        Self { cursor, types, next, blocks, defined: vec![0; next.div_ceil(8)] }
    }

    /// "lists u8 count first", 16 at most.
    pub fn list<T>(&mut self, item: impl FnMut(&mut Self) -> Read<T>) -> Read<Vec<T>> {
        let count = self.cursor.count(most::LIST)?;
        self.items(count, item)
    }

    fn items<T>(
        &mut self,
        count: usize,
        mut item: impl FnMut(&mut Self) -> Read<T>,
    ) -> Read<Vec<T>> {
        let mut items = Vec::with_capacity(count);
        for _ in 0..count {
            items.push(item(self)?);
        }
        Ok(items)
    }

    /// "type number not below .. the count: 4".
    #[inline]
    fn ty(&mut self) -> Read<TypeNo> {
        self.cursor.below(self.types).map(TypeNo)
    }

    /// "value not below next: 4".
    #[inline]
    fn value_number(&mut self) -> Read<ValueNo> {
        self.cursor.below(self.next).map(ValueNo)
    }

    /// "block not below count: 4".
    #[inline]
    fn block(&mut self) -> Read<BlockNo> {
        self.cursor.below(self.blocks).map(BlockNo)
    }

    #[inline]
    fn name(&mut self) -> Read<NameNo> {
        self.cursor.u16().map(NameNo)
    }

    /// A value that is defined here; "a value defined twice, parameters included: 6, offset of the
    /// second".
    #[inline]
    pub fn dest(&mut self) -> Read<ValueNo> {
        let at = self.cursor.at;
        let value = self.value_number()?;
        let (byte, bit) = (&mut self.defined[value.index() / 8], 1 << (value.index() % 8));
        if *byte & bit != 0 {
            return refuse(cause::TWICE_VALUE, at);
        }
        *byte |= bit;
        Ok(value)
    }

    /// "a bit map of next-value bits (value v is bit v mod 8 of byte v div 8, low bit first, spare
    /// bits 0), then a u16 type for each set bit, rising".
    pub fn recorded(&mut self, next: usize) -> Read<Vec<Option<TypeNo>>> {
        let mut map = vec![0u8; next.div_ceil(8)];
        for (place, byte) in map.iter_mut().enumerate() {
            let at = self.cursor.at;
            *byte = self.cursor.u8()?;
            let used = (next - 8 * place).min(8);
            if u16::from(*byte) >> used != 0 {
                return refuse(cause::UNDEFINED, at);
            }
        }
        let mut recorded = Vec::with_capacity(next);
        for v in 0..next {
            let set = map[v / 8] >> (v % 8) & 1 == 1;
            recorded.push(if set { Some(self.ty()?) } else { None });
        }
        Ok(recorded)
    }

    /// "A value is a u8: 0 Integer u32; 1 Boolean u8 (0, 1); 2 Unit; 3 Operand u16; 4 Error."
    fn value(&mut self) -> Read<Value> {
        Ok(match self.cursor.tag(kinds::VALUES)? {
            0 => Value::Integer(self.cursor.u32()?),
            1 => Value::Boolean(self.cursor.tag(2)? == 1),
            2 => Value::Unit,
            3 => Value::Operand(self.value_number()?),
            _ => Value::Error,
        })
    }

    /// "A place is base, then list of projections", 8 at most.
    fn place(&mut self) -> Read<Place> {
        let base = self.value_number()?;
        let count = self.cursor.count(most::PROJECTIONS)?;
        Ok(Place { base, projections: self.items(count, Self::projection)? })
    }

    /// "u8 0 Index value, 1 Field name, 2 Tuple index".
    fn projection(&mut self) -> Read<Projection> {
        Ok(match self.cursor.tag(kinds::PROJECTIONS)? {
            0 => Projection::Index(self.value()?),
            1 => Projection::Field(self.name()?),
            _ => Projection::Tuple(self.cursor.u32()?),
        })
    }

    /// "An instruction is a u8 bit map .., u8 kind .., the fields whose bit stands, then the kind's
    /// fields as declared."
    pub fn instruction(&mut self, phi_may_stand: bool) -> Read<Instruction> {
        let map_at = self.cursor.at;
        let map = self.cursor.tag(2 * bits::IS_CONST)?;
        let kind_at = self.cursor.at;
        let kind = self.cursor.u8()?;
        if map & bits::IS_CONST != 0 && kind != MAKE_FIXED_ARRAY {
            return refuse(cause::UNDEFINED, map_at);
        }
        if kind >= kinds::INSTRUCTIONS {
            return refuse(cause::UNDEFINED, kind_at);
        }
        if kind == PHI && !phi_may_stand {
            return refuse(cause::LATE_PHI, kind_at);
        }
        let meta = self.meta(map)?;
        let is_const = map & bits::IS_CONST != 0;
        Ok(Instruction { meta, kind: self.kind(kind, is_const)? })
    }

    /// "bit 0 span, two u32; 1 expression id, u32 and u64; 2 comment, u32".
    fn meta(&mut self, map: u8) -> Read<Meta> {
        let mut meta = Meta::default();
        if map & bits::SPAN != 0 {
            meta.span = Some((self.cursor.u32()?, self.cursor.u32()?));
        }
        if map & bits::EXPRESSION != 0 {
            meta.expression = Some((self.cursor.u32()?, self.cursor.u64()?));
        }
        if map & bits::COMMENT != 0 {
            meta.comment = Some(self.cursor.u32()?);
        }
        Ok(meta)
    }

    /// "the kind's fields as declared".
    fn kind(&mut self, kind: u8, is_const: bool) -> Read<Kind> {
        Ok(match kind {
            0 => Kind::Assign { dest: self.dest()?, source: self.value()?, ty: self.ty()? },
            1 => Kind::UnaryOp {
                op: self.cursor.tag(kinds::UNARY_OPS)?,
                dest: self.dest()?,
                source: self.value()?,
            },
            2 => Kind::BinaryOp {
                op: self.cursor.tag(kinds::BINARY_OPS)?,
                dest: self.dest()?,
                left: self.value()?,
                right: self.value()?,
            },
            CALL => Kind::Call(self.call()?),
            4 => Kind::Cast {
                dest: self.dest()?,
                source: self.value()?,
                source_type: self.ty()?,
                target_type: self.ty()?,
            },
            5 => Kind::Load { dest: self.dest()?, place: self.place()?, ty: self.ty()? },
            6 => Kind::Store { place: self.place()?, value: self.value()?, ty: self.ty()? },
            7 => Kind::Debug { message: self.cursor.u32()?, values: self.list(Self::value)? },
            8 => Kind::Nop,
            PHI => Kind::Phi {
                dest: self.dest()?,
                ty: self.ty()?,
                sources: self.list(|r| Ok((r.block()?, r.value()?)))?,
            },
            17 => Kind::AssertEq { left: self.value()?, right: self.value()? },
            18 => Kind::HeapAllocCells { dest: self.dest()?, cells: self.value()? },
            _ => self.aggregate_kind(kind, is_const)?,
        })
    }

    /// The kinds 10 to 16, which build, read and change aggregates.
    fn aggregate_kind(&mut self, kind: u8, is_const: bool) -> Read<Kind> {
        Ok(match kind {
            10 => Kind::MakeTuple { dest: self.dest()?, elements: self.list(Self::value)? },
            12 => Kind::MakeStruct {
                dest: self.dest()?,
                fields: self.list(|r| Ok((r.name()?, r.value()?)))?,
                struct_ty: self.ty()?,
            },
            MAKE_FIXED_ARRAY => Kind::MakeFixedArray {
                dest: self.dest()?,
                elements: self.list(Self::value)?,
                element_ty: self.ty()?,
                is_const,
            },
            _ => self.part_kind(kind)?,
        })
    }

    /// The kinds 11 and 13 to 15, which read or change one part.
    fn part_kind(&mut self, kind: u8) -> Read<Kind> {
        Ok(match kind {
            11 => Kind::ExtractTupleElement {
                dest: self.dest()?,
                tuple: self.value()?,
                index: self.cursor.u32()?,
                element_ty: self.ty()?,
            },
            13 => Kind::ExtractStructField {
                dest: self.dest()?,
                struct_val: self.value()?,
                field_name: self.name()?,
                field_ty: self.ty()?,
            },
            14 => Kind::InsertField(InsertField {
                dest: self.dest()?,
                struct_val: self.value()?,
                field_name: self.name()?,
                new_value: self.value()?,
                struct_ty: self.ty()?,
            }),
            _ => Kind::InsertTuple(InsertTuple {
                dest: self.dest()?,
                tuple_val: self.value()?,
                index: self.cursor.u32()?,
                new_value: self.value()?,
                tuple_ty: self.ty()?,
            }),
        })
    }

    /// "Call with other counts of dests and return types: 8, offset of the return count"; a return
    /// count past its most is 2, the lower number.
    fn call(&mut self) -> Read<Call> {
        let dests = self.list(Self::dest)?;
        let callee = self.cursor.u16()?;
        let args = self.list(Self::value)?;
        let param_types = self.list(Self::ty)?;
        let return_at = self.cursor.at;
        let return_count = self.cursor.count(most::LIST)?;
        if return_count != dests.len() {
            return refuse(cause::CALL_COUNTS, return_at);
        }
        let return_types = self.items(return_count, Self::ty)?;
        Ok(Call { dests, callee, args, param_types, return_types })
    }

    /// "Terminators are a u8 0 to 4 in declared order, then fields."
    pub fn terminator(&mut self) -> Read<Terminator> {
        Ok(match self.cursor.tag(kinds::TERMINATORS)? {
            0 => Terminator::Jump(self.block()?),
            1 => Terminator::If {
                condition: self.value()?,
                then_target: self.block()?,
                else_target: self.block()?,
            },
            2 => Terminator::BranchCmp {
                op: self.cursor.tag(kinds::BINARY_OPS)?,
                left: self.value()?,
                right: self.value()?,
                then_target: self.block()?,
                else_target: self.block()?,
            },
            3 => Terminator::Return(self.list(Self::value)?),
            _ => Terminator::Unreachable,
        })
    }
}
