//! A routine that grows: fresh values, the open block, what is left of the mosts.

use oracle::form::*;

use crate::rng::Rng;

pub struct Draft<'r> {
    pub rng: &'r mut Rng,
    pub types: Vec<Type>,
    pub recorded: Vec<Option<TypeNo>>,
    pub parameters: Vec<ValueNo>,
    pub blocks: Vec<Block>,
    /// The instructions of the open block.
    pub open: Vec<Instruction>,
    /// How many instructions the routine may still take.
    pub left: usize,
}

impl<'r> Draft<'r> {
    pub fn new(rng: &'r mut Rng, types: Vec<Type>, left: usize) -> Self {
        Self {
            rng,
            types,
            recorded: Vec::new(),
            parameters: Vec::new(),
            blocks: Vec::new(),
            open: Vec::with_capacity(left.min(16)),
            left,
        }
    }

    /// The row of a number.
    pub fn row(&self, ty: TypeNo) -> &Type {
        &self.types[ty.index()]
    }

    /// The number of the open block.
    pub fn here(&self) -> BlockNo {
        BlockNo(self.blocks.len() as u16)
    }

    /// How many instructions the open block may still take.
    pub fn room(&self) -> usize {
        self.left.min(most::IN_BLOCK - self.open.len())
    }

    /// Whether `count` more values can have numbers.
    pub fn has_values(&self, count: usize) -> bool {
        self.recorded.len() + count <= most::NEXT_VALUE
    }

    /// The next value number, recorded at `ty`.
    pub fn fresh(&mut self, ty: Option<TypeNo>) -> ValueNo {
        self.recorded.push(ty);
        ValueNo(self.recorded.len() as u16 - 1)
    }

    /// Any operation of a BinaryOp or a BranchCmp.
    pub fn binary_op(&mut self) -> u8 {
        self.rng.below(usize::from(kinds::BINARY_OPS)) as u8
    }

    /// A BinaryOp of any operation.
    pub fn binary(&mut self, dest: ValueNo, left: Value, right: Value) -> Kind {
        Kind::BinaryOp { op: self.binary_op(), dest, left, right }
    }

    /// A UnaryOp of any operation.
    pub fn unary(&mut self, dest: ValueNo, source: Value) -> Kind {
        let op = self.rng.below(usize::from(kinds::UNARY_OPS)) as u8;
        Kind::UnaryOp { op, dest, source }
    }

    /// Adds an instruction; now and then with span, expression id or comment.
    pub fn push(&mut self, kind: Kind) {
        let meta = if self.rng.chance(20) { self.meta() } else { Meta::default() };
        self.open.push(Instruction { meta, kind });
        self.left -= 1;
    }

    fn meta(&mut self) -> Meta {
        let rng = &mut *self.rng;
        let stands = rng.below(8);
        Meta {
            span: (stands & 1 != 0).then(|| (rng.number(), rng.number())),
            expression: (stands & 2 != 0).then(|| (rng.number(), rng.word())),
            comment: (stands & 4 != 0).then(|| rng.number()),
        }
    }

    /// Ends the open block.
    pub fn close(&mut self, terminator: Terminator) {
        let instructions = std::mem::take(&mut self.open);
        self.blocks.push(Block { instructions, terminator });
    }

    /// The routine, with `entry` as its entry block.
    pub fn finish(self, entry: BlockNo) -> Routine {
        Routine {
            types: self.types,
            entry,
            parameters: self.parameters,
            recorded: self.recorded,
            blocks: self.blocks,
        }
    }
}
