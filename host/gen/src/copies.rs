//! Blocks dense in copies: chains and stars of inserts and Assigns, from builds and from values of
//! other blocks, in any order, and rings of copies that begin nowhere.

use oracle::form::*;

use crate::debugs::phis;
use crate::draft::Draft;
use crate::rng::Rng;
use crate::twist::twist;

const FELT: TypeNo = TypeNo(0);

/// So many aggregates stand behind it: two tuples, two structs, two arrays.
const AGGREGATES: usize = 6;

/// Felts by one of two counts, the second higher, and at times above the usual most.
fn types(rng: &mut Rng) -> Vec<Type> {
    let few = rng.within(1, 3);
    let counts = [few, few + rng.within(1, 7)];
    let fields = |count| (0..count as u16).map(|n| (NameNo(n), FELT)).collect();
    let tuples = counts.map(|count| Type::Tuple(vec![FELT; count]));
    let structs = counts.map(|count| Type::Struct { name: NameNo(0), fields: fields(count) });
    let arrays = counts.map(|count| Type::FixedArray { element: FELT, size: count as u32 });
    [Type::Felt].into_iter().chain(tuples).chain(structs).chain(arrays).collect()
}

/// What the next copy of a group is a copy of.
#[derive(Debug, Clone, Copy, PartialEq, Eq)]
enum Shape {
    /// The value that was made last.
    Chain,
    /// The first value.
    Star,
    /// Any value.
    Tree,
}

const SHAPES: [Shape; 3] = [Shape::Chain, Shape::Star, Shape::Tree];

/// A value, and the type at which it is copied.
type Known = (ValueNo, TypeNo);

struct Copies<'r> {
    draft: Draft<'r>,
    /// Whether types agree.
    straight: bool,
    /// Whether instructions stay in the order in which they are made, and no copies go in a ring.
    ordered: bool,
    /// The open block's values by what they are copies of, that first.
    groups: Vec<Vec<Known>>,
    /// Parameters, values that nothing defines, and those of the blocks before.
    elsewhere: Vec<Known>,
    scalars: Vec<ValueNo>,
}

/// A routine whose blocks are dense in copies; in some a few copies have another source, and some
/// have a twist.
pub fn routine(rng: &mut Rng) -> Routine {
    let mut routine = if rng.chance(3) { full(rng) } else { some(rng) };
    if rng.chance(20) {
        redirect(rng, &mut routine);
    }
    if rng.chance(10) {
        twist(rng, &mut routine);
    }
    routine
}

/// A few blocks.
fn some(rng: &mut Rng) -> Routine {
    let size = if rng.chance(90) { rng.within(2, 40) } else { rng.within(40, most::IN_ALL) };
    let blocks = rng.within(1, 4);
    let mut copies = Copies::new(rng);
    copies.outside();
    for block in 0..blocks {
        copies.block(block, blocks, size / blocks + 1);
    }
    copies.draft.finish(BlockNo(0))
}

/// A block of as many instructions as there can be, or one less: a build and copies. Behind it one
/// that reads a member, or one that is full of copies too.
fn full(rng: &mut Rng) -> Routine {
    let mut copies = Copies::new(rng);
    let spare = copies.draft.rng.below(2);
    let shapes = [(); 2].map(|()| copies.shape());
    copies.build();
    copies.fill(shapes[0], spare);
    let last = copies.groups[0][most::IN_BLOCK - 1 - spare];
    copies.close(0, 2);
    if copies.draft.rng.chance(40) {
        copies.groups.push(vec![last]);
        copies.fill(shapes[1], 0);
    }
    copies.close(1, 2);
    copies.draft.finish(BlockNo(0))
}

impl<'r> Copies<'r> {
    fn new(rng: &'r mut Rng) -> Self {
        let (types, straight, ordered) = (types(rng), rng.chance(60), rng.chance(25));
        let draft = Draft::new(rng, types, most::IN_ALL);
        let (groups, elsewhere, scalars) = (Vec::new(), Vec::new(), Vec::new());
        Self { draft, straight, ordered, groups, elsewhere, scalars }
    }

    /// Whether something is not as it should be, here.
    fn odd(&mut self) -> bool {
        !self.straight && self.draft.rng.chance(20)
    }

    fn shape(&mut self) -> Shape {
        self.draft.rng.pick(&SHAPES)
    }

    fn aggregate(&mut self) -> TypeNo {
        TypeNo(self.draft.rng.within(1, AGGREGATES) as u16)
    }

    /// `ty`, or where it is odd any type.
    fn type_or(&mut self, ty: TypeNo) -> TypeNo {
        if self.odd() {
            TypeNo(self.draft.rng.below(self.draft.types.len()) as u16)
        } else {
            ty
        }
    }

    /// A fresh value, recorded at `ty` where nothing is odd.
    fn fresh(&mut self, ty: TypeNo) -> ValueNo {
        let other = self.type_or(ty);
        let recorded = (other == ty || self.draft.rng.chance(70)).then_some(other);
        self.draft.fresh(recorded)
    }

    fn felt(&mut self) -> Value {
        match self.draft.rng.pick_some(&self.scalars) {
            Some(v) if self.draft.rng.chance(50) => Value::Operand(v),
            _ => Value::Integer(self.draft.rng.number()),
        }
    }

    /// Parameters, and values that nothing defines.
    fn outside(&mut self) {
        for _ in 0..self.draft.rng.below(3) {
            let felt = self.draft.fresh(Some(FELT));
            self.draft.parameters.push(felt);
            self.scalars.push(felt);
        }
        for _ in 0..self.draft.rng.below(3) {
            let ty = self.aggregate();
            let value = self.draft.fresh(Some(ty));
            self.elsewhere.push((value, ty));
            if self.draft.rng.chance(60) {
                self.draft.parameters.push(value);
            }
        }
    }

    fn block(&mut self, here: usize, blocks: usize, size: usize) {
        if here > 0 && self.draft.rng.chance(20) {
            self.phi(here);
        }
        let shape = self.shape();
        let left = self.draft.left.saturating_sub(size);
        while self.draft.left > left && self.draft.room() >= RING && self.draft.has_values(RING) {
            self.step(shape);
        }
        self.close(here, blocks);
    }

    fn phi(&mut self, here: usize) {
        let ty = self.type_or(FELT);
        let dest = self.fresh(ty);
        let sources = vec![(BlockNo(here as u16 - 1), Value::Integer(0))];
        self.draft.push(Kind::Phi { dest, ty, sources });
    }

    fn step(&mut self, shape: Shape) {
        match self.draft.rng.below(16) {
            0 => self.build(),
            1 if !self.ordered => self.ring(),
            2 => self.adopt(),
            3..=5 => self.look(),
            _ => self.grow(shape),
        }
    }

    /// A build, and with it a group.
    fn build(&mut self) {
        let ty = self.aggregate();
        let row = self.draft.row(ty).clone();
        let count = row.count().expect("an aggregate");
        let elements: Vec<Value> = (0..count).map(|_| self.felt()).collect();
        let dest = self.fresh(ty);
        self.groups.push(vec![(dest, ty)]);
        self.draft.push(match row {
            Type::Struct { fields, .. } => {
                let names = fields.iter().map(|(name, _)| *name);
                Kind::MakeStruct { dest, fields: names.zip(elements).collect(), struct_ty: ty }
            }
            Type::FixedArray { element, .. } => {
                Kind::MakeFixedArray { dest, elements, element_ty: element, is_const: false }
            }
            _ => Kind::MakeTuple { dest, elements },
        });
    }

    /// A copy of a group's value; where there is no group, a build.
    fn grow(&mut self, shape: Shape) {
        if self.groups.is_empty() {
            return self.build();
        }
        let at = self.draft.rng.below(self.groups.len());
        let group = &self.groups[at];
        let (source, ty) = match shape {
            Shape::Chain => group[group.len() - 1],
            Shape::Star => group[0],
            Shape::Tree => self.draft.rng.pick(group),
        };
        let ty = self.type_or(ty);
        let dest = self.fresh(ty);
        self.copy(dest, source, ty);
        self.groups[at].push((dest, ty));
    }

    /// Copies in place of all instructions that the block may still take, but `spare`.
    fn fill(&mut self, shape: Shape, spare: usize) {
        while self.draft.room() > spare && self.draft.has_values(1) {
            self.grow(shape);
        }
    }

    /// An insert, where the type has one and at times where not, or an Assign.
    fn copy(&mut self, dest: ValueNo, source: ValueNo, ty: TypeNo) {
        let from = Value::Operand(source);
        let assign = self.draft.rng.chance(50);
        let new_value = self.felt();
        let row = self.draft.row(ty).clone();
        let index = self.draft.rng.below(row.count().unwrap_or(1));
        let insert = |name| {
            let (struct_val, field_name, struct_ty) = (from, name, ty);
            Kind::InsertField(InsertField { dest, struct_val, field_name, new_value, struct_ty })
        };
        let kind = match row {
            Type::Struct { fields, .. } if !assign => insert(fields[index].0),
            Type::FixedArray { .. } | Type::Felt if self.odd() => insert(NameNo(0)),
            Type::Tuple(_) if !assign => {
                let (tuple_val, index, tuple_ty) = (from, index as u32, ty);
                Kind::InsertTuple(InsertTuple { dest, tuple_val, index, new_value, tuple_ty })
            }
            _ => Kind::Assign { dest, source: from, ty },
        };
        self.draft.push(kind);
    }

    /// Copies of one another, which no build begins; one alone is a copy of itself.
    fn ring(&mut self) {
        let ty = self.aggregate();
        let count = self.draft.rng.within(1, RING);
        let ring: Vec<ValueNo> = (0..count).map(|_| self.fresh(ty)).collect();
        for at in 0..count {
            self.copy(ring[at], ring[(at + 1) % count], ty);
        }
        if self.draft.rng.chance(50) {
            self.groups.push(ring.into_iter().map(|value| (value, ty)).collect());
        }
    }

    /// A value of another block, which copies are made of as of a build.
    fn adopt(&mut self) {
        match self.draft.rng.pick_some(&self.elsewhere) {
            Some(known) => self.groups.push(vec![known]),
            None => self.build(),
        }
    }

    /// A value of this block as a rule, else one of another.
    fn known(&mut self) -> Option<Known> {
        if self.groups.is_empty() || self.draft.rng.chance(25) {
            return self.draft.rng.pick_some(&self.elsewhere);
        }
        let at = self.draft.rng.below(self.groups.len());
        self.draft.rng.pick_some(&self.groups[at])
    }

    /// A part of a value is read or stored, or the value is handed on.
    fn look(&mut self) {
        let Some((base, ty)) = self.known() else {
            return self.build();
        };
        let from = Value::Operand(base);
        let row = self.draft.row(ty).clone();
        let index = self.draft.rng.below(row.count().unwrap_or(1)) as u32;
        let shown = self.draft.rng.chance(15);
        let kind = match row {
            Type::Tuple(_) if !shown => {
                let dest = self.scalar();
                Kind::ExtractTupleElement { dest, tuple: from, index, element_ty: FELT }
            }
            Type::Struct { fields, .. } if !shown => {
                let (dest, field_name) = (self.scalar(), fields[index as usize].0);
                Kind::ExtractStructField { dest, struct_val: from, field_name, field_ty: FELT }
            }
            Type::FixedArray { .. } if !shown => self.through(base, index),
            _ => {
                let (args, param_types) = (vec![from], vec![ty]);
                let (dests, return_types) = (Vec::new(), Vec::new());
                Kind::Call(Call { dests, callee: 1, args, param_types, return_types })
            }
        };
        self.draft.push(kind);
    }

    /// A fresh Felt.
    fn scalar(&mut self) -> ValueNo {
        let value = self.draft.fresh(Some(FELT));
        self.scalars.push(value);
        value
    }

    /// A Load or Store at an Index: an Integer, or an operand where there is one.
    fn through(&mut self, base: ValueNo, index: u32) -> Kind {
        let operand = self.draft.rng.pick_some(&self.scalars).map(Value::Operand);
        let dynamic = self.draft.rng.chance(40);
        let index = match operand {
            _ if self.odd() => self.draft.rng.pick(&[Value::Boolean(true), Value::Unit]),
            Some(operand) if dynamic => operand,
            _ => Value::Integer(index),
        };
        let mut projections = vec![Projection::Index(index)];
        if self.odd() {
            projections.insert(self.draft.rng.below(2), Projection::Tuple(0));
        }
        let place = Place { base, projections };
        if self.draft.rng.chance(50) {
            Kind::Load { dest: self.scalar(), place, ty: FELT }
        } else {
            Kind::Store { place, value: self.felt(), ty: FELT }
        }
    }

    /// Ends the block, in some order, and hands its values to the others.
    fn close(&mut self, here: usize, blocks: usize) {
        let terminator = self.terminator(here, blocks);
        self.draft.close(terminator);
        if !self.ordered {
            let block = &mut self.draft.blocks[here];
            let first = phis(block);
            reorder(self.draft.rng, &mut block.instructions[first..]);
        }
        self.elsewhere.extend(self.groups.drain(..).flatten());
    }

    fn terminator(&mut self, here: usize, blocks: usize) -> Terminator {
        let next = BlockNo(here as u16 + 1);
        if here + 1 < blocks {
            return match self.draft.rng.below(10) {
                0 => Terminator::If {
                    condition: Value::Boolean(true),
                    then_target: next,
                    else_target: next,
                },
                _ => Terminator::Jump(next),
            };
        }
        let count = self.draft.rng.below(3);
        let shown = (0..count).filter_map(|_| self.known().map(|(v, _)| Value::Operand(v)));
        Terminator::Return(shown.collect())
    }
}

/// The most values of a ring.
const RING: usize = 4;

/// Puts instructions into another order, all of them or some; at times they stay.
fn reorder(rng: &mut Rng, instructions: &mut [Instruction]) {
    let count = instructions.len();
    match rng.below(10) {
        0 => {}
        1..=3 => instructions.reverse(),
        4..=6 => shuffle(rng, instructions),
        _ => {
            let (one, other) = (rng.below(count + 1), rng.below(count + 1));
            shuffle(rng, &mut instructions[one.min(other)..one.max(other)]);
        }
    }
}

fn shuffle(rng: &mut Rng, instructions: &mut [Instruction]) {
    for at in (1..instructions.len()).rev() {
        instructions.swap(at, rng.below(at + 1));
    }
}

/// Makes a few copies copies of any value, of whichever block.
fn redirect(rng: &mut Rng, routine: &mut Routine) {
    let values = routine.recorded.len();
    let mut sources: Vec<&mut Value> = Vec::new();
    for instruction in routine.blocks.iter_mut().flat_map(|block| &mut block.instructions) {
        match &mut instruction.kind {
            Kind::Assign { source, .. } => sources.push(source),
            Kind::InsertTuple(insert) => sources.push(&mut insert.tuple_val),
            Kind::InsertField(insert) => sources.push(&mut insert.struct_val),
            _ => {}
        }
    }
    for _ in 0..rng.within(1, 3).min(sources.len()) {
        let at = rng.below(sources.len());
        *sources[at] = match rng.below(20) {
            0 => Value::Integer(rng.number()),
            _ => Value::Operand(ValueNo(rng.below(values) as u16)),
        };
    }
}
