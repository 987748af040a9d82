//! Builds in builds, and the ways into them: what single steps seldom put together.

use oracle::form::*;

use crate::wild_steps::Wild;

impl Wild<'_> {
    /// How many instructions [`Self::nest`] makes.
    pub const NEST: usize = 5;

    /// A build in a build, a copy of it, an array that holds one of them, and a way into it.
    pub fn nest(&mut self) {
        let core = self.tuple_or_struct(None);
        let inner = self.tuple_or_struct(Some(core));
        let copy = self.copy(inner);
        self.draft.push(copy);
        let held = if self.draft.rng.chance(50) { inner } else { self.last_build() };
        let at = self.draft.rng.below(2);
        let mut array = self.make_array();
        if let Kind::MakeFixedArray { elements, .. } = &mut array {
            replace(elements.get_mut(at), held);
        }
        self.draft.push(array);
        let last = if self.draft.rng.chance(30) {
            self.extract_from(held)
        } else {
            let base = self.builds[self.builds.len() - 1];
            let first = Projection::Index(Value::Integer(at as u32));
            let mut projections = vec![first, self.step_into(held)];
            if self.draft.rng.chance(50) {
                projections.push(self.step_into(core));
            }
            self.through(Place { base, projections })
        };
        self.draft.push(last);
    }

    /// Builds a tuple or struct, with `first` as its first part.
    fn tuple_or_struct(&mut self, first: Option<Value>) -> Value {
        let mut kind =
            if self.draft.rng.chance(50) { self.make_tuple() } else { self.make_struct() };
        if let Some(first) = first {
            match &mut kind {
                Kind::MakeTuple { elements, .. } => replace(elements.first_mut(), first),
                Kind::MakeStruct { fields, .. } => {
                    replace(fields.first_mut().map(|(_, value)| value), first)
                }
                _ => {}
            }
        }
        self.draft.push(kind);
        self.last_build()
    }

    fn step_into(&mut self, value: Value) -> Projection {
        match self.draft.rng.below(4) {
            0 => Projection::Tuple(self.index()),
            1..=2 => Projection::Field(self.field_of(value)),
            _ => self.projection(false),
        }
    }

    fn last_build(&self) -> Value {
        Value::Operand(self.builds[self.builds.len() - 1])
    }

    /// A Load from a place, or a Store to it.
    fn through(&mut self, place: Place) -> Kind {
        let ty = self.any_type();
        if self.draft.rng.chance(50) {
            let recorded = self.recorded(ty);
            Kind::Load { dest: self.aggregate_dest(recorded), place, ty }
        } else {
            Kind::Store { place, value: self.part(), ty }
        }
    }
}

/// Puts `value` into a place, where there is one.
fn replace(place: Option<&mut Value>, value: Value) {
    if let Some(place) = place {
        *place = value;
    }
}
