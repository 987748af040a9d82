//! Builds, inserts and extracts. Positions go by the same lookups as in the pass.

use oracle::form::*;

use crate::datum::Datum;
use crate::state::{there, Done, State};

impl<'a> State<'a> {
    /// A build: its parts as one value, each part at its type.
    pub fn build<'v>(
        &mut self,
        dest: ValueNo,
        parts: impl IntoIterator<Item = &'v Value>,
        row: Option<&'a Type>,
    ) -> Done<()>
    where
        'a: 'v,
    {
        let routine = self.routine;
        let at = |k| routine.row(row.and_then(|row| row.part(k)));
        let parts = self.values(parts, at)?;
        self.write(dest, Datum::parts(parts))
    }

    /// A struct's build: "in its type's field order", by the recorded type if there is one.
    pub fn build_struct(
        &mut self,
        dest: ValueNo,
        fields: &'a [(NameNo, Value)],
        struct_ty: TypeNo,
    ) -> Done<()> {
        let row = self.row(dest).or_else(|| self.routine.row(Some(struct_ty)));
        let Some(Type::Struct { fields: declared, .. }) = row else {
            return there(None);
        };
        let given = |name| fields.iter().find(|(own, _)| *own == name).map(|(_, value)| value);
        let parts: Option<Vec<&Value>> = declared.iter().map(|(name, _)| given(*name)).collect();
        self.build(dest, there(parts)?, row)
    }

    pub fn extract_tuple(&mut self, dest: ValueNo, tuple: Value, index: u32) -> Done<()> {
        let whole = self.value(tuple, None)?;
        let part = there(whole.part(index as usize))?;
        self.write(dest, part.clone())
    }

    /// By the recorded type of the struct.
    pub fn extract_field(&mut self, dest: ValueNo, from: Value, field: NameNo) -> Done<()> {
        let whole = self.value(from, None)?;
        let at = self.operand_row(from).and_then(|row| row.position(field));
        let part = there(whole.part(there(at)?))?;
        self.write(dest, part.clone())
    }

    pub fn insert_tuple(&mut self, insert: &InsertTuple) -> Done<()> {
        let whole = self.value(insert.tuple_val, None)?;
        let row = self.routine.row(Some(insert.tuple_ty));
        self.insert(insert.dest, whole, Some(insert.index as usize), insert.new_value, row)
    }

    /// By the named type.
    pub fn insert_field(&mut self, insert: &InsertField) -> Done<()> {
        let whole = self.value(insert.struct_val, None)?;
        let row = self.routine.row(Some(insert.struct_ty));
        let at = row.and_then(|row| row.position(insert.field_name));
        self.insert(insert.dest, whole, at, insert.new_value, row)
    }

    fn insert(
        &mut self,
        dest: ValueNo,
        mut whole: Datum,
        at: Option<usize>,
        new_value: Value,
        row: Option<&Type>,
    ) -> Done<()> {
        let part_ty = at.and_then(|at| row.and_then(|row| row.part(at)));
        let new_value = self.value(new_value, self.routine.row(part_ty))?;
        *there(whole.part_mut(there(at)?))? = new_value;
        self.write(dest, whole)
    }
}
