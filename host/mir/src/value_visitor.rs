//! Stands for the crate's `value_visitor.rs`: going over and replacing the operands of values.

use crate::{Place, Projection, Value, ValueId};

pub(crate) fn visit_value(value: &Value, mut visit: impl FnMut(ValueId)) {
    if let Value::Operand(id) = value {
        visit(*id);
    }
}

pub(crate) fn visit_values(values: &[Value], mut visit: impl FnMut(ValueId)) {
    for value in values {
        visit_value(value, &mut visit);
    }
}

pub(crate) fn visit_place(place: &Place, mut visit: impl FnMut(ValueId)) {
    visit(place.base);
    for projection in &place.projections {
        if let Projection::Index(value) = projection {
            visit_value(value, &mut visit);
        }
    }
}

pub(crate) fn replace_value_id(value: &mut Value, from: ValueId, to: ValueId) {
    if *value == Value::Operand(from) {
        *value = Value::Operand(to);
    }
}

pub(crate) fn replace_value_ids(values: &mut [Value], from: ValueId, to: ValueId) {
    for value in values {
        replace_value_id(value, from, to);
    }
}

pub(crate) fn replace_place_value_ids(place: &mut Place, from: ValueId, to: ValueId) {
    if place.base == from {
        place.base = to;
    }
    for projection in &mut place.projections {
        if let Projection::Index(value) = projection {
            replace_value_id(value, from, to);
        }
    }
}
