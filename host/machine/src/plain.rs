//! A meaning by arithmetic: the prime field of Felt, and wrapping numbers.

use oracle::form::Type;

use crate::datum::Datum;
use crate::meaning::{as_it_is, Answer, Literal, Meaning};

/// Arithmetic that always has a result.
pub struct Plain;

/// The field of Felt.
const PRIME: u64 = 2_147_483_647;

impl Meaning for Plain {
    fn literal(&self, literal: Literal, _at: Option<&Type>) -> Datum {
        as_it_is(literal)
    }

    /// Not, minus, or the operand turned by the operation's number.
    fn unary(&self, op: u8, _dest: Option<&Type>, source: &Datum) -> Answer {
        Ok(match (op, source) {
            (0, Datum::Truth(b)) => Datum::Truth(!b),
            (1, other) => Datum::Number(number(other).wrapping_neg()),
            (op, other) => Datum::Number(number(other).rotate_left(u32::from(op))),
        })
    }

    fn binary(&self, op: u8, _dest: Option<&Type>, left: &Datum, right: &Datum) -> Answer {
        let (a, b) = (number(left), number(right));
        Ok(match op {
            4..=11 => Datum::Truth(relation(op - 4, a, b)),
            17..=22 => Datum::Truth(relation(op - 17, a, b)),
            0..=3 => Datum::Number(field(op, u64::from(a) % PRIME, u64::from(b) % PRIME) as u32),
            _ => Datum::Number(wrapping(op, a, b)),
        })
    }

    fn cast(&self, _from: Option<&Type>, to: Option<&Type>, source: &Datum) -> Answer {
        Ok(match to {
            Some(Type::Bool) => Datum::Truth(number(source) != 0),
            Some(Type::Unit) => Datum::Unit,
            _ => Datum::Number(number(source)),
        })
    }

    fn truth(&self, condition: &Datum) -> bool {
        number(condition) != 0
    }
}

/// Any value as a number.
fn number(datum: &Datum) -> u32 {
    match datum {
        Datum::Number(n) | Datum::Address(n) | Datum::Code(n) => *n,
        Datum::Truth(b) => u32::from(*b),
        Datum::Unit => 0,
        Datum::Parts(parts) => parts.len() as u32,
    }
}

/// Equal, unequal, the four orders, And, Or.
fn relation(op: u8, a: u32, b: u32) -> bool {
    match op {
        0 => a == b,
        1 => a != b,
        2 => a < b,
        3 => a > b,
        4 => a <= b,
        5 => a >= b,
        6 => a != 0 && b != 0,
        _ => a != 0 || b != 0,
    }
}

/// Add, Sub, Mul, Div in the field; by 0, Div gives 0.
fn field(op: u8, a: u64, b: u64) -> u64 {
    match op {
        0 => (a + b) % PRIME,
        1 => (a + PRIME - b) % PRIME,
        2 => a * b % PRIME,
        _ => a * power(b, PRIME - 2) % PRIME,
    }
}

fn power(base: u64, exponent: u64) -> u64 {
    let (mut square, mut left, mut product) = (base, exponent, 1);
    while left > 0 {
        if left & 1 == 1 {
            product = product * square % PRIME;
        }
        square = square * square % PRIME;
        left >>= 1;
    }
    product
}

/// The operations named U32; by 0, Div and Rem give 0.
fn wrapping(op: u8, a: u32, b: u32) -> u32 {
    match op {
        12 => a.wrapping_add(b),
        13 => a.wrapping_sub(b),
        14 => a.wrapping_mul(b),
        15 => a.checked_div(b).unwrap_or(0),
        16 => a.checked_rem(b).unwrap_or(0),
        23 => a & b,
        24 => a | b,
        _ => a ^ b,
    }
}

#[cfg(test)]
mod tests {
    use super::*;

    fn number_of(op: u8, a: u32, b: u32) -> Datum {
        Plain.binary(op, None, &Datum::Number(a), &Datum::Number(b)).expect("it has a result")
    }

    #[test]
    fn the_field_divides() {
        let third = field(3, 1, 3);
        assert_eq!(field(2, third, 3), 1);
        assert_eq!(field(3, 5, 0), 0);
        assert_eq!(number_of(1, 2, 3), Datum::Number(PRIME as u32 - 1));
    }

    #[test]
    fn numbers_wrap_and_compare() {
        assert_eq!(number_of(12, u32::MAX, 2), Datum::Number(1));
        assert_eq!(number_of(15, 7, 0), Datum::Number(0));
        assert_eq!(number_of(6, 1, 2), Datum::Truth(true));
        assert_eq!(number_of(20, 1, 2), Datum::Truth(false));
        assert_eq!(Plain.compare(4, &Datum::Unit, &Datum::Number(0)), Ok(true));
    }
}
