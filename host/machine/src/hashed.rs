//! Meanings without any law: each result is drawn from the operation and its operands.

use oracle::form::Type;

use crate::datum::Datum;
use crate::meaning::{as_it_is, Answer, Literal, Meaning};

/// One meaning for each seed. A literal Integer depends on the type that it stands at, a result on
/// the dest's; where `stops` is set, some operands have none.
pub struct Hashed {
    pub seed: u64,
    pub stops: bool,
}

/// How many different numbers are given, so that equal sides are met.
const FEW: u64 = 3;

/// One operand in so many stops.
const SELDOM: u64 = 12;

impl Meaning for Hashed {
    fn literal(&self, literal: Literal, at: Option<&Type>) -> Datum {
        match (literal, at) {
            (Literal::Integer(n), Some(ty)) => {
                Datum::Number(n.wrapping_add(u32::from(ty.byte()).wrapping_mul(self.seed as u32)))
            }
            (literal, _) => as_it_is(literal),
        }
    }

    fn unary(&self, op: u8, dest: Option<&Type>, source: &Datum) -> Answer {
        self.answer(&[1, op.into(), kind(dest), digest(source)])
    }

    fn binary(&self, op: u8, dest: Option<&Type>, left: &Datum, right: &Datum) -> Answer {
        self.answer(&[2, op.into(), kind(dest), digest(left), digest(right)])
    }

    fn cast(&self, from: Option<&Type>, to: Option<&Type>, source: &Datum) -> Answer {
        self.answer(&[3, kind(from), kind(to), digest(source)])
    }

    fn truth(&self, condition: &Datum) -> bool {
        match condition {
            Datum::Truth(b) => *b,
            other => digest(other) & 1 == 1,
        }
    }
}

impl Hashed {
    fn answer(&self, words: &[u64]) -> Answer {
        let drawn = words.iter().fold(self.seed, |sum, word| mix(sum, *word));
        if self.stops && drawn % SELDOM == 0 {
            return Err((drawn >> 32) as u8 & 3);
        }
        Ok(match drawn >> 40 & 7 {
            0..=3 => Datum::Number((drawn >> 8) as u32 % FEW as u32),
            4..=5 => Datum::Truth(drawn >> 8 & 1 == 1),
            6 => Datum::Address((drawn >> 8) as u32 % FEW as u32),
            _ => Datum::Unit,
        })
    }
}

fn kind(ty: Option<&Type>) -> u64 {
    ty.map_or(99, |ty| ty.byte().into())
}

/// A number of a value: equal values have equal ones.
fn digest(datum: &Datum) -> u64 {
    match datum {
        Datum::Number(n) => mix(1, u64::from(*n)),
        Datum::Truth(b) => mix(2, u64::from(*b)),
        Datum::Unit => mix(3, 0),
        Datum::Address(n) => mix(4, u64::from(*n)),
        Datum::Code(n) => mix(5, u64::from(*n)),
        Datum::Parts(parts) => parts.iter().fold(6, |sum, part| mix(sum, digest(part))),
    }
}

fn mix(sum: u64, word: u64) -> u64 {
    let mut z = (sum ^ word).wrapping_add(0x9e37_79b9_7f4a_7c15);
    z = (z ^ (z >> 30)).wrapping_mul(0xbf58_476d_1ce4_e5b9);
    z = (z ^ (z >> 27)).wrapping_mul(0x94d0_49bb_1331_11eb);
    z ^ (z >> 31)
}

#[cfg(test)]
mod tests {
    use super::*;

    #[test]
    fn a_meaning_is_fixed_and_seeds_differ() {
        let operands = |n: u32| (Datum::Number(n), Datum::Truth(n & 1 == 0));
        let row = |seed| -> Vec<Answer> {
            let meaning = Hashed { seed, stops: true };
            (0..100)
                .map(|n| meaning.binary(n as u8 % 26, None, &operands(n).0, &operands(n).1))
                .collect()
        };
        assert_eq!(row(1), row(1));
        assert_ne!(row(1), row(2));
        assert!(row(1).iter().any(Result::is_err));
    }

    /// An Index literal names the part of its number: it stands at no type.
    #[test]
    fn an_integer_at_no_type_is_its_number() {
        let meaning = Hashed { seed: 9, stops: false };
        assert_eq!(meaning.literal(Literal::Integer(4), None).position(), Some(4));
        let at = |ty| meaning.literal(Literal::Integer(4), Some(&ty));
        assert_ne!(at(Type::Felt), at(Type::U32));
    }
}
