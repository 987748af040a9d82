//! Why an input is refused.

use std::error::Error;
use std::fmt;

/// What is wrong, by the numbers of the byte form.
#[derive(Debug, Clone, Copy, PartialEq, Eq, Hash)]
#[non_exhaustive]
pub enum Cause {
    /// 1: the bytes end inside a field, or just before one.
    Ends,
    /// 2: a count passes its most.
    PassesMost,
    /// 3: a kind, an operation, a boolean or a bit is not defined.
    Undefined,
    /// 4: a type number is not below its own row or the count of types, a value not below the next
    /// value, or a block not below the count of blocks.
    TooHigh,
    /// 5: a type equals an earlier one, or a struct has a field name twice.
    TypeTwice,
    /// 6: a value is defined twice, parameters included.
    ValueTwice,
    /// 7: a Phi stands after an instruction of another kind.
    LatePhi,
    /// 8: a Call has other counts of dests and return types.
    CallCounts,
    /// 9: there are bytes after the last block.
    BytesLeft,
    /// 10: an array would be rebuilt from another count of elements than its type has.
    ArrayCount,
    /// 11: the output is longer than the buffer that was lent for it.
    OutputTooLong,
    /// 12: the setting `most` is above 16.
    MostAbove16,
    /// 14: in edition 2 a value would be built again inside itself.
    Looped,
    /// 15: in edition 2 the next value or a block's instructions would pass 65,535.
    Overfull,
    /// A number that has no name here.
    Unlisted(u64),
}

/// The causes with a name: number 1 first.
const NAMED: [Cause; 14] = [
    Cause::Ends,
    Cause::PassesMost,
    Cause::Undefined,
    Cause::TooHigh,
    Cause::TypeTwice,
    Cause::ValueTwice,
    Cause::LatePhi,
    Cause::CallCounts,
    Cause::BytesLeft,
    Cause::ArrayCount,
    Cause::OutputTooLong,
    Cause::MostAbove16,
    Cause::Looped,
    Cause::Overfull,
];

impl Cause {
    /// The cause of a number.
    pub fn of(number: u64) -> Self {
        let named = NAMED.iter().find(|cause| cause.number() == number);
        named.copied().unwrap_or(Self::Unlisted(number))
    }

    /// Its number.
    pub fn number(self) -> u64 {
        match self {
            Self::Ends => 1,
            Self::PassesMost => 2,
            Self::Undefined => 3,
            Self::TooHigh => 4,
            Self::TypeTwice => 5,
            Self::ValueTwice => 6,
            Self::LatePhi => 7,
            Self::CallCounts => 8,
            Self::BytesLeft => 9,
            Self::ArrayCount => 10,
            Self::OutputTooLong => 11,
            Self::MostAbove16 => 12,
            Self::Looped => 14,
            Self::Overfull => 15,
            Self::Unlisted(number) => number,
        }
    }
}

/// A refused input: what is wrong, and where.
///
/// ```
/// use poelvigu::{Cause, Refusal};
///
/// let refusal = Refusal { cause: Cause::ValueTwice, offset: 40 };
/// assert_eq!(refusal.number(), 6);
/// let text = "the value at byte 40 is defined there for the second time (refusal 6)";
/// assert_eq!(refusal.to_string(), text);
/// ```
#[derive(Debug, Clone, Copy, PartialEq, Eq, Hash)]
pub struct Refusal {
    /// What is wrong.
    pub cause: Cause,
    /// The place in the input, in bytes; 0 from number 10 on, whose cause has no place.
    pub offset: u64,
}

impl Refusal {
    /// The refusal of a number and an offset; none where the number is 0.
    pub fn of(number: u64, offset: u64) -> Option<Self> {
        (number != 0).then(|| Self { cause: Cause::of(number), offset })
    }

    /// The number of its cause.
    pub fn number(&self) -> u64 {
        self.cause.number()
    }
}

impl fmt::Display for Refusal {
    fn fmt(&self, f: &mut fmt::Formatter<'_>) -> fmt::Result {
        let at = self.offset;
        match self.cause {
            Cause::Ends => write!(f, "the bytes end inside the field at byte {at}"),
            Cause::PassesMost => write!(f, "the count at byte {at} passes its most"),
            Cause::Undefined => {
                write!(f, "the kind, operation, boolean or bit map at byte {at} is not defined")
            }
            Cause::TooHigh => {
                write!(f, "the type, value or block number at byte {at} is too high")
            }
            Cause::TypeTwice => {
                write!(f, "the type or field name at byte {at} stands there for the second time")
            }
            Cause::ValueTwice => {
                write!(f, "the value at byte {at} is defined there for the second time")
            }
            Cause::LatePhi => {
                write!(f, "the Phi at byte {at} stands after an instruction of another kind")
            }
            Cause::CallCounts => {
                write!(f, "the Call's count of return types at byte {at} is not that of its dests")
            }
            Cause::BytesLeft => write!(f, "the last block ends, but bytes go on at byte {at}"),
            Cause::ArrayCount => {
                f.write_str("an array would be rebuilt from another count of elements than it has")
            }
            Cause::OutputTooLong => {
                f.write_str("the output is longer than the buffer that was lent for it")
            }
            Cause::MostAbove16 => f.write_str("the setting for the most parts is above 16"),
            Cause::Looped => f.write_str("a value would be built again inside itself"),
            Cause::Overfull => {
                f.write_str("the next value or a block's instructions would pass 65,535")
            }
            Cause::Unlisted(_) => write!(f, "a refusal without a name here, at byte {at}"),
        }?;
        write!(f, " (refusal {})", self.number())
    }
}

impl Error for Refusal {}

#[cfg(test)]
mod tests {
    use super::*;

    #[test]
    fn numbers_go_there_and_back() {
        assert_eq!(Refusal::of(0, 0), None);
        for number in (1..=16).chain([u64::MAX]) {
            let refusal = Refusal::of(number, 5).expect("it is not 0");
            assert_eq!((refusal.number(), refusal.offset), (number, 5));
            let named = !matches!(refusal.cause, Cause::Unlisted(_));
            assert_eq!(named, number <= 15 && number != 13);
        }
    }

    /// Every text ends with its number, and says where, if there is a place.
    #[test]
    fn texts_say_what_and_where() {
        let text = |number| Refusal::of(number, 77).expect("it is not 0").to_string();
        for number in NAMED.map(Cause::number) {
            assert!(text(number).ends_with(&format!(" (refusal {number})")));
            assert_eq!(text(number).contains("at byte 77"), number <= 9, "{}", text(number));
        }
        assert_eq!(text(2), "the count at byte 77 passes its most (refusal 2)");
    }
}
