//! Numbers read off the lent bytes, and the refusal where they end.

use std::fmt;

/// A refused input: document 01's number, and the offset that it returns with it.
#[derive(Debug, Clone, Copy, PartialEq, Eq, Hash)]
pub struct Refusal {
    pub number: u8,
    pub offset: usize,
}

/// The refusals by cause, in document 01's order.
pub mod cause {
    pub const ENDS: u8 = 1;
    pub const PASSES_MOST: u8 = 2;
    pub const UNDEFINED: u8 = 3;
    pub const NOT_BELOW: u8 = 4;
    pub const TWICE_TYPE: u8 = 5;
    pub const TWICE_VALUE: u8 = 6;
    pub const LATE_PHI: u8 = 7;
    pub const CALL_COUNTS: u8 = 8;
    pub const BYTES_LEFT: u8 = 9;
    pub const ARRAY_REBUILD: u8 = 10;
    pub const OUTPUT_LONGER: u8 = 11;
    pub const SETTING: u8 = 12;
}

/// The answer of a reader.
pub type Read<T> = Result<T, Refusal>;

/// The refusal `number` at `offset`.
pub fn refuse<T>(number: u8, offset: usize) -> Read<T> {
    Err(Refusal { number, offset })
}

impl fmt::Display for Refusal {
    /// "For a refusal, one line: `refused`, number, offset."
    fn fmt(&self, f: &mut fmt::Formatter<'_>) -> fmt::Result {
        write!(f, "refused {} {}", self.number, self.offset)
    }
}

/// Where the reading stands.
pub struct Cursor<'a> {
    bytes: &'a [u8],
    pub at: usize,
}

impl<'a> Cursor<'a> {
    pub fn new(bytes: &'a [u8]) -> Self {
        Self { bytes, at: 0 }
    }

    /// How many bytes are not read yet.
    pub fn left(&self) -> usize {
        self.bytes.len() - self.at
    }

    /// The next `N` bytes; "bytes end inside a field: 1, offset of the field".
    #[inline]
    fn take<const N: usize>(&mut self) -> Read<[u8; N]> {
        match self.bytes[self.at..].first_chunk::<N>() {
            Some(chunk) => {
                self.at += N;
                Ok(*chunk)
            }
            None => refuse(cause::ENDS, self.at),
        }
    }

    #[inline]
    pub fn u8(&mut self) -> Read<u8> {
        self.take().map(u8::from_le_bytes)
    }

    #[inline]
    pub fn u16(&mut self) -> Read<u16> {
        self.take().map(u16::from_le_bytes)
    }

    #[inline]
    pub fn u32(&mut self) -> Read<u32> {
        self.take().map(u32::from_le_bytes)
    }

    #[inline]
    pub fn u64(&mut self) -> Read<u64> {
        self.take().map(u64::from_le_bytes)
    }

    /// A u8 below `limit`; "undefined kind, operation, boolean: 3".
    #[inline]
    pub fn tag(&mut self, limit: u8) -> Read<u8> {
        let at = self.at;
        let tag = self.u8()?;
        if tag >= limit {
            return refuse(cause::UNDEFINED, at);
        }
        Ok(tag)
    }

    /// A u16 count; "a count passes its most: 2".
    #[inline]
    pub fn long_count(&mut self, most: usize) -> Read<usize> {
        let at = self.at;
        let count = usize::from(self.u16()?);
        if count > most {
            return refuse(cause::PASSES_MOST, at);
        }
        Ok(count)
    }

    /// A u8 count in front of a list.
    #[inline]
    pub fn count(&mut self, most: usize) -> Read<usize> {
        let at = self.at;
        let count = usize::from(self.u8()?);
        if count > most {
            return refuse(cause::PASSES_MOST, at);
        }
        Ok(count)
    }

    /// A u16 number below `limit`, or 4 at its offset.
    #[inline]
    pub fn below(&mut self, limit: usize) -> Read<u16> {
        let at = self.at;
        let number = self.u16()?;
        if usize::from(number) >= limit {
            return refuse(cause::NOT_BELOW, at);
        }
        Ok(number)
    }
}
