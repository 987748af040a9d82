//! A routine's bytes with the place and class of each field.

use oracle::form::Routine;
use oracle::{write_routine, Class, Sink};

/// One field of written bytes.
#[derive(Debug, Clone, Copy)]
pub struct Field {
    pub at: usize,
    pub width: usize,
    pub class: Class,
}

/// Bytes, and the fields that they are made of.
pub struct Marked {
    pub bytes: Vec<u8>,
    pub fields: Vec<Field>,
}

impl Marked {
    pub fn of(routine: &Routine) -> Self {
        let mut marked = Self { bytes: Vec::with_capacity(512), fields: Vec::with_capacity(256) };
        write_routine(&mut marked, routine);
        marked
    }

    /// The number that stands in a field.
    pub fn get(&self, field: Field) -> u64 {
        let mut word = [0; 8];
        word[..field.width].copy_from_slice(&self.bytes[field.at..field.at + field.width]);
        u64::from_le_bytes(word)
    }

    /// Writes a number into a field, cut to its width.
    pub fn set(&mut self, field: Field, number: u64) {
        let bytes = &number.to_le_bytes()[..field.width];
        self.bytes[field.at..field.at + field.width].copy_from_slice(bytes);
    }
}

impl Sink for Marked {
    fn put(&mut self, class: Class, number: u64, width: usize) {
        self.fields.push(Field { at: self.bytes.len(), width, class });
        self.bytes.put(class, number, width);
    }
}
