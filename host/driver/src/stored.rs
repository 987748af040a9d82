//! Stored answers as the program `replay` reads them, row after row: three settings of a byte each,
//! the lent length and the input's length, the input, the ten numbers of the answer and its bytes.
//! Lengths and numbers are u32, little-endian.

use oracle::Settings;

use crate::judged::Judged;
use crate::NUMBERS;

/// Adds a row.
pub fn put(file: &mut Vec<u8>, input: &[u8], settings: Settings, lent: usize, judged: &Judged) {
    let Settings { enable_tuples, enable_structs, max_aggregate_size } = settings;
    file.extend([enable_tuples, enable_structs, max_aggregate_size].map(|n| n as u8));
    file.extend((lent as u32).to_le_bytes());
    file.extend((input.len() as u32).to_le_bytes());
    file.extend(input);
    let (numbers, output) = judged.within(lent);
    file.extend(numbers.iter().flat_map(|n| (*n as u32).to_le_bytes()));
    file.extend(output);
}

/// The inputs of all rows, in order; nothing where the file ends inside a row.
pub fn inputs(mut file: &[u8]) -> Option<Vec<&[u8]>> {
    let mut inputs = Vec::new();
    while !file.is_empty() {
        let (_, rest) = file.split_at_checked(3 + 4)?;
        let (length, rest) = number(rest)?;
        let (input, mut rest) = rest.split_at_checked(length)?;
        let mut numbers = [0; NUMBERS];
        for place in &mut numbers {
            (*place, rest) = number(rest)?;
        }
        let (_, rest) = rest.split_at_checked(numbers[NUMBERS - 1])?;
        inputs.push(input);
        file = rest;
    }
    Some(inputs)
}

fn number(file: &[u8]) -> Option<(usize, &[u8])> {
    let (number, rest) = file.split_first_chunk()?;
    Some((u32::from_le_bytes(*number) as usize, rest))
}

#[cfg(test)]
mod tests {
    use super::*;
    use oracle::rows::EXAMPLE;
    use oracle::{from_hex, LENT};

    #[test]
    fn inputs_are_found_again() {
        let settings = Settings::default();
        let example = from_hex(EXAMPLE).expect("it is hexadecimal");
        let rows = [(vec![], LENT), (example.clone(), LENT), (vec![1, 2], 0), (example, 3)];
        let mut file = Vec::new();
        for (input, lent) in &rows {
            put(&mut file, input, settings, *lent, &Judged::of(input, settings));
        }
        assert_eq!(inputs(&file), Some(rows.iter().map(|(input, _)| &input[..]).collect()));
        assert_eq!(inputs(&file[..file.len() - 1]), None);
    }
}
