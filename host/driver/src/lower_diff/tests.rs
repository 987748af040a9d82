use super::outcome::{differs, settings_of};
use super::settings::Triple;
use super::*;
use crate::judged::Judged;
use crate::Answer;

/// The Rust behind the entry's signature.
pub fn rust(input: &[u8], output: &mut [u8], settings: Triple) -> Answer {
    let judged = Judged::of(input, settings_of(settings));
    let (numbers, bytes) = judged.within(output.len());
    output[..bytes.len()].copy_from_slice(bytes);
    numbers
}

fn compared(lower: Lower, count: u64) -> Comparison<Triple> {
    let mut diff = Diff::new(lower, 1);
    diff.stored();
    diff.made(count, None, false);
    diff.comparison
}

#[test]
fn the_rust_agrees_with_itself() {
    let comparison = compared(rust, 500);
    assert!(comparison.found.is_empty());
    comparison.print();
    assert_eq!(comparison.missing(&FIRST), Vec::<String>::new());
}

/// A fault is found in the first inputs.
fn is_found(lower: Lower) -> bool {
    (0..3000).any(|number| {
        let input = made(1, number, None).1;
        let settings = some_settings(&mut Rng::of(2, number));
        let calls = Calls::Many(number);
        settings
            .iter()
            .any(|triple| differs(Sides::rust(lower), &input, *triple, calls, |_| {}).is_some())
    })
}

#[test]
fn wrong_numbers_are_found() {
    assert!(is_found(|input, output, settings| {
        let mut answer = rust(input, output, settings);
        answer[7] += u64::from(answer[7] > 1);
        answer
    }));
    assert!(is_found(|input, output, settings| {
        let mut answer = rust(input, output, settings);
        answer[1] += u64::from(answer[0] == 5);
        answer
    }));
    assert!(is_found(|input, output, settings| {
        let mut answer = rust(input, output, settings);
        answer[8] = 5 * u64::from(answer[0] == 0);
        answer
    }));
    assert!(is_found(|input, output, settings| {
        let mut answer = rust(input, output, settings);
        answer[2] = 1;
        answer
    }));
}

#[test]
fn wrong_bytes_are_found() {
    // Output touched where 11 is answered.
    assert!(is_found(|input, output, settings| {
        let answer = rust(input, output, settings);
        if answer[0] == 11 && !output.is_empty() {
            output[0] ^= 1;
        }
        answer
    }));
    // A byte behind the routine touched.
    assert!(is_found(|input, output, settings| {
        let answer = rust(input, output, settings);
        if let Some(byte) = output.get_mut(answer[9] as usize).filter(|_| answer[0] == 0) {
            *byte = 0;
        }
        answer
    }));
    // The input copied, under the right counts.
    assert!(is_found(|input, output, settings| {
        let answer = rust(input, output, settings);
        if answer[0] == 0 && answer[9] == input.len() as u64 {
            output[..input.len()].copy_from_slice(input);
        }
        answer
    }));
}

#[test]
fn wrong_settings_and_refusals_are_found() {
    // A flag read by its low half, or by its low bit of two.
    assert!(is_found(|input, output, [tuples, structs, most]| {
        rust(input, output, [tuples & 0xffff_ffff, structs, most])
    }));
    // 17 taken for 16.
    assert!(is_found(|input, output, [tuples, structs, most]| {
        rust(input, output, [tuples, structs, most.min(16)])
    }));
    // 10 never said.
    assert!(is_found(|input, output, settings| {
        let mut answer = rust(input, output, settings);
        if answer[0] == 10 {
            answer[0] = 0;
        }
        answer
    }));
    // 11 said at the exact length.
    assert!(is_found(|input, output, settings| {
        let before = output.to_vec();
        let answer = rust(input, output, settings);
        if answer[0] == 0 && answer[9] == output.len() as u64 {
            output.copy_from_slice(&before);
            return [11, 0, 0, 0, 0, 0, 0, 0, 0, 0];
        }
        answer
    }));
}

/// A difference is shown by a small input.
#[test]
fn differences_are_shrunk() {
    fn forgets_twelve(input: &[u8], output: &mut [u8], [tuples, structs, most]: Triple) -> Answer {
        rust(input, output, [tuples, structs, most.min(16)])
    }
    let comparison = compared(forgets_twelve, 0);
    assert!(comparison.found.iter().any(|found| found.input.is_empty()));
}
