//! Any bytes, any lengths, any settings: an answer, and never a byte that is not the answer's.

use poelvigu::{check, lower, lower_into, Cause, Counts, Refusal, Settings, ShelfReason};
use poelvigu::{check_numbers, lower_numbers, LONGEST_OUTPUT};

/// A tuple of 7 and 8 is built, and its part 1 is returned.
const PAIR: [u8; 56] = [
    2, 0, 0, 3, 2, 0, 0, 0, 0, 2, 0, 1, 0, 0, 0, 0, 3, 1, 0, 0, 0, 2, 0, 0, 10, 0, 0, 2, 0, 7, 0,
    0, 0, 0, 8, 0, 0, 0, 0, 11, 1, 0, 3, 0, 0, 1, 0, 0, 0, 0, 0, 3, 1, 3, 1, 0,
];

/// What becomes of it.
const LOWERED: [u8; 39] = [
    2, 0, 0, 3, 2, 0, 0, 0, 0, 2, 0, 1, 0, 0, 0, 0, 3, 1, 0, 0, 0, 1, 0, 0, 0, 1, 0, 0, 8, 0, 0, 0,
    0, 0, 3, 1, 3, 1, 0,
];

fn usual() -> Settings {
    Settings::default()
}

/// Refuses whatever the output, which it leaves; `lower` says the same.
fn assert_refused(input: &[u8], settings: Settings, cause: Cause, offset: u64) {
    let refusal = Refusal { cause, offset };
    for length in [0, 1, 100] {
        let mut output = vec![0xa5; length];
        assert_eq!(lower_into(input, &mut output, &settings), Err(refusal));
        assert!(output.iter().all(|byte| *byte == 0xa5));
    }
    assert_eq!(lower(input, &settings), Err(refusal));
}

#[test]
fn the_example_is_lowered() {
    let (lowered, output) = lower(&PAIR, &usual()).expect("it is a routine");
    assert_eq!(output, LOWERED);
    assert!(lowered.changed);
    assert_eq!((lowered.reason, lowered.length), (ShelfReason::Passed, LOWERED.len()));
    let counts = Counts { scalarized_builds: 1, extracts_rewritten: 1, ..Counts::default() };
    assert_eq!(lowered.counts, counts);
    assert_eq!((check(&PAIR), check(&output)), (Ok(()), Ok(())));
}

#[test]
fn a_flag_that_is_off_leaves_all_as_it_was() {
    for settings in [Settings { tuples: false, ..usual() }, Settings { most: 1, ..usual() }] {
        let (lowered, output) = lower(&PAIR, &settings).expect("it is a routine");
        assert!(!lowered.changed && output == PAIR && lowered.counts == Counts::default());
    }
}

#[test]
fn the_empty_input_and_all_of_one_byte_end_inside_the_first_field() {
    let ends = Refusal { cause: Cause::Ends, offset: 0 };
    assert_eq!(check(&[]), Err(ends));
    assert_refused(&[], usual(), Cause::Ends, 0);
    for byte in 0..=255 {
        assert_eq!(check(&[byte]), Err(ends));
        assert_refused(&[byte], usual(), Cause::Ends, 0);
    }
}

/// Output of every length: refused below the exact one and untouched, untouched behind it.
#[test]
fn the_output_is_just_long_enough_or_refused() {
    for length in 0..LOWERED.len() + 5 {
        let mut output = vec![0x5a; length];
        let answer = lower_into(&PAIR, &mut output, &usual());
        if length < LOWERED.len() {
            assert_eq!(answer, Err(Refusal { cause: Cause::OutputTooLong, offset: 0 }));
            assert!(output.iter().all(|byte| *byte == 0x5a));
        } else {
            assert_eq!(answer.map(|lowered| lowered.length), Ok(LOWERED.len()));
            assert_eq!(output[..LOWERED.len()], LOWERED);
            assert!(output[LOWERED.len()..].iter().all(|byte| *byte == 0x5a));
        }
    }
}

#[test]
fn a_setting_above_16_is_refused_before_all_else() {
    for most in [17, 256, 1 << 32, u64::MAX] {
        for input in [&[][..], &PAIR] {
            assert_refused(input, Settings { most, ..usual() }, Cause::MostAbove16, 0);
        }
    }
    assert!(lower(&PAIR, &Settings { most: 16, ..usual() }).is_ok());
}

/// Every prefix and every changed byte: the functions agree, and what is refused stays.
#[test]
fn the_functions_agree_on_damaged_bytes() {
    let prefixes = (0..PAIR.len()).map(|length| PAIR[..length].to_vec());
    let changed = (0..PAIR.len()).flat_map(|at| {
        (0..=255).map(move |byte| {
            let mut bytes = PAIR.to_vec();
            bytes[at] = byte;
            bytes
        })
    });
    for input in prefixes.chain(changed) {
        let mut output = vec![0x11; 300];
        let into = lower_into(&input, &mut output, &usual());
        let expected = into.map(|lowered| (lowered, output[..lowered.length].to_vec()));
        assert_eq!(lower(&input, &usual()), expected);
        if check(&input) != into.map(|_| ()) {
            assert_eq!(into, Err(Refusal { cause: Cause::ArrayCount, offset: 0 }));
        }
        let untouched = into.map_or(0, |lowered| lowered.length);
        assert!(output[untouched..].iter().all(|byte| *byte == 0x11));
    }
}

#[test]
fn the_numbers_are_those_of_the_typed_answers() {
    let mut output = [0; 100];
    assert_eq!(lower_numbers(&PAIR, &mut output, [1, 1, 8]), [0, 0, 1, 1, 1, 0, 0, 0, 0, 39]);
    assert_eq!(lower_numbers(&PAIR, &mut [], [1, 1, 8]), [11, 0, 0, 0, 0, 0, 0, 0, 0, 0]);
    assert_eq!((check_numbers(&PAIR), check_numbers(&PAIR[..20])), ((0, 0), (1, 19)));
}

/// Two blocks that build a struct of 16, copy it, and call a function with 16 copies 126 times.
fn swelling() -> Vec<u8> {
    let mut bytes = vec![2, 0, 0, 4, 0, 0, 16];
    bytes.extend((0..16).flat_map(|name| [name, 0, 0, 0]));
    // Four values of the struct's type, two blocks, entry 0, no parameters.
    bytes.extend([4, 0, 2, 0, 0, 0, 0, 0x0f, 1, 0, 1, 0, 1, 0, 1, 0]);
    for build in [0, 2] {
        let copy = build + 1;
        bytes.extend([128, 0, 0, 12, build, 0, 16]);
        bytes.extend((0..16).flat_map(|name| [name, 0, 0, 7, 0, 0, 0]));
        bytes.extend([1, 0, 0, 0, copy, 0, 3, build, 0, 1, 0]);
        for _ in 0..126 {
            bytes.extend([0, 3, 0, 5, 0, 16]);
            bytes.extend([3, copy, 0].repeat(16));
            bytes.push(16);
            bytes.extend([1, 0].repeat(16));
            bytes.push(0);
        }
        bytes.extend([3, 16]);
        bytes.extend([3, copy, 0].repeat(16));
    }
    bytes
}

/// An output many times as long as its input fits what `lower` lends at last.
#[test]
fn the_buffer_grows_to_what_is_needed_and_no_further() {
    let input = swelling();
    let (lowered, output) =
        lower(&input, &Settings { most: 16, ..usual() }).expect("it is a routine");
    assert_eq!(lowered.counts.materializations, 2 * (126 + 1) * 16);
    assert_eq!(lowered.length, output.len());
    assert!(output.len() > 20 * input.len() && output.len() <= LONGEST_OUTPUT);
}
