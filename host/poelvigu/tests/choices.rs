//! The functions with choices: edition 1 is what those with settings do, what is not read changes nothing, and
//! whatever is lent beside the answer's bytes stays.

use poelvigu::{lower, lower_with, lower_with_into, lower_with_numbers, LONGEST_SECOND_OUTPUT};
use poelvigu::{Cause, Choices, Edition, Refusal, Settings};

/// An example of the repository.
macro_rules! example {
    ($name:literal) => {
        bytes(include_str!(concat!("../../../examples/", $name)))
    };
}

fn bytes(digits: &str) -> Vec<u8> {
    let pairs = digits.trim().as_bytes().chunks(2);
    let byte = |pair| u8::from_str_radix(std::str::from_utf8(pair).expect("digits"), 16);
    pairs.map(|pair| byte(pair).expect("hexadecimal")).collect()
}

fn usual() -> Choices {
    Choices::default()
}

fn second() -> Choices {
    Choices { edition: Edition::Second, ..usual() }
}

#[test]
fn edition_1_is_what_settings_do() {
    for input in [example!("pair.hex"), example!("nested.hex"), example!("refused-10.hex"), vec![]]
    {
        for settings in [
            Settings::default(),
            Settings { tuples: false, ..Settings::default() },
            Settings { structs: false, most: 2, ..Settings::default() },
            Settings { most: 17, ..Settings::default() },
        ] {
            let expected =
                lower(&input, &settings).map(|(lowered, output)| (lowered, output, None));
            assert_eq!(lower_with(&input, &settings.into()), expected);
        }
    }
}

#[test]
fn what_is_not_read_changes_nothing() {
    let input = example!("twice.hex");
    for edition in [Edition::First, Edition::Second] {
        let choices = Choices { edition, ..usual() };
        let expected = lower_with(&input, &choices);
        assert!(expected.is_ok());
        for at in 0..8 {
            let [sweep, joins, page] = [0, 1, 2].map(|bit| at >> bit & 1 == 1);
            assert_eq!(lower_with(&input, &Choices { sweep, joins, page, ..choices }), expected);
        }
    }
}

/// Choices of every length, and every number for an edition: those that are missing have their defaults.
#[test]
fn missing_choices_have_their_defaults() {
    let input = example!("nested.hex");
    let called = |choices: &[u64]| {
        let (mut output, mut page) = ([7; 300], [7; 9]);
        let numbers = lower_with_numbers(&input, &mut output, &mut page, choices);
        assert_eq!((page, numbers[10]), ([7; 9], 0));
        (numbers, output)
    };
    let all = [1, 1, 8, 1, 0, 0, 0, 0];
    let first = called(&all);
    assert_eq!((0..=all.len()).filter(|given| called(&all[..*given]) == first).count(), 9);
    for number in [0, 1, 3, 4, 1 << 32 | 2, u64::MAX] {
        assert_eq!(called(&[1, 1, 8, number]), first);
    }
    assert_ne!(called(&[1, 1, 8, 2]), first);
    for flag in [2, 1 << 32, u64::MAX] {
        assert_eq!(called(&[flag, flag]), first);
    }
    assert_ne!(called(&[0]), first);
}

#[test]
fn edition_2_builds_parts_again() {
    let rebuilt = |input: &[u8], choices| {
        lower_with(input, &choices).map(|(lowered, _, page)| {
            assert_eq!((lowered.page, page), (0, None));
            (lowered.counts.materializations, lowered.reason.number())
        })
    };
    for (input, expected) in [
        (example!("nested.hex"), [(1, 5), (2, 0)]),
        (example!("twice.hex"), [(1, 5), (3, 0)]),
        (example!("kept-load.hex"), [(0, 5), (1, 0)]),
        (example!("kept-store.hex"), [(0, 5), (1, 5)]),
    ] {
        assert_eq!([rebuilt(&input, usual()), rebuilt(&input, second())], expected.map(Ok));
    }
}

/// 14 and 15, whatever is lent; output and page stay.
#[test]
fn the_refusals_of_edition_2() {
    for (input, cause) in
        [(example!("refused-14.hex"), Cause::Looped), (example!("refused-15.hex"), Cause::Overfull)]
    {
        let refusal = Refusal { cause, offset: 0 };
        assert_eq!(lower_with(&input, &second()), Err(refusal));
        assert!(lower_with(&input, &usual()).is_ok());
        for length in [0, 1, 1000] {
            let (mut output, mut page) = (vec![0xa5; length], [0xa5; 5]);
            let refused = lower_with_into(&input, &mut output, &mut page, &second());
            assert_eq!(refused, Err(refusal));
            assert!(output.iter().chain(&page).all(|byte| *byte == 0xa5));
        }
    }
}

/// Output of every length: refused below the exact one and untouched, untouched behind it.
#[test]
fn the_output_is_just_long_enough_or_refused() {
    let input = example!("nested.hex");
    let (_, exact, _) = lower_with(&input, &second()).expect("it is a routine");
    for length in 0..exact.len() + 3 {
        let mut output = vec![0x5a; length];
        let answer = lower_with_into(&input, &mut output, &mut [], &second());
        let written = answer.map_or(0, |lowered| lowered.length);
        if length < exact.len() {
            assert_eq!(answer, Err(Refusal { cause: Cause::OutputTooLong, offset: 0 }));
        } else {
            assert_eq!(output[..written], exact);
        }
        assert!(output[written..].iter().all(|byte| *byte == 0x5a));
    }
}

/// Four structs of 16 fields, each all of the one before, with an insert behind each; the last is returned 14
/// times: 14 times 4,369 rebuilds.
fn wide() -> Vec<u8> {
    let mut bytes = vec![5, 0, 0];
    for level in 0..4 {
        bytes.extend([4, 0, 0, 16]);
        bytes.extend((0..16).flat_map(|name| [name, 0, level, 0]));
    }
    // Two values of each of these types, one block, entry 0, no parameters.
    bytes.extend([8, 0, 1, 0, 0, 0, 0, 0xff, 1, 0, 1, 0, 2, 0, 2, 0, 3, 0, 3, 0, 4, 0, 4, 0]);
    bytes.extend([8, 0]);
    for level in 0..4 {
        let (build, insert) = (2 * level, 2 * level + 1);
        let part = if level == 0 { vec![0, 7, 0, 0, 0] } else { vec![3, build - 1, 0] };
        bytes.extend([0, 12, build, 0, 16]);
        (0..16).for_each(|name| bytes.extend([&[name, 0], &part[..]].concat()));
        bytes.extend([level + 1, 0]);
        bytes.extend([0, 14, insert, 0, 3, build, 0, 0, 0]);
        bytes.extend([&part[..], &[level + 1, 0]].concat());
    }
    bytes.extend([3, 14]);
    bytes.extend([3, 7, 0].repeat(14));
    bytes
}

/// An output near the most of numbers needs the longest buffer.
#[test]
fn the_buffer_grows_to_what_is_needed_and_no_further() {
    assert_eq!(LONGEST_SECOND_OUTPUT, 7_983_344);
    let input = wide();
    let choices = Choices { most: 16, ..second() };
    let (lowered, output, _) = lower_with(&input, &choices).expect("it is a routine");
    assert_eq!(lowered.counts.materializations, 14 * 4369);
    assert_eq!((lowered.length, lowered.reason.number()), (output.len(), 0));
    assert!(output.len() > 7_000_000 && output.len() <= LONGEST_SECOND_OUTPUT, "{}", output.len());
}
