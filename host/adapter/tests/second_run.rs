//! What comes out of the library is judged as what goes in, and lowered again.

use oracle::{from_hex, read, to_hex};
use poelvigu::{lower, lower_with, Choices, Edition, Settings};
use shelf::{reads_ahead, types_disagree};

/// Bytes of a file of the repository.
fn bytes(digits: &str) -> Vec<u8> {
    from_hex(digits.trim()).expect("it is hexadecimal")
}

/// Reason 0 and then 5, in both editions; what comes out has neither reason 1 nor 2, of either run.
#[test]
fn what_passed_may_not_pass_again() {
    let input = bytes(include_str!("../../../examples/second-run.hex"));
    let first = (Edition::First, include_str!("../../../examples/second-run.lines"));
    let second = (Edition::Second, include_str!("../../../examples/second-run.second"));
    for (edition, lines) in [first, second] {
        let choices = Choices { edition, ..Choices::default() };
        let run = |input: &[u8]| {
            let (lowered, output, _) = lower_with(input, &choices).expect("it is accepted");
            (lowered.reason.number(), output)
        };
        let (passed, once) = run(&input);
        let (left, twice) = run(&once);
        assert_eq!((passed, left), (0, 5));
        assert_eq!(lines.lines().nth(1), Some(&to_hex(&once)[..]));
        for output in [once, twice] {
            let routine = read(&output).expect("it is a routine");
            assert!(!types_disagree(&routine) && !reads_ahead(&routine));
        }
    }
}

/// Without choices it is the same.
#[test]
fn nor_does_it_without_choices() {
    let input = bytes(include_str!("../../../examples/second-run.hex"));
    let run = |input: &[u8]| {
        let (lowered, output) = lower(input, &Settings::default()).expect("it is accepted");
        (lowered.reason.number(), output)
    };
    let (passed, output) = run(&input);
    assert_eq!((passed, run(&output).0), (0, 5));
}
