//! The stored inputs print what document 01 and the readings of it say.

use oracle::rows::{DEBUGS, EXAMPLE, EXAMPLE_OUTPUT, ROWS};
use oracle::{from_hex, run_oracle, to_hex, Outcome, Settings, LENT};

fn first_line(hex: &str) -> String {
    let input = from_hex(hex).expect("the row is hexadecimal");
    match run_oracle(&input, Settings::default(), LENT) {
        Outcome::Refused(refusal) => refusal.to_string(),
        Outcome::Lowered { result, counts, .. } => {
            let numbers = [u64::from(result)].into_iter().chain(counts);
            numbers.map(|n| n.to_string()).collect::<Vec<_>>().join(" ")
        }
    }
}

#[test]
fn rows_print_what_they_say() {
    for row in &ROWS {
        assert_eq!(first_line(row.hex), row.prints, "{}", row.hex);
    }
    for row in &DEBUGS {
        assert_eq!(first_line(row.hex), row.prints, "{}", row.hex);
    }
}

#[test]
fn the_worked_example_gives_its_bytes() {
    let input = from_hex(EXAMPLE).unwrap();
    let outcome = run_oracle(&input, Settings::default(), LENT);
    let Outcome::Lowered { output, .. } = outcome else {
        panic!("the example is accepted, and not {outcome:?}");
    };
    assert_eq!(to_hex(&output), EXAMPLE_OUTPUT);
}

/// "output longer than the lent buffer: 11"; one byte decides.
#[test]
fn the_lent_length_decides_eleven() {
    let input = from_hex(EXAMPLE).unwrap();
    let length = EXAMPLE_OUTPUT.len() / 2;
    let run = |lent| run_oracle(&input, Settings::default(), lent);
    assert!(matches!(run(length), Outcome::Lowered { .. }));
    let Outcome::Refused(refusal) = run(length - 1) else {
        panic!("one byte is missing");
    };
    assert_eq!(refusal.to_string(), "refused 11 0");
}

/// "max_aggregate_size above 16: 12", before anything is read.
#[test]
fn the_setting_is_tested_first() {
    let run = |max_aggregate_size| {
        let settings = Settings { max_aggregate_size, ..Settings::default() };
        match run_oracle(&[], settings, 0) {
            Outcome::Refused(refusal) => refusal.to_string(),
            Outcome::Lowered { .. } => panic!("the empty input is no routine"),
        }
    };
    assert_eq!(run(17), "refused 12 0");
    assert_eq!(run(u64::MAX), "refused 12 0");
    assert_eq!(run(16), "refused 1 0");
}
