//! The folder and its table are what is made, and say what the Rust does.

use std::collections::BTreeSet;
use std::path::PathBuf;

use machine::{run, Cause, Datum, End, Event, List, Plain, Standing, Trace};
use oracle::form::Routine;
use oracle::{from_hex, run_routine};

use super::*;

fn folder() -> PathBuf {
    Path::new(env!("CARGO_MANIFEST_DIR")).join("../../examples")
}

fn text(name: &str) -> String {
    let file = folder().join(name);
    std::fs::read_to_string(&file).unwrap_or_else(|e| panic!("{}: {e}", file.display()))
}

/// The rows of the table whose first cell is a file.
fn rows(table: &str) -> Vec<[&str; 3]> {
    table.lines().filter_map(row).collect()
}

/// File, bytes and first line of a row.
fn row(line: &str) -> Option<[&str; 3]> {
    let row = line.strip_prefix("| `").filter(|row| row.contains(".hex`"))?;
    let mut cells = row.split('|').map(|cell| cell.trim_matches([' ', '`']));
    Some([cells.next()?, cells.next()?, cells.next()?])
}

/// No file of the folder was made otherwise: the routines, and the lines that belong to them.
#[test]
fn the_files_are_what_is_made() {
    for (name, made) in files() {
        assert_eq!(text(&name), made, "{name}");
    }
    let names = std::fs::read_dir(folder()).expect("the folder is there").map(|file| {
        let name = file.expect("its files can be listed").file_name();
        name.into_string().expect("their names are plain")
    });
    let files: BTreeSet<String> = names.filter(|name| name != "README.md").collect();
    assert_eq!(files, super::files().into_iter().map(|(name, _)| name).collect());
}

/// One line is longer than any that a small buffer would hold.
#[test]
fn a_line_is_long() {
    let second = lines(&write(&passed::long_line())).lines().nth(1).map(str::len);
    assert!(second > Some(9000), "{second:?}");
}

/// Each file has one row, which says how many bytes it has and what the Rust makes of them.
#[test]
fn the_table_says_what_the_rust_does() {
    let table = text("README.md");
    let expected: Vec<[String; 3]> = all()
        .into_iter()
        .map(|(name, input)| {
            let lines = lines(&input);
            let line = lines.lines().next().expect("a line is printed");
            [name.to_string(), input.len().to_string(), line.to_string()]
        })
        .collect();
    assert_eq!(rows(&table), expected);
}

/// The rows of the table of edition 2: a file `NAME.second` each, with its first line.
#[test]
fn the_table_of_edition_2_says_what_the_crate_does() {
    let table = text("README.md");
    let row = |line: &str| {
        let row = line.strip_prefix("| `").filter(|row| row.contains(".second`"))?;
        let mut cells = row.split('|').map(|cell| cell.trim_matches([' ', '`']).to_string());
        Some([cells.next()?, cells.next()?])
    };
    let rows: Vec<[String; 2]> = table.lines().filter_map(row).collect();
    let expected = SECOND.map(|name| {
        let (_, input) = all().into_iter().find(|(own, _)| *own == name).expect("it is an example");
        let lines = second_lines(&input);
        let line = lines.lines().next().expect("a line is printed");
        [name.replace(".hex", ".second"), line.to_string()]
    });
    assert_eq!(rows, expected);
    for number in [14, 15] {
        let refused = text(&format!("refused-{number}.second"));
        assert_eq!(refused, format!("refused {number} 0\n"));
    }
}

/// There is a file for every shelf reason and for every refusal that the program gives.
#[test]
fn every_reason_and_refusal_is_shown() {
    let table = text("README.md");
    let line = |name: String| {
        let row = rows(&table).into_iter().find(|[file, ..]| *file == name);
        row.unwrap_or_else(|| panic!("{name} has no row"))[2]
    };
    let reasons = (1..=5).map(|reason| (reason, format!("reason-{reason}.hex")));
    let debugs = [1, 2, 5].map(|reason| (reason, format!("debug-{reason}.hex")));
    for (reason, name) in reasons.chain(debugs) {
        assert!(line(name).ends_with(&format!(" {reason}")));
    }
    for number in 1..=11 {
        let refused = line(format!("refused-{number}.hex"));
        assert!(refused.starts_with(&format!("refused {number} ")), "{refused}");
    }
}

/// The pair's bytes as the folder's README lays them out: each line an offset, the bytes there and
/// what they are.
#[test]
fn the_layout_is_the_pairs() {
    let readme = text("README.md");
    let mut bytes = Vec::new();
    for line in readme.lines().filter_map(|line| line.strip_prefix("    ")) {
        let Some((Ok(offset), rest)) =
            line.trim_start().split_once("  ").map(|(o, r)| (o.parse(), r))
        else {
            continue;
        };
        assert_eq!(bytes.len(), offset, "{line}");
        let digits = rest.trim_start().split("  ").next().expect("a split has a part");
        bytes.extend(from_hex(&digits.replace(' ', "")).expect("bytes are hexadecimal"));
    }
    assert_eq!(to_hex(&bytes), to_hex(&write(&passed::pair())));
}

/// What a routine and its rewriting do, given `n`.
fn runs(routine: &Routine, n: Datum) -> [Trace; 2] {
    let lowered = run_routine(routine.clone(), Settings::default()).expect("it is accepted");
    [routine, &lowered.routine]
        .map(|routine| run(routine, &Plain, &mut List(std::slice::from_ref(&n)), 99).trace)
}

fn gives(values: Vec<Datum>) -> Trace {
    Trace { record: vec![Event::Return { values }], standing: Standing::Ended(End::Return) }
}

fn numbers<const N: usize>(numbers: [u32; N]) -> Datum {
    Datum::parts(numbers.map(Datum::Number).to_vec())
}

#[test]
fn what_passed_does_the_same() {
    let expected = [
        (passed::pair(), Datum::Number(8)),
        (passed::nested_struct(), Datum::Number(10)),
        (passed::counting_loop(), numbers([5, 5])),
        (passed::every_count(), numbers([5, 5])),
    ];
    for (routine, value) in expected {
        let [original, rewritten] = runs(&routine, Datum::Number(5));
        assert_eq!((&original, &rewritten), (&gives(vec![value]), &original));
    }
}

/// "What a reader cannot tell apart includes the Debug record".
#[test]
fn what_passed_shows_the_same() {
    let [original, rewritten] = runs(&passed::debugged(), Datum::Unit);
    let shown = Event::Debug { message: 3, values: vec![Datum::Number(8), Datum::Number(9)] };
    assert_eq!(original.record[..1], [shown]);
    assert_eq!(original, rewritten);
}

/// The theorem says nothing of an original that stops at a value that was never written.
#[test]
fn an_unwritten_value_is_left_aside() {
    let [original, rewritten] = runs(&passed::unwritten(), Datum::Unit);
    assert_eq!(original.standing, Standing::Stopped(Cause::Unwritten));
    assert_eq!(rewritten, gives(Vec::new()));
}

/// What passes the shelf test in edition 2 alone does the same then.
#[test]
fn what_passed_in_edition_2_does_the_same() {
    let passed = [
        reasons::returned_nest(),
        second::returned_twice(),
        second::loaded_whole(),
        reasons::asserted(),
        reasons::debugged_dropped(),
    ];
    for routine in passed {
        let usual = Settings::default();
        let lowered = edition2::lower(&write(&routine), usual, Edition::Second, usize::MAX);
        let lowered = lowered.expect("it is accepted");
        assert_eq!(lowered.reason, 0);
        let output = oracle::read_second_output(&lowered.output).expect("it is a routine");
        let [original, rewritten] =
            [&routine, &output].map(|routine| run(routine, &Plain, &mut List(&[]), 99).trace);
        assert_eq!(original.standing, Standing::Ended(End::Return));
        assert_eq!(original, rewritten);
    }
}

/// Each of reasons 3 to 5 is there for a cause: the rewritten routine does something else.
#[test]
fn what_did_not_pass_may_do_another_thing() {
    let stored = [(reasons::stored_into_part(), 1), (reasons::stored_deep(), 2)];
    for (routine, value) in stored {
        let [original, rewritten] = runs(&routine, numbers([4, 5]));
        assert_eq!(original, gives(vec![Datum::Number(value)]));
        assert_eq!(rewritten, gives(vec![Datum::Number(9)]));
    }
    for routine in [reasons::asserted(), reasons::returned_nest(), reasons::debugged_dropped()] {
        let [original, rewritten] = runs(&routine, Datum::Unit);
        assert_eq!(original.standing, Standing::Ended(End::Return));
        let stopped = Trace { record: Vec::new(), standing: Standing::Stopped(Cause::Unwritten) };
        assert_eq!(rewritten, stopped);
    }
}

/// What passes may come out as what does not pass: in either edition, though it has neither reason 1 nor 2.
#[test]
fn what_passed_may_not_pass_again() {
    let usual = Settings::default();
    for edition in [Edition::First, Edition::Second] {
        let run = |input: &[u8]| {
            edition2::lower(input, usual, edition, usize::MAX).expect("it is accepted")
        };
        let first = run(&write(&passed::passed_once()));
        let second = run(&first.output);
        assert_eq!((first.reason, second.reason), (0, 5));
        let output = oracle::read(&first.output).expect("it is a routine");
        assert!(!shelf::types_disagree(&output) && !shelf::reads_ahead(&output));
    }
    let again = |name: &str| {
        let output = text(name).lines().nth(1).and_then(from_hex).expect("hexadecimal");
        lines(&output).lines().next().map(str::to_string)
    };
    let readme = text("README.md");
    let said = again("second-run.lines").expect("a line is printed");
    assert!(said.ends_with(" 5") && readme.contains(&format!("`{said}`")), "{said}");
}
