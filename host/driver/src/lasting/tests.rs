use oracle::form::{Instruction, Kind, Routine, Value, ValueNo};
use oracle::{read, read_second_output, write};

use super::shown::CASES;
use super::*;
use crate::Answer;

fn compared(call: Call, count: u64) -> Comparison {
    let mut comparison = Comparison::new(call, 1);
    comparison.stored();
    comparison.made(count, None);
    comparison
}

#[test]
fn the_crates_outputs_last() {
    let comparison = compared(called, 300);
    comparison.print();
    assert!(comparison.found.is_empty());
    assert_eq!(comparison.missing(), Vec::<String>::new());
}

/// What the crate answers, with its output changed, and the shelf reason of what it then is.
fn changed(
    input: &[u8],
    output: &mut [u8],
    choices: Choices,
    change: fn(&Routine, &mut Routine),
) -> Answer {
    let mut answer = called(input, output, choices);
    if answer[0] != 0 {
        return answer;
    }
    let original = read(input).expect("it is accepted");
    let mut routine = read_second_output(&output[..answer[9] as usize]).expect("a routine");
    change(&original, &mut routine);
    let bytes = write(&routine);
    output[..bytes.len()].copy_from_slice(&bytes);
    let dropped = shelf::dropped(&original, &routine);
    answer[8] = shelf::reason(&original, &routine, &dropped).into();
    answer[9] = bytes.len() as u64;
    answer
}

/// An Assign that stands for an extract names the type of the whole.
fn whole(original: &Routine, output: &mut Routine) {
    let whole_of = |dest: ValueNo| {
        original.instructions().find_map(|i| match &i.kind {
            Kind::ExtractTupleElement { dest: own, tuple: Value::Operand(v), .. }
                if *own == dest =>
            {
                original.recorded_type(*v)
            }
            _ => None,
        })
    };
    for i in output.blocks.iter_mut().flat_map(|block| &mut block.instructions) {
        if let Kind::Assign { dest, ty, .. } = &mut i.kind {
            *ty = whole_of(*dest).unwrap_or(*ty);
        }
    }
}

/// Fresh values are recorded at the type of the value before them.
fn shifted(original: &Routine, output: &mut Routine) {
    for own in (original.recorded.len().max(1)..output.recorded.len()).rev() {
        output.recorded[own] = output.recorded[own - 1];
    }
}

/// What is built again for an instruction stands behind it.
fn late(original: &Routine, output: &mut Routine) {
    let fresh =
        |i: &Instruction| i.kind.dests().iter().any(|dest| dest.index() >= original.recorded.len());
    for block in &mut output.blocks {
        let last = block.instructions.len().saturating_sub(1);
        if let Some(at) = (0..last).find(|at| fresh(&block.instructions[*at])) {
            block.instructions.swap(at, at + 1);
        }
    }
}

/// A Debug shows Error.
fn unshown(_: &Routine, output: &mut Routine) {
    for i in output.blocks.iter_mut().flat_map(|block| &mut block.instructions) {
        if let Kind::Debug { values, .. } = &mut i.kind {
            values.fill(Value::Error);
        }
    }
}

/// The first exception that made inputs show, and how long the smallest input with it is.
fn found(call: Call) -> (Exception, usize) {
    let mut comparison = Comparison::new(call, 1);
    comparison.enough = 1;
    comparison.made(300, None);
    let found = comparison.found.first().expect("the fault is found");
    (found.exception, found.input.len())
}

#[test]
fn new_reasons_are_found() {
    let one = |debugs| Exception::New { reason: 1, debugs };
    let two = |debugs| Exception::New { reason: 2, debugs };
    let of_whole: Call = |input, output, choices| changed(input, output, choices, whole);
    let faults: [(Call, Exception); 4] = [
        (of_whole, one(true)),
        (|i, o, c| changed(i, o, c, shifted), one(true)),
        (|i, o, c| changed(i, o, c, late), two(true)),
        (|i, o, c| changed(i, o, c, unshown), one(true)),
    ];
    for (call, expected) in faults {
        let (exception, length) = found(call);
        assert_eq!(exception, expected);
        assert!(length < 100, "{length}");
    }
    // An input that has reason 1 by its Debug alone.
    let mut comparison = Comparison::new(of_whole, 1);
    let debugged = examples::all().into_iter().find(|(name, _)| *name == "debug-1.hex");
    let (_, input) = debugged.expect("it is an example");
    comparison.both(STORED, String::new, &input, &[USUAL]);
    assert_eq!(comparison.found[0].exception, one(false));
}

#[test]
fn other_answers_are_found() {
    let reason: Call = |input, output, choices| {
        let mut answer = called(input, output, choices);
        answer[8] = if answer[8] == 5 { 0 } else { answer[8] };
        answer
    };
    assert_eq!(found(reason).0, Exception::Reason { answered: 0, own: 5 });
    let short: Call = |input, output, choices| {
        let mut answer = called(input, output, choices);
        answer[9] = answer[9].saturating_sub(1);
        answer
    };
    assert!(matches!(found(short).0, Exception::Output(_)));
    let refused: Call = |input, output, choices| {
        let mut answer = called(input, output, choices);
        answer[0] = if answer[0] == 0 { 11 } else { answer[0] };
        answer
    };
    assert_eq!(found(refused).0, Exception::Refusal(11));
    let taken: Call = |input, output, choices| {
        let mut answer = called(input, output, choices);
        answer[0] = if answer[0] < 10 { 0 } else { answer[0] };
        answer
    };
    assert!(matches!(found(taken).0, Exception::Input(_)));
}

/// An output that passed is judged when it is lowered again: here its second run alone is wrong.
#[test]
fn second_runs_are_judged() {
    let call: Call = |input, output, choices| {
        let mut answer = called(input, output, choices);
        if answer[8] == 5 && input == write(&once(choices)) {
            answer[8] = 0;
        }
        answer
    };
    fn once(choices: Choices) -> Routine {
        let original = examples::passed::passed_once();
        let settings = oracle::Settings::default();
        let rewritten = edition2::rewrite(&original, settings, choices.edition());
        rewritten.expect("it is accepted").routine
    }
    let found = compared(call, 0).found;
    assert_eq!(found.len(), 1);
    assert_eq!(found[0].exception, Exception::Reason { answered: 0, own: 5 });
    assert_eq!(found[0].input, write(&examples::passed::passed_once()));
}

/// What a written routine was written for is met in each edition.
#[test]
fn written_routines_show_their_cases() {
    let cases = ["a tracked array loaded", "an empty struct rebuilt", "a block is skipped"];
    for ((name, routine), case) in written::all().into_iter().zip(cases) {
        let case = CASES.iter().find(|own| own.name == case).expect("it is a case");
        for edition in [1, 2] {
            let choices = Choices::of(USUAL, edition);
            let lowered = lowered(called, &write(&routine), choices);
            let lowered = lowered.expect("nothing is new").expect("it is accepted");
            assert_eq!(lowered.reason, 0, "{name}");
            assert!((case.shows)(&lowered), "{name}");
        }
    }
}
