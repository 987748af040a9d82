//! The proved pass and the Rust make the same of a function.

mod common;

use adapter::{
    Cause, Choices, Counts, Edition, Outcome, ProvedSroa, Refusal, Settings, ShelfReason,
};
use common::*;
use mir::passes::MirPass;
use mir::{
    Instruction, InstructionKind, MirFunction, MirType, Terminator, UnaryOp, Value, ValueId,
};
use oracle::run_pass;

/// Settings as the oracle takes them.
fn theirs(settings: Settings) -> oracle::Settings {
    oracle::Settings {
        enable_tuples: settings.tuples.into(),
        enable_structs: settings.structs.into(),
        max_aggregate_size: settings.most,
    }
}

fn in_order(counts: Counts) -> oracle::Counts {
    [
        counts.scalarized_builds,
        counts.extracts_rewritten,
        counts.inserts_forwarded,
        counts.assigns_forwarded,
        counts.materializations,
    ]
}

/// Both passes over one function, which the Rust may refuse to rebuild: what became of it.
fn assert_same(function: &MirFunction, settings: Settings) -> Outcome {
    let (mut ours, mut other) = (function.clone(), function.clone());
    let mut pass = ProvedSroa::with_choices(settings);
    let changed = pass.run(&mut ours);
    match run_pass(&mut other, theirs(settings)) {
        Ok((result, counts)) => {
            assert_eq!(ours, other);
            assert_eq!((changed, in_order(pass.counts())), (result, counts));
        }
        Err(refusal) => {
            assert_eq!(pass.last_refusal().map(|r| r.number()), Some(refusal.number.into()));
            assert!(!changed && ours == *function);
        }
    }
    *pass.outcome().expect("it ran")
}

fn kinds(function: &MirFunction) -> impl Iterator<Item = &InstructionKind> {
    function.basic_blocks().flat_map(|(_, block)| &block.instructions).map(|i| &i.kind)
}

#[test]
fn written_functions_come_out_the_same() {
    let settings = [
        Settings::default(),
        Settings { tuples: false, ..Settings::default() },
        Settings { structs: false, ..Settings::default() },
        Settings { most: 1, ..Settings::default() },
        Settings { most: 16, ..Settings::default() },
    ];
    for function in written() {
        for settings in settings {
            assert!(matches!(assert_same(&function, settings), Outcome::Lowered(_)));
        }
    }
}

/// What each of them is here for.
#[test]
fn written_functions_are_taken_apart() {
    let aggregates = |function: &MirFunction| {
        let build = |kind: &&InstructionKind| {
            use InstructionKind as K;
            matches!(kind, K::MakeTuple { .. } | K::MakeStruct { .. } | K::MakeFixedArray { .. })
        };
        kinds(function).filter(build).count()
    };
    let expected = [
        (pair(), [1, 2, 0, 1, 0], 0),
        (nested_struct(), [3, 4, 2, 0, 0], 0),
        (counting_loop(), [2, 2, 0, 0, 1], 1),
        (rebuilding_call(), [1, 0, 0, 1, 1], 2),
    ];
    for (function, counts, left) in expected {
        let mut lowered = function.clone();
        let mut pass = ProvedSroa::new();
        assert!(pass.run(&mut lowered));
        assert_eq!(in_order(pass.counts()), counts, "{}", function.name);
        assert_eq!(aggregates(&lowered), left, "{}", function.name);
        let Some(Outcome::Lowered(answer)) = pass.outcome() else {
            panic!("{} is lowered", function.name);
        };
        assert_eq!(answer.reason, ShelfReason::Passed, "{}", function.name);
        assert_eq!(lowered.name, function.name);
    }
}

#[test]
fn made_functions_come_out_the_same() {
    let (mut compared, mut changed, mut refused) = (0, 0, 0);
    for (number, function) in made_functions(2, 4000).enumerate() {
        let settings = match number % 5 {
            0 => Settings { most: 16, ..Settings::default() },
            1 => Settings { most: 2, structs: number % 2 == 0, ..Settings::default() },
            _ => Settings::default(),
        };
        compared += 1;
        match assert_same(&function, settings) {
            Outcome::Lowered(lowered) => changed += u64::from(lowered.changed),
            Outcome::Refused(_) => refused += 1,
            other => panic!("{other:?}"),
        }
    }
    println!("{compared} functions, {changed} changed, {refused} refused");
    assert!(compared > 3000 && changed > 1500 && refused > 3);
}

#[test]
fn what_is_too_large_is_left() {
    for (what, function) in too_large() {
        let mut left = function.clone();
        let mut pass = ProvedSroa::new();
        assert!(!pass.run(&mut left));
        assert!(matches!(pass.outcome(), Some(Outcome::NoRoom(misfit)) if misfit.what == what));
        assert_eq!((left, pass.counts()), (function, Counts::default()));
    }
    for function in just_fitting() {
        let mut pass = ProvedSroa::new();
        pass.run(&mut function.clone());
        assert!(!matches!(pass.outcome(), Some(Outcome::NoRoom(_))), "{}", function.name);
    }
}

/// One block that returns nothing.
fn block_of(mut draft: Draft, instructions: Vec<Instruction>) -> MirFunction {
    let entry = draft.function.entry_block;
    draft.fill(entry, instructions, Terminator::return_void());
    draft.function
}

/// Functions that are no routines, with the cause.
fn refused() -> Vec<(Cause, MirFunction)> {
    let with = |make: fn(ValueId, ValueId) -> Vec<Instruction>| {
        let mut draft = Draft::new("refused");
        let [a, b] = [(); 2].map(|()| draft.value(&felt()));
        block_of(draft, make(a, b))
    };
    let twice = vec![("x".to_string(), felt()), ("x".to_string(), felt())];
    let mut named = Draft::new("refused");
    named.value(&MirType::struct_type("S".to_string(), twice));
    vec![
        (Cause::Undefined, with(|a, b| vec![Instruction::unary_op(UnaryOp(16), a, of(b))])),
        (Cause::TooHigh, with(|a, _| vec![Instruction::assign(a, of(ValueId::new(2)), felt())])),
        (Cause::TypeTwice, named.function),
        (Cause::ValueTwice, with(|a, b| vec![Instruction::assign(a, of(b), felt()); 2])),
        (Cause::LatePhi, with(|a, _| vec![Instruction::nop(), Instruction::empty_phi(a, felt())])),
        (Cause::CallCounts, other_counts()),
        (Cause::ArrayCount, other_array()),
    ]
}

/// A Call that defines a value, though its callee returns none.
fn other_counts() -> MirFunction {
    let mut function = rebuilding_call();
    let entry = function.entry_block;
    let block = function.get_basic_block_mut(entry).expect("it is there");
    for instruction in &mut block.instructions {
        if let InstructionKind::Call { signature, .. } = &mut instruction.kind {
            signature.return_types.clear();
        }
    }
    function
}

/// A returned array that was built of three elements and has two.
fn other_array() -> MirFunction {
    let mut draft = Draft::new("refused");
    let array = MirType::FixedArray { element_type: Box::new(felt()), size: 2 };
    let dest = draft.value(&array);
    let entry = draft.function.entry_block;
    let build = Instruction::make_fixed_array(dest, vec![Value::integer(1); 3], felt());
    draft.fill(entry, vec![build], Terminator::return_value(of(dest)));
    draft.function
}

#[test]
fn what_is_refused_is_left_and_told() {
    for (cause, function) in refused() {
        let mut left = function.clone();
        let mut pass = ProvedSroa::new();
        assert!(!pass.run(&mut left));
        assert_eq!(pass.last_refusal().map(|refusal| refusal.cause), Some(cause));
        assert_eq!((left, pass.counts()), (function, Counts::default()));
    }
    let mut pass = ProvedSroa::with_choices(Settings { most: 17, ..Settings::default() });
    assert!(!pass.run(&mut pair()));
    assert_eq!(pass.last_refusal(), Some(Refusal { cause: Cause::MostAbove16, offset: 0 }));
}

#[test]
fn counts_are_of_all_functions() {
    let mut pass = ProvedSroa::new();
    assert_eq!(pass.outcome(), None);
    assert!(pass.run(&mut pair()));
    assert!(!pass.run(&mut too_large()[0].1.clone()));
    assert!(pass.run(&mut counting_loop()));
    assert_eq!(in_order(pass.counts()), [3, 4, 0, 1, 1]);
    assert_eq!(pass.name(), "ProvedSroa");
}

/// A rewriting that does not pass the shelf test is put back, unless that is asked for.
#[test]
fn only_what_passed_is_put_back_where_that_is_asked_for() {
    let mut function = returned_nest();
    let mut pass = ProvedSroa::new().only_passed();
    assert!(!pass.run(&mut function));
    assert_eq!((&function, pass.counts()), (&returned_nest(), Counts::default()));
    let Some(Outcome::KeptOff(lowered)) = pass.outcome() else {
        panic!("it is kept off");
    };
    assert_eq!(lowered.reason, ShelfReason::ReadsDropped);
    assert!(pass.run(&mut pair()));
    assert!(ProvedSroa::new().run(&mut function) && function != returned_nest());
}

fn second() -> Choices {
    Choices { edition: Edition::Second, ..Choices::default() }
}

/// What edition 1 does not pass, since a part is gone, edition 2 passes, and it is put back.
#[test]
fn edition_2_builds_parts_again() {
    let mut function = returned_nest();
    let mut pass = ProvedSroa::with_choices(second()).only_passed();
    assert!(pass.run(&mut function));
    let Some(Outcome::Lowered(lowered)) = pass.outcome() else {
        panic!("it is lowered");
    };
    assert_eq!((lowered.reason, lowered.counts.materializations), (ShelfReason::Passed, 2));
    let builds = |kind: &&InstructionKind| matches!(kind, InstructionKind::MakeTuple { .. });
    assert_eq!(kinds(&function).filter(builds).count(), 2);
}

/// A value that is built of itself is left as it was.
#[test]
fn edition_2_refuses_a_loop() {
    let mut draft = Draft::new("refused");
    let one = draft.value(&MirType::tuple(vec![felt()]));
    let entry = draft.function.entry_block;
    let build = Instruction::make_tuple(one, vec![of(one)]);
    draft.fill(entry, vec![build], Terminator::return_value(of(one)));
    let mut left = draft.function.clone();
    let mut pass = ProvedSroa::with_choices(second());
    assert!(!pass.run(&mut left));
    assert_eq!(pass.last_refusal(), Some(Refusal { cause: Cause::Looped, offset: 0 }));
    assert_eq!(left, draft.function);
}

/// Whatever edition 2 makes of a function can be put back.
#[test]
fn made_functions_are_put_back_in_edition_2() {
    let (mut changed, mut more) = (0, 0);
    for function in made_functions(3, 2000) {
        let mut first = ProvedSroa::new();
        first.run(&mut function.clone());
        let mut second = ProvedSroa::with_choices(second());
        changed += u64::from(second.run(&mut function.clone()));
        assert!(matches!(second.outcome(), Some(Outcome::Lowered(_) | Outcome::Refused(_))));
        more += u64::from(second.counts().materializations > first.counts().materializations);
    }
    println!("{changed} changed, {more} with more built again");
    assert!(changed > 700 && more > 50);
}
