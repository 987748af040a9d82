//! What holds of edition 2 beside its definition.

use edition2::{rewrite, Edition, Fault, Rewritten};
use gen::{Rng, Sort};
use oracle::form::*;
use oracle::{read, read_second_output, to_hex, write, Settings};

/// The usual settings as a rule.
fn settings(rng: &mut Rng) -> Settings {
    let mut settings = Settings::default();
    if rng.chance(30) {
        settings.enable_tuples = u64::from(rng.chance(70));
        settings.enable_structs = u64::from(rng.chance(70));
        settings.max_aggregate_size = rng.below(17) as u64;
    }
    settings
}

fn input(rng: &mut Rng, number: u64) -> Vec<u8> {
    match number % 8 {
        0 => gen::churned_deep(rng),
        1 => gen::twisted(rng),
        2 => gen::of_sort(rng, Sort::Debugs),
        3 => gen::of_sort(rng, Sort::Wild),
        7 if number % 1000 == 7 => gen::of_sort(rng, Sort::Tower),
        _ => gen::of_sort(rng, Sort::Deep),
    }
}

fn reason(original: &Routine, rewritten: &Routine) -> u8 {
    shelf::reason(original, rewritten, &shelf::dropped(original, rewritten))
}

/// A Load or Store with a Boolean Index behind the first projection.
fn later_boolean(routine: &Routine) -> bool {
    routine.instructions().any(|i| match &i.kind {
        Kind::Load { place, .. } | Kind::Store { place, .. } => {
            let mut later = place.projections.iter().skip(1);
            later.any(|step| matches!(step, Projection::Index(Value::Boolean(_))))
        }
        _ => false,
    })
}

/// The builds of a block's own values.
fn builds(routine: &Routine, next: usize) -> Vec<ValueNo> {
    let kinds = routine.instructions().map(|i| &i.kind).filter(|kind| is_build(kind));
    kinds.flat_map(Kind::dests).copied().filter(|dest| dest.index() < next).collect()
}

fn is_build(kind: &Kind) -> bool {
    let of = matches!(kind, Kind::MakeTuple { .. } | Kind::MakeStruct { .. });
    of || matches!(kind, Kind::MakeFixedArray { .. })
}

/// Holds the two editions' outcomes of a routine to one another, and edition 2's to itself.
fn holds(original: &Routine, settings: Settings) {
    let [first, second] =
        [Edition::First, Edition::Second].map(|edition| rewrite(original, settings, edition));
    let boolean = later_boolean(original);
    let own_reason = reason(original, original);
    let second = match second {
        Ok(second) => second,
        Err(Fault(number)) => {
            assert!(number == 15 || own_reason == 1, "{number} under reason {own_reason}");
            return;
        }
    };
    let Rewritten { result, counts, routine } = &second;
    assert_eq!(*result, counts[0] > 0);

    // Materializations, fresh numbers and rebuilds are as many; the closing sum.
    let next = original.recorded.len();
    let fresh = |i: &&Instruction| i.kind.dests().iter().any(|dest| dest.index() >= next);
    let rebuilt = routine.instructions().filter(fresh).count();
    assert_eq!(counts[4] as usize, rebuilt);
    assert_eq!(routine.recorded.len() - next, rebuilt);
    let left_out = shelf::dropped(original, routine).len() + stores(original) - stores(routine);
    assert_eq!(
        routine.instructions().count() + left_out,
        original.instructions().count() + rebuilt
    );
    assert_eq!(read_second_output(&write(routine)).as_ref(), Ok(routine));

    let Ok(first) = first else {
        return;
    };
    // The same builds are folded, and but for later Boolean Indices the same values are dropped.
    assert_eq!(builds(&first.routine, next), builds(routine, next));
    if !boolean {
        assert_eq!(first.counts[..4], counts[..4]);
        assert_eq!(shelf::dropped(original, &first.routine), shelf::dropped(original, routine));
    }
    let [before, after] = [&first.routine, routine].map(|rewritten| reason(original, rewritten));
    assert!(before != 0 || after == 0, "reason {after} instead of 0");
    assert!(before == after || (before, after) == (5, 0) || boolean, "{before} {after}");
}

fn stores(routine: &Routine) -> usize {
    routine.instructions().filter(|i| matches!(i.kind, Kind::Store { .. })).count()
}

#[test]
fn edition_2_keeps_what_it_promises() {
    for number in 0..1500 {
        let mut rng = Rng::of(31, number);
        let bytes = input(&mut rng, number);
        let settings = settings(&mut rng);
        let routine = read(&bytes).expect("a routine");
        let holds = std::panic::catch_unwind(|| holds(&routine, settings));
        assert!(holds.is_ok(), "{number}: {settings:?} {}", to_hex(&bytes));
    }
}
