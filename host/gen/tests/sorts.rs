//! Each sort gives what it says: valid routines, and every refusal.

use gen::{input, of_sort, sized, Rng, Sort};
use oracle::form::{most, Instruction, Kind, Mosts, Routine, Value};
use oracle::{function_of, read, read_output, routine_of, run_routine, write, Settings, TypeTable};

/// Routines of a sort, read back.
fn routines(sort: Sort, count: u64) -> impl Iterator<Item = Routine> {
    (0..count).map(move |number| {
        let bytes = of_sort(&mut Rng::of(11, number), sort);
        read(&bytes).unwrap_or_else(|r| panic!("{} {number}: {r}", sort.name()))
    })
}

#[test]
fn one_seed_gives_one_input() {
    for number in 0..200 {
        assert_eq!(input(5, number, None), input(5, number, None));
    }
}

/// Typed, wild, near and deep routines, towers, and those dense in copies, are read, and written as the bytes they
/// came from; so is what becomes a `MirFunction` and a routine again.
#[test]
fn valid_sorts_go_there_and_back() {
    let counts = [
        (Sort::Typed, 2000),
        (Sort::Wild, 2000),
        (Sort::Near, 200),
        (Sort::Copies, 1000),
        (Sort::Deep, 2000),
        (Sort::Tower, 100),
    ];
    for (sort, count) in counts {
        for number in 0..count {
            let bytes = of_sort(&mut Rng::of(3, number), sort);
            let routine = read(&bytes).unwrap_or_else(|r| panic!("{} {number}: {r}", sort.name()));
            assert_eq!(write(&routine), bytes);
            let mut table = TypeTable::new(routine.types.clone());
            let function = function_of(&routine, &table);
            assert_eq!(routine_of(&function, &mut table, &Mosts::INPUT), Ok(routine));
        }
    }
}

/// What the pass leaves is read back, where it passes a most too.
#[test]
fn outputs_are_read_back() {
    let mut passed = 0;
    let counts = [(Sort::Typed, 500), (Sort::Wild, 500), (Sort::Near, 400), (Sort::Copies, 500)];
    for (sort, count) in counts {
        for routine in routines(sort, count) {
            if let Ok(lowered) = run_routine(routine, Settings::default()) {
                let bytes = write(&lowered.routine);
                passed += u64::from(read(&bytes).is_err());
                assert_eq!(read_output(&bytes), Ok(lowered.routine));
            }
        }
    }
    assert!(passed > 0);
}

#[test]
fn damage_reaches_every_refusal() {
    let mut seen = [0u64; 10];
    for number in 0..20_000 {
        let bytes = of_sort(&mut Rng::of(4, number), Sort::Damaged);
        seen[read(&bytes).map_or_else(|r| usize::from(r.number), |_| 0)] += 1;
    }
    assert!(seen.iter().all(|times| *times > 20), "{seen:?}");
}

#[test]
fn every_kind_stands_in_wild_routines() {
    let mut seen = [0u64; 19];
    for routine in routines(Sort::Wild, 2000) {
        for instruction in routine.blocks.iter().flat_map(|b| &b.instructions) {
            seen[usize::from(instruction.kind.byte())] += 1;
        }
    }
    assert!(seen.iter().all(|times| *times > 20), "{seen:?}");
}

/// Routines with Debugs are read, and every other one or more has a Debug that shows an operand.
#[test]
fn debugs_stand_in_their_sort() {
    let shows = |i: &Instruction| match &i.kind {
        Kind::Debug { values, .. } => values.iter().any(|v| matches!(v, Value::Operand(_))),
        _ => false,
    };
    let with = routines(Sort::Debugs, 1000).filter(|r| r.instructions().any(shows)).count();
    assert!(with > 500, "{with}");
}

/// Each most is met exactly.
#[test]
fn near_routines_meet_every_most() {
    let mut met = [false; 7];
    for routine in routines(Sort::Near, 400) {
        let counts = routine.blocks.iter().map(|b| b.instructions.len());
        let projections =
            routine.blocks.iter().flat_map(|b| &b.instructions).map(|i| match &i.kind {
                Kind::Load { place, .. } | Kind::Store { place, .. } => place.projections.len(),
                _ => 0,
            });
        met[0] |= routine.types.len() == most::TYPES;
        met[1] |= routine.recorded.len() == most::NEXT_VALUE;
        met[2] |= routine.blocks.len() == most::BLOCKS;
        met[3] |= counts.clone().max() == Some(most::IN_BLOCK);
        met[4] |= counts.sum::<usize>() == most::IN_ALL;
        met[5] |= routine.parameters.len() == most::LIST;
        met[6] |= projections.max() == Some(most::PROJECTIONS);
    }
    assert_eq!(met, [true; 7]);
}

#[test]
fn sized_routines_have_about_their_size() {
    for size in [10, 50, 100, 256] {
        for number in 0..50 {
            let routine = read(&sized(&mut Rng::of(9, number), size)).expect("a typed routine");
            let count: usize = routine.blocks.iter().map(|b| b.instructions.len()).sum();
            assert!(count <= size && 10 * count >= 5 * size, "{count} for {size}");
        }
    }
}
