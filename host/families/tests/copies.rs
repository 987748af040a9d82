//! The sort `copies` has what families are told apart by.

use std::collections::BTreeSet;

use families::{families, Family};
use gen::{of_sort, Rng, Sort};
use oracle::form::{most, Block, Kind, Routine, Value, ValueNo};
use oracle::read;

/// Routines of the sort, each with its families.
fn made(count: u64) -> impl Iterator<Item = (Routine, Vec<Family>)> {
    (0..count).map(|number| {
        let bytes = of_sort(&mut Rng::of(23, number), Sort::Copies);
        let routine = read(&bytes).unwrap_or_else(|r| panic!("input {number}: {r}"));
        let families = families(&routine);
        (routine, families)
    })
}

/// Whether another block reads a member.
fn read_elsewhere(routine: &Routine, family: &Family) -> bool {
    let others = routine.blocks.iter().enumerate().filter(|(at, _)| *at != family.block);
    let values = |(_, block): (usize, &Block)| {
        let read = block.instructions.iter().flat_map(|i| i.kind.values());
        read.chain(block.terminator.values()).collect::<Vec<Value>>()
    };
    let member = |value| matches!(value, Value::Operand(v) if family.members.contains(&v));
    others.flat_map(values).any(member)
}

#[test]
fn every_sort_of_family_is_met_often() {
    let (mut builds, mut met) = (0, [0; 6]);
    for (routine, families) in made(2000) {
        for family in &families {
            builds += 1;
            let there = [
                family.members.len() > 1,
                family.backwards,
                family.copies >= family.members.len(),
                family.dynamic,
                read_elsewhere(&routine, family),
                !family.backwards && family.members.len() > 3,
            ];
            met.iter_mut().zip(there).for_each(|(times, is)| *times += u64::from(is));
        }
    }
    assert!(met.iter().all(|times| *times * 50 > builds), "{met:?} of {builds}");
}

/// A family as large as there can be, backwards and not: 255 turns.
#[test]
fn the_largest_family_is_met() {
    let mut met = [false; 2];
    for (_, families) in made(4000) {
        for family in families.iter().filter(|family| family.members.len() == most::IN_BLOCK) {
            assert_eq!(family.turns(), 2 * most::IN_BLOCK - 1);
            met[usize::from(family.backwards)] = true;
        }
    }
    assert_eq!(met, [true; 2]);
}

/// What an instruction copies, and where it puts it.
fn copied(kind: &Kind) -> Option<(ValueNo, ValueNo)> {
    let (source, dest) = match kind {
        Kind::Assign { dest, source, .. } => (*source, *dest),
        Kind::InsertTuple(insert) => (insert.tuple_val, insert.dest),
        Kind::InsertField(insert) => (insert.struct_val, insert.dest),
        _ => return None,
    };
    match source {
        Value::Operand(source) => Some((source, dest)),
        _ => None,
    }
}

/// Two values that are copies of each other are met often, and a block of copies of one value alone.
#[test]
fn rings_and_full_blocks_are_met() {
    let (mut rings, mut full) = (0, 0);
    for (routine, _) in made(4000) {
        for block in &routine.blocks {
            let kinds = block.instructions.iter().map(|i| &i.kind);
            let copies: BTreeSet<(ValueNo, ValueNo)> = kinds.filter_map(copied).collect();
            rings += copies.iter().filter(|(a, b)| a < b && copies.contains(&(*b, *a))).count();
            let sources: BTreeSet<ValueNo> = copies.iter().map(|(source, _)| *source).collect();
            full += usize::from(copies.len() == most::IN_BLOCK && sources.len() == 1);
        }
    }
    assert!(rings > 400 && full > 3, "{rings} {full}");
}
