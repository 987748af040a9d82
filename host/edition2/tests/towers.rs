//! What comes to the mosts, or just over them.

use edition2::{lower, rewrite, Edition, MOST};
use gen::tower::{of, sixteen, Case};
use gen::Rng;
use oracle::form::{Instruction, Kind, Routine};
use oracle::{write, Settings};

/// The next value, and the instructions of each block; or the refusal.
fn made(routine: &Routine) -> Result<(usize, Vec<usize>), u8> {
    let rewritten = rewrite(routine, Settings::default(), Edition::Second);
    let routine = rewritten.map_err(|fault| fault.0)?.routine;
    let lines = routine.blocks.iter().map(|block| block.instructions.len()).collect();
    Ok((routine.recorded.len(), lines))
}

#[test]
fn the_next_value_goes_to_its_most() {
    for seed in 0..2 {
        for case in [Case::Next, Case::LaterNext] {
            for next in [MOST - 1, MOST] {
                let (made, lines) =
                    made(&of(&mut Rng::new(seed), case(next))).expect("it has room");
                assert_eq!(made, next);
                assert!(lines.iter().all(|lines| *lines < MOST));
            }
            assert_eq!(made(&of(&mut Rng::new(seed), case(MOST + 1))), Err(15));
        }
    }
}

#[test]
fn a_block_goes_to_its_most() {
    for seed in 0..2 {
        for case in [Case::Lines, Case::LaterLines] {
            for wanted in [MOST - 1, MOST] {
                let (next, lines) =
                    made(&of(&mut Rng::new(seed), case(wanted))).expect("it has room");
                assert_eq!(lines.last(), Some(&wanted));
                assert!(next < MOST);
            }
            assert_eq!(made(&of(&mut Rng::new(seed), case(MOST + 1))), Err(15));
        }
    }
}

/// One Nop more is 15, wherever it stands.
#[test]
fn a_nop_more_is_one_too_many() {
    let mut routine = of(&mut Rng::new(1), Case::Lines(MOST));
    let nop = Instruction::plain(Kind::Nop);
    let instructions = &mut routine.blocks[0].instructions;
    instructions.push(nop.clone());
    assert_eq!(made(&routine), Err(15));
    let instructions = &mut routine.blocks[0].instructions;
    instructions.pop();
    instructions.insert(0, nop);
    assert_eq!(made(&routine), Err(15));
}

/// 10, 14 and 15, by what is met first.
#[test]
fn faults_go_by_the_first_met() {
    let of = |seed| made(&of(&mut Rng::new(seed), Case::Faulty));
    let faults: Vec<u8> = (0..12).filter_map(|seed| of(seed).err()).collect();
    assert_eq!(faults.len(), 12);
    for fault in [10, 14, 15] {
        assert!(faults.contains(&fault), "{fault} in {faults:?}");
    }
}

/// 33 instructions, for which no 65,535 rebuilds are enough; found where no room is lent too. Edition 1 takes
/// it as it is.
#[test]
fn sixteen_levels_are_too_many() {
    let input = write(&sixteen());
    assert_eq!(sixteen().blocks[0].instructions.len(), 33);
    for room in [0, usize::MAX] {
        let refused = lower(&input, Settings::default(), Edition::Second, room);
        assert_eq!(refused.map_err(|refusal| refusal.number), Err(15));
    }
    let first = lower(&input, Settings::default(), Edition::First, usize::MAX);
    assert_eq!(first.map(|lowered| lowered.counts), Ok([16, 0, 16, 0, 0]));
}

/// "11 comes after, from the true length".
#[test]
fn a_long_output_needs_its_length() {
    let input = write(&of(&mut Rng::new(3), Case::Next(MOST)));
    let of = |room| lower(&input, Settings::default(), Edition::Second, room);
    let length = of(usize::MAX).expect("it has room").output.len();
    assert!(length > 900_000, "{length}");
    assert!(of(length).is_ok());
    assert_eq!(of(length - 1).map_err(|refusal| refusal.number), Err(11));
}
