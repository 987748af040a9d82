//! `lower` against the Rust, bytes to bytes, in time, on the same routines.

use std::cell::RefCell;

use gen::{Rng, Work, WORKS};
use oracle::{run_oracle, to_hex, write, Outcome, Settings, LENT};

use crate::args::Args;
use crate::bench::middle;
use crate::Lower;

/// The sizes that are measured, in instructions.
const SIZES: [usize; 5] = [10, 25, 50, 100, 256];

/// Prints nanoseconds for each routine, by kind of work and size, and the ratio where there is a
/// `lower`. The Rust's time is that of reading, building the function, the pass, and writing.
pub fn command(args: &Args, lower: Option<Lower>) -> Result<bool, String> {
    args.only(&["count", "seed"])?;
    if cfg!(debug_assertions) {
        return Err("a debug build says nothing about time: add `--release`".to_string());
    }
    let (count, seed) = (args.number("count", 60)?.max(1), args.number("seed", 1)?);
    println!("{count} routines of each kind and size, seed {seed}, usual settings");
    println!(
        "{:<10}{:>6}{:>10}{:>10}{:>12}{:>12}{:>8}",
        "work", "most", "instr", "bytes", "Rust ns", "lower ns", "ratio"
    );
    for work in WORKS {
        for size in SIZES {
            row(work, size, &accepted(work, size, count, seed), lower)?;
        }
    }
    Ok(true)
}

/// Routines that the Rust rewrites, with how many instructions they have.
fn accepted(work: Work, size: usize, count: u64, seed: u64) -> (Vec<Vec<u8>>, usize) {
    let mut instructions = 0;
    let mut routines = Vec::new();
    for number in 0..count {
        let routine = work.routine(&mut Rng::of(seed, number), size);
        let bytes = write(&routine);
        if rust(&bytes) {
            instructions += routine.instructions().count();
            routines.push(bytes);
        }
    }
    (routines, instructions)
}

fn rust(input: &[u8]) -> bool {
    matches!(run_oracle(input, Settings::default(), LENT), Outcome::Lowered { .. })
}

fn row(
    work: Work,
    size: usize,
    (routines, instructions): &(Vec<Vec<u8>>, usize),
    lower: Option<Lower>,
) -> Result<(), String> {
    let count = routines.len().max(1);
    let bytes = routines.iter().map(Vec::len).sum::<usize>() / count;
    let head = format!("{:<10}{size:>6}{:>10}{bytes:>10}", work.name(), instructions / count);
    let Some(lower) = lower else {
        let [own] = middle(routines, [&rust]);
        println!("{head}{own:>12.0}{:>12}{:>8}", "-", "-");
        return Ok(());
    };
    let output = RefCell::new(vec![0; LENT]);
    let lowers = |input: &[u8]| lower(input, &mut output.borrow_mut(), [1, 1, 8])[0] == 0;
    if let Some(refused) = routines.iter().find(|r| !lowers(r)) {
        return Err(format!("lower refuses what the Rust rewrites: {}", to_hex(refused)));
    }
    let [own, other] = middle(routines, [&rust, &lowers]);
    println!("{head}{own:>12.0}{other:>12.0}{:>8.2}", other / own);
    Ok(())
}
