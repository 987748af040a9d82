//! `check` against the oracle's reader, in time, on the same routines.

use std::hint::black_box;
use std::time::Instant;

use gen::Rng;
use oracle::{read, to_hex};

use crate::args::Args;
use crate::Check;

/// The sizes that are measured, in instructions.
const SIZES: [usize; 4] = [10, 50, 100, 256];

/// How often each is measured; the middle one counts.
const TIMES: usize = 25;

/// How many routines are measured together.
const FEW: usize = 5;

/// What is measured: whether a routine is accepted.
pub type Reader<'a> = &'a dyn Fn(&[u8]) -> bool;

/// Prints nanoseconds for each routine, and the ratio where there is a `check`.
pub fn command(args: &Args, check: Option<Check>) -> Result<bool, String> {
    args.only(&["count", "seed"])?;
    if cfg!(debug_assertions) {
        return Err("a debug build says nothing about time: add `--release`".to_string());
    }
    let count = args.number("count", 400)?.max(1);
    let seed = args.number("seed", 1)?;
    made_in_a_second(seed);
    println!("{count} routines of each size, seed {seed}, middle of {TIMES}");
    println!(
        "{:>12}{:>10}{:>14}{:>14}{:>8}",
        "instructions", "bytes", "reader ns", "check ns", "ratio"
    );
    for size in SIZES {
        let routines: Vec<Vec<u8>> =
            (0..count).map(|n| gen::sized(&mut Rng::of(seed, n), size)).collect();
        row(size, &routines, check)?;
    }
    Ok(true)
}

fn row(size: usize, routines: &[Vec<u8>], check: Option<Check>) -> Result<(), String> {
    let bytes = routines.iter().map(Vec::len).sum::<usize>() / routines.len();
    let reader = |input: &[u8]| read(input).is_ok();
    let Some(check) = check else {
        let own = middle(routines, [&reader])[0];
        println!("{size:>12}{bytes:>10}{own:>14.0}{:>14}{:>8}", "-", "-");
        return Ok(());
    };
    let checker = |input: &[u8]| check(input).0 == 0;
    if let Some(refused) = routines.iter().find(|r| !checker(r)) {
        return Err(format!("check refuses a valid routine: {}", to_hex(refused)));
    }
    let [own, other] = middle(routines, [&reader, &checker]);
    println!("{size:>12}{bytes:>10}{own:>14.0}{other:>14.0}{:>8.2}", other / own);
    Ok(())
}

/// The time of each reader for one routine, in nanoseconds: few routines at a time and the readers
/// in turn, so that other work on the machine spoils single measurements and not the middle one.
pub fn middle<const N: usize>(routines: &[Vec<u8>], readers: [Reader; N]) -> [f64; N] {
    let mut sums = [0.0; N];
    for few in routines.chunks(FEW) {
        let mut times = [[0; TIMES]; N];
        for turn in 0..TIMES {
            for (reader, times) in readers.iter().zip(&mut times) {
                times[turn] = once(few, reader);
            }
        }
        for (sum, mut times) in sums.iter_mut().zip(times) {
            times.sort_unstable();
            *sum += times[TIMES / 2] as f64;
        }
    }
    sums.map(|sum| sum / routines.len() as f64)
}

/// One round over some routines, in nanoseconds.
fn once(routines: &[Vec<u8>], reader: Reader) -> u128 {
    let start = Instant::now();
    for routine in routines {
        black_box(reader(black_box(routine)));
    }
    start.elapsed().as_nanos()
}

/// How many inputs of the comparison's mix are made and read in a second.
fn made_in_a_second(seed: u64) {
    const INPUTS: u64 = 50_000;
    let rate = |start: Instant| INPUTS as f64 / start.elapsed().as_secs_f64();
    let start = Instant::now();
    let inputs: Vec<Vec<u8>> = (0..INPUTS).map(|n| gen::input(seed, n, None).1).collect();
    let made = rate(start);
    let start = Instant::now();
    for input in &inputs {
        black_box(read(black_box(input)).is_ok());
    }
    println!("inputs made in a second: {made:.0}; read in a second: {:.0}", rate(start));
}
