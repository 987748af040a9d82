//! One driver for the oracle, the generator and the comparison.

mod args;
mod bench;
mod bench_lower;
mod check_diff;
mod coverage;
mod editions;
mod examples;
mod families;
mod histogram;
mod judged;
mod lasting;
mod lower_diff;
mod one;
#[cfg(test)]
mod readme;
mod runs;
mod store;
mod stored;
mod tally;
mod vectors;

use std::process::ExitCode;

use args::Args;

const USAGE: &str = "usage: driver COMMAND [--NAME VALUE]...
  check-diff  --count N --seed S [--sort SORT]   the archive's check against the oracle's reader
  histogram   --count N --seed S [--sort SORT]   how often each case is met
  coverage    --count N --seed S [--sort SORT]   the lines of sroa.rs that no routine reaches
  bench       --count N --seed S                 check against the oracle's reader, in time
  lower-diff  --count N --seed S [--sort SORT] [--calls one]
                                                 the archive's lower against the Rust
  editions-diff --count N --seed S [--sort SORT] [--against rust]
                                                 the archive's entry with choices against the crate
                                                 `edition2`, or that one's edition 1 against the Rust
  lasting     --count N --seed S [--sort SORT] [--by crate]
                                                 the archive's outputs, or the crate's, judged by
                                                 shelf reasons 1 and 2, as inputs are
  lower-small [--routines N] [--from FILE]       the same on all short inputs, and on all that is
                                                 one step from stored routines
  bench-lower --count N --seed S                 lower against the Rust, in time
  runs        --count N --seed S [--edition 2]   original and rewritten routine on the machine
  store       --count N --seed S --times N --to FILE
                                                 stored answers for the program `replay`
  examples    --to FOLDER                        the routines of the folder examples/
  vectors     --to FILE                          what both editions make of small routines
  run         --hex HEX [--tuples N] [--structs N] [--max N] [--lent N] [--edition N]
                                                 what the Rust makes of one input, or the crate
                                                 `edition2`
  families    --hex HEX [--members]              the families of one input's builds
  families-diff --count N --seed S [--sort SORT] [--members] --program PATH
                                                 the program `families` against them
sorts: typed, wild, near, damaged, bytes, debugs, copies; without one, a mix of these; also deep and
tower";

/// The archive's `check`.
type Check = fn(&[u8]) -> (u8, u64);

/// How many numbers `lower` answers: refusal number, offset, result, the five counts, shelf reason,
/// output length.
const NUMBERS: usize = 10;
type Answer = [u64; NUMBERS];

/// The archive's `lower`: input, output, and the settings tuples, structs and most.
type Lower = fn(&[u8], &mut [u8], [u64; 3]) -> Answer;

/// Both, where the driver was built with the archive.
#[cfg(feature = "archive")]
const ARCHIVE: (Option<Check>, Option<Lower>) =
    (Some(poelvigu::check_numbers), Some(poelvigu::lower_numbers));
#[cfg(not(feature = "archive"))]
const ARCHIVE: (Option<Check>, Option<Lower>) = (None, None);

/// An entry that takes choices by place: tuples, structs, most, edition.
type LowerWith = fn(&[u8], &mut [u8], &[u64]) -> Answer;

/// The archive's. A page that is written, or a length of one, makes an answer that none is.
#[cfg(feature = "archive")]
const LOWER_WITH: Option<LowerWith> = Some(|input, output, choices| {
    let mut page = [0x3c; 64];
    let answer = poelvigu::lower_with_numbers(input, output, &mut page, choices);
    match answer {
        [numbers @ .., 0] if page == [0x3c; 64] => numbers,
        _ => [u64::MAX; NUMBERS],
    }
});
#[cfg(not(feature = "archive"))]
const LOWER_WITH: Option<LowerWith> = None;

/// What is said where a command needs it and it is not there.
const WITHOUT: &str = "built without the archive: add `--features archive`";

fn main() -> ExitCode {
    let mut words = std::env::args().skip(1);
    let command = words.next().unwrap_or_default();
    let answer = Args::of(words).and_then(|args| dispatch(&command, &args));
    match answer {
        Ok(true) => ExitCode::SUCCESS,
        Ok(false) => ExitCode::FAILURE,
        Err(message) => {
            eprintln!("{message}");
            ExitCode::from(2)
        }
    }
}

/// Runs a command: whether all is well, or what is wrong with the words.
fn dispatch(command: &str, args: &Args) -> Result<bool, String> {
    let (check, lower) = ARCHIVE;
    match command {
        "check-diff" => check_diff::command(args, check.ok_or(WITHOUT)?),
        "histogram" => histogram::command(args),
        "coverage" => coverage::command(args),
        "bench" => bench::command(args, check),
        "lower-diff" => lower_diff::command(args, lower.ok_or(WITHOUT)?),
        "editions-diff" => editions::command(args),
        "lasting" => lasting::command(args),
        "lower-small" => lower_diff::small::command(args, lower.ok_or(WITHOUT)?),
        "bench-lower" => bench_lower::command(args, lower),
        "runs" => runs::command(args),
        "store" => store::command(args),
        "examples" => examples::command(args),
        "vectors" => vectors::command(args),
        "run" => one::command(args),
        "families" => families::command(args),
        "families-diff" => families::diff::command(args),
        _ => Err(USAGE.to_string()),
    }
}
