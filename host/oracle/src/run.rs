//! The pass over bytes: read, run the Rust, write.

use std::cell::Cell;
use std::panic::{self, AssertUnwindSafe};
use std::sync::Once;

use mir::passes::sroa::{Config, ScalarReplacementOfAggregates};
use mir::passes::MirPass;
use mir::MirFunction;

use crate::cursor::{cause, refuse, Read, Refusal};
use crate::form::{Mosts, Routine};
use crate::from_mir::routine_of;
use crate::read::read;
use crate::to_mir::function_of;
use crate::tokens::TypeTable;
use crate::write::write;

/// The settings as a host hands them over: "a flag is on when its number is not 0".
#[derive(Debug, Clone, Copy, PartialEq, Eq)]
pub struct Settings {
    pub enable_tuples: u64,
    pub enable_structs: u64,
    pub max_aggregate_size: u64,
}

impl Default for Settings {
    fn default() -> Self {
        Self { enable_tuples: 1, enable_structs: 1, max_aggregate_size: 8 }
    }
}

/// "`max_aggregate_size` above 16" is refusal 12.
const LARGEST_SETTING: u64 = 16;

/// The output that the program lends.
pub const LENT: usize = 65_536;

/// The five counts in `Stats` order.
pub type Counts = [u64; 5];

/// The names of the counts in the pass's Debug text.
pub const COUNT_NAMES: [&str; 5] = [
    "scalarized_builds",
    "extracts_rewritten",
    "inserts_forwarded",
    "assigns_forwarded",
    "materializations",
];

/// Every answer of a run.
#[derive(Debug, Clone, PartialEq, Eq)]
pub enum Outcome {
    Refused(Refusal),
    Lowered { result: bool, counts: Counts, output: Vec<u8> },
}

/// What the Rust makes of an input: "12 is tested first; 1 to 8 go by lowest offset, then lowest
/// number; then 9, 10, 11".
pub fn run_oracle(input: &[u8], settings: Settings, output_len: usize) -> Outcome {
    match admitted(input, settings).and_then(|routine| run_routine(routine, settings)) {
        Err(refusal) => Outcome::Refused(refusal),
        Ok(Lowered { result, counts, routine }) => {
            let output = write(&routine);
            if output.len() > output_len {
                return Outcome::Refused(Refusal { number: cause::OUTPUT_LONGER, offset: 0 });
            }
            Outcome::Lowered { result, counts, output }
        }
    }
}

/// The routine that an input is, under settings that may be: refusal 12, or 1 to 9.
pub fn admitted(input: &[u8], settings: Settings) -> Read<Routine> {
    if settings.max_aggregate_size > LARGEST_SETTING {
        return refuse(cause::SETTING, 0);
    }
    read(input)
}

/// What a run leaves, before it is bytes again: it may pass the mosts, which `read` holds.
#[derive(Debug, Clone, PartialEq, Eq)]
pub struct Lowered {
    pub result: bool,
    pub counts: Counts,
    pub routine: Routine,
}

/// What the Rust makes of a routine: refusal 10 where an array rebuild met another count.
pub fn run_routine(mut routine: Routine, settings: Settings) -> Read<Lowered> {
    let mut table = TypeTable::new(std::mem::take(&mut routine.types));
    let mut function = function_of(&routine, &table);
    let (result, counts) = run_pass(&mut function, settings)?;
    let routine = routine_of(&function, &mut table, &Mosts::OUTPUT);
    Ok(Lowered { result, counts, routine: routine.expect("no output passes the lifted mosts") })
}

/// Runs `MirPass::run`: refusal 10 where an array rebuild met another count.
pub fn run_pass(function: &mut MirFunction, settings: Settings) -> Read<(bool, Counts)> {
    let mut pass = ScalarReplacementOfAggregates::with_config(Config {
        enable_tuples: settings.enable_tuples != 0,
        enable_structs: settings.enable_structs != 0,
        max_aggregate_size: settings.max_aggregate_size as usize,
    });
    match quietly(|| pass.run(function)) {
        Some(result) => Ok((result, counts_in(&format!("{pass:?}")))),
        None => refuse(cause::ARRAY_REBUILD, 0),
    }
}

/// The counts, which the pass shows in its Debug text alone.
fn counts_in(text: &str) -> Counts {
    COUNT_NAMES.map(|name| {
        let (_, after) = text.split_once(&format!("{name}: ")).expect("the count is shown");
        let digits = after.split(|c: char| !c.is_ascii_digit()).next();
        digits.and_then(|d| d.parse().ok()).expect("a count is a number")
    })
}

/// The text of the one panic that document 01 makes a refusal.
const ARRAY_PANIC: &str = "SROA materialize: array element count mismatch";

thread_local! {
    static QUIET: Cell<bool> = const { Cell::new(false) };
}

/// Runs `work` without a panic's message; the array panic gives nothing, any other goes on.
fn quietly<T>(work: impl FnOnce() -> T) -> Option<T> {
    static HOOK: Once = Once::new();
    HOOK.call_once(|| {
        let before = panic::take_hook();
        panic::set_hook(Box::new(move |info| {
            if !QUIET.get() {
                before(info);
            }
        }));
    });
    QUIET.set(true);
    let answer = panic::catch_unwind(AssertUnwindSafe(work));
    QUIET.set(false);
    match answer {
        Ok(answer) => Some(answer),
        Err(panic) => match panic.downcast_ref::<String>() {
            Some(text) if text.contains(ARRAY_PANIC) => None,
            _ => panic::resume_unwind(panic),
        },
    }
}
