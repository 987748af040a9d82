//! How often each case is met, so that nothing is missing.

use gen::{Rng, Sort, ALL_SORTS, SORTS};
use oracle::form::*;
use oracle::{read, run_oracle, Outcome, Settings, COUNT_NAMES, LENT};

use crate::args::Args;
use crate::families::{cases, CASES};
use crate::tally::Tally;

/// Runs the oracle over `--count` inputs; true where every case was met, or one sort asked for.
pub fn command(args: &Args) -> Result<bool, String> {
    args.only(&["count", "seed", "sort"])?;
    let count = args.number("count", 100_000)?;
    let seed = args.number("seed", 1)?;
    let sort = args.sort()?;
    let sorts = if sort.is_some() { &ALL_SORTS[..] } else { &SORTS };
    let mut histogram = Histogram::new(sorts);
    for number in 0..count {
        histogram.one(seed, number, sort);
    }
    println!("{count} inputs, seed {seed}");
    let missing = histogram.print();
    if sort.is_some() {
        return Ok(true);
    }
    for name in &missing {
        println!("never met: {name}");
    }
    Ok(missing.is_empty())
}

struct Histogram {
    sorts: Tally,
    outcomes: Tally,
    types: Tally,
    values: Tally,
    projections: Tally,
    terminators: Tally,
    beside: Tally,
    kinds_in: Tally,
    kinds_out: Tally,
    counts: Tally,
    runs: Tally,
    families: Tally,
}

const KIND_NAMES: [&str; 19] = [
    "Assign",
    "UnaryOp",
    "BinaryOp",
    "Call",
    "Cast",
    "Load",
    "Store",
    "Debug",
    "Nop",
    "Phi",
    "MakeTuple",
    "ExtractTupleElement",
    "MakeStruct",
    "ExtractStructField",
    "InsertField",
    "InsertTuple",
    "MakeFixedArray",
    "AssertEq",
    "HeapAllocCells",
];

const TYPE_NAMES: [&str; 11] = [
    "Felt",
    "Bool",
    "U32",
    "Tuple",
    "Struct",
    "FixedArray",
    "Pointer",
    "Function",
    "Unit",
    "Error",
    "Unknown",
];

/// What a whole run shows.
const RUNS: [&str; 6] = [
    "unchanged",
    "changed",
    "next value risen",
    "number, no instruction",
    "Store with a rebuild",
    "a block kept for a phi",
];

impl Histogram {
    fn new(sorts: &[Sort]) -> Self {
        let outcomes = (0..=12).map(|n| match n {
            0 => "accepted".to_string(),
            n => format!("refused {n}"),
        });
        Self {
            sorts: Tally::new("inputs", sorts.iter().map(|sort| sort.name())),
            outcomes: Tally::new("outcomes", outcomes),
            types: Tally::new("types", TYPE_NAMES),
            values: Tally::new("values", ["Integer", "Boolean", "Unit", "Operand", "Error"]),
            projections: Tally::new("projections", ["Index", "Field", "Tuple"]),
            terminators: Tally::new(
                "terminators",
                ["Jump", "If", "BranchCmp", "Return", "Unreachable"],
            ),
            beside: Tally::new("beside kinds", ["span", "expression id", "comment", "is_const"]),
            kinds_in: Tally::new("instructions of inputs", KIND_NAMES),
            kinds_out: Tally::new("instructions of outputs", KIND_NAMES),
            counts: Tally::new("runs that raise a count", COUNT_NAMES),
            runs: Tally::new("runs", RUNS),
            families: Tally::new("families", CASES),
        }
    }

    fn one(&mut self, seed: u64, number: u64, sort: Option<Sort>) {
        let (sort, input) = gen::input(seed, number, sort);
        self.sorts.add(ALL_SORTS.iter().position(|s| *s == sort).expect("listed"), 1);
        let (settings, lent) = circumstances(&mut Rng::of(!seed, number));
        match run_oracle(&input, settings, lent) {
            Outcome::Refused(refusal) => self.outcomes.add(usize::from(refusal.number), 1),
            Outcome::Lowered { result, counts, output } => {
                self.outcomes.add(0, 1);
                let before = read(&input).expect("the oracle accepted it");
                self.routine(&before);
                self.run(&before, result, &output);
                for (at, count) in counts.into_iter().enumerate() {
                    self.counts.add(at, u64::from(count > 0));
                }
            }
        }
    }

    fn routine(&mut self, routine: &Routine) {
        for ty in &routine.types {
            self.types.add(usize::from(ty.byte()), 1);
        }
        for block in &routine.blocks {
            for instruction in &block.instructions {
                self.instruction(instruction);
            }
            self.terminator(&block.terminator);
        }
        for family in families::families(routine) {
            let cases = cases(&family).into_iter().enumerate();
            cases.for_each(|(at, is)| self.families.add(at, u64::from(is)));
        }
    }

    fn instruction(&mut self, instruction: &Instruction) {
        self.kinds_in.add(usize::from(instruction.kind.byte()), 1);
        let Meta { span, expression, comment } = instruction.meta;
        let is_const = matches!(instruction.kind, Kind::MakeFixedArray { is_const: true, .. });
        let beside = [span.is_some(), expression.is_some(), comment.is_some(), is_const];
        for (at, stands) in beside.into_iter().enumerate() {
            self.beside.add(at, u64::from(stands));
        }
        match &instruction.kind {
            Kind::MakeTuple { elements, .. } => self.values(elements),
            Kind::Call(call) => self.values(&call.args),
            Kind::Debug { values, .. } => self.values(values),
            Kind::Load { place, .. } | Kind::Store { place, .. } => {
                for projection in &place.projections {
                    self.projections.add(projection_byte(projection), 1);
                }
            }
            _ => {}
        }
    }

    fn values(&mut self, values: &[Value]) {
        for value in values {
            let byte = match value {
                Value::Integer(_) => 0,
                Value::Boolean(_) => 1,
                Value::Unit => 2,
                Value::Operand(_) => 3,
                Value::Error => 4,
            };
            self.values.add(byte, 1);
        }
    }

    fn terminator(&mut self, terminator: &Terminator) {
        let byte = match terminator {
            Terminator::Jump(_) => 0,
            Terminator::If { .. } => 1,
            Terminator::BranchCmp { .. } => 2,
            Terminator::Return(_) => 3,
            Terminator::Unreachable => 4,
        };
        self.terminators.add(byte, 1);
    }

    /// Compares a routine with what the pass made of it. The output may pass the mosts, and then
    /// the reader, which holds them, does not take it.
    fn run(&mut self, before: &Routine, result: bool, output: &[u8]) {
        self.runs.add(usize::from(result), 1);
        let kept_for_phi = before.blocks.iter().any(|b| has_aggregate_phi(before, b));
        self.runs.add(5, u64::from(kept_for_phi));
        let Ok(after) = read(output) else {
            return;
        };
        let risen = after.recorded.len() - before.recorded.len();
        self.runs.add(2, u64::from(risen > 0));
        let made = after.blocks.iter().flat_map(|b| &b.instructions);
        let made = made.filter(|i| is_rebuild(before, &i.kind)).count();
        self.runs.add(3, u64::from(made < risen));
        self.runs.add(4, u64::from(stores_rebuilt(before, &after)));
        for instruction in after.blocks.iter().flat_map(|b| &b.instructions) {
            self.kinds_out.add(usize::from(instruction.kind.byte()), 1);
        }
    }

    /// Prints all, and gives the cases that were never met.
    fn print(&self) -> Vec<String> {
        let all = [
            &self.sorts,
            &self.outcomes,
            &self.types,
            &self.values,
            &self.projections,
            &self.terminators,
            &self.beside,
            &self.kinds_in,
            &self.kinds_out,
            &self.counts,
            &self.runs,
            &self.families,
        ];
        let mut missing = Vec::new();
        for tally in all {
            print!("{tally}");
            missing.extend(tally.missing());
        }
        missing
    }
}

/// Settings and lent length: the usual ones as a rule.
fn circumstances(rng: &mut Rng) -> (Settings, usize) {
    let mut settings = Settings::default();
    if rng.chance(30) {
        settings.enable_tuples = rng.below(3) as u64;
        settings.enable_structs = rng.below(3) as u64;
        settings.max_aggregate_size = rng.below(18) as u64;
    }
    let lent = if rng.chance(5) { rng.below(200) } else { LENT };
    (settings, lent)
}

fn projection_byte(projection: &Projection) -> usize {
    match projection {
        Projection::Index(_) => 0,
        Projection::Field(_) => 1,
        Projection::Tuple(_) => 2,
    }
}

/// "A block with a tuple or struct phi is skipped."
fn has_aggregate_phi(routine: &Routine, block: &Block) -> bool {
    block.instructions.iter().any(|instruction| match &instruction.kind {
        Kind::Phi { dest, .. } => routine.recorded[dest.index()].is_some_and(|ty| {
            matches!(routine.types[ty.index()], Type::Tuple(_) | Type::Struct { .. })
        }),
        _ => false,
    })
}

/// Whether a build defines a value that the input did not have.
fn is_rebuild(before: &Routine, kind: &Kind) -> bool {
    match kind {
        Kind::MakeTuple { dest, .. }
        | Kind::MakeStruct { dest, .. }
        | Kind::MakeFixedArray { dest, .. } => dest.index() >= before.recorded.len(),
        _ => false,
    }
}

/// Whether a Store takes a value that the input did not have.
fn stores_rebuilt(before: &Routine, after: &Routine) -> bool {
    after.blocks.iter().flat_map(|b| &b.instructions).any(|i| match i.kind {
        Kind::Store { value: Value::Operand(v), .. } => v.index() >= before.recorded.len(),
        _ => false,
    })
}
