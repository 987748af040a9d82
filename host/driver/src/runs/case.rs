//! One routine, its rewriting, and the runs in which both are compared.

use edition2::{rewrite, Edition};
use gen::{Rng, Sort};
use machine::{run, List, Run, Trace};
use oracle::form::Routine;
use oracle::{run_routine, Counts, Lowered, Settings};

use super::faults::Fault;
use super::plan::{plans, Plan};

/// How many runs each routine takes part in.
const RUNS: usize = 6;

/// Input `number` of a seed, with settings: typed as a rule, else with a twist, and some wild; a
/// third with Debugs put in.
/// For edition 2 every other one is deep, and a few are towers.
pub fn input(seed: u64, number: u64, edition: Edition) -> (Vec<u8>, Settings) {
    let mut rng = Rng::of(seed, number);
    let settings = settings(&mut rng);
    if edition == Edition::Second && number % 2 == 1 {
        let deep = |rng: &mut Rng| {
            let odd = usize::from(rng.chance(15));
            gen::deep_of(rng, odd)
        };
        let tower = number % TOWERS == TOWERS - 1;
        let bytes = if tower { gen::of_sort(&mut rng, Sort::Tower) } else { deep(&mut rng) };
        return (bytes, settings);
    }
    let bytes = match rng.below(100) {
        0..=19 => gen::of_sort(&mut rng, Sort::Typed),
        20..=43 => gen::churned(&mut rng),
        44..=62 => gen::twisted(&mut rng),
        63..=66 => gen::of_sort(&mut rng, Sort::Wild),
        _ => gen::of_sort(&mut rng, Sort::Debugs),
    };
    (bytes, settings)
}

/// The usual settings as a rule, so that there is something to rewrite.
fn settings(rng: &mut Rng) -> Settings {
    let mut settings = Settings::default();
    if rng.chance(30) {
        settings.enable_tuples = u64::from(rng.chance(80));
        settings.enable_structs = u64::from(rng.chance(80));
        settings.max_aggregate_size = rng.below(17) as u64;
    }
    settings
}

/// One in so many is a tower.
const TOWERS: u64 = 4000;

/// What an edition makes of a routine, or the refusal's number; edition 1 is the Rust.
pub fn rewritten_by(
    routine: &Routine,
    settings: Settings,
    edition: Edition,
) -> Result<Lowered, u8> {
    match edition {
        Edition::First => run_routine(routine.clone(), settings).map_err(|refusal| refusal.number),
        Edition::Second => {
            let rewritten = rewrite(routine, settings, edition).map_err(|fault| fault.0)?;
            let edition2::Rewritten { result, counts, routine } = rewritten;
            Ok(Lowered { result, counts, routine })
        }
    }
}

/// A routine with what is made of it.
pub struct Case {
    pub original: Routine,
    pub rewritten: Routine,
    /// Whether something was changed.
    pub changed: bool,
    pub counts: Counts,
}

/// Which routines are compared, and what is planted in them.
#[derive(Debug, Clone, Copy, PartialEq, Eq)]
pub struct Wanted {
    /// 0, or a reason whose routines need not run alike.
    pub reason: u8,
    pub fault: Fault,
    /// The edition that rewrites.
    pub edition: Edition,
}

/// Why a routine is not compared.
pub enum Aside {
    /// By this number.
    Refused(u8),
    /// It has this shelf reason.
    Reason(u8),
}

impl Case {
    /// The case of a routine with the wanted shelf reason; a fault is planted behind the test.
    pub fn of(original: Routine, settings: Settings, wanted: &Wanted) -> Result<Self, Aside> {
        let edition = wanted.edition;
        let lowered = rewritten_by(&original, settings, edition).map_err(Aside::Refused)?;
        let dropped = shelf::dropped(&original, &lowered.routine);
        match shelf::reason(&original, &lowered.routine, &dropped) {
            reason if reason == wanted.reason => {
                let under = (settings, edition);
                let rewritten = wanted.fault.plant(&original, lowered.routine, under, &dropped);
                Ok(Self { original, rewritten, changed: lowered.result, counts: lowered.counts })
            }
            reason => Err(Aside::Reason(reason)),
        }
    }

    /// The runs of this case: the same for the same seed and number.
    pub fn plans(&self, seed: u64, number: u64) -> Vec<Plan> {
        plans(&mut Rng::of(!seed, number), &self.original, RUNS)
    }

    /// The original's run.
    pub fn first(&self, plan: &Plan) -> Run {
        run(&self.original, &*plan.meaning, &mut List(&plan.list), plan.blocks)
    }

    /// The rewritten routine's record and standing, "under the same list and the same meaning".
    pub fn second(&self, plan: &Plan) -> Trace {
        run(&self.rewritten, &*plan.meaning, &mut List(&plan.list), plan.blocks).trace
    }

    /// Whether a run is compared and differs.
    pub fn differs(&self, plan: &Plan) -> bool {
        let first = self.first(plan).trace;
        first.standing.is_compared() && first != self.second(plan)
    }

    /// Whether a run of these blocks went through one that the rewriting changed.
    pub fn meets_change(&self, run: &Run) -> bool {
        run.path.iter().any(|b| self.original.blocks[b.index()] != self.rewritten.blocks[b.index()])
    }
}

/// How many times the runs of a routine are drawn anew, to find one that differs.
const DRAWS: u64 = 8;

/// The first run of a routine that differs, if one does.
pub fn difference(
    routine: &Routine,
    settings: Settings,
    wanted: &Wanted,
    seed: u64,
    number: u64,
) -> Option<(Case, Plan)> {
    let case = Case::of(routine.clone(), settings, wanted).ok()?;
    let plan = (0..DRAWS)
        .flat_map(|draw| case.plans(seed.wrapping_add(draw), number))
        .find(|plan| case.differs(plan))?;
    Some((case, plan))
}
