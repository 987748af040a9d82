//! Stored answers of the Rust, for the program `replay`: rows chosen so that each case is met.

use std::collections::BTreeMap;

use gen::Rng;
use oracle::form::{Kind, Routine, Type};
use oracle::rows::DEBUGS;
use oracle::{from_hex, read, Settings, LENT};

use crate::args::Args;
use crate::judged::Judged;
use crate::stored;

/// The longest input and output of a row.
const LONGEST: usize = 700;

/// Writes rows to the file `--to`: of `--count` made inputs those that show a case which fewer than
/// `--times` rows before them show, then the stored inputs with Debugs.
pub fn command(args: &Args) -> Result<bool, String> {
    args.only(&["count", "seed", "times", "to"])?;
    let count = args.number("count", 60_000)?;
    let seed = args.number("seed", 1)?;
    let times = args.number("times", 3)?;
    let to = args.text("to").ok_or("--to FILE is missing")?;
    let mut seen: BTreeMap<String, u64> = BTreeMap::new();
    let mut file = Vec::new();
    let mut rows = 0;
    for number in 0..count {
        let (_, input) = gen::input(seed, number, None);
        let mut rng = Rng::of(!seed, number);
        let settings = some_settings(&mut rng);
        let judged = Judged::of(&input, settings);
        let lent = some_length(&mut rng, &judged);
        let cases = cases(&input, settings, &judged, lent);
        let new = cases.iter().any(|case| seen.get(case).copied().unwrap_or(0) < times);
        if !new || input.len() > LONGEST || judged.within(lent).1.len() > LONGEST {
            continue;
        }
        for case in cases {
            *seen.entry(case).or_default() += 1;
        }
        stored::put(&mut file, &input, settings, lent, &judged);
        rows += 1;
    }
    for row in &DEBUGS {
        let input = from_hex(row.hex).expect("stored rows are hexadecimal");
        let settings = Settings::default();
        stored::put(&mut file, &input, settings, LENT, &Judged::of(&input, settings));
        rows += 1;
    }
    std::fs::write(to, &file).map_err(|e| format!("{to}: {e}"))?;
    println!("{rows} rows, {} bytes, {} cases", file.len(), seen.len());
    Ok(true)
}

/// The usual settings as a rule.
fn some_settings(rng: &mut Rng) -> Settings {
    let mut settings = Settings::default();
    if rng.chance(30) {
        settings.enable_tuples = rng.below(3) as u64;
        settings.enable_structs = rng.below(3) as u64;
        settings.max_aggregate_size = rng.below(18) as u64;
    }
    settings
}

/// What the program lends as a rule; at times just enough, or one byte less.
fn some_length(rng: &mut Rng, judged: &Judged) -> usize {
    let exact = match judged.within(LENT) {
        ([0, ..], output) => output.len(),
        _ => LENT,
    };
    match rng.below(20) {
        0 => exact,
        1 => exact.saturating_sub(1),
        _ => LENT,
    }
}

/// What a row shows, by name.
fn cases(input: &[u8], settings: Settings, judged: &Judged, lent: usize) -> Vec<String> {
    let ([number, _, result, counts @ .., reason, _], output) = judged.within(lent);
    if number != 0 {
        return vec![format!("refused {number}")];
    }
    let mut cases = vec![format!("result {result}")];
    cases.extend(counts.iter().enumerate().map(|(at, n)| format!("count {at} {}", n.min(&3))));
    let Settings { enable_tuples, enable_structs, max_aggregate_size } = settings;
    cases.push(format!("tuples {} {result}", enable_tuples != 0));
    cases.push(format!("structs {} {result}", enable_structs != 0));
    cases.push(format!("most {max_aggregate_size}"));
    let (Ok(before), Ok(after)) = (read(input), read(output)) else {
        return cases;
    };
    cases.push(format!("reason {reason}"));
    cases.push(format!("reason {reason}, {} without Debugs", aside(&before, &after)));
    let (was, is) = (kinds(&before), kinds(&after));
    for kind in 0..19 {
        if was[kind] > 0 {
            cases.push(format!("kind {kind} {:?} {result}", is[kind].cmp(&was[kind])));
        }
    }
    cases.extend(rebuilds(&before, &after));
    cases.push(format!("blocks {}", before.blocks.len().min(4)));
    cases
}

/// The shelf reason that the Debugs do not decide.
fn aside(before: &Routine, after: &Routine) -> u8 {
    let dropped = shelf::dropped(before, after);
    shelf::reason(&shelf::without_debugs(before), &shelf::without_debugs(after), &dropped)
}

fn kinds(routine: &Routine) -> [usize; 19] {
    let mut times = [0; 19];
    for instruction in routine.instructions() {
        times[usize::from(instruction.kind.byte())] += 1;
    }
    times
}

/// The types at which values are rebuilt, and whether a number was taken without an instruction.
fn rebuilds(before: &Routine, after: &Routine) -> Vec<String> {
    let fresh = &after.recorded[before.recorded.len()..];
    let name = |ty: &Type| match ty {
        Type::Tuple(parts) => format!("rebuilt tuple of {}", parts.len()),
        Type::Struct { fields, .. } => format!("rebuilt struct of {}", fields.len()),
        Type::FixedArray { .. } => "rebuilt array".to_string(),
        _ => "number without an instruction".to_string(),
    };
    let types = fresh.iter().flatten().map(|ty| name(&after.types[ty.index()]));
    let stored = after.instructions().any(|i| match &i.kind {
        Kind::Store { value: oracle::form::Value::Operand(v), .. } => {
            v.index() >= before.recorded.len()
        }
        _ => false,
    });
    types.chain(stored.then(|| "Store of a rebuild".to_string())).collect()
}

#[cfg(test)]
mod tests {
    use std::path::Path;

    use super::*;

    /// Debugs decide each of the reasons 1, 2 and 5 in at least three rows of `replay`.
    #[test]
    fn debugs_decide_stored_reasons() {
        let file = Path::new(env!("CARGO_MANIFEST_DIR")).join("../../crates/replay/stdin");
        let rows = std::fs::read(&file).unwrap_or_else(|e| panic!("{}: {e}", file.display()));
        let mut decided = [0; 6];
        for input in stored::inputs(&rows).expect("whole rows") {
            let judged = Judged::of(input, Settings::default());
            let (Ok(before), Ok(after)) = (read(input), read(&judged.output)) else { continue };
            let [.., reason, _] = judged.numbers;
            if reason != u64::from(aside(&before, &after)) {
                decided[reason as usize] += 1;
            }
        }
        assert!([1, 2, 5].iter().all(|reason| decided[*reason] >= 3), "{decided:?}");
        assert_eq!([decided[0], decided[3], decided[4]], [0; 3]);
    }
}
