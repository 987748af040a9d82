//! Edition 1 in this frame is what the Rust does.

use edition2::{lower, Edition};
use gen::{Rng, Sort, SORTS};
use oracle::{run_oracle, to_hex, Outcome, Settings, LENT};

/// Settings drawn for an input: the usual ones as a rule.
fn settings(rng: &mut Rng) -> Settings {
    if rng.chance(60) {
        return Settings::default();
    }
    let max_aggregate_size = rng.below(18) as u64;
    let [enable_tuples, enable_structs] = [(); 2].map(|()| u64::from(rng.chance(80)));
    Settings { enable_tuples, enable_structs, max_aggregate_size }
}

fn alike(input: &[u8], settings: Settings, room: usize) -> bool {
    let frame = lower(input, settings, Edition::First, room);
    match (run_oracle(input, settings, room), frame) {
        (Outcome::Refused(refusal), Err(own)) => own == refusal,
        (Outcome::Lowered { result, counts, output }, Ok(own)) => {
            (own.result, own.counts) == (result, counts) && own.output == output
        }
        _ => false,
    }
}

#[test]
fn edition_1_is_what_the_rust_does() {
    for number in 0..2000 {
        let mut rng = Rng::of(21, number);
        let input = match number % 6 {
            0 => gen::churned(&mut rng),
            1 => gen::churned_deep(&mut rng),
            2 => gen::twisted(&mut rng),
            3 => gen::of_sort(&mut rng, Sort::Wild),
            _ => gen::input(21, number, Some(SORTS[number as usize / 6 % SORTS.len()])).1,
        };
        let settings = settings(&mut rng);
        assert!(alike(&input, settings, LENT), "{number}: {settings:?} {}", to_hex(&input));
    }
}
