//! The routines of the folder examples/: small ones, each made to show a thing.

mod copies;
pub mod draft;
pub mod passed;
mod reasons;
mod refused;
mod second;

use std::path::Path;

use edition2::Edition;
use oracle::{to_hex, write, Settings, LENT};

use crate::args::Args;
use crate::families;
use crate::judged::Judged;
use crate::one::printed;

/// Writes the examples, and the lines that the programs have to print of them, into the folder `--to`.
pub fn command(args: &Args) -> Result<bool, String> {
    args.only(&["to"])?;
    let to = Path::new(args.text("to").ok_or("--to FOLDER is missing")?);
    for (file, text) in files() {
        let file = to.join(file);
        std::fs::write(&file, text).map_err(|e| format!("{}: {e}", file.display()))?;
        println!("{}", file.display());
    }
    Ok(true)
}

/// Each file of the folder with its text.
fn files() -> Vec<(String, String)> {
    let of_one = |(name, bytes): (&str, Vec<u8>)| {
        let own = |ending| name.replace(".hex", ending);
        let always = [(own(".hex"), digits(&bytes)), (own(".lines"), lines(&bytes))];
        let families = FAMILIES.contains(&name).then(|| (own(".families"), families_of(&bytes)));
        let second = SECOND.contains(&name).then(|| (own(".second"), second_lines(&bytes)));
        always.into_iter().chain(families).chain(second)
    };
    all().into_iter().flat_map(of_one).collect()
}

/// The examples for which there are lines of the program `families` too.
const FAMILIES: [&str; 5] =
    ["backwards.hex", "backwards-chain.hex", "other-kind.hex", "scalars.hex", "refused-6.hex"];

/// The examples for which there are lines of edition 2 too.
const SECOND: [&str; 9] = [
    "second-run.hex",
    "nested.hex",
    "twice.hex",
    "kept-load.hex",
    "kept-store.hex",
    "reason-5.hex",
    "debug-5.hex",
    "refused-14.hex",
    "refused-15.hex",
];

/// The text of an example's file.
fn digits(bytes: &[u8]) -> String {
    format!("{}\n", to_hex(bytes))
}

/// What the Rust makes of the bytes, as document 01's program prints it.
fn lines(bytes: &[u8]) -> String {
    printed(&Judged::of(bytes, Settings::default()), LENT)
}

/// What the crate `edition2` makes of them in edition 2, printed the same way.
fn second_lines(bytes: &[u8]) -> String {
    printed(&Judged::in_edition(bytes, Settings::default(), Edition::Second), LENT)
}

/// What the program `families` prints of them.
fn families_of(bytes: &[u8]) -> String {
    families::printed(&families::found(bytes), false)
}

/// Each example with its bytes.
pub fn all() -> Vec<(&'static str, Vec<u8>)> {
    vec![
        ("pair.hex", write(&passed::pair())),
        ("struct.hex", write(&passed::nested_struct())),
        ("loop.hex", write(&passed::counting_loop())),
        ("counts.hex", write(&passed::every_count())),
        ("long.hex", write(&passed::long_line())),
        ("debug.hex", write(&passed::debugged())),
        ("unwritten.hex", write(&passed::unwritten())),
        ("second-run.hex", write(&passed::passed_once())),
        ("reason-1.hex", write(&reasons::other_type())),
        ("reason-2.hex", write(&reasons::read_ahead())),
        ("reason-3.hex", write(&reasons::stored_into_part())),
        ("reason-4.hex", write(&reasons::stored_deep())),
        ("reason-5.hex", write(&reasons::asserted())),
        ("nested.hex", write(&reasons::returned_nest())),
        ("twice.hex", write(&second::returned_twice())),
        ("kept-load.hex", write(&second::loaded_whole())),
        ("kept-store.hex", write(&second::stored_whole())),
        ("debug-1.hex", write(&reasons::debugged_error())),
        ("debug-2.hex", write(&reasons::debugged_ahead())),
        ("debug-5.hex", write(&reasons::debugged_dropped())),
        ("backwards.hex", write(&copies::backwards())),
        ("backwards-chain.hex", write(&copies::backwards_chain())),
        ("other-kind.hex", write(&copies::other_kind())),
        ("scalars.hex", write(&copies::scalars())),
        ("refused-1.hex", refused::cut_off()),
        ("refused-2.hex", refused::long_list()),
        ("refused-3.hex", refused::unknown_kind()),
        ("refused-4.hex", refused::high_value()),
        ("refused-5.hex", refused::type_twice()),
        ("refused-6.hex", refused::value_twice()),
        ("refused-7.hex", refused::late_phi()),
        ("refused-8.hex", refused::other_counts()),
        ("refused-9.hex", refused::byte_more()),
        ("refused-10.hex", refused::other_array()),
        ("refused-11.hex", refused::long_output()),
        ("refused-14.hex", write(&second::its_own_part())),
        ("refused-15.hex", write(&gen::tower::sixteen())),
    ]
}

#[cfg(test)]
mod tests;
