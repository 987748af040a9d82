//! README.md says what is so.

use std::path::Path;

use oracle::rows::{EXAMPLE, EXAMPLE_OUTPUT};
use oracle::{from_hex, Settings, LENT};

use crate::judged::Judged;
use crate::one::printed;

/// A file of the repository.
fn text(name: &str) -> String {
    let file = Path::new(env!("CARGO_MANIFEST_DIR")).join("../..").join(name);
    std::fs::read_to_string(&file).unwrap_or_else(|e| panic!("{}: {e}", file.display()))
}

/// The columns of the picture that hold names.
const NAMES: usize = 36;

/// The lines of the picture, from its top, each with its names.
fn pictured(readme: &str) -> Vec<Vec<&str>> {
    let (_, behind) = readme.split_once("## The stack").expect("there is a stack");
    let (stack, _) = behind.split_once("\n## ").expect("a section is behind it");
    let lines = stack.lines().filter_map(|line| line.strip_prefix("    "));
    lines.map(|line| line.get(..NAMES).unwrap_or(line).split_whitespace().collect()).collect()
}

/// Whether a name of the picture stands for a crate: `fold` for its own, `fold_*` for all that
/// begin so.
fn stands_for(name: &str, own: &str) -> bool {
    name.strip_suffix('*').map_or(name == own, |start| own.starts_with(start))
}

/// The crates of crates.txt, each with what it uses. (Behind a name may stand what is made of it.)
fn listed(crates: &str) -> Vec<(&str, Vec<&str>)> {
    let lines = crates.lines().filter_map(|line| line.split('#').next()?.split_once(':'));
    let own = |words| str::split_whitespace(words).next().unwrap_or_default();
    lines.map(|(name, uses)| (own(name), uses.split_whitespace().collect())).collect()
}

/// The picture has each crate, above or beside all that it uses, and no name for nothing.
#[test]
fn the_stack_is_that_of_crates_txt() {
    let (readme, crates) = (text("README.md"), text("crates.txt"));
    let (pictured, listed) = (pictured(&readme), listed(&crates));
    let place = |own: &str| {
        pictured.iter().position(|names| names.iter().any(|name| stands_for(name, own)))
    };
    for (name, uses) in &listed {
        assert!(place(name).is_some(), "{name} is not in the picture");
        for used in uses.iter().filter(|used| listed.iter().any(|(own, _)| own == *used)) {
            assert!(place(name) <= place(used), "{name} uses {used}, which stands above it");
        }
    }
    for name in pictured.iter().flatten() {
        assert!(listed.iter().any(|(own, _)| stands_for(name, own)), "{name} stands for no crate");
    }
}

/// What the first run prints, and the example of each shelf reason and refusal.
#[test]
fn the_first_run_and_the_tables_are_true() {
    let readme = text("README.md");
    let example = from_hex(EXAMPLE).expect("it is hexadecimal");
    let printed = printed(&Judged::of(&example, Settings::default()), LENT);
    assert!(printed.ends_with(&format!("{EXAMPLE_OUTPUT}\n")));
    assert!(readme.contains(&printed.replace("\n0", "\n    0")));
    let has = |number: u8, file: String| {
        let row = |line: &str| {
            line.starts_with(&format!("| {number} |")) && line.ends_with(&format!("| `{file}` |"))
        };
        assert!(readme.lines().any(row), "{file}");
    };
    (1..=5).for_each(|reason| has(reason, format!("reason-{reason}.hex")));
    (1..=11).chain([14, 15]).for_each(|number| has(number, format!("refused-{number}.hex")));
}
