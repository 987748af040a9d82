//! Copies the compiler's files, unchanged, into the build folder and writes the module list that
//! `lib.rs` includes. The files are never part of this tree.

use std::path::{Path, PathBuf};
use std::{env, fs};

/// Names the folder that holds the compiler's files, where it is not the usual one.
const OVERRIDE: &str = "POELVIGU_MIR_SRC";

/// The usual folder, from this crate: beside the repository.
const USUAL: &str = "../../../shared/docs/src";

/// Where the crate's files are below that folder.
const BELOW: &str = "crates/compiler/mir/src";

/// The modules at the top of the crate; the second flag marks those for tests alone.
const MODULES: [(&str, bool); 6] = [
    ("function", false),
    ("instruction", false),
    ("mir_types", false),
    ("terminator", false),
    ("testing", true),
    ("value", false),
];

/// The test modules that `function.rs` and `sroa.rs` name and that are in no file we have, and one
/// that ours names.
const ABSENT: [(&str, &str); 3] = [
    ("function_tests.rs", "function_tests.rs"),
    ("sroa_tests.rs", "passes/sroa_tests.rs"),
    ("sroa_families.rs", "passes/sroa_families.rs"),
];

fn main() {
    let source = source_folder();
    let out = PathBuf::from(env::var_os("OUT_DIR").expect("cargo sets OUT_DIR"));
    fs::create_dir_all(out.join("passes")).expect("the build folder can be written");

    let mut list = String::new();
    for (name, for_tests) in MODULES {
        copy(&source, &out, &format!("{name}.rs"));
        let gate = if for_tests { "#[cfg(test)]\n" } else { "" };
        list.push_str(&format!("{gate}#[path = \"{name}.rs\"]\npub mod {name};\n"));
    }
    fs::write(out.join("modules.rs"), list).expect("the build folder can be written");

    copy(&source, &out, "passes/sroa.rs");
    fs::write(out.join("passes.rs"), "#[path = \"passes/sroa.rs\"]\npub mod sroa;\n")
        .expect("the build folder can be written");

    for (ours, theirs) in ABSENT {
        let from = Path::new("absent").join(ours);
        println!("cargo:rerun-if-changed={}", from.display());
        fs::copy(&from, out.join(theirs)).expect("the stand-in test modules are in absent/");
    }
}

/// The folder of the compiler's files, or a clear end of the build.
fn source_folder() -> PathBuf {
    println!("cargo:rerun-if-env-changed={OVERRIDE}");
    let manifest = PathBuf::from(env::var_os("CARGO_MANIFEST_DIR").expect("cargo sets it"));
    let root = env::var_os(OVERRIDE).map_or_else(|| manifest.join(USUAL), PathBuf::from);
    let folder = root.join(BELOW);
    assert!(
        folder.is_dir(),
        "the compiler's files are not in {}: set {OVERRIDE} to the folder docs/src",
        root.display()
    );
    folder
}

/// Copies one file and reads it back: the crate is built from the very bytes of the source.
fn copy(source: &Path, out: &Path, name: &str) {
    let from = source.join(name);
    println!("cargo:rerun-if-changed={}", from.display());
    let bytes = fs::read(&from).unwrap_or_else(|e| panic!("{}: {e}", from.display()));
    let to = out.join(name);
    fs::write(&to, &bytes).expect("the build folder can be written");
    assert_eq!(fs::read(&to).ok(), Some(bytes), "{name} was not copied unchanged");
}
