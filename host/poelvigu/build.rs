//! Tells the linker where the proved archive is.

use std::env;
use std::path::PathBuf;

/// The crate of the repository whose archive it is.
const NAME: &str = "poelvigu";

/// Names the folder that holds the archive, where it is not the usual one.
const OVERRIDE: &str = "POELVIGU_LIB_DIR";

/// The usual folder, from this crate: where the archive's crate is built.
const USUAL: &str = "../../crates/poelvigu/out";

fn main() {
    println!("cargo:rerun-if-env-changed={OVERRIDE}");
    if env::var_os("CARGO_FEATURE_ARCHIVE").is_none() {
        return;
    }
    let manifest = PathBuf::from(env::var_os("CARGO_MANIFEST_DIR").expect("cargo sets it"));
    let folder = env::var_os(OVERRIDE).map_or_else(|| manifest.join(USUAL), PathBuf::from);
    let archive = folder.join(format!("lib{NAME}.a"));
    assert!(
        archive.is_file(),
        "{} is missing: make it with `rt lib` in crates/{NAME}, or set \
         {OVERRIDE} to the folder that holds it",
        archive.display()
    );
    println!("cargo:rustc-link-search=native={}", folder.display());
    // The tests compile a C program against the same archive.
    println!("cargo:rustc-env=POELVIGU_FOLDER={}", folder.display());
    println!("cargo:rerun-if-changed={}", archive.display());
    println!("cargo:rustc-link-lib=static={NAME}");
}
