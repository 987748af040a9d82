//! The declarations for C: a C program is compiled against them and the archive, and run.

use std::path::{Path, PathBuf};
use std::process::Command;

/// What `tests/c/pair.c` prints: document 01's two lines, then two refusals.
const PRINTED: &str = "1 1 1 0 0 0 0
020000030200000000020001000000000301000000010000000100000800000000000301030100
refused 1 54
refused 12 0
";

#[test]
fn a_c_program_calls_the_entries() {
    assert_prints("pair", PRINTED);
}

/// `tests/c/with.c` prints the lines of an example in both editions, then two refusals.
#[test]
fn a_c_program_calls_the_entry_with_choices() {
    let first = include_str!("../../../examples/nested.lines");
    let second = include_str!("../../../examples/nested.second");
    assert_prints("with", &format!("{first}{second}refused 14 0\nrefused 12 0\n"));
}

/// Compiles a program of `tests/c`, and runs it.
fn assert_prints(name: &str, printed: &str) {
    if Command::new("cc").arg("--version").output().is_err() {
        eprintln!("skipped: there is no cc");
        return;
    }
    let here = Path::new(env!("CARGO_MANIFEST_DIR"));
    let program = PathBuf::from(env!("CARGO_TARGET_TMPDIR")).join(name);
    let compiled = Command::new("cc")
        .args(["-std=c99", "-pedantic", "-Wall", "-Wextra", "-Werror", "-I"])
        .arg(here.join(".."))
        .arg(here.join(format!("tests/c/{name}.c")))
        .args(["-L", env!("POELVIGU_FOLDER"), "-lpoelvigu", "-o"])
        .arg(&program)
        .output()
        .expect("cc can be run");
    assert!(compiled.status.success(), "{}", String::from_utf8_lossy(&compiled.stderr));
    let ran = Command::new(&program).output().expect("the program can be run");
    assert_eq!(String::from_utf8_lossy(&ran.stdout), printed);
    assert_eq!(ran.status.code(), Some(0));
}
